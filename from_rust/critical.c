// One thread turns an array round in a critical region with two levels, while another one can't collect.
#include "luthrady.h"
#include <stdio.h>
#include <stdlib.h>

static uint64_t made(struct luthrady_reply reply) {
    if (reply.fault != 0) {
        fprintf(stderr, "E%u: %s\n", reply.fault, luthrady_fault_text(reply.fault));
        exit(EXIT_FAILURE);
    }
    return reply.value;
}

static void tell(const char *what, struct luthrady_reply reply) {
    if (reply.fault == 0) printf("%s %d\n", what, (int32_t)reply.value);
    else printf("%s E%u(%u)\n", what, reply.fault, reply.told);
}

int main(void) {
    struct luthrady_room room;
    struct luthrady_env env, other;
    struct luthrady_stood stood;
    struct luthrady_counts counts;
    int32_t numbers[4] = {-1, 2, -3, 4}, turned[4] = {0};
    made(luthrady_open((struct luthrady_sizes){.threads = 2, .slots = 1, .objects = 4, .words = 16, .locals = 16}, &room.at));
    made(luthrady_attach(&room, &env.at));
    made(luthrady_attach(&room, &other.at));
    uint64_t from = made(luthrady_new_int_array(&env, 4)), to = made(luthrady_new_int_array(&env, 4));
    made(luthrady_set_int_array_region(&env, from, 0, numbers, 4));
    tell("level", luthrady_get_array_critical(&env, from));
    tell("level", luthrady_get_array_critical(&env, to));
    tell("length", luthrady_get_array_length(&env, from));
    tell("length of level 0", luthrady_get_level_length(&env, 0));
    tell("collection", luthrady_collect(&other, &counts));
    for (uint32_t i = 0; i < 4; i++) {
        int32_t number = (int32_t)made(luthrady_get_int_level_element(&env, 0, i));
        made(luthrady_set_int_level_element(&env, 1, 3 - i, number));
    }
    made(luthrady_get_int_level_part(&env, 1, 1, turned, 2));
    printf("part %d %d\n", turned[0], turned[1]);
    made(luthrady_set_int_level_part(&env, 0, 2, (int32_t[]){5, 6}, 2));
    tell("left", luthrady_release_critical(&env));
    tell("left", luthrady_release_critical(&env));
    tell("left", luthrady_release_critical(&env));
    tell("collection", luthrady_collect(&other, &counts));
    made(luthrady_get_int_array_region(&env, from, 0, numbers, 4));
    made(luthrady_get_int_array_region(&env, to, 0, turned, 4));
    printf("from %d %d %d %d\n", numbers[0], numbers[1], numbers[2], numbers[3]);
    printf("to %d %d %d %d\n", turned[0], turned[1], turned[2], turned[3]);
    made(luthrady_detach(&room, &env, &stood));
    made(luthrady_detach(&room, &other, &stood));
    made(luthrady_free_env(&env));
    made(luthrady_free_env(&other));
    made(luthrady_free_room(&room));
    return EXIT_SUCCESS;
}
