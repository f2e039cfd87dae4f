// What stands in a room, by a dump, and what went in a collection, by its lists, from C.
#include "luthrady.h"
#include <stdio.h>
#include <stdlib.h>

enum { SLOTS = 4, OBJECTS = 4, WORDS = 16, LOCALS = 16 };

static struct luthrady_env env;
static uint64_t ints, pair, ints_identity, pair_identity;
static struct luthrady_slot slots[SLOTS];
static uint16_t locals[LOCALS];
static struct luthrady_object objects[OBJECTS];
static uint64_t words[WORDS];

static uint64_t answer(struct luthrady_reply reply) {
    if (reply.fault == 0) return reply.value;
    fprintf(stderr, "E%u: %s\n", reply.fault, luthrady_fault_text(reply.fault));
    exit(EXIT_FAILURE);
}

static const char *name_of(uint64_t identity) {
    return identity == 0 ? "nothing" : identity == ints_identity ? "the ints" : identity == pair_identity ? "the pair" : "another";
}

// The row of the slot that has a reference, by its word.
static void print_reference(const char *name, uint64_t word) {
    for (uint64_t i = 0; i < SLOTS; i++)
        if (slots[i].state + 4 * (uint64_t)slots[i].serial + (i << 34) == word)
            printf("the %s reference: type %u, to %s\n", name, slots[i].state, name_of(slots[i].object));
}

static void print_object(uint64_t identity) {
    struct luthrady_object it = objects[identity - 1];
    printf("%s: kind %u, elements", name_of(identity), it.kind);
    for (uint32_t i = 0; i < it.length; i++) {
        if (it.kind == LUTHRADY_KIND_OBJECTS) printf(" (%s)", name_of(words[it.place + i]));
        else printf(" %u", (unsigned)words[it.place + i]);
    }
    printf("\n");
}

static void print_room(uint64_t global, uint64_t weak) {
    int standing = 0, present = 0;
    answer(luthrady_dump(&env, slots, SLOTS, locals, LOCALS, objects, OBJECTS, words, WORDS));
    print_reference("global", global);
    print_reference("weak", weak);
    for (int i = 0; i < LOCALS; i++) standing += locals[i] != 0;
    for (int i = 0; i < OBJECTS; i++) present += objects[i].kind != 0;
    printf("local references %d, objects %d\n", standing, present);
}

int main(void) {
    struct luthrady_room room;
    struct luthrady_stood stood;
    struct luthrady_counts counts;
    uint64_t references[2] = {1, 1};
    uint16_t identities[1] = {0};
    answer(luthrady_open((struct luthrady_sizes){1, SLOTS, OBJECTS, WORDS, LOCALS}, &room.at));
    answer(luthrady_attach(&room, &env.at));
    ints = answer(luthrady_new_int_array(&env, 3));
    answer(luthrady_set_int_array_region(&env, ints, 0, (int32_t[]){7, 8, 9}, 3));
    pair = answer(luthrady_new_object_array(&env, 2, 0));
    answer(luthrady_set_object_array_element(&env, pair, 1, ints));
    ints_identity = answer(luthrady_identity_of(&env, ints));
    pair_identity = answer(luthrady_identity_of(&env, pair));
    uint64_t global = answer(luthrady_new_global_ref(&env, pair));
    uint64_t weak = answer(luthrady_new_weak_global_ref(&env, ints));
    print_room(global, weak);
    print_object(ints_identity);
    print_object(pair_identity);
    answer(luthrady_free_locals(&env));
    answer(luthrady_collect_in_turn(&env, 1, 1, &counts));
    printf("the global reference keeps both: cleared %u, dropped %u, used %u\n", counts.cleared, counts.dropped, counts.used);
    answer(luthrady_delete_global_ref(&env, global));
    answer(luthrady_collect_in_turn_listing(&env, 1, 1, references, 2, identities, 1, &counts));
    printf("then they went: cleared %u, dropped %u, used %u\n", counts.cleared, counts.dropped, counts.used);
    printf("listed: %s, and behind it %s\n", references[0] == weak ? "the weak reference" : "another", references[1] == 1 ? "nothing" : "another");
    printf("the one identity that there was room for: %s\n", identities[0] == ints_identity || identities[0] == pair_identity ? "of one that went" : "of another");
    print_room(global, weak);
    answer(luthrady_dump_announced(&env, 1, NULL, 0, NULL, 0, objects, 1, NULL, 0));
    answer(luthrady_release(&room));
    answer(luthrady_detach(&room, &env, &stood));
    answer(luthrady_free_env(&env));
    answer(luthrady_free_room(&room));
    return EXIT_SUCCESS;
}
