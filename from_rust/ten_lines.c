// A room, an array, a weak reference to it and a collection, from C.
#include "luthrady.h"
#include <stdio.h>

int main(void) {
    struct luthrady_room room;
    struct luthrady_env env;
    struct luthrady_counts counts;
    struct luthrady_stood stood;
    struct luthrady_sizes sizes = {1, 16, 16, 64, 16};
    if (luthrady_open(sizes, &room.at).fault || luthrady_attach(&room, &env.at).fault) return 1;
    luthrady_release(&room);
    uint64_t array = luthrady_new_int_array(&env, 2).value;
    luthrady_set_int_array_region(&env, array, 0, (int32_t[]){3, 4}, 2);
    uint64_t weak = luthrady_new_weak_global_ref(&env, array).value;
    uint64_t global = luthrady_new_global_ref(&env, array).value;
    luthrady_delete_local_ref(&env, array);
    luthrady_delete_global_ref(&env, global);
    if (luthrady_collect(&env, &counts).fault) return 1;
    printf("cleared %u dropped %u used %u\n", counts.cleared, counts.dropped, counts.used);
    printf("type %u\n", (unsigned)luthrady_get_object_ref_type(&env, global).value);
    printf("length of a deleted one: E%u\n", luthrady_get_array_length(&env, global).fault);
    printf("length of a cleared one: E%u\n", luthrady_get_array_length(&env, weak).fault);
    unsigned closed = (unsigned)luthrady_detach(&room, &env, &stood).value;
    printf("closed %u: globals %u weaks %u live %u used %u\n", closed, stood.globals, stood.weaks, stood.live, stood.used);
    printf("and again: E%u\n", luthrady_detach(&room, &env, &stood).fault);
    printf("freed: E%u E%u\n", luthrady_free_env(&env).fault, luthrady_free_room(&room).fault);
}
