// Calls a thousand times each, in a function of its own, whose instructions `from_rust/run count` counts. What each is handed is what
// `crates/jr_bench` hands it.
#include "luthrady.h"
#include <stdlib.h>

enum { CALLS = 1000, IN_A_BATCH = 16, LONG = 4096 };

static struct luthrady_env env;
static uint64_t local, global, array, row, locals[CALLS], globals[CALLS], weaks[CALLS];
static int32_t elements[LONG];

static uint64_t made(struct luthrady_reply reply) {
    if (reply.fault != 0) abort();
    return reply.value;
}

// A case, whose name begins so that it is told from what it calls.
#define CASE(name, call)                                   \
    __attribute__((noinline)) static void case_##name(void) { \
        for (int i = 0; i < CALLS; i++) call;              \
    }

CASE(get_object_ref_type_of_null, made(luthrady_get_object_ref_type(&env, 0)))
CASE(new_plain, made(luthrady_new_plain(&env)))
CASE(new_global_ref, globals[i] = made(luthrady_new_global_ref(&env, local)))
CASE(delete_global_ref, made(luthrady_delete_global_ref(&env, globals[i])))
CASE(new_weak_global_ref, weaks[i] = made(luthrady_new_weak_global_ref(&env, local)))
CASE(delete_weak_global_ref, made(luthrady_delete_weak_global_ref(&env, weaks[i])))
CASE(new_local_ref, locals[i] = made(luthrady_new_local_ref(&env, global)))
CASE(delete_local_ref, made(luthrady_delete_local_ref(&env, locals[i])))
CASE(is_same_object, made(luthrady_is_same_object(&env, global, global)))
CASE(get_object_ref_type, made(luthrady_get_object_ref_type(&env, global)))
CASE(get_array_length, made(luthrady_get_array_length(&env, array)))
CASE(get_array_region_1, made(luthrady_get_int_array_region(&env, array, 0, elements, 1)))
CASE(get_array_region_64, made(luthrady_get_int_array_region(&env, array, 0, elements, 64)))
CASE(get_array_region_4096, made(luthrady_get_int_array_region(&env, array, 0, elements, LONG)))
CASE(set_array_region_1, made(luthrady_set_int_array_region(&env, array, 0, elements, 1)))
CASE(set_array_region_64, made(luthrady_set_int_array_region(&env, array, 0, elements, 64)))
CASE(set_array_region_4096, made(luthrady_set_int_array_region(&env, array, 0, elements, LONG)))
CASE(new_array, made(luthrady_new_int_array(&env, 16)))
CASE(get_object_array_element, made(luthrady_get_object_array_element(&env, row, 0)))
CASE(set_object_array_element, made(luthrady_set_object_array_element(&env, row, 0, row)))

// A case of calls in batches. A new reference is kept for the case that deletes it.
#define BATCHES(name, number, handed, kept)                                                    \
    __attribute__((noinline)) static void case_batch_##name(void) {                            \
        for (int i = 0; i < CALLS; i += IN_A_BATCH) {                                          \
            struct luthrady_batch_call calls[IN_A_BATCH];                                            \
            int count = CALLS - i < IN_A_BATCH ? CALLS - i : IN_A_BATCH;                       \
            for (int at = 0; at < count; at++) {                                               \
                calls[at].operation = number;                                                  \
                calls[at].index = 0;                                                           \
                calls[at].first = handed;                                                      \
                calls[at].second = global;                                                     \
            }                                                                                  \
            made(luthrady_batch(&env, calls, count));                                          \
            for (int at = 0; at < count; at++) kept made(calls[at].reply);                     \
        }                                                                                      \
    }

BATCHES(get_object_ref_type_of_null, LUTHRADY_GET_OBJECT_REF_TYPE, 0, )
BATCHES(new_global_ref, LUTHRADY_NEW_GLOBAL_REF, local, globals[i + at] =)
BATCHES(delete_global_ref, LUTHRADY_DELETE_GLOBAL_REF, globals[i + at], )
BATCHES(new_local_ref, LUTHRADY_NEW_LOCAL_REF, global, locals[i + at] =)
BATCHES(delete_local_ref, LUTHRADY_DELETE_LOCAL_REF, locals[i + at], )
BATCHES(is_same_object, LUTHRADY_IS_SAME_OBJECT, global, )
BATCHES(get_object_ref_type, LUTHRADY_GET_OBJECT_REF_TYPE, global, )
BATCHES(get_array_length, LUTHRADY_GET_ARRAY_LENGTH, array, )

static void make_one_by_one(void) {
    case_get_object_ref_type_of_null();
    case_new_plain();
    case_new_global_ref();
    case_delete_global_ref();
    case_new_weak_global_ref();
    case_delete_weak_global_ref();
    case_new_local_ref();
    case_delete_local_ref();
    case_is_same_object();
    case_get_object_ref_type();
    case_get_array_length();
    case_get_array_region_1();
    case_get_array_region_64();
    case_get_array_region_4096();
    case_set_array_region_1();
    case_set_array_region_64();
    case_set_array_region_4096();
    case_new_array();
    case_get_object_array_element();
    case_set_object_array_element();
}

static void make_in_batches(void) {
    case_batch_get_object_ref_type_of_null();
    case_batch_new_global_ref();
    case_batch_delete_global_ref();
    case_batch_new_local_ref();
    case_batch_delete_local_ref();
    case_batch_is_same_object();
    case_batch_get_object_ref_type();
    case_batch_get_array_length();
}

int main(void) {
    struct luthrady_room room;
    struct luthrady_sizes sizes = {.threads = 1, .slots = 65536, .objects = 65535, .words = 131072, .locals = 4096};
    made(luthrady_open(sizes, &room.at));
    made(luthrady_attach(&room, &env.at));
    array = made(luthrady_new_global_ref(&env, made(luthrady_new_int_array(&env, LONG))));
    local = made(luthrady_new_plain(&env));
    row = made(luthrady_new_global_ref(&env, made(luthrady_new_object_array(&env, 1, local))));
    global = made(luthrady_new_global_ref(&env, local));
    make_one_by_one();
    make_in_batches();
    return EXIT_SUCCESS;
}
