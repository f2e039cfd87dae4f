// A table of misuses, and what comes of each: a line of misuses.out. Each is a process of its own, so that no misuse meets what another has left.
// What is undefined is here only where the library reads a place's mark, or no element: never a freed place, one env in two calls at once, or elements that are not aligned.
#define _GNU_SOURCE
#include "luthrady.h"
#include <signal.h>
#include <stdarg.h>
#include <stdio.h>
#include <stdlib.h>
#include <string.h>
#include <sys/resource.h>
#include <sys/wait.h>
#include <unistd.h>

typedef struct luthrady_reply reply_of(struct luthrady_env *env);

// A room with two attached threads, and what the first has made in it; and another room with one.
static struct luthrady_room room, other_room;
static struct luthrady_env env, second, foreign;
static uint64_t ints, bytes, longs, objects, string, global, weak;
static struct luthrady_counts counts;
static struct luthrady_explained explained;
static struct luthrady_locals counted;
static struct luthrady_inventory inventory;
static struct luthrady_stood stood;
static const struct luthrady_sizes SIZES = {.threads = 3, .slots = 16, .objects = 32, .words = 256, .locals = 16};

// Each call by an env's handle. By its bare name it is made with the header's tests, and in brackets without them.
#define BY_ENV(CALL)                                                                                                    \
    CALL(new_global_ref, (env, ints))                                                                                   \
    CALL(new_weak_global_ref, (env, ints))                                                                              \
    CALL(new_local_ref, (env, ints))                                                                                    \
    CALL(delete_global_ref, (env, global))                                                                              \
    CALL(delete_weak_global_ref, (env, weak))                                                                           \
    CALL(delete_local_ref, (env, ints))                                                                                 \
    CALL(is_same_object, (env, global, weak))                                                                           \
    CALL(get_object_ref_type, (env, global))                                                                            \
    CALL(ensure_local_capacity, (env, 1))                                                                               \
    CALL(push_local_frame, (env, 1))                                                                                    \
    CALL(pop_local_frame, (env, 0))                                                                                     \
    CALL(free_locals, (env))                                                                                            \
    CALL(new_plain, (env))                                                                                              \
    CALL(new_byte_array, (env, 1))                                                                                      \
    CALL(new_int_array, (env, 1))                                                                                       \
    CALL(new_long_array, (env, 1))                                                                                      \
    CALL(new_object_array, (env, 1, 0))                                                                                 \
    CALL(new_string, (env, (uint16_t[]){1, 2}, 2))                                                                      \
    CALL(get_array_length, (env, global))                                                                               \
    CALL(get_string_length, (env, string))                                                                              \
    CALL(get_object_array_element, (env, objects, 0))                                                                   \
    CALL(set_object_array_element, (env, objects, 0, 0))                                                                \
    CALL(set_byte_array_region, (env, bytes, 0, (int8_t[4]){0}, 4))                                                     \
    CALL(set_int_array_region, (env, ints, 0, (int32_t[4]){0}, 4))                                                      \
    CALL(set_long_array_region, (env, longs, 0, (int64_t[4]){0}, 4))                                                    \
    CALL(get_byte_array_region, (env, bytes, 0, (int8_t[4]){0}, 4))                                                     \
    CALL(get_int_array_region, (env, ints, 0, (int32_t[4]){0}, 4))                                                      \
    CALL(get_long_array_region, (env, longs, 0, (int64_t[4]){0}, 4))                                                    \
    CALL(new_boolean_array, (env, 1))                                                                                   \
    CALL(new_char_array, (env, 1))                                                                                      \
    CALL(new_short_array, (env, 1))                                                                                     \
    CALL(set_boolean_array_region, (env, ints, 0, (bool[4]){0}, 4))                                                     \
    CALL(set_char_array_region, (env, ints, 0, (uint16_t[4]){0}, 4))                                                    \
    CALL(set_short_array_region, (env, ints, 0, (int16_t[4]){0}, 4))                                                    \
    CALL(get_boolean_array_region, (env, ints, 0, (bool[4]){0}, 4))                                                     \
    CALL(get_char_array_region, (env, ints, 0, (uint16_t[4]){0}, 4))                                                    \
    CALL(get_short_array_region, (env, ints, 0, (int16_t[4]){0}, 4))                                                    \
    CALL(new_string_utf8, (env, (uint8_t[]){65, 66}, 2))                                                                \
    CALL(get_string_utf8, (env, string, (uint8_t[9]){0}, 9))                                                            \
    CALL(get_string_region, (env, string, 0, (uint16_t[2]){0}, 2))                                                      \
    CALL(get_boolean_array_elements, (env, ints, (bool[4]){0}, 4))                                                      \
    CALL(get_byte_array_elements, (env, bytes, (int8_t[4]){0}, 4))                                                      \
    CALL(get_char_array_elements, (env, ints, (uint16_t[4]){0}, 4))                                                     \
    CALL(get_short_array_elements, (env, ints, (int16_t[4]){0}, 4))                                                     \
    CALL(get_int_array_elements, (env, ints, (int32_t[4]){0}, 4))                                                       \
    CALL(get_long_array_elements, (env, longs, (int64_t[4]){0}, 4))                                                     \
    CALL(release_boolean_array_elements, (env, ints, (bool[4]){0}, 4, 0))                                               \
    CALL(release_byte_array_elements, (env, bytes, (int8_t[4]){0}, 4, 0))                                               \
    CALL(release_char_array_elements, (env, ints, (uint16_t[4]){0}, 4, 0))                                              \
    CALL(release_short_array_elements, (env, ints, (int16_t[4]){0}, 4, 0))                                              \
    CALL(release_int_array_elements, (env, ints, (int32_t[4]){0}, 4, 0))                                                \
    CALL(release_long_array_elements, (env, longs, (int64_t[4]){0}, 4, 0))                                              \
    CALL(upgrade_local, (env, weak))                                                                                    \
    CALL(upgrade_global, (env, weak))                                                                                   \
    CALL(delete_cleared, (env, weak))                                                                                   \
    CALL(kind_of, (env, ints))                                                                                          \
    CALL(identity_of, (env, ints))                                                                                      \
    CALL(explain, (env, ints, &explained))                                                                              \
    CALL(words_used, (env))                                                                                             \
    CALL(local_counts, (env, &counted))                                                                                 \
    CALL(census, (env, (uint32_t[3]){0}, 3, &inventory))                                                                \
    CALL(census_announced, (env, 3, (uint32_t[3]){0}, 3, &inventory))                                                   \
    CALL(dump, (env, NULL, 0, (uint16_t[9]){0}, 9, NULL, 0, NULL, 0))                                                   \
    CALL(dump_announced, (env, 3, NULL, 0, (uint16_t[9]){0}, 9, NULL, 0, NULL, 0))                                      \
    CALL(collect, (env, &counts))                                                                                       \
    CALL(collect_announced, (env, 3, &counts))                                                                          \
    CALL(collect_in_turn, (env, 3, 3, &counts))                                                                         \
    CALL(collect_in_turn_listing, (env, 3, 3, (uint64_t[2]){0}, 2, (uint16_t[2]){0}, 2, &counts))                       \
    CALL(get_array_critical, (env, ints))                                                                               \
    CALL(get_string_critical, (env, string))                                                                            \
    CALL(release_critical, (env))                                                                                       \
    CALL(get_level_length, (env, 0))                                                                                    \
    CALL(get_boolean_level_part, (env, 0, 0, (bool[4]){0}, 4))                                                          \
    CALL(set_boolean_level_part, (env, 0, 0, (bool[4]){0}, 4))                                                          \
    CALL(get_byte_level_part, (env, 0, 0, (int8_t[4]){0}, 4))                                                           \
    CALL(set_byte_level_part, (env, 0, 0, (int8_t[4]){0}, 4))                                                           \
    CALL(get_char_level_part, (env, 0, 0, (uint16_t[4]){0}, 4))                                                         \
    CALL(set_char_level_part, (env, 0, 0, (uint16_t[4]){0}, 4))                                                         \
    CALL(get_short_level_part, (env, 0, 0, (int16_t[4]){0}, 4))                                                         \
    CALL(set_short_level_part, (env, 0, 0, (int16_t[4]){0}, 4))                                                         \
    CALL(get_int_level_part, (env, 0, 0, (int32_t[4]){0}, 4))                                                           \
    CALL(set_int_level_part, (env, 0, 0, (int32_t[4]){0}, 4))                                                           \
    CALL(get_long_level_part, (env, 0, 0, (int64_t[4]){0}, 4))                                                          \
    CALL(set_long_level_part, (env, 0, 0, (int64_t[4]){0}, 4))                                                          \
    CALL(get_boolean_level_element, (env, 0, 0))                                                                        \
    CALL(set_boolean_level_element, (env, 0, 0, 0))                                                                     \
    CALL(get_byte_level_element, (env, 0, 0))                                                                           \
    CALL(set_byte_level_element, (env, 0, 0, 0))                                                                        \
    CALL(get_char_level_element, (env, 0, 0))                                                                           \
    CALL(set_char_level_element, (env, 0, 0, 0))                                                                        \
    CALL(get_short_level_element, (env, 0, 0))                                                                          \
    CALL(set_short_level_element, (env, 0, 0, 0))                                                                       \
    CALL(get_int_level_element, (env, 0, 0))                                                                            \
    CALL(set_int_level_element, (env, 0, 0, 0))                                                                         \
    CALL(get_long_level_element, (env, 0, 0))                                                                           \
    CALL(set_long_level_element, (env, 0, 0, 0))                                                                        \
    CALL(batch, (env, &(struct luthrady_batch_call){.operation = LUTHRADY_GET_OBJECT_REF_TYPE}, 1))                           \
    CALL(detach, (&room, env, &stood))                                                                                  \
    CALL(free_env, (env))

#define CHECKED(name, arguments) static struct luthrady_reply name(struct luthrady_env *env) { return luthrady_##name arguments; }
#define BARE(name, arguments) static struct luthrady_reply bare_##name(struct luthrady_env *env) { return (luthrady_##name) arguments; }
#define ROW(name, arguments) {#name, name, bare_##name},
BY_ENV(CHECKED)
BY_ENV(BARE)

static const struct call {
    const char *name;
    reply_of *checked, *bare;
} CALLS[] = {BY_ENV(ROW)};

enum { COUNT = sizeof CALLS / sizeof *CALLS, LINE = 400 };

static _Noreturn void quit(const char *what) {
    fprintf(stderr, "%s failed\n", what);
    exit(EXIT_FAILURE);
}

static uint64_t made(struct luthrady_reply reply) {
    if (reply.fault != 0) quit("what comes before a misuse");
    return reply.value;
}

static void set_up(void) {
    made(luthrady_open(SIZES, &room.at));
    made(luthrady_open(SIZES, &other_room.at));
    made(luthrady_attach(&room, &env.at));
    made(luthrady_attach(&room, &second.at));
    made(luthrady_attach(&other_room, &foreign.at));
    ints = made(luthrady_new_int_array(&env, 4));
    bytes = made(luthrady_new_byte_array(&env, 4));
    longs = made(luthrady_new_long_array(&env, 4));
    objects = made(luthrady_new_object_array(&env, 4, ints));
    string = made(luthrady_new_string(&env, (uint16_t[]){1, 2, 3}, 3));
    global = made(luthrady_new_global_ref(&env, ints));
    weak = made(luthrady_new_weak_global_ref(&env, ints));
}

// ---- one misuse, in a process of its own

static char line[LINE];

__attribute__((format(printf, 1, 2))) static void told(const char *form, ...) {
    va_list list;
    size_t at = strlen(line);
    va_start(list, form);
    vsnprintf(line + at, sizeof line - at, form, list);
    va_end(list);
}

static void tell(struct luthrady_reply reply) {
    if (reply.fault == 0) told(" %llx", (unsigned long long)reply.value);
    else if (reply.told != 0) told(" E%u(%u)", reply.fault, reply.told);
    else told(" E%u", reply.fault);
}

// Whether all that was set up still stands, and is as it was.
static int stands(void) {
    int32_t elements[4] = {7, 7, 7, 7}, none[4] = {0, 0, 0, 0};
    return luthrady_get_object_ref_type(&env, global).value == LUTHRADY_REF_GLOBAL && luthrady_get_object_ref_type(&env, weak).value == LUTHRADY_REF_WEAK
        && luthrady_get_string_length(&env, string).value == 3 && luthrady_get_array_length(&env, longs).value == 4
        && luthrady_get_int_array_region(&env, ints, 0, elements, 4).fault == 0 && memcmp(elements, none, sizeof none) == 0
        && luthrady_new_plain(&second).fault == 0 && luthrady_new_plain(&foreign).fault == 0;
}

// Runs a misuse in a process, and writes what it told, or which signal ended it, to `came`.
static void apart(void (*misuse)(const void *), const void *given, char came[LINE]) {
    int ends[2], status;
    if (pipe(ends) != 0) quit("pipe");
    fflush(stdout);
    pid_t child = fork();
    if (child < 0) quit("fork");
    if (child == 0) {
        alarm(20);
        set_up();
        misuse(given);
        _exit(write(ends[1], line, strlen(line)) < 0);
    }
    close(ends[1]);
    size_t length = 0;
    for (ssize_t part; (part = read(ends[0], came + length, LINE - 1 - length)) > 0;) length += (size_t)part;
    came[length] = 0;
    close(ends[0]);
    if (waitpid(child, &status, 0) != child) quit("waitpid");
    if (WIFSIGNALED(status)) snprintf(came, LINE, " ended by SIG%s", sigabbrev_np(WTERMSIG(status)));
    else if (WEXITSTATUS(status) != 0) quit("a process of a misuse");
}

// ---- handles that are no env's

// A handle, how it comes about, and whether calls are made without the header's tests.
struct handle {
    const char *name;
    struct luthrady_env *(*make)(void);
    int is_bare;
};

struct by_handle {
    const struct handle *handle;
    const struct call *call;
};

static struct luthrady_env made_up;

static struct luthrady_env *no_address(void) { return NULL; }
static struct luthrady_env *null(void) { return &made_up; }
static struct luthrady_env *of_a_room(void) { made_up.at = room.at; return &made_up; }
static struct luthrady_env *of_another_room(void) { return &foreign; }
static struct luthrady_env *of_another_thread(void) { return &second; }
static struct luthrady_env *in_a_region(void) { made(luthrady_get_array_critical(&env, ints)); return &env; }

// Of memory that is as long as a place, and doesn't begin with a mark.
static struct luthrady_env *of_no_place(void) {
    static uint64_t zeros[64];
    made_up.at = zeros;
    return &made_up;
}

// Detached, with a copy of its handle.
static struct luthrady_env *detached(void) {
    made_up = second;
    made(luthrady_detach(&room, &second, &stood));
    made(luthrady_attach(&room, &second.at));
    return &made_up;
}

// Of a thread that was detached from its room, when it was released, and so closed it. Its room is freed.
static struct luthrady_env *of_a_closed_room(void) {
    made(luthrady_release(&other_room));
    made(luthrady_detach(&other_room, &foreign, &stood));
    made(luthrady_free_room(&other_room));
    made_up = foreign;
    made(luthrady_open(SIZES, &other_room.at));
    made(luthrady_attach(&other_room, &foreign.at));
    return &made_up;
}

static const struct handle HANDLES[] = {
    {"NULL for its address", no_address, 0},
    {"NULL for its address, without the header's tests", no_address, 1},
    {"NULL in it", null, 0},
    {"a room's pointer in it", of_a_room, 0},
    {"a pointer to memory without a mark", of_no_place, 0},
    {"a thread that was detached", detached, 0},
    {"a thread that was detached from a room that was closed and freed", of_a_closed_room, 0},
    {"a thread in a critical region over an int[4]", in_a_region, 0},
    {"another thread's, with words of the first", of_another_thread, 0},
    {"another room's, with words of the first", of_another_room, 0},
};

static void by_handle(const void *given) {
    const struct by_handle *it = given;
    struct luthrady_env *handle = it->handle->make();
    struct luthrady_reply reply = it->handle->is_bare ? it->call->bare(handle) : it->call->checked(handle);
    // What stands is looked at outside a region, which goes on at a refusal.
    if (it->handle->make == in_a_region && reply.fault == LUTHRADY_FAULT_IN_CRITICAL && luthrady_release_critical(&env).fault != 0) told(" and the region ended,");
    if ((reply.fault == LUTHRADY_FAULT_NOT_FRESH || reply.fault == LUTHRADY_FAULT_IN_CRITICAL) && !stands()) told(" and something has changed");
    tell(reply);
}

// How many calls have the answer of one from that one on, and none where one before it has it.
static size_t count_of(char came[COUNT][LINE], size_t at) {
    size_t calls = 0;
    for (size_t i = 0; i < at; i++)
        if (strcmp(came[i], came[at]) == 0) return 0;
    for (size_t i = at; i < COUNT; i++) calls += strcmp(came[i], came[at]) == 0;
    return calls;
}

// A line for each answer that comes of a handle, with the calls that have it. Those with the most frequent one are counted.
static void print_by_handle(const struct handle *handle) {
    static char came[COUNT][LINE];
    size_t most = 0;
    printf("an env's handle, %s\n", handle->name);
    for (size_t i = 0; i < COUNT; i++) apart(by_handle, &(struct by_handle){handle, &CALLS[i]}, came[i]);
    for (size_t i = 0; i < COUNT; i++)
        if (count_of(came, i) > count_of(came, most)) most = i;
    for (size_t i = 0; i < COUNT; i++) {
        if (i == most || count_of(came, i) == 0) continue;
        printf("  %s:", came[i] + 1);
        for (size_t k = i; k < COUNT; k++)
            if (strcmp(came[k], came[i]) == 0) printf(" %s", CALLS[k].name);
        printf("\n");
    }
    printf("  %s: each other, of %d\n", came[most] + 1, COUNT);
}

// ---- the table

#define MISUSE(name) static void name(const void *given)

static int32_t elements[8] = {1, 2, 3, 4, 5, 6, 7, 8};

// Handles of rooms.
static void by_room(struct luthrady_room *handle) {
    void *out = NULL;
    tell(luthrady_attach(handle, &out));
    tell(luthrady_detach(handle, &foreign, &stood));
    tell(luthrady_release(handle));
    tell(luthrady_free_room(handle));
    told(out == NULL && stands() ? ", nothing has changed" : ", something has changed");
}
MISUSE(room_no_address) { (void)given; by_room(NULL); }
MISUSE(room_null) { (void)given; by_room(&(struct luthrady_room){NULL}); }
MISUSE(room_of_an_env) { (void)given; by_room(&(struct luthrady_room){env.at}); }
MISUSE(room_of_no_place) { (void)given; by_room(&(struct luthrady_room){of_no_place()->at}); }
MISUSE(room_freed) {
    struct luthrady_room gone;
    (void)given;
    made(luthrady_open(SIZES, &gone.at));
    made(luthrady_free_room(&gone));
    by_room(&gone);
}
MISUSE(room_bare) { (void)given; (luthrady_release)(NULL); }

// Addresses of what is written.
MISUSE(out_open) { (void)given; tell(luthrady_open(SIZES, NULL)); }
MISUSE(out_attach) { (void)given; tell(luthrady_attach(&room, NULL)); }
MISUSE(out_collect) { (void)given; tell(luthrady_collect(&env, NULL)); tell(luthrady_collect_announced(&env, 1, NULL)); }
MISUSE(out_detach) { (void)given; tell(luthrady_detach(&room, &env, NULL)); told(stands() ? ", still attached" : ", something has changed"); }

// What a refusal leaves.
MISUSE(out_left) {
    void *kept = foreign.at;
    struct luthrady_sizes none = {0, 0, 0, 0, 0};
    (void)given;
    tell(luthrady_open(none, &foreign.at));
    made(luthrady_release(&room));
    tell(luthrady_attach(&room, &foreign.at));
    told(foreign.at == kept ? ", out as it was" : ", out was written");
}

// Sizes.
MISUSE(sizes_outside) {
    const struct luthrady_sizes SETS[] = {
        {0, 1, 1, 0, 16}, {65, 1, 1, 0, 16}, {1, 0, 1, 0, 16}, {1, 65537, 1, 0, 16}, {1, 1, 0, 0, 16}, {1, 1, 65536, 0, 16}, {1, 1, 1, 1048577, 16},
        {1, 1, 1, 0, 15}, {1, 1, 1, 0, 4097}, {UINT32_MAX, UINT32_MAX, UINT32_MAX, UINT32_MAX, UINT32_MAX},
    };
    (void)given;
    for (size_t i = 0; i < sizeof SETS / sizeof *SETS; i++) tell(luthrady_open(SETS[i], &foreign.at));
}
MISUSE(sizes_greatest) {
    struct luthrady_room wide;
    (void)given;
    tell((struct luthrady_reply){0, luthrady_open((struct luthrady_sizes){64, 65536, 65535, 1048576, 4096}, &wide.at).fault, 0, 0});
    tell(luthrady_free_room(&wide));
}

// Memory: the linker hands each allocation of the library to these, by --wrap. One is refused by its number, from 0 on.
static long allocations, refused_one = -1, standing;
void *__real_malloc(size_t size);
void *__real_realloc(void *at, size_t size);
void __real_free(void *at);

void *__wrap_malloc(size_t size) {
    if (allocations++ == refused_one) return NULL;
    standing++;
    return __real_malloc(size);
}

void *__wrap_realloc(void *at, size_t size) {
    if (allocations++ == refused_one) return NULL;
    standing += at == NULL;
    return __real_realloc(at, size);
}

void __wrap_free(void *at) {
    standing -= at != NULL;
    __real_free(at);
}

static struct luthrady_reply open_another(void **out) { return luthrady_open(SIZES, out); }
static struct luthrady_reply attach_a_third(void **out) { return luthrady_attach(&room, out); }
static struct luthrady_reply dump_slots(void **out) {
    (void)out;
    return luthrady_dump(&env, (struct luthrady_slot[16]){0}, 16, NULL, 0, NULL, 0, NULL, 0);
}
static struct luthrady_reply collect_and_list(void **out) {
    (void)out;
    return luthrady_collect_in_turn_listing(&env, 1, 0, (uint64_t[2]){0}, 2, (uint16_t[2]){0}, 2, &counts);
}

// Refuses each allocation of a call in turn, until it is made.
static void refuse_each(struct luthrady_reply (*call)(void **)) {
    void *const before = &room;
    int is_as_it_was = 1, refusals = 0;
    for (;; refusals++) {
        void *out = before;
        long stood_before = standing;
        refused_one = allocations + refusals;
        struct luthrady_reply reply = call(&out);
        refused_one = -1;
        if (reply.fault == 0) break;
        if (reply.fault != LUTHRADY_FAULT_MEMORY) tell(reply);
        is_as_it_was &= out == before && standing == stood_before && stands();
    }
    told(" %s E16, %s, then it is made", refusals > 0 ? "each" : "no", is_as_it_was ? "nothing has changed, no memory stays" : "something has changed");
}
MISUSE(memory_open) { (void)given; refuse_each(open_another); }
MISUSE(memory_attach) { (void)given; refuse_each(attach_a_third); }
MISUSE(memory_dump) { (void)given; refuse_each(dump_slots); }
MISUSE(memory_listing) { (void)given; refuse_each(collect_and_list); }

// Elements.
MISUSE(elements_null) {
    (void)given;
    tell(luthrady_new_string(&env, NULL, 3));
    tell(luthrady_get_int_array_region(&env, ints, 0, NULL, 4));
    tell(luthrady_set_int_array_region(&env, ints, 0, NULL, 4));
    tell(luthrady_batch(&env, NULL, 1));
}
MISUSE(elements_none) {
    (void)given;
    tell((struct luthrady_reply){0, luthrady_new_string(&env, NULL, 0).fault, 0, 0});
    tell(luthrady_get_int_array_region(&env, ints, 0, NULL, 0));
    tell(luthrady_set_int_array_region(&env, ints, 0, NULL, 0));
    tell(luthrady_batch(&env, NULL, 0));
}
MISUSE(counts_great) {
    const size_t COUNTS[] = {SIZE_MAX, ((size_t)1 << 32) + 4, ((size_t)1 << 32), 5};
    (void)given;
    for (size_t i = 0; i < sizeof COUNTS / sizeof *COUNTS; i++) {
        tell(luthrady_get_int_array_region(&env, ints, 0, elements, COUNTS[i]));
        tell(luthrady_set_int_array_region(&env, ints, 0, elements, COUNTS[i]));
    }
    tell(luthrady_new_string(&env, (uint16_t[1]){0}, SIZE_MAX));
    tell(luthrady_new_string(&env, (uint16_t[1]){0}, ((size_t)1 << 32) + 2));
}
MISUSE(parts_outside) {
    (void)given;
    tell(luthrady_set_int_array_region(&env, ints, 4, elements, 0));
    tell(luthrady_set_int_array_region(&env, ints, 5, elements, 0));
    tell(luthrady_set_int_array_region(&env, ints, 1, elements, 4));
    tell(luthrady_set_int_array_region(&env, ints, UINT32_MAX, elements, 1));
    tell(luthrady_get_object_array_element(&env, objects, 4));
    tell(luthrady_get_object_array_element(&env, objects, UINT32_MAX));
}
MISUSE(elements_of_others) {
    (void)given;
    tell(luthrady_get_int_array_region(&env, longs, 0, elements, 4));
    tell(luthrady_get_int_array_region(&env, string, 0, elements, 3));
    tell(luthrady_get_int_array_region(&env, objects, 0, elements, 4));
    tell(luthrady_get_object_array_element(&env, ints, 0));
    tell(luthrady_get_array_length(&env, string));
    tell(luthrady_get_string_length(&env, ints));
}
MISUSE(lengths_great) {
    (void)given;
    tell(luthrady_new_int_array(&env, UINT32_MAX));
    tell(luthrady_new_object_array(&env, UINT32_MAX, 0));
    tell(luthrady_push_local_frame(&env, UINT32_MAX));
    tell(luthrady_ensure_local_capacity(&env, UINT32_MAX));
}

// Words.
MISUSE(words_strange) {
    const uint64_t WORDS[] = {~0ull, 1, 4, 0xfffffffffffffffcull, 1ull << 63, 0x55, ints ^ 4, global ^ 1, weak | 0xff00000000000000ull};
    (void)given;
    for (size_t i = 0; i < sizeof WORDS / sizeof *WORDS; i++) {
        tell(luthrady_get_array_length(&env, WORDS[i]));
        tell(luthrady_get_object_ref_type(&env, WORDS[i]));
    }
}
MISUSE(words_of_other_kinds) {
    (void)given;
    tell(luthrady_delete_local_ref(&env, global));
    tell(luthrady_delete_global_ref(&env, weak));
    tell(luthrady_delete_weak_global_ref(&env, ints));
}
MISUSE(words_null) {
    (void)given;
    tell(luthrady_delete_local_ref(&env, 0));
    tell(luthrady_delete_global_ref(&env, 0));
    tell(luthrady_delete_weak_global_ref(&env, 0));
    tell(luthrady_get_array_length(&env, 0));
}
MISUSE(words_deleted) {
    (void)given;
    tell(luthrady_delete_global_ref(&env, global));
    tell(luthrady_delete_global_ref(&env, global));
    tell(luthrady_get_array_length(&env, global));
    tell(luthrady_get_object_ref_type(&env, global));
}
MISUSE(words_of_another_room) {
    uint64_t theirs = made(luthrady_new_global_ref(&foreign, made(luthrady_new_long_array(&foreign, 2))));
    (void)given;
    told(theirs == global ? " the very word:" : " another word:");
    tell(luthrady_get_array_length(&foreign, theirs));
    tell(luthrady_get_array_length(&env, theirs));
    tell(luthrady_delete_global_ref(&env, theirs));
    tell(luthrady_get_object_ref_type(&env, global));
}

// Batches.
MISUSE(batch_of_no_calls) {
    struct luthrady_batch_call calls[] = {{.operation = 0}, {.operation = 13}, {.operation = UINT32_MAX}};
    (void)given;
    tell(luthrady_batch(&env, calls, 3));
    for (int i = 0; i < 3; i++) tell(calls[i].reply);
}

// Critical regions that go on from call to call.
MISUSE(levels_without_end) {
    int levels = 0;
    struct luthrady_reply reply;
    (void)given;
    while ((reply = luthrady_get_array_critical(&env, ints)).fault == 0) levels++;
    told(" %d levels then E%u", levels, reply.fault);
    tell(luthrady_get_int_level_element(&env, 15, 3));
    tell(luthrady_get_int_level_element(&env, 16, 3));
    tell(luthrady_get_level_length(&env, UINT32_MAX));
    for (; (reply = luthrady_release_critical(&env)).fault == 0; levels--);
    told(", %d stay", levels);
    tell(reply);
    told(stands() ? ", nothing has changed" : ", something has changed");
}
MISUSE(levels_of_others) {
    (void)given;
    tell(luthrady_get_string_critical(&env, string));
    tell(luthrady_get_array_critical(&env, ints));
    tell(luthrady_get_array_critical(&env, objects));
    tell(luthrady_get_array_critical(&env, string));
    tell(luthrady_get_string_critical(&env, ints));
    tell(luthrady_get_array_critical(&env, 0));
    tell(luthrady_get_level_length(&env, 0));
    tell(luthrady_get_char_level_element(&env, 0, 1));
    tell(luthrady_set_char_level_element(&env, 0, 1, 7));
    tell(luthrady_get_int_level_element(&env, 0, 1));
    tell(luthrady_set_byte_level_element(&env, 1, 0, 7));
    tell(luthrady_get_int_level_element(&env, 1, 4));
    tell(luthrady_set_int_level_part(&env, 1, 1, elements, 4));
    tell(luthrady_get_int_level_part(&env, 1, 4, elements, 0));
    tell(luthrady_release_critical(&env));
    tell(luthrady_release_critical(&env));
    told(stands() ? ", nothing has changed" : ", something has changed");
}
MISUSE(region_of_an_object) {
    (void)given;
    tell(luthrady_get_array_critical(&env, objects));
    tell(luthrady_get_string_critical(&env, ints));
    tell(luthrady_get_array_critical(&env, 0));
    tell(luthrady_release_critical(&env));
    told(stands() ? ", nothing has changed" : ", something has changed");
}
MISUSE(collect_beside_a_region) {
    (void)given;
    made(luthrady_get_array_critical(&env, ints));
    tell(luthrady_collect(&second, &counts));
    tell(luthrady_detach(&room, &env, &stood));
    tell(luthrady_free_env(&env));
    tell(luthrady_release_critical(&env));
    tell(luthrady_collect(&second, &counts));
    told(stands() ? ", nothing has changed" : ", something has changed");
}

// Coming and going.
MISUSE(attach_too_many) {
    void *out;
    (void)given;
    tell((struct luthrady_reply){0, luthrady_attach(&room, &out).fault, 0, 0});
    tell(luthrady_attach(&room, &out));
    made(luthrady_detach(&room, &env, &stood));
    tell((struct luthrady_reply){0, luthrady_attach(&room, &out).fault, 0, 0});
}
MISUSE(detach_twice) { (void)given; tell(luthrady_detach(&room, &env, &stood)); tell(luthrady_detach(&room, &env, &stood)); }
MISUSE(detach_of_another_room) {
    struct luthrady_room empty;
    (void)given;
    made(luthrady_open(SIZES, &empty.at));
    tell(luthrady_detach(&empty, &env, &stood));
    told(stands() ? ", still attached" : ", something has changed");
}
MISUSE(detach_with_locals) {
    (void)given;
    made(luthrady_delete_global_ref(&env, global));
    tell(luthrady_detach(&room, &env, &stood));
    tell(luthrady_collect(&second, &counts));
    told(", cleared %u dropped %u used %u", counts.cleared, counts.dropped, counts.used);
}
MISUSE(release_twice) {
    void *out;
    (void)given;
    tell(luthrady_release(&room));
    tell(luthrady_release(&room));
    tell(luthrady_attach(&room, &out));
    tell(luthrady_detach(&room, &env, &stood));
    tell(luthrady_detach(&room, &second, &stood));
}
MISUSE(free_early) {
    (void)given;
    tell(luthrady_free_env(&env));
    tell(luthrady_free_room(&room));
    told(stands() ? ", nothing has changed" : ", something has changed");
}
MISUSE(free_twice) {
    (void)given;
    made(luthrady_detach(&other_room, &foreign, &stood));
    tell(luthrady_free_env(&foreign));
    tell(luthrady_free_env(&foreign));
    tell(luthrady_free_room(&other_room));
    tell(luthrady_free_room(&other_room));
}
MISUSE(frames_and_locals) {
    int frames = 0, locals = 0;
    struct luthrady_reply reply;
    (void)given;
    tell(luthrady_pop_local_frame(&env, 0));
    while ((reply = luthrady_push_local_frame(&env, 0)).fault == 0) frames++;
    told(", %d frames then E%u", frames, reply.fault);
    while ((reply = luthrady_new_local_ref(&env, global)).fault == 0) locals++;
    told(", %d locals then E%u", locals, reply.fault);
}

static const struct misuse {
    const char *name;
    void (*make)(const void *);
} MISUSES[] = {
    {"a room's handle, NULL for its address: attach, detach, release, free", room_no_address},
    {"a room's handle, NULL in it", room_null},
    {"a room's handle, an env's pointer in it", room_of_an_env},
    {"a room's handle, a pointer to memory without a mark", room_of_no_place},
    {"a room's handle, the place freed by it", room_freed},
    {"a room's handle, NULL for its address, without the header's tests", room_bare},
    {"out NULL: open", out_open},
    {"out NULL: attach", out_attach},
    {"out NULL: collect, collect_announced", out_collect},
    {"out NULL: detach", out_detach},
    {"what is out behind an open and an attach that are refused", out_left},
    {"ten sets of sizes beyond their limits", sizes_outside},
    {"the greatest sizes, and a free", sizes_greatest},
    {"an open, with each allocation refused in turn", memory_open},
    {"an attach, with each allocation refused in turn", memory_attach},
    {"a dump, with each allocation refused in turn", memory_dump},
    {"a collection that lists, with each allocation refused in turn", memory_listing},
    {"elements NULL: new_string, get, set, batch", elements_null},
    {"no elements at NULL: the same", elements_none},
    {"counts of 2^64-1, 2^32+4, 2^32 and 5, of 4: get and set; strings of 2^64-1 and 2^32+2", counts_great},
    {"of 4 elements: none at 4, none at 5, 4 at 1, 1 at 2^32-1; element 4, element 2^32-1", parts_outside},
    {"ints of long[], string, Object[]; element of int[]; length of string, string's of int[]", elements_of_others},
    {"2^32-1: int[], Object[], push, ensure", lengths_great},
    {"nine strange words: length and type", words_strange},
    {"deletes of other kinds", words_of_other_kinds},
    {"NULL: three deletes, length", words_null},
    {"a global reference deleted twice, its length and type", words_deleted},
    {"another room's word: length there and here, delete here, type of this room's", words_of_another_room},
    {"a batch of calls 0, 13 and 2^32-1", batch_of_no_calls},
    {"levels without end, element 3 of levels 15 and 16, length of level 2^32-1, releases without end", levels_without_end},
    {"levels over a string and int[4], none over Object[], string, int[] as a string, NULL; what each level refuses; two releases", levels_of_others},
    {"no region over Object[], int[] as a string, NULL; a release", region_of_an_object},
    {"another thread's collection beside a region, a detach, a free, a release, a collection", collect_beside_a_region},
    {"a third and a fourth of three threads, and one behind a detach", attach_too_many},
    {"a detach made twice", detach_twice},
    {"a detach from a room with no attached thread", detach_of_another_room},
    {"a detach with local references, and a collection", detach_with_locals},
    {"a release made twice, an attach, two detaches", release_twice},
    {"frees before a detach: env, room", free_early},
    {"frees made twice: env, room", free_twice},
    {"a pop with no frame, frames and locals without end", frames_and_locals},
};

int main(void) {
    char came[LINE];
    // A misuse that ends its process leaves no core file.
    setrlimit(RLIMIT_CORE, &(struct rlimit){0, 0});
    for (size_t i = 0; i < sizeof HANDLES / sizeof *HANDLES; i++) print_by_handle(&HANDLES[i]);
    for (size_t i = 0; i < sizeof MISUSES / sizeof *MISUSES; i++) {
        apart(MISUSES[i].make, NULL, came);
        printf("%s:%s\n", MISUSES[i].name, came);
    }
    return EXIT_SUCCESS;
}
