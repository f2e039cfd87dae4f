// A small virtual machine over luthrady: four threads share a room of three envs, and come to it and go in shifts. They make instances of
// classes, watch each by a weak reference, and collect, each in rounds of its own. What a collection cleared goes to a queue, as in java.lang.ref.
//
//     cc -std=c11 -pthread small_vm.c $(pkg-config --cflags --libs luthrady)
//
// The lines that it prints are in small_vm.out: none depends on which thread came first.
#include "luthrady.h"
#include <pthread.h>
#include <sched.h>
#include <stdbool.h>
#include <stdio.h>
#include <stdlib.h>
#include <string.h>

enum { THREADS = 4, SHIFTS = 20, ROUNDS = 15, CLASSES = 5, WATCHED = 32, PAYLOAD = 8, TRIES = 1000, TURNS = 10 };
enum { INSTANCES = THREADS * SHIFTS * ROUNDS };

// The fields of an instance, which is an array of objects.
enum field { FIELD_CLASS, FIELD_PAYLOAD, FIELDS };

static const struct luthrady_sizes SIZES = {
    .threads = THREADS - 1, .slots = 64, .objects = 128, .words = 512, .locals = 32};

static const char *const NAMES[CLASSES] = {"Node", "Edge", "Path", "Cycle", "Forest"};

// A class: its object is a string of its name. A global reference keeps it, and so no other object has its identity.
struct class {
    uint64_t object;
    uint64_t identity;
    // A global reference to the newest instance, NULL where there was none.
    uint64_t newest;
};

// An instance that is watched by a weak reference, NULL where the place is free.
struct watch {
    uint64_t weak;
    int number;
};

// What the threads share.
struct machine {
    struct luthrady_room room;
    // Guards the room's handle. A thread that waits for an env is told when another has gone.
    pthread_mutex_t door;
    pthread_cond_t gone;
    // Guards the classes.
    pthread_mutex_t table;
    struct class classes[CLASSES];
    // Guards the watches and the queue.
    pthread_mutex_t watching;
    struct watch watches[WATCHED];
    int queue[INSTANCES];
    int queued;
};

// A thread, while it is attached.
struct thread {
    struct machine *machine;
    struct luthrady_env env;
    int number;
};

static struct machine machine = {
    .door = PTHREAD_MUTEX_INITIALIZER,
    .gone = PTHREAD_COND_INITIALIZER,
    .table = PTHREAD_MUTEX_INITIALIZER,
    .watching = PTHREAD_MUTEX_INITIALIZER,
};

static _Noreturn void fail(const char *what, struct luthrady_reply reply) {
    fprintf(stderr, "%s: E%u (told %u, found %u): %s\n", what, reply.fault, reply.told, reply.found, luthrady_fault_text(reply.fault));
    exit(EXIT_FAILURE);
}

static void check(bool holds, const char *what) {
    if (holds) return;
    fprintf(stderr, "%s: not so\n", what);
    exit(EXIT_FAILURE);
}

// The answer of a call that may not be refused.
static uint64_t answer(const char *what, struct luthrady_reply reply) {
    if (reply.fault != 0) fail(what, reply);
    return reply.value;
}

static void lock(pthread_mutex_t *mutex) {
    check(pthread_mutex_lock(mutex) == 0, "pthread_mutex_lock");
}

static void unlock(pthread_mutex_t *mutex) {
    check(pthread_mutex_unlock(mutex) == 0, "pthread_mutex_unlock");
}

// ---- calls that are made again

// Collects, and queues what went. Tells whether it was its turn.
static bool collect(struct thread *thread, struct luthrady_counts *counts);

// Whether a refused call is made again: another thread was in the way, or a collection can make room for it.
static bool is_made_again(struct thread *thread, struct luthrady_reply reply) {
    struct luthrady_counts counts;
    switch (reply.fault) {
    case LUTHRADY_FAULT_BARRED:
    case LUTHRADY_FAULT_RACED: break;
    case LUTHRADY_FAULT_SPACE_FULL:
    case LUTHRADY_FAULT_OBJECTS_FULL: collect(thread, &counts); break;
    default: return false;
    }
    sched_yield();
    return true;
}

static uint64_t new_ints(struct thread *thread, const int32_t *elements, uint32_t count) {
    struct luthrady_reply reply;
    do reply = luthrady_new_int_array(&thread->env, count);
    while (is_made_again(thread, reply));
    uint64_t array = answer("new_int_array", reply);
    do reply = luthrady_set_int_array_region(&thread->env, array, 0, elements, count);
    while (is_made_again(thread, reply));
    answer("set_int_array_region", reply);
    return array;
}

static uint64_t new_name(struct thread *thread, const char *name) {
    uint16_t units[16];
    size_t count = strlen(name);
    check(count <= sizeof units / sizeof *units, "the name fits");
    for (size_t i = 0; i < count; i++) units[i] = (uint16_t)name[i];
    struct luthrady_reply reply;
    do reply = luthrady_new_string(&thread->env, units, count);
    while (is_made_again(thread, reply));
    return answer("new_string", reply);
}

static uint64_t new_objects(struct thread *thread, uint32_t count) {
    struct luthrady_reply reply;
    do reply = luthrady_new_object_array(&thread->env, count, 0);
    while (is_made_again(thread, reply));
    return answer("new_object_array", reply);
}

static void set_field(struct thread *thread, uint64_t instance, enum field field, uint64_t value) {
    struct luthrady_reply reply;
    do reply = luthrady_set_object_array_element(&thread->env, instance, field, value);
    while (is_made_again(thread, reply));
    answer("set_object_array_element", reply);
}

static uint64_t field_of(struct thread *thread, uint64_t instance, enum field field) {
    struct luthrady_reply reply;
    do reply = luthrady_get_object_array_element(&thread->env, instance, field);
    while (is_made_again(thread, reply));
    return answer("get_object_array_element", reply);
}

static uint64_t new_global(struct thread *thread, uint64_t object) {
    struct luthrady_reply reply;
    do reply = luthrady_new_global_ref(&thread->env, object);
    while (is_made_again(thread, reply));
    return answer("new_global_ref", reply);
}

static void delete_global(struct thread *thread, uint64_t reference) {
    struct luthrady_reply reply;
    do reply = luthrady_delete_global_ref(&thread->env, reference);
    while (is_made_again(thread, reply));
    answer("delete_global_ref", reply);
}

static uint64_t new_weak(struct thread *thread, uint64_t object) {
    struct luthrady_reply reply;
    do reply = luthrady_new_weak_global_ref(&thread->env, object);
    while (is_made_again(thread, reply));
    return answer("new_weak_global_ref", reply);
}

static void delete_weak(struct thread *thread, uint64_t reference) {
    struct luthrady_reply reply;
    do reply = luthrady_delete_weak_global_ref(&thread->env, reference);
    while (is_made_again(thread, reply));
    answer("delete_weak_global_ref", reply);
}

static uint64_t identity_of(struct thread *thread, uint64_t object) {
    struct luthrady_reply reply;
    do reply = luthrady_identity_of(&thread->env, object);
    while (is_made_again(thread, reply));
    return answer("identity_of", reply);
}

static void push_frame(struct thread *thread, uint32_t capacity) {
    answer("push_local_frame", luthrady_push_local_frame(&thread->env, capacity));
}

static void pop_frame(struct thread *thread) {
    struct luthrady_reply reply;
    do reply = luthrady_pop_local_frame(&thread->env, 0);
    while (is_made_again(thread, reply));
    answer("pop_local_frame", reply);
}

// ---- threads that come and go

// Attaches a thread, once an env is free for it.
static void attach(struct thread *thread) {
    struct machine *all = thread->machine;
    struct luthrady_reply reply;
    lock(&all->door);
    while ((reply = luthrady_attach(&all->room, &thread->env.at)).fault == LUTHRADY_FAULT_NOT_FRESH)
        check(pthread_cond_wait(&all->gone, &all->door) == 0, "pthread_cond_wait");
    unlock(&all->door);
    answer("attach", reply);
}

// Detaches a thread, which frees its local references, and frees its place. Returns whether it closed the room.
static bool detach(struct thread *thread, struct luthrady_stood *stood) {
    struct machine *all = thread->machine;
    struct luthrady_reply reply;
    do {
        lock(&all->door);
        reply = luthrady_detach(&all->room, &thread->env, stood);
        unlock(&all->door);
    } while (is_made_again(thread, reply));
    bool is_closed = answer("detach", reply) == 1;
    check(pthread_cond_signal(&all->gone) == 0, "pthread_cond_signal");
    answer("free_env", luthrady_free_env(&thread->env));
    return is_closed;
}

// ---- classes

static void load_classes(struct thread *thread) {
    struct machine *all = thread->machine;
    lock(&all->table);
    for (int i = 0; i < CLASSES; i++) {
        push_frame(thread, 1);
        all->classes[i].object = new_global(thread, new_name(thread, NAMES[i]));
        all->classes[i].identity = identity_of(thread, all->classes[i].object);
        pop_frame(thread);
    }
    unlock(&all->table);
}

static void unload_classes(struct thread *thread) {
    struct machine *all = thread->machine;
    lock(&all->table);
    for (int i = 0; i < CLASSES; i++) {
        delete_global(thread, all->classes[i].newest);
        delete_global(thread, all->classes[i].object);
    }
    unlock(&all->table);
}

// Which class an instance is of. The classes' identities are written once, before any other thread is started.
static int class_of(struct thread *thread, uint64_t instance) {
    uint64_t identity = identity_of(thread, field_of(thread, instance, FIELD_CLASS));
    int found = 0;
    while (found < CLASSES && thread->machine->classes[found].identity != identity) found++;
    check(found < CLASSES, "an instance is of a class");
    return found;
}

// An instance of a class, and in its payload its number and those behind it.
static uint64_t new_instance(struct thread *thread, int class, int number) {
    int32_t payload[PAYLOAD];
    for (int i = 0; i < PAYLOAD; i++) payload[i] = number + i;
    uint64_t instance = new_objects(thread, FIELDS);
    set_field(thread, instance, FIELD_CLASS, thread->machine->classes[class].object);
    set_field(thread, instance, FIELD_PAYLOAD, new_ints(thread, payload, PAYLOAD));
    return instance;
}

// The number of an instance, once its whole payload was looked at in one critical region: no collection comes while that stands.
static int number_of(struct thread *thread, uint64_t instance) {
    int32_t payload[PAYLOAD];
    uint64_t array = field_of(thread, instance, FIELD_PAYLOAD);
    struct luthrady_reply reply;
    do reply = luthrady_get_array_critical(&thread->env, array);
    while (is_made_again(thread, reply));
    uint32_t level = (uint32_t)answer("get_array_critical", reply);
    answer("get_int_level_part", luthrady_get_int_level_part(&thread->env, level, 0, payload, PAYLOAD));
    answer("release_critical", luthrady_release_critical(&thread->env));
    for (int i = 0; i < PAYLOAD; i++) check(payload[i] == payload[0] + i, "a payload is as it was written");
    return payload[0];
}

// Makes an instance the newest of its class, and lets go of the one before.
static void keep_newest(struct thread *thread, int class, uint64_t instance) {
    struct machine *all = thread->machine;
    lock(&all->table);
    uint64_t before = all->classes[class].newest;
    push_frame(thread, 4);
    // Another thread made it, and no collection has harmed it.
    if (before != 0) check(class_of(thread, before) == class && number_of(thread, before) % CLASSES == class, "the newest instance is of its class");
    pop_frame(thread);
    all->classes[class].newest = new_global(thread, instance);
    delete_global(thread, before);
    unlock(&all->table);
}

// ---- weak references, and the queue of what went

// Puts the watch of a reference that was cleared on the queue, and frees its place. The caller has the lock.
static void take(struct thread *thread, uint64_t weak) {
    struct machine *all = thread->machine;
    int place = 0;
    while (place < WATCHED && all->watches[place].weak != weak) place++;
    check(place < WATCHED, "what went was watched");
    delete_weak(thread, weak);
    all->watches[place].weak = 0;
    check(all->queued < INSTANCES, "no more go than were made");
    all->queue[all->queued++] = all->watches[place].number;
}

// Each collection lists what it cleared, and so each reference is in one list. Another thread may be in the way at each turn: then that one may collect.
static bool collect(struct thread *thread, struct luthrady_counts *counts) {
    uint64_t cleared[WATCHED];
    struct luthrady_reply reply = luthrady_collect_in_turn_listing(&thread->env, TRIES, TURNS, cleared, WATCHED, NULL, 0, counts);
    switch (reply.fault) {
    case 0: break;
    case LUTHRADY_FAULT_BUSY:
    case LUTHRADY_FAULT_MOVED: return false;
    default: fail("collect", reply);
    }
    check(counts->cleared <= WATCHED, "no more go than are watched");
    lock(&thread->machine->watching);
    for (uint32_t i = 0; i < counts->cleared; i++) take(thread, cleared[i]);
    unlock(&thread->machine->watching);
    return true;
}

// Watches an instance, where a place is free.
static bool try_to_watch(struct thread *thread, uint64_t instance, int number) {
    struct machine *all = thread->machine;
    int place = 0;
    lock(&all->watching);
    while (place < WATCHED && all->watches[place].weak != 0) place++;
    if (place < WATCHED) all->watches[place] = (struct watch){.weak = new_weak(thread, instance), .number = number};
    unlock(&all->watching);
    return place < WATCHED;
}

// ---- what a thread does

static void make_and_drop(struct thread *thread, int number) {
    int class = number % CLASSES;
    push_frame(thread, 16);
    uint64_t instance = new_instance(thread, class, number);
    struct luthrady_counts counts;
    while (!try_to_watch(thread, instance, number)) {
        collect(thread, &counts);
        sched_yield();
    }
    check(class_of(thread, instance) == class && number_of(thread, instance) == number, "an instance is what was made");
    keep_newest(thread, class, instance);
    pop_frame(thread);
}

static void work_a_shift(struct thread *thread, int shift) {
    struct luthrady_counts counts;
    for (int round = 0; round < ROUNDS; round++) {
        make_and_drop(thread, (thread->number * SHIFTS + shift) * ROUNDS + round);
        // Each thread collects in rounds of its own.
        if (round % THREADS == thread->number) collect(thread, &counts);
    }
}

static void *run(void *given) {
    struct thread *thread = given;
    struct luthrady_stood stood;
    for (int shift = 0; shift < SHIFTS; shift++) {
        attach(thread);
        work_a_shift(thread, shift);
        check(!detach(thread, &stood), "the room is open until it is released");
    }
    return NULL;
}

static void run_threads(void) {
    struct thread threads[THREADS];
    pthread_t ids[THREADS];
    for (int i = 0; i < THREADS; i++) {
        threads[i] = (struct thread){.machine = &machine, .number = i};
        check(pthread_create(&ids[i], NULL, run, &threads[i]) == 0, "pthread_create");
    }
    for (int i = 0; i < THREADS; i++) check(pthread_join(ids[i], NULL) == 0, "pthread_join");
}

// ---- the machine from its beginning to its end

// Prints how often an instance of each class is on the queue, once each has gone.
static void print_queue(void) {
    static bool seen[INSTANCES];
    int went[CLASSES] = {0};
    for (int i = 0; i < machine.queued; i++) {
        int number = machine.queue[i];
        check(!seen[number], "an instance goes once");
        seen[number] = true;
        went[number % CLASSES]++;
    }
    for (int i = 0; i < CLASSES; i++) printf("%s: %d instances went\n", NAMES[i], went[i]);
    printf("in all %d of %d\n", machine.queued, INSTANCES);
}

// Collects with no thread beside.
static struct luthrady_counts collect_alone(struct thread *thread) {
    struct luthrady_counts counts;
    check(collect(thread, &counts), "no thread is in the way");
    return counts;
}

int main(void) {
    struct thread first = {.machine = &machine};
    struct luthrady_stood stood;
    answer("open", luthrady_open(SIZES, &machine.room.at));
    attach(&first);
    load_classes(&first);
    check(!detach(&first, &stood), "the room is open until it is released");
    run_threads();
    attach(&first);
    collect_alone(&first);
    printf("the newest of each class are kept: %d of %d went\n", machine.queued, INSTANCES);
    unload_classes(&first);
    struct luthrady_counts counts = collect_alone(&first);
    printf("then the classes are unloaded: dropped %u, used %u\n", counts.dropped, counts.used);
    print_queue();
    answer("release", luthrady_release(&machine.room));
    check(detach(&first, &stood), "the last detach closes the room");
    printf("closed: globals %u, weaks %u, live %u, used %u\n", stood.globals, stood.weaks, stood.live, stood.used);
    answer("free_room", luthrady_free_room(&machine.room));
    return EXIT_SUCCESS;
}
