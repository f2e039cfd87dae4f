// How much of its stack a thread uses for each call that builds or moves an env: what was painted, and is no longer so afterwards.
#define _GNU_SOURCE
#include "luthrady.h"
#include <pthread.h>
#include <stdio.h>
#include <stdlib.h>
#include <string.h>

enum { SIZE = 4 << 20, PAINT = 0xa5 };

static struct luthrady_room room;
static struct luthrady_env env;
static struct luthrady_stood stood;
static struct luthrady_counts counts;
static uint64_t ints;
static const struct luthrady_sizes sizes = {64, 16, 16, 64, 16};

static void *nothing(void *given) { return given; }
static void *open_room(void *given) { luthrady_open(sizes, &room.at); return given; }
static void *attach(void *given) { luthrady_attach(&room, &env.at); return given; }
static void *array(void *given) { ints = luthrady_new_int_array(&env, 2).value; return given; }
static void *enter(void *given) { luthrady_get_array_critical(&env, ints); return given; }
static void *leave(void *given) { luthrady_release_critical(&env); return given; }
static void *dump(void *given) { luthrady_dump(&env, NULL, 0, NULL, 0, NULL, 0, NULL, 0); return given; }
static void *collect(void *given) { luthrady_collect(&env, &counts); return given; }
static void *detach(void *given) { luthrady_detach(&room, &env, &stood); return given; }
static void *release(void *given) { luthrady_release(&room); return given; }

// The bytes of a thread's stack that a call wrote to, with those of the thread itself.
static size_t used(void *(*call)(void *)) {
    unsigned char *stack = aligned_alloc(4096, SIZE);
    pthread_attr_t how;
    pthread_t thread;
    size_t left = 0;
    memset(stack, PAINT, SIZE);
    pthread_attr_init(&how);
    pthread_attr_setstack(&how, stack, SIZE);
    if (pthread_create(&thread, &how, call, NULL) || pthread_join(thread, NULL)) exit(1);
    while (left < SIZE && stack[left] == PAINT) left++;
    pthread_attr_destroy(&how);
    free(stack);
    return SIZE - left;
}

int main(void) {
    size_t own = used(nothing);
    struct { const char *name; void *(*call)(void *); } calls[] = {
        {"open", open_room}, {"attach", attach}, {"new_int_array", array},
        {"get_array_critical", enter}, {"release_critical", leave}, {"dump", dump}, {"collect", collect}, {"detach", detach}, {"release", release},
    };
    for (size_t i = 0; i < sizeof calls / sizeof *calls; i++)
        printf("%s %zu bytes of stack\n", calls[i].name, used(calls[i].call) - own);
}
