// Four threads that come to a room of two and go, each many times: under a lock, since a room's handle is in one call at a time.
#include "luthrady.h"
#include <pthread.h>
#include <sched.h>
#include <stdio.h>

enum { THREADS = 4, TIMES = 1000 };

static struct luthrady_room room;
static pthread_mutex_t turn = PTHREAD_MUTEX_INITIALIZER;
static const struct luthrady_sizes sizes = {2, 16, 64, 256, 16};

static struct luthrady_reply attach(struct luthrady_env *env) {
    pthread_mutex_lock(&turn);
    struct luthrady_reply reply = luthrady_attach(&room, &env->at);
    pthread_mutex_unlock(&turn);
    return reply;
}

static struct luthrady_reply detach(struct luthrady_env *env, struct luthrady_stood *stood) {
    pthread_mutex_lock(&turn);
    struct luthrady_reply reply = luthrady_detach(&room, env, stood);
    pthread_mutex_unlock(&turn);
    return reply;
}

// Comes, makes an array that only a local reference names, and goes without deleting it.
static void *come_and_go(void *given) {
    struct luthrady_stood stood;
    for (int i = 0; i < TIMES; i++) {
        struct luthrady_env env;
        struct luthrady_reply reply;
        while ((reply = attach(&env)).fault == LUTHRADY_FAULT_NOT_FRESH) sched_yield();
        if (reply.fault != 0) return NULL;
        struct luthrady_reply made = luthrady_new_int_array(&env, 100);
        while (made.fault != 0) {
            struct luthrady_counts counts;
            if (made.fault == LUTHRADY_FAULT_NOT_FRESH) return NULL;
            if (made.fault != LUTHRADY_FAULT_BARRED) luthrady_collect_announced(&env, 100, &counts);
            sched_yield();
            made = luthrady_new_int_array(&env, 100);
        }
        while ((reply = detach(&env, &stood)).fault == LUTHRADY_FAULT_BARRED) sched_yield();
        if (reply.fault != 0 || luthrady_free_env(&env).fault != 0) return NULL;
    }
    return given;
}

int main(void) {
    pthread_t threads[THREADS];
    struct luthrady_env env;
    struct luthrady_counts counts;
    struct luthrady_stood stood;
    int done = 0;
    if (luthrady_open(sizes, &room.at).fault != 0) return 1;
    for (int i = 0; i < THREADS; i++)
        if (pthread_create(&threads[i], NULL, come_and_go, &room) != 0) return 1;
    for (int i = 0; i < THREADS; i++) {
        void *answer;
        done += pthread_join(threads[i], &answer) == 0 && answer == &room;
    }
    printf("%d threads came %d times each to a room of %u\n", done, TIMES, sizes.threads);
    if (luthrady_attach(&room, &env.at).fault != 0 || luthrady_collect(&env, &counts).fault != 0) return 1;
    printf("used %u once all had gone\n", counts.used);
    luthrady_release(&room);
    printf("closed %u\n", (unsigned)luthrady_detach(&room, &env, &stood).value);
    return luthrady_free_env(&env).fault != 0 || luthrady_free_room(&room).fault != 0;
}
