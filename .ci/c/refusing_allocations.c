// Refuses the allocation whose number REFUSED says, and then writes a byte to the stream that TOLD says. Each thread counts
// its own: the first thread of the process from 1 on, the one that is started as the Nth from N * EACH + 1 on. Keeps in the
// file KEPT how many allocations are live, how many threads were started, and how many were joined. What the C library
// takes for itself is not looked at.

#define EACH (1l << 32)
#define MOST (1 << 18)
#define MOST_THREADS (1 << 16)
#define NEXT ((void *) -1l)
typedef unsigned long thread;
typedef void *work(void *);
typedef struct { work *does; void *with; } task;
void *__libc_malloc(unsigned long size);
void *__libc_realloc(void *old, unsigned long size);
void __libc_free(void *old);
void *dlsym(void *where, const char *name);
char *getenv(const char *name);
int atoi(const char *text);
long atol(const char *text);
long write(int stream, const void *bytes, unsigned long size);
void *mmap(void *at, unsigned long size, int access, int kind, int stream, long from);
static int is_held, asked;
static task tasks[MOST_THREADS];
static __thread long made __attribute__((tls_model("initial-exec")));
static void *live[MOST], *const gone = &live;
static struct { long live, started, joined; } *kept;
static int is_refused(void) {
    if (++made != atol(getenv("REFUSED"))) return 0;
    write(atoi(getenv("TOLD")), "!", 1);
    return 1;
}
static void hold(void) {
    while (__atomic_exchange_n(&is_held, 1, __ATOMIC_ACQUIRE)) {}
    if (!kept) kept = mmap(0, sizeof *kept, 3, 1, atoi(getenv("KEPT")), 0);
}
static void let_go(void) { __atomic_store_n(&is_held, 0, __ATOMIC_RELEASE); }
static void *add(void *it) {
    unsigned long at = (unsigned long) it / 16 * 40503;
    if (!it) return it;
    hold();
    while (live[at % MOST] && live[at % MOST] != gone) at++;
    live[at % MOST] = it;
    kept->live++;
    let_go();
    return it;
}
static int take(void *it) {
    unsigned long at = (unsigned long) it / 16 * 40503, seen = 0;
    int is_found = 0;
    hold();
    while (it && !is_found && live[at % MOST] && seen++ < MOST) is_found = live[at++ % MOST] == it;
    if (is_found) live[(at - 1) % MOST] = gone, kept->live--;
    let_go();
    return is_found;
}
void *malloc(unsigned long size) { return is_refused() ? 0 : add(__libc_malloc(size)); }
void *realloc(void *old, unsigned long size) {
    if (is_refused()) return 0;
    int was_live = take(old);
    void *moved = __libc_realloc(old, size);
    if (!moved && was_live) add(old);
    return add(moved);
}
void free(void *old) {
    take(old);
    __libc_free(old);
}
static void *begun(void *of) {
    made = ((task *) of - tasks) * EACH;
    return ((task *) of)->does(((task *) of)->with);
}
int pthread_create(thread *it, const void *how, work *does, void *with) {
    int (*next)(thread *, const void *, work *, void *) = dlsym(NEXT, "pthread_create");
    task *own = &tasks[__atomic_add_fetch(&asked, 1, __ATOMIC_SEQ_CST) % MOST_THREADS];
    *own = (task) { does, with };
    int status = next(it, how, begun, own);
    hold();
    kept->started += status == 0;
    let_go();
    return status;
}
int pthread_join(thread waited, void **result) {
    int (*next)(thread, void **) = dlsym(NEXT, "pthread_join");
    int status = next(waited, result);
    hold();
    kept->joined += status == 0;
    let_go();
    return status;
}
