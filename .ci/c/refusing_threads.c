// Refuses the thread whose number REFUSED says. Writes a byte to the stream that TOLD says for each thread that it
// refuses (r), lets start (s), sees come to its end (e) or sees joined (j).

#define AGAIN 11
#define NEXT ((void *) -1l)
#define MOST 1000
typedef unsigned long thread;
typedef void *work(void *);
typedef struct { work *does; void *with; } task;
void *dlsym(void *where, const char *name);
char *getenv(const char *name);
int atoi(const char *text);
long write(int stream, const void *bytes, unsigned long size);
static int asked;
static task tasks[MOST];
static void tell(const char *event) { write(atoi(getenv("TOLD")), event, 1); }
static void *done(void *of) {
    void *result = ((task *) of)->does(((task *) of)->with);
    tell("e");
    return result;
}
int pthread_create(thread *made, const void *how, work *does, void *with) {
    int (*next)(thread *, const void *, work *, void *) = dlsym(NEXT, "pthread_create");
    int number = __atomic_add_fetch(&asked, 1, __ATOMIC_SEQ_CST);
    if (number == atoi(getenv("REFUSED")) || number >= MOST) {
        tell("r");
        return AGAIN;
    }
    tell("s");
    tasks[number].does = does;
    tasks[number].with = with;
    return next(made, how, done, &tasks[number]);
}
int pthread_join(thread waited, void **result) {
    int (*next)(thread, void **) = dlsym(NEXT, "pthread_join");
    int status = next(waited, result);
    if (status == 0) tell("j");
    return status;
}
