// In the place of `main`, reads the length of a text and the text, runs `main` on it, and writes the status, and what came on standard
// output and on standard error, each behind its length; and so again until there is no more.
#define MOST (1 << 24)
#define NEXT ((void *) -1l)
enum { READ = 0, WRITE = 1, END = 231 };
typedef unsigned long size;
typedef int program(int count, char **words, char **variables);
typedef struct { unsigned length; unsigned char bytes[MOST]; } stream;
void *dlsym(void *where, const char *name);
long syscall(long number, ...);
void *memcpy(void *to, const void *from, size length);
static program *own;
static stream given, streams[3];
static unsigned taken;
static int status;
static void *ended[5];
long read(int from, void *to, size length) {
    size left = given.length - taken, moved = length < left ? length : left;
    memcpy(to, given.bytes + taken, moved);
    taken += moved;
    return moved;
}
long write(int to, const void *from, size length) {
    stream *told = &streams[to == 1 ? 1 : 2];
    if (length > MOST - told->length) return -1;
    memcpy(told->bytes + told->length, from, length);
    told->length += length;
    return length;
}
void _exit(int with) {
    status = with;
    __builtin_longjmp(ended, 1);
}
static void moved(int call, int at, void *bytes, size length) {
    for (long part; length; bytes = (char *) bytes + part, length -= part)
        if ((part = syscall(call, at, bytes, length)) <= 0) syscall(END, 0);
}
static void run(int count, char **words, char **variables) {
    if (__builtin_setjmp(ended) == 0) status = own(count, words, variables);
}
static int serve(int count, char **words, char **variables) {
    for (;;) {
        taken = streams[1].length = streams[2].length = 0;
        moved(READ, 0, &given.length, 4);
        moved(READ, 0, given.bytes, given.length);
        run(count, words, variables);
        moved(WRITE, 1, &status, 4);
        moved(WRITE, 1, &streams[1], 4 + streams[1].length);
        moved(WRITE, 1, &streams[2], 4 + streams[2].length);
    }
}
int __libc_start_main(program *main, int count, char **words, void *first, void *last, void *end, void *stack) {
    int (*next)(program *, int, char **, void *, void *, void *, void *) = dlsym(NEXT, "__libc_start_main");
    own = main;
    return next(serve, count, words, first, last, end, stack);
}
