// Calls that read and write what the environment says of their stream: STREAM0, STREAM1 and STREAM2 are how many bytes
// a call moves at the most, which call fails, counted from 1, and with which error.

#define NEXT ((void *) -1l)
typedef long call(int stream, const void *bytes, unsigned long size);
void *dlsym(void *where, const char *name);
char *getenv(const char *name);
long strtol(const char *text, char **end, int base);
int *__errno_location(void);
static int made[3];
static long passed_on(const char *name, int stream, const void *bytes, unsigned long size) {
    call *next = dlsym(NEXT, name);
    char says[] = "STREAM0", *rest = 0;
    says[6] += stream;
    if (stream < 3) rest = getenv(says);
    if (!rest) return next(stream, bytes, size);
    unsigned long most = strtol(rest, &rest, 10);
    int failing = strtol(rest, &rest, 10), error = strtol(rest, &rest, 10);
    if (++made[stream] != failing) return next(stream, bytes, size < most ? size : most);
    *__errno_location() = error;
    return -1;
}
long read(int stream, void *bytes, unsigned long size) { return passed_on("read", stream, bytes, size); }
long write(int stream, const void *bytes, unsigned long size) { return passed_on("write", stream, bytes, size); }
long __read(int stream, void *bytes, unsigned long size) { return passed_on("read", stream, bytes, size); }
long __write(int stream, const void *bytes, unsigned long size) { return passed_on("write", stream, bytes, size); }
