// STRAYS says from which number it is drawn when a thread yields.
typedef unsigned long word;
char *getenv(const char *name);
int atoi(const char *text);
int sched_yield(void);
static word threads;
static __thread word by_chance;
static void stray(void) {
    const char *first = getenv("STRAYS");
    if (!by_chance) by_chance = (1000 * (first ? atoi(first) : 0) + __atomic_add_fetch(&threads, 1, 5)) * 0x9E3779B97F4A7C15ul;
    by_chance ^= by_chance << 13, by_chance ^= by_chance >> 7, by_chance ^= by_chance << 17;
    if (by_chance % 4 == 0) sched_yield();
}
void __tsan_init(void) {}
word __tsan_atomic64_load(word *at, int order) {
    stray();
    return __atomic_load_n(at, 5);
}
void __tsan_atomic64_store(word *at, word new, int order) {
    stray();
    __atomic_store_n(at, new, 5);
}
word __tsan_atomic64_exchange(word *at, word new, int order) {
    stray();
    return __atomic_exchange_n(at, new, 5);
}
word __tsan_atomic64_fetch_add(word *at, word more, int order) {
    stray();
    return __atomic_fetch_add(at, more, 5);
}
word __tsan_atomic64_fetch_sub(word *at, word less, int order) {
    stray();
    return __atomic_fetch_sub(at, less, 5);
}
word __tsan_atomic64_compare_exchange_val(word *at, word old, word new, int order, int other) {
    stray();
    __atomic_compare_exchange_n(at, &old, new, 0, 5, 5);
    return old;
}
