/* How long a Java machine's own JNI calls take, in rounds as those of crates/jr_bench. Each call has the name that it has there.
   A round makes one call so many times, by all threads at once, each with objects and references of its own, and takes the time before the first and behind the last. It counts where each call answered as it should, no exception is pending behind the last, and all threads ran for three quarters of the time. For each call a line says its name, the median and the least of the times in nanoseconds, and how many rounds counted. */

#include <jni.h>
#include <stdatomic.h>
#include <stdio.h>
#include <stdlib.h>
#include <time.h>

enum { MOST_THREADS = 64, LONG = 4096, SHORT = 16, UNITS = 64, CAPACITY = 16, LAST_INDEX = 63, SPARE = 64 };

/* What the references of a round name. */
typedef enum { PLAIN, INTS, OBJECTS, TEXT } Target;

/* What each call is handed: NULL, one local or global reference, or a reference of its own. */
typedef enum { NOTHING, LOCAL, GLOBAL, OWN_GLOBAL, OWN_WEAK, OWN_LOCAL } Handed;

/* What a thread has for its calls in a round. What they make stands in `made`. */
typedef struct {
    JNIEnv *env;
    jclass object_class;
    jobject local, global;
    jobject *handed, *made;
    jint *elements;
    jsize length;
} Work;

/* A call: its name, what it is made at, how long that or its part is, what it is handed, and its loop, which answers how often it was right. */
typedef struct {
    const char *name;
    Target target;
    jsize target_length, length;
    Handed handed;
    int (*make_all)(const Work *);
} Case;

/* What a thread did in a round: when it began and ended, in nanoseconds, and how often the call was right. */
typedef struct {
    long long began, ended;
    int right;
} Done;

static int threads, calls, rounds;
static atomic_int came;
static Done done[MOST_THREADS];

/* A loop of its own for a call: `it` is what it is handed, `at` which one it is. */
#define LOOP(NAME, IS_RIGHT)                      \
    static int NAME(const Work *work) {           \
        JNIEnv *env = work->env;                  \
        int right = 0;                            \
        for (int at = 0; at < calls; at++) {      \
            jobject it = work->handed[at];        \
            (void)it;                             \
            right += (IS_RIGHT);                  \
        }                                         \
        return right;                             \
    }

LOOP(type_of_null, (*env)->GetObjectRefType(env, it) == JNIInvalidRefType)
LOOP(new_plain, (*env)->AllocObject(env, work->object_class) != NULL)
LOOP(new_global, (work->made[at] = (*env)->NewGlobalRef(env, it)) != NULL)
LOOP(delete_global, ((*env)->DeleteGlobalRef(env, it), 1))
LOOP(new_weak, (work->made[at] = (*env)->NewWeakGlobalRef(env, it)) != NULL)
LOOP(delete_weak, ((*env)->DeleteWeakGlobalRef(env, it), 1))
LOOP(new_local, (*env)->NewLocalRef(env, it) != NULL)
LOOP(delete_local, ((*env)->DeleteLocalRef(env, it), 1))
LOOP(same, (*env)->IsSameObject(env, work->global, it) == JNI_TRUE)
LOOP(type_of_global, (*env)->GetObjectRefType(env, it) == JNIGlobalRefType)
LOOP(empty_frame, (*env)->EnsureLocalCapacity(env, CAPACITY) == JNI_OK && (*env)->PushLocalFrame(env, CAPACITY) == JNI_OK && (*env)->PopLocalFrame(env, it) == NULL)
LOOP(length, (*env)->GetArrayLength(env, it) == LONG)
LOOP(copy_out, ((*env)->GetIntArrayRegion(env, it, 0, work->length, work->elements), 1))
LOOP(copy_in, ((*env)->SetIntArrayRegion(env, it, 0, work->length, work->elements), 1))
LOOP(new_array, (*env)->NewIntArray(env, SHORT) != NULL)
LOOP(get_element, (*env)->GetObjectArrayElement(env, it, 0) != NULL)
LOOP(set_element, ((*env)->SetObjectArrayElement(env, it, 0, it), 1))
LOOP(exception_check, !(*env)->ExceptionCheck(env))

/* A frame with four local references, whose result is one more and is deleted. */
static int is_frame_of_four(JNIEnv *env, jobject global) {
    if ((*env)->PushLocalFrame(env, CAPACITY) != JNI_OK) return 0;
    int made = 0;
    for (int at = 0; at < 4; at++) made += (*env)->NewLocalRef(env, global) != NULL;
    jobject kept = (*env)->PopLocalFrame(env, global);
    (*env)->DeleteLocalRef(env, kept);
    return made == 4 && kept != NULL;
}
LOOP(frame_of_four, is_frame_of_four(env, it))

/* Copies all elements out, and back at once or by a commit first. */
static int is_copied(JNIEnv *env, jarray array, int is_committed) {
    jint *elements = (*env)->GetIntArrayElements(env, array, NULL);
    if (elements == NULL) return 0;
    if (is_committed) (*env)->ReleaseIntArrayElements(env, array, elements, JNI_COMMIT);
    (*env)->ReleaseIntArrayElements(env, array, elements, is_committed ? JNI_ABORT : 0);
    return 1;
}
LOOP(copy_back, is_copied(env, it, 0))
LOOP(commit, is_copied(env, it, 1))

/* Copies all units of a string out, and gives them up. */
static int is_text_copied(JNIEnv *env, jstring text) {
    const jchar *units = (*env)->GetStringChars(env, text, NULL);
    if (units == NULL) return 0;
    (*env)->ReleaseStringChars(env, text, units);
    return 1;
}
LOOP(copy_text, is_text_copied(env, it))

/* Opens a critical region, and ends it. */
static int is_opened(JNIEnv *env, jarray array) {
    void *elements = (*env)->GetPrimitiveArrayCritical(env, array, NULL);
    if (elements == NULL) return 0;
    (*env)->ReleasePrimitiveArrayCritical(env, array, elements, 0);
    return 1;
}
LOOP(critical, is_opened(env, it))

/* Reads or writes an element of one critical region for each of the handles: plain loads and stores of memory, none of which the compiler leaves out or puts together. */
static int reach_each(const Work *work, int writes) {
    JNIEnv *env = work->env;
    _Atomic jint *elements = (*env)->GetPrimitiveArrayCritical(env, work->global, NULL);
    if (elements == NULL) return 0;
    int right = 0;
    for (int at = 0; at < calls; at++) {
        _Atomic jint *element = &elements[(size_t)work->handed[at] & LAST_INDEX];
        if (writes) atomic_store_explicit(element, 0, memory_order_relaxed);
        right += writes || atomic_load_explicit(element, memory_order_relaxed) == 0;
    }
    (*env)->ReleasePrimitiveArrayCritical(env, work->global, (void *)elements, 0);
    return right;
}
static int read_each(const Work *work) { return reach_each(work, 0); }
static int write_each(const Work *work) { return reach_each(work, 1); }

static const Case CASES[] = {
    {"get_object_ref_type(NULL)", PLAIN, 0, 0, NOTHING, type_of_null},
    {"new_plain", PLAIN, 0, 0, NOTHING, new_plain},
    {"new_global_ref(local)", PLAIN, 0, 0, LOCAL, new_global},
    {"delete_global_ref", PLAIN, 0, 0, OWN_GLOBAL, delete_global},
    {"new_weak_global_ref(local)", PLAIN, 0, 0, LOCAL, new_weak},
    {"delete_weak_global_ref", PLAIN, 0, 0, OWN_WEAK, delete_weak},
    {"new_local_ref(global)", PLAIN, 0, 0, GLOBAL, new_local},
    {"delete_local_ref", PLAIN, 0, 0, OWN_LOCAL, delete_local},
    {"is_same_object(global,global)", PLAIN, 0, 0, GLOBAL, same},
    {"get_object_ref_type(global)", PLAIN, 0, 0, GLOBAL, type_of_global},
    {"ensure_local_capacity,push_local_frame,pop_local_frame(NULL)", PLAIN, 0, 0, NOTHING, empty_frame},
    {"push_local_frame,4*new_local_ref,pop_local_frame(global),delete_local_ref", PLAIN, 0, 0, GLOBAL, frame_of_four},
    {"get_array_length", INTS, LONG, 0, GLOBAL, length},
    {"get_array_region(1)", INTS, LONG, 1, GLOBAL, copy_out},
    {"get_array_region(64)", INTS, LONG, 64, GLOBAL, copy_out},
    {"get_array_region(4096)", INTS, LONG, LONG, GLOBAL, copy_out},
    {"set_array_region(1)", INTS, LONG, 1, GLOBAL, copy_in},
    {"set_array_region(64)", INTS, LONG, 64, GLOBAL, copy_in},
    {"set_array_region(4096)", INTS, LONG, LONG, GLOBAL, copy_in},
    {"new_array(16)", INTS, LONG, 0, NOTHING, new_array},
    {"get_object_array_element", OBJECTS, 1, 0, GLOBAL, get_element},
    {"set_object_array_element", OBJECTS, 1, 0, GLOBAL, set_element},
    {"get_array_elements(64),release_array_elements(copy)", INTS, 64, 0, GLOBAL, copy_back},
    {"get_array_elements(4096),release_array_elements(copy)", INTS, LONG, 0, GLOBAL, copy_back},
    {"get_array_elements(64),release_array_elements(commit),release_array_elements(abort)", INTS, 64, 0, GLOBAL, commit},
    {"get_array_elements(4096),release_array_elements(commit),release_array_elements(abort)", INTS, LONG, 0, GLOBAL, commit},
    {"get_string_chars(64)", TEXT, UNITS, 0, GLOBAL, copy_text},
    {"get_array_critical,release", INTS, LONG, 0, GLOBAL, critical},
    {"get_of_region", INTS, LONG, 0, GLOBAL, read_each},
    {"set_of_region", INTS, LONG, 0, GLOBAL, write_each},
    {"exception_check", PLAIN, 0, 0, NOTHING, exception_check},
};

/* Makes what the references of a round name. */
static jobject target_of(const Work *work, const Case *of) {
    static const jchar units[UNITS];
    JNIEnv *env = work->env;
    jobject plain = (*env)->AllocObject(env, work->object_class);
    switch (of->target) {
        case INTS: return (*env)->NewIntArray(env, of->target_length);
        case OBJECTS: return (*env)->NewObjectArray(env, of->target_length, work->object_class, plain);
        case TEXT: return (*env)->NewString(env, units, of->target_length);
        default: return plain;
    }
}

/* What a call is handed. */
static jobject handed_to(const Work *work, Handed handed) {
    JNIEnv *env = work->env;
    switch (handed) {
        case LOCAL: return work->local;
        case GLOBAL: return work->global;
        case OWN_GLOBAL: return (*env)->NewGlobalRef(env, work->local);
        case OWN_WEAK: return (*env)->NewWeakGlobalRef(env, work->local);
        case OWN_LOCAL: return (*env)->NewLocalRef(env, work->local);
        default: return NULL;
    }
}

/* Makes ready what a thread needs for a round, in a local frame of its own. */
static void make_ready(Work *work, const Case *of) {
    JNIEnv *env = work->env;
    if ((*env)->PushLocalFrame(env, calls + SPARE) != JNI_OK) abort();
    work->local = target_of(work, of);
    work->global = (*env)->NewGlobalRef(env, work->local);
    work->length = of->length;
    for (int at = 0; at < calls; at++) {
        work->handed[at] = handed_to(work, of->handed);
        work->made[at] = NULL;
    }
}

/* Takes away what a round made. */
static void clear(Work *work, const Case *of) {
    JNIEnv *env = work->env;
    for (int at = 0; at < calls; at++) {
        if (of->make_all == new_weak) {
            (*env)->DeleteWeakGlobalRef(env, work->made[at]);
        } else {
            (*env)->DeleteGlobalRef(env, work->made[at]);
        }
    }
    (*env)->DeleteGlobalRef(env, work->global);
    (*env)->PopLocalFrame(env, NULL);
}

static long long now(void) {
    struct timespec time;
    clock_gettime(CLOCK_MONOTONIC, &time);
    return time.tv_sec * 1000000000LL + time.tv_nsec;
}

/* Waits until all threads have come here as often as this one. */
static void meet(int *meetings) {
    int wanted = ++*meetings * threads;
    atomic_fetch_add(&came, 1);
    while (atomic_load(&came) < wanted) continue;
}

/* How long a call took in the round that was made, as the mean of the threads: less than 0 where the round doesn't count. */
static double time_of_round(void) {
    long long began = done[0].began, all_began = began, ended = done[0].ended, one_ended = ended, sum = 0;
    for (int at = 0; at < threads; at++) {
        const Done *it = &done[at];
        if (it->right != calls) return -1;
        if (it->began < began) began = it->began;
        if (it->began > all_began) all_began = it->began;
        if (it->ended > ended) ended = it->ended;
        if (it->ended < one_ended) one_ended = it->ended;
        sum += it->ended - it->began;
    }
    if ((one_ended - all_began) * 4 < (ended - began) * 3) return -1;
    return (double)sum / ((double)threads * calls);
}

/* One thread's part of a round. */
static void make_round(Work *work, const Case *of, int thread, int *meetings) {
    make_ready(work, of);
    meet(meetings);
    Done it = {.began = now()};
    it.right = of->make_all(work);
    it.ended = now();
    if ((*work->env)->ExceptionCheck(work->env)) it.right = -1;
    done[thread] = it;
    meet(meetings);
    clear(work, of);
}

static int by_size(const void *one, const void *other) {
    double first = *(const double *)one, second = *(const double *)other;
    return (first > second) - (first < second);
}

/* Prints the line of a call. */
static void print_line(const Case *of, double *times, int counted) {
    qsort(times, counted, sizeof *times, by_size);
    if (counted == 0) {
        printf("%s - - 0\n", of->name);
    } else {
        printf("%s %.1f %.1f %d\n", of->name, times[counted / 2], times[0], counted);
    }
    fflush(stdout);
}

JNIEXPORT void JNICALL Java_Calls_begin(JNIEnv *env, jclass class, jint asked_threads, jint asked_calls, jint asked_rounds) {
    (void)env, (void)class;
    if (asked_threads < 1 || asked_threads > MOST_THREADS || asked_calls < 1 || asked_rounds < 1) abort();
    threads = asked_threads;
    calls = asked_calls;
    rounds = asked_rounds;
}

JNIEXPORT void JNICALL Java_Calls_measure(JNIEnv *env, jclass class, jint thread) {
    (void)class;
    Work work = {.env = env, .object_class = (*env)->FindClass(env, "java/lang/Object")};
    work.handed = calloc(calls, sizeof *work.handed);
    work.made = calloc(calls, sizeof *work.made);
    work.elements = calloc(LONG, sizeof *work.elements);
    double *times = calloc(rounds, sizeof *times);
    if (!work.object_class || !work.handed || !work.made || !work.elements || !times) abort();
    int meetings = 0;
    for (size_t which = 0; which < sizeof CASES / sizeof *CASES; which++) {
        int counted = 0;
        for (int round = 0; round < rounds; round++) {
            make_round(&work, &CASES[which], thread, &meetings);
            double time = thread == 0 ? time_of_round() : -1;
            if (time >= 0) times[counted++] = time;
        }
        if (thread == 0) print_line(&CASES[which], times, counted);
    }
    free(work.handed), free(work.made), free(work.elements), free(times);
}
