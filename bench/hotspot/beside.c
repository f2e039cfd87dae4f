/* Makes drawn calls by a Java machine's own JNI functions and by luthrady, in one process and call beside call, and compares what both answer. Each thread has values of its own: a value is a pair of references, of which one is the machine's and one luthrady's. What JNI doesn't define is not drawn. A collection is both machines', while no other thread is in a call. */

#include "luthrady.h"
#include <jni.h>
#include <pthread.h>
#include <stdarg.h>
#include <stdio.h>
#include <stdlib.h>
#include <string.h>

enum { OF_A_TYPE = 12, VALUES = 3 * OF_A_TYPE, MOST_LENGTH = 40, MOST_OBJECTS = 6, MOST_FRAMES = 5, MOST_BYTES = 8 * (MOST_LENGTH + 4), OPERATIONS_PER_COLLECTION = 500, MOST_TOLD = 5 };

/* A kind of numbers: the functions for its arrays, of the machine and of luthrady. */
typedef struct {
    const char *name;
    jarray (*new_theirs)(JNIEnv *, jsize);
    struct luthrady_reply (*new_ours)(struct luthrady_env *, uint32_t);
    void (*set_theirs)(JNIEnv *, jarray, jsize, jsize, const void *);
    struct luthrady_reply (*set_ours)(struct luthrady_env *, uint64_t, uint32_t, const void *, size_t);
    void (*get_theirs)(JNIEnv *, jarray, jsize, jsize, void *);
    struct luthrady_reply (*get_ours)(struct luthrady_env *, uint64_t, uint32_t, void *, size_t);
} Kind;

#define KIND(NAME, NAMED)                                                                                                              \
    static jarray new_theirs_##NAMED(JNIEnv *env, jsize length) { return (*env)->New##NAME##Array(env, length); }                      \
    static void set_theirs_##NAMED(JNIEnv *env, jarray array, jsize start, jsize count, const void *from) {                            \
        (*env)->Set##NAME##ArrayRegion(env, array, start, count, from);                                                                \
    }                                                                                                                                  \
    static void get_theirs_##NAMED(JNIEnv *env, jarray array, jsize start, jsize count, void *to) {                                    \
        (*env)->Get##NAME##ArrayRegion(env, array, start, count, to);                                                                  \
    }                                                                                                                                  \
    static struct luthrady_reply new_ours_##NAMED(struct luthrady_env *env, uint32_t length) {                                         \
        return luthrady_new_##NAMED##_array(env, length);                                                                              \
    }                                                                                                                                  \
    static struct luthrady_reply set_ours_##NAMED(struct luthrady_env *env, uint64_t array, uint32_t start, const void *from, size_t count) { \
        return luthrady_set_##NAMED##_array_region(env, array, start, from, count);                                                    \
    }                                                                                                                                  \
    static struct luthrady_reply get_ours_##NAMED(struct luthrady_env *env, uint64_t array, uint32_t start, void *to, size_t count) {  \
        return luthrady_get_##NAMED##_array_region(env, array, start, to, count);                                                      \
    }

KIND(Boolean, boolean)
KIND(Byte, byte)
KIND(Char, char)
KIND(Short, short)
KIND(Int, int)
KIND(Long, long)

#define ROW(NAMED) {#NAMED, new_theirs_##NAMED, new_ours_##NAMED, set_theirs_##NAMED, set_ours_##NAMED, get_theirs_##NAMED, get_ours_##NAMED}
static const Kind KINDS[] = {ROW(boolean), ROW(byte), ROW(char), ROW(short), ROW(int), ROW(long)};
enum { KIND_COUNT = sizeof KINDS / sizeof *KINDS };

/* What a value names: null, or an object of a sort. */
typedef enum { NOTHING, PLAIN, STRING, OBJECTS, NUMBERS } Sort;

/* A pair of references, its kind as GetObjectRefType tells it, and in how many pushed frames a local one was made. */
typedef struct {
    jobject theirs;
    uint64_t ours;
    int type, frame;
    Sort sort;
    const Kind *kind;
    int length;
} Value;

/* A thread of the machine that is attached to luthrady's room, too. */
typedef struct {
    JNIEnv *theirs;
    struct luthrady_env ours;
    uint64_t chance;
    int frames, differences;
    Value values[VALUES];
} Thread;

typedef void Operation(Thread *);

static jclass object_class, system_class;
static jmethodID collection;
static struct luthrady_room room;
static pthread_mutex_t door = PTHREAD_MUTEX_INITIALIZER;
/* A call is made under a reader's lock, and a collection under a writer's. */
static pthread_rwlock_t collecting = PTHREAD_RWLOCK_INITIALIZER;

static void must(int is_done) {
    if (!is_done) abort();
}

static void differ(Thread *thread, const char *form, ...) __attribute__((format(printf, 2, 3)));

static void differ(Thread *thread, const char *form, ...) {
    va_list list;
    if (++thread->differences > MOST_TOLD) return;
    va_start(list, form);
    vprintf(form, list);
    va_end(list);
    putchar('\n');
}

/* A number from 0 to one less than the end, by xorshift. */
static int draw(Thread *thread, int end) {
    uint64_t it = thread->chance;
    it ^= it << 13;
    it ^= it >> 7;
    it ^= it << 17;
    thread->chance = it;
    return (int)((it >> 20) % (uint64_t)end);
}

/* Luthrady's answer, where it may be refused as the machine does by its exception alone; others are told. */
static int is_refused(Thread *thread, const char *what, struct luthrady_reply reply) {
    int theirs = (*thread->theirs)->ExceptionCheck(thread->theirs);
    (*thread->theirs)->ExceptionClear(thread->theirs);
    if ((reply.fault == 0 || reply.fault == LUTHRADY_FAULT_RANGE) && theirs == (reply.fault != 0)) return theirs;
    differ(thread, "%s: %s by the machine, and E%u by luthrady", what, theirs ? "refused" : "done", reply.fault);
    return 1;
}

static uint64_t made(Thread *thread, const char *what, struct luthrady_reply reply) {
    if (reply.fault != 0) differ(thread, "%s: E%u by luthrady", what, reply.fault);
    return reply.value;
}

/* Another thread may have reserved words meanwhile. */
#define PATIENTLY(reply, call) \
    do reply = call;           \
    while (reply.fault == LUTHRADY_FAULT_RACED)

/* ---- values */

static Value *any(Thread *thread) { return &thread->values[draw(thread, VALUES)]; }

static int is_null(Thread *thread, const Value *value) {
    int theirs = (*thread->theirs)->IsSameObject(thread->theirs, value->theirs, NULL);
    uint64_t ours = made(thread, "is_same_object with NULL", luthrady_is_same_object(&thread->ours, value->ours, 0));
    if ((uint64_t)theirs != ours) differ(thread, "null: %d by the machine, %d by luthrady, of a reference of type %d", theirs, (int)ours, value->type);
    return theirs;
}

/* A value of a sort that isn't null, or NULL where the one that was drawn isn't so. */
static Value *any_of(Thread *thread, Sort sort) {
    Value *found = any(thread);
    return found->sort == sort && !is_null(thread, found) ? found : NULL;
}

/* Deletes both references of a value. */
static void forget(Thread *thread, Value *value) {
    JNIEnv *env = thread->theirs;
    switch (value->type) {
    case LUTHRADY_REF_LOCAL:
        (*env)->DeleteLocalRef(env, value->theirs);
        made(thread, "delete_local_ref", luthrady_delete_local_ref(&thread->ours, value->ours));
        break;
    case LUTHRADY_REF_GLOBAL:
        (*env)->DeleteGlobalRef(env, value->theirs);
        made(thread, "delete_global_ref", luthrady_delete_global_ref(&thread->ours, value->ours));
        break;
    case LUTHRADY_REF_WEAK:
        (*env)->DeleteWeakGlobalRef(env, value->theirs);
        made(thread, "delete_weak_global_ref", luthrady_delete_weak_global_ref(&thread->ours, value->ours));
        break;
    }
    *value = (Value){0};
}

/* Puts a pair in the place of any value of its type, which has places of its own. A local reference of an outer frame is not deleted in an inner one: its place is kept. */
static void keep(Thread *thread, Value value) {
    Value *place = &thread->values[(value.type - 1) * OF_A_TYPE + draw(thread, OF_A_TYPE)];
    if ((value.theirs == NULL) != (value.ours == 0)) differ(thread, "a new reference of type %d is null by one alone", value.type);
    if (value.theirs == NULL) value = (Value){0};
    value.frame = value.type == LUTHRADY_REF_LOCAL ? thread->frames : 0;
    if (place->type == LUTHRADY_REF_LOCAL && place->frame != thread->frames) {
        forget(thread, &value);
        return;
    }
    forget(thread, place);
    *place = value;
}

/* ---- operations */

static void do_plain(Thread *thread) {
    jobject theirs = (*thread->theirs)->AllocObject(thread->theirs, object_class);
    uint64_t ours = made(thread, "new_plain", luthrady_new_plain(&thread->ours));
    keep(thread, (Value){theirs, ours, LUTHRADY_REF_LOCAL, 0, PLAIN, NULL, 0});
}

static void do_numbers(Thread *thread) {
    const Kind *kind = &KINDS[draw(thread, KIND_COUNT)];
    int length = draw(thread, MOST_LENGTH + 1);
    struct luthrady_reply reply;
    jobject theirs = kind->new_theirs(thread->theirs, length);
    PATIENTLY(reply, kind->new_ours(&thread->ours, (uint32_t)length));
    keep(thread, (Value){theirs, made(thread, kind->name, reply), LUTHRADY_REF_LOCAL, 0, NUMBERS, kind, length});
}

static void do_string(Thread *thread) {
    uint16_t units[MOST_LENGTH];
    int length = draw(thread, MOST_LENGTH + 1);
    struct luthrady_reply reply;
    for (int i = 0; i < length; i++) units[i] = (uint16_t)draw(thread, 65536);
    jobject theirs = (*thread->theirs)->NewString(thread->theirs, units, length);
    PATIENTLY(reply, luthrady_new_string(&thread->ours, units, (size_t)length));
    keep(thread, (Value){theirs, made(thread, "new_string", reply), LUTHRADY_REF_LOCAL, 0, STRING, NULL, length});
}

static void do_objects(Thread *thread) {
    Value *initial = any(thread);
    int length = draw(thread, MOST_OBJECTS + 1);
    struct luthrady_reply reply;
    jobject theirs = (*thread->theirs)->NewObjectArray(thread->theirs, length, object_class, initial->theirs);
    PATIENTLY(reply, luthrady_new_object_array(&thread->ours, (uint32_t)length, initial->ours));
    keep(thread, (Value){theirs, made(thread, "new_object_array", reply), LUTHRADY_REF_LOCAL, 0, OBJECTS, NULL, length});
}

static void do_refer(Thread *thread) {
    Value made_of = *any(thread);
    JNIEnv *env = thread->theirs;
    if (made_of.type == 0) return;
    made_of.type = 1 + draw(thread, 3);
    switch (made_of.type) {
    case LUTHRADY_REF_LOCAL:
        made_of.theirs = (*env)->NewLocalRef(env, made_of.theirs);
        made_of.ours = made(thread, "new_local_ref", luthrady_new_local_ref(&thread->ours, made_of.ours));
        break;
    case LUTHRADY_REF_GLOBAL:
        made_of.theirs = (*env)->NewGlobalRef(env, made_of.theirs);
        made_of.ours = made(thread, "new_global_ref", luthrady_new_global_ref(&thread->ours, made_of.ours));
        break;
    default:
        made_of.theirs = (*env)->NewWeakGlobalRef(env, made_of.theirs);
        made_of.ours = made(thread, "new_weak_global_ref", luthrady_new_weak_global_ref(&thread->ours, made_of.ours));
    }
    keep(thread, made_of);
}

static void do_forget(Thread *thread) {
    Value *value = any(thread);
    if (value->type != LUTHRADY_REF_LOCAL || value->frame == thread->frames) forget(thread, value);
}

static void do_same(Thread *thread) {
    Value *left = any(thread), *right = any(thread);
    int theirs = (*thread->theirs)->IsSameObject(thread->theirs, left->theirs, right->theirs);
    uint64_t ours = made(thread, "is_same_object", luthrady_is_same_object(&thread->ours, left->ours, right->ours));
    if ((uint64_t)theirs != ours) differ(thread, "same: %d by the machine, %d by luthrady", theirs, (int)ours);
}

static void do_type(Thread *thread) {
    Value *value = any(thread);
    int theirs = (int)(*thread->theirs)->GetObjectRefType(thread->theirs, value->theirs);
    uint64_t ours = made(thread, "get_object_ref_type", luthrady_get_object_ref_type(&thread->ours, value->ours));
    if ((uint64_t)theirs != ours || theirs != value->type) differ(thread, "type: %d by the machine, %d by luthrady, of one of type %d", theirs, (int)ours, value->type);
}

static void do_length(Thread *thread) {
    Value *value = any_of(thread, 1 + draw(thread, NUMBERS));
    if (value == NULL || value->sort == PLAIN) return;
    int is_string = value->sort == STRING;
    int theirs = is_string ? (*thread->theirs)->GetStringLength(thread->theirs, value->theirs) : (*thread->theirs)->GetArrayLength(thread->theirs, value->theirs);
    uint64_t ours = made(thread, "a length", is_string ? luthrady_get_string_length(&thread->ours, value->ours) : luthrady_get_array_length(&thread->ours, value->ours));
    if ((uint64_t)theirs != ours || theirs != value->length) differ(thread, "length: %d by the machine, %d by luthrady, of one of %d", theirs, (int)ours, value->length);
}

/* Fills elements that are written, or what a read overwrites. */
static void fill(Thread *thread, const Kind *kind, unsigned char bytes[MOST_BYTES]) {
    for (int i = 0; i < MOST_BYTES; i++) bytes[i] = (unsigned char)draw(thread, kind == KINDS ? 2 : 256);
}

/* A part that may lie outside: its first element, and how many there are. */
static void draw_part(Thread *thread, const Value *array, int *start, int *count) {
    *start = draw(thread, array->length + 2);
    *count = draw(thread, 4) == 0 ? draw(thread, array->length + 3) : draw(thread, array->length - *start > 0 ? array->length - *start + 1 : 1);
}

static void do_set_part(Thread *thread) {
    unsigned char bytes[MOST_BYTES];
    int start, count;
    Value *array = any_of(thread, NUMBERS);
    if (array == NULL) return;
    fill(thread, array->kind, bytes);
    draw_part(thread, array, &start, &count);
    array->kind->set_theirs(thread->theirs, array->theirs, start, count, bytes);
    is_refused(thread, "set part", array->kind->set_ours(&thread->ours, array->ours, (uint32_t)start, bytes, (size_t)count));
}

static void do_get_part(Thread *thread) {
    unsigned char theirs[MOST_BYTES], ours[MOST_BYTES];
    int start, count;
    Value *array = any_of(thread, NUMBERS);
    if (array == NULL) return;
    fill(thread, array->kind, theirs);
    memcpy(ours, theirs, sizeof ours);
    draw_part(thread, array, &start, &count);
    array->kind->get_theirs(thread->theirs, array->theirs, start, count, theirs);
    is_refused(thread, "get part", array->kind->get_ours(&thread->ours, array->ours, (uint32_t)start, ours, (size_t)count));
    if (memcmp(theirs, ours, sizeof ours) != 0) differ(thread, "%d elements of %s[%d] from %d on are others", count, array->kind->name, array->length, start);
}

static void do_set_element(Thread *thread) {
    Value *array = any_of(thread, OBJECTS), *value = any(thread);
    if (array == NULL) return;
    int index = draw(thread, array->length + 2);
    (*thread->theirs)->SetObjectArrayElement(thread->theirs, array->theirs, index, value->theirs);
    is_refused(thread, "set element", luthrady_set_object_array_element(&thread->ours, array->ours, (uint32_t)index, value->ours));
}

/* What an element names is told by the same element read again, since no reference has its sort. */
static void do_get_element(Thread *thread) {
    Value *array = any_of(thread, OBJECTS), *other = any(thread);
    if (array == NULL) return;
    int index = draw(thread, array->length + 2);
    jobject theirs = (*thread->theirs)->GetObjectArrayElement(thread->theirs, array->theirs, index);
    struct luthrady_reply reply = luthrady_get_object_array_element(&thread->ours, array->ours, (uint32_t)index);
    if (is_refused(thread, "get element", reply)) return;
    Value found = {.theirs = theirs, .ours = reply.value, .type = theirs == NULL ? 0 : LUTHRADY_REF_LOCAL};
    if ((theirs == NULL) != (reply.value == 0)) differ(thread, "an element is null by one alone");
    int is_theirs = (*thread->theirs)->IsSameObject(thread->theirs, theirs, other->theirs);
    if ((uint64_t)is_theirs != made(thread, "is_same_object", luthrady_is_same_object(&thread->ours, reply.value, other->ours))) differ(thread, "an element is another value's object by one alone");
    forget(thread, &found);
}

static void do_push(Thread *thread) {
    if (thread->frames == MOST_FRAMES) return;
    must((*thread->theirs)->PushLocalFrame(thread->theirs, VALUES) == JNI_OK);
    made(thread, "push_local_frame", luthrady_push_local_frame(&thread->ours, VALUES));
    thread->frames++;
}

static void do_pop(Thread *thread) {
    if (thread->frames == 0) return;
    Value result = *any(thread);
    result.theirs = (*thread->theirs)->PopLocalFrame(thread->theirs, result.theirs);
    result.ours = made(thread, "pop_local_frame", luthrady_pop_local_frame(&thread->ours, result.ours));
    result.type = LUTHRADY_REF_LOCAL;
    for (int i = 0; i < VALUES; i++)
        if (thread->values[i].type == LUTHRADY_REF_LOCAL && thread->values[i].frame == thread->frames) thread->values[i] = (Value){0};
    thread->frames--;
    keep(thread, result);
}

/* The type and the length of one value, in one stay. */
static void do_batch(Thread *thread) {
    Value *value = any_of(thread, NUMBERS);
    if (value == NULL) return;
    struct luthrady_batch_call calls[] = {{.operation = LUTHRADY_GET_OBJECT_REF_TYPE, .first = value->ours}, {.operation = LUTHRADY_GET_ARRAY_LENGTH, .first = value->ours}};
    made(thread, "batch", luthrady_batch(&thread->ours, calls, 2));
    if (calls[0].reply.value != (uint64_t)(*thread->theirs)->GetObjectRefType(thread->theirs, value->theirs)) differ(thread, "a batch has another type");
    if (calls[1].reply.value != (uint64_t)(*thread->theirs)->GetArrayLength(thread->theirs, value->theirs)) differ(thread, "a batch has another length");
}

/* Both machines collect, and each weak reference is cleared by both or by none. The caller has the writer's lock. */
static void do_collect(Thread *thread) {
    struct luthrady_counts counts;
    (*thread->theirs)->CallStaticVoidMethod(thread->theirs, system_class, collection);
    made(thread, "collect", luthrady_collect(&thread->ours, &counts));
    for (int i = 0; i < VALUES; i++) is_null(thread, &thread->values[i]);
}

static const struct {
    const char *name;
    Operation *make;
} OPERATIONS[] = {
    {"plain", do_plain}, {"numbers", do_numbers}, {"string", do_string}, {"objects", do_objects}, {"refer", do_refer}, {"refer", do_refer}, {"forget", do_forget},
    {"same", do_same}, {"type", do_type}, {"length", do_length}, {"set part", do_set_part}, {"get part", do_get_part},
    {"set part", do_set_part}, {"get part", do_get_part}, {"set element", do_set_element}, {"get element", do_get_element},
    {"push", do_push}, {"pop", do_pop}, {"batch", do_batch},
};
enum { OPERATION_COUNT = sizeof OPERATIONS / sizeof *OPERATIONS };

/* ---- threads */

static void operate(Thread *thread, int number) {
    int is_collection = number % OPERATIONS_PER_COLLECTION == OPERATIONS_PER_COLLECTION - 1;
    must((is_collection ? pthread_rwlock_wrlock : pthread_rwlock_rdlock)(&collecting) == 0);
    (is_collection ? do_collect : OPERATIONS[draw(thread, OPERATION_COUNT)].make)(thread);
    must(pthread_rwlock_unlock(&collecting) == 0);
}

static void enter(Thread *thread) {
    must(pthread_mutex_lock(&door) == 0);
    must(luthrady_attach(&room, &thread->ours.at).fault == 0);
    must(pthread_mutex_unlock(&door) == 0);
}

static void leave(Thread *thread) {
    struct luthrady_stood stood;
    must(pthread_rwlock_rdlock(&collecting) == 0);
    while (thread->frames > 0) do_pop(thread);
    for (int i = 0; i < VALUES; i++) forget(thread, &thread->values[i]);
    must(pthread_mutex_lock(&door) == 0);
    made(thread, "detach", luthrady_detach(&room, &thread->ours, &stood));
    must(pthread_mutex_unlock(&door) == 0);
    must(pthread_rwlock_unlock(&collecting) == 0);
    made(thread, "free_env", luthrady_free_env(&thread->ours));
}

JNIEXPORT jint JNICALL Java_Beside_run(JNIEnv *env, jclass class, jint number, jint operations, jint seed) {
    Thread thread = {.theirs = env, .chance = 0x9e3779b97f4a7c15u * ((uint64_t)seed * LUTHRADY_MOST_THREADS + (uint64_t)number + 1)};
    (void)class;
    enter(&thread);
    for (int at = 0; at < operations && thread.differences < MOST_TOLD; at++) operate(&thread, at);
    leave(&thread);
    return thread.differences;
}

JNIEXPORT jint JNICALL Java_Beside_end(JNIEnv *env, jclass class) {
    Thread last = {.theirs = env};
    struct luthrady_stood stood;
    struct luthrady_counts counts;
    (void)class;
    enter(&last);
    made(&last, "collect", luthrady_collect(&last.ours, &counts));
    made(&last, "release", luthrady_release(&room));
    if (made(&last, "detach", luthrady_detach(&room, &last.ours, &stood)) != 1) differ(&last, "the last detach closes no room");
    if (stood.globals + stood.weaks + stood.live + stood.used != 0) differ(&last, "something stands once all was deleted");
    made(&last, "free_env", luthrady_free_env(&last.ours));
    made(&last, "free_room", luthrady_free_room(&room));
    return last.differences;
}

JNIEXPORT jint JNICALL JNI_OnLoad(JavaVM *machine, void *reserved) {
    struct luthrady_sizes sizes = {.threads = LUTHRADY_MOST_THREADS, .slots = 4096, .objects = LUTHRADY_MOST_OBJECTS, .words = LUTHRADY_MOST_WORDS, .locals = 1024};
    JNIEnv *env;
    (void)reserved;
    must((*machine)->GetEnv(machine, (void **)&env, JNI_VERSION_10) == JNI_OK);
    object_class = (*env)->NewGlobalRef(env, (*env)->FindClass(env, "java/lang/Object"));
    system_class = (*env)->NewGlobalRef(env, (*env)->FindClass(env, "java/lang/System"));
    must(object_class != NULL && system_class != NULL);
    collection = (*env)->GetStaticMethodID(env, system_class, "gc", "()V");
    must(collection != NULL && luthrady_open(sizes, &room.at).fault == 0);
    return JNI_VERSION_10;
}
