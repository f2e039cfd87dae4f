/* What a Java machine answers where a native method uses a handle that is no more, or that is none. The JNI Specification asks nothing of the machine then: each thing is done in a process of its own, which it may end. The numbers are those of the lines of `handles`. */

#include <jni.h>
#include <pthread.h>
#include <stdio.h>
#include <stdlib.h>

/* Something that is done with handles. */
typedef void Act(JNIEnv *);

/* Two objects, by local references. */
static jobject object, other;
static JavaVM *machine;

/* References to the object that another thread uses: a local one of this thread, and a global one. */
static jobject shared_local, shared_global;

/* Prints what was answered, at once, since the process may end with the next call. */
static void say(const char *what) {
    printf("answer %s\n", what);
    fflush(stdout);
}

static void type_of(JNIEnv *env, jobject handle) {
    static const char *const types[] = {"type 0", "type 1", "type 2", "type 3"};
    say(types[(*env)->GetObjectRefType(env, handle) & 3]);
}

static void compare(JNIEnv *env, jobject one, jobject another) {
    say((*env)->IsSameObject(env, one, another) ? "same" : "not same");
}

static void delete_global(JNIEnv *env, jobject handle) {
    (*env)->DeleteGlobalRef(env, handle);
    say("deletes");
}

/* A global reference to the object that is deleted. */
static jobject deleted(JNIEnv *env) {
    jobject global = (*env)->NewGlobalRef(env, object);
    (*env)->DeleteGlobalRef(env, global);
    return global;
}

/* The next global reference, to the other object, which has the word of a deleted reference to the object: that is `*old`. */
static jobject given_again(JNIEnv *env, jobject *old) {
    *old = deleted(env);
    jobject global = (*env)->NewGlobalRef(env, other);
    if (global == *old) return global;
    say("another word");
    exit(0);
}

static void type_of_deleted(JNIEnv *env) { type_of(env, deleted(env)); }

static void deleted_is_same(JNIEnv *env) { compare(env, deleted(env), object); }

static void length_of_deleted(JNIEnv *env) {
    object = (*env)->NewIntArray(env, 3);
    say((*env)->GetArrayLength(env, deleted(env)) == 3 ? "length 3" : "another length");
}

static void type_of_given_again(JNIEnv *env) {
    jobject old;
    given_again(env, &old);
    type_of(env, old);
}

static void given_again_is_same(JNIEnv *env) {
    jobject old;
    given_again(env, &old);
    compare(env, old, other);
}

static void given_again_is_deleted(JNIEnv *env) {
    jobject old, global = given_again(env, &old);
    delete_global(env, old);
    type_of(env, global);
}

static void deleted_twice(JNIEnv *env) {
    jobject global = deleted(env);
    delete_global(env, global);
    type_of(env, global);
}

/* Does in a thread of its own what it is handed. */
static void *in_thread(void *act) {
    JNIEnv *env;
    if ((*machine)->AttachCurrentThread(machine, (void **)&env, NULL) != JNI_OK) abort();
    (*(Act **)act)(env);
    (*machine)->DetachCurrentThread(machine);
    return NULL;
}

/* Lets another thread do something, and waits for its end, while the local references of this one stand. */
static void beside(JNIEnv *env, Act *act) {
    pthread_t thread;
    shared_local = object;
    shared_global = (*env)->NewGlobalRef(env, object);
    if (pthread_create(&thread, NULL, in_thread, &act) != 0) abort();
    pthread_join(thread, NULL);
}

static void compare_shared(JNIEnv *env) { compare(env, shared_local, shared_global); }

static void type_shared(JNIEnv *env) { type_of(env, shared_local); }

static void foreign_is_same(JNIEnv *env) { beside(env, compare_shared); }

static void type_of_foreign(JNIEnv *env) { beside(env, type_shared); }

static void popped_is_same(JNIEnv *env) {
    (*env)->PushLocalFrame(env, 1);
    jobject local = (*env)->NewLocalRef(env, object);
    (*env)->PopLocalFrame(env, NULL);
    (*env)->PushLocalFrame(env, 1);
    (*env)->NewLocalRef(env, other);
    compare(env, local, other);
}

static void weak_is_deleted_as_global(JNIEnv *env) {
    jweak weak = (*env)->NewWeakGlobalRef(env, object);
    delete_global(env, weak);
    type_of(env, weak);
}

static void global_is_deleted_as_local(JNIEnv *env) {
    jobject global = (*env)->NewGlobalRef(env, object);
    (*env)->DeleteLocalRef(env, global);
    say("deletes");
    compare(env, global, object);
}

static void word_is_same(JNIEnv *env) { compare(env, (jobject)0x1234560, object); }

static Act *const ACTS[] = {
    type_of_deleted, deleted_is_same, length_of_deleted, type_of_given_again, given_again_is_same, given_again_is_deleted, deleted_twice,
    foreign_is_same, type_of_foreign, popped_is_same, weak_is_deleted_as_global, global_is_deleted_as_local, word_is_same,
};

JNIEXPORT void JNICALL Java_Handles_act(JNIEnv *env, jclass class, jint number) {
    (void)class;
    if (number < 0 || number >= (jint)(sizeof ACTS / sizeof *ACTS)) abort();
    jclass of_objects = (*env)->FindClass(env, "java/lang/Object");
    object = (*env)->AllocObject(env, of_objects);
    other = (*env)->AllocObject(env, of_objects);
    (*env)->GetJavaVM(env, &machine);
    ACTS[number](env);
}
