/* Runs a script of docs/SCRIPTS.md by a Java machine's own JNI functions, and prints what they answer, in the form of `jrefs run`. It is handed scripts alone whose calls the JNI Specification defines, as `same` tells them, and refuses nothing itself but an index that the machine refuses by its exception (E7). Each thread of the script is a native thread that attaches itself.
   What no JNI function tells is told by weak references of its own: which objects stand, and how many elements they have. */

#include <jni.h>
#include <pthread.h>
#include <stdio.h>
#include <stdlib.h>
#include <string.h>

enum { MOST_BYTES = 65536, MOST_THREADS = 64, MOST_LINES = 4096, MOST_LEVELS = 16, MOST_UNITS = 64, MOST_WORDS = MOST_UNITS + 2, NAMES_OF_A_LINE = 3 };

/* A kind of elements: its functions in JNI's table, and how an element is read and written in C. */
typedef struct {
    const char *verb, *class_name;
    jarray (*make)(JNIEnv *, jsize);
    void *(*copy)(JNIEnv *, jarray);
    void (*release)(JNIEnv *, jarray, void *, jint);
    jlong (*load)(JNIEnv *, jarray, jsize);
    void (*store)(JNIEnv *, jarray, jsize, jlong);
    jlong (*read)(const void *, jsize);
    void (*write)(void *, jsize, jlong);
} Kind;

#define KIND(NAME, TYPE)                                                                                                                                                               \
    static jarray make_##TYPE(JNIEnv *env, jsize length) { return (*env)->New##NAME##Array(env, length); }                                                                             \
    static void *copy_##TYPE(JNIEnv *env, jarray array) { return (*env)->Get##NAME##ArrayElements(env, array, NULL); }                                                                 \
    static void release_##TYPE(JNIEnv *env, jarray array, void *elements, jint mode) { (*env)->Release##NAME##ArrayElements(env, array, elements, mode); }                             \
    static jlong load_##TYPE(JNIEnv *env, jarray array, jsize at) {                                                                                                                    \
        TYPE element = 0;                                                                                                                                                              \
        (*env)->Get##NAME##ArrayRegion(env, array, at, 1, &element);                                                                                                                   \
        return element;                                                                                                                                                                \
    }                                                                                                                                                                                  \
    static void store_##TYPE(JNIEnv *env, jarray array, jsize at, jlong value) { (*env)->Set##NAME##ArrayRegion(env, array, at, 1, &(TYPE){(TYPE)value}); }                            \
    static jlong read_##TYPE(const void *elements, jsize at) { return ((const TYPE *)elements)[at]; }                                                                                  \
    static void write_##TYPE(void *elements, jsize at, jlong value) { ((TYPE *)elements)[at] = (TYPE)value; }

KIND(Boolean, jboolean)
KIND(Byte, jbyte)
KIND(Char, jchar)
KIND(Short, jshort)
KIND(Int, jint)
KIND(Long, jlong)

#define ROW(VERB, CLASS, TYPE) {VERB, CLASS, make_##TYPE, copy_##TYPE, release_##TYPE, load_##TYPE, store_##TYPE, read_##TYPE, write_##TYPE}
static const Kind KINDS[] = {
    ROW("boolean", "[Z", jboolean), ROW("byte", "[B", jbyte), ROW("char", "[C", jchar), ROW("short", "[S", jshort), ROW("int", "[I", jint), ROW("long", "[J", jlong),
};
enum { CHAR = 2, KIND_COUNT = sizeof KINDS / sizeof *KINDS };

/* What a name stands for: nothing, a reference, by the number that GetObjectRefType answers, elements that were copied, or a level at a string or an array. */
typedef enum { NOTHING, LOCAL, GLOBAL, WEAK, COPY, STRING_LEVEL, ARRAY_LEVEL } Sort;

/* A reference (of a copy, a weak one to its array), the kind of the numbers of its object, where it has any, and the elements of a copy or a level. */
typedef struct {
    Sort sort;
    jobject reference;
    const Kind *kind;
    void *elements;
} Value;

typedef struct {
    const char *name;
    Value value;
} Named;

/* A thread of the script: the number of its first line, its lines, its names, the levels of its region, and what it prints. */
typedef struct {
    pthread_t id;
    JNIEnv *env;
    const char *name;
    int line, line_count, name_count, level_count;
    char **lines;
    Named *names, levels[MOST_LEVELS];
    FILE *out;
    char *text;
    size_t size;
} Thread;

/* References that stand, and whether each was cleared when it was last looked at. */
typedef struct {
    jobject its[MOST_LINES];
    int is_cleared[MOST_LINES], count;
} List;

static JavaVM *machine;
static jclass object_class, objects_class, string_class, system_class, index_class, kind_classes[KIND_COUNT];
static jmethodID collection;

/* What the threads of a script share, behind one lock: weak references to the objects that were made, the global and weak ones that stand, and what was posted. */
static pthread_mutex_t lock = PTHREAD_MUTEX_INITIALIZER;
static pthread_cond_t was_posted = PTHREAD_COND_INITIALIZER;
static List objects, globals, weaks;
static Named board[MOST_LINES];
static int posts;

/* Ends the process where something wasn't done. */
static void must(int is_done) {
    if (!is_done) abort();
}

/* Adds a reference that was made. */
static void add(List *to, jobject reference) {
    pthread_mutex_lock(&lock);
    to->its[to->count] = reference;
    to->is_cleared[to->count++] = 0;
    pthread_mutex_unlock(&lock);
}

/* Takes away a reference that is deleted. */
static void take(List *from, jobject reference) {
    pthread_mutex_lock(&lock);
    int at = 0;
    while (from->its[at] != reference) at++;
    from->its[at] = from->its[--from->count];
    from->is_cleared[at] = from->is_cleared[from->count];
    pthread_mutex_unlock(&lock);
}

/* The place of a name, which is made where it isn't there. */
static Value *place(Thread *thread, const char *name) {
    int at = 0;
    while (at < thread->name_count && strcmp(thread->names[at].name, name) != 0) at++;
    if (at == thread->name_count) thread->names[thread->name_count++] = (Named){.name = name};
    return &thread->names[at].value;
}

/* What a word of a command says: NULL, or what a name stands for. */
static Value value(Thread *thread, const char *word) { return strcmp(word, "null") == 0 ? (Value){0} : *place(thread, word); }
static jobject named(Thread *thread, const char *word) { return value(thread, word).reference; }

/* The kind of the numbers of an array, as the machine tells it; NULL for what is none. */
static const Kind *kind_of(JNIEnv *env, jobject reference) {
    for (int at = 0; at < KIND_COUNT; at++) {
        if ((*env)->IsInstanceOf(env, reference, kind_classes[at])) return &KINDS[at];
    }
    return NULL;
}

/* Frees a copy, and doesn't write it back. Where its array was dropped, no call can free it. */
static void free_copy(JNIEnv *env, Value copy) {
    jobject array = (*env)->NewLocalRef(env, copy.reference);
    if (array != NULL) copy.kind->release(env, array, copy.elements, JNI_ABORT);
    (*env)->DeleteLocalRef(env, array);
    (*env)->DeleteWeakGlobalRef(env, copy.reference);
}

/* Has a name stand for something else. */
static void name_it(Thread *thread, const char *name, Value given) {
    Value *at = place(thread, name), old = *at;
    *at = given;
    if (old.sort == COPY) free_copy(thread->env, old);
}

/* Names what a command answered, and tells of NULL. */
static void name_reference(Thread *thread, char **words, Sort sort, jobject reference) {
    if (reference == NULL) fprintf(thread->out, "%s %s null\n", words[0], words[1]);
    if (reference != NULL && sort != LOCAL) add(sort == WEAK ? &weaks : &globals, reference);
    name_it(thread, words[1], reference == NULL ? (Value){0} : (Value){sort, reference, kind_of(thread->env, reference), NULL});
}

/* Names an object that was made. */
static void name_object(Thread *thread, char **words, jobject made) {
    add(&objects, (*thread->env)->NewWeakGlobalRef(thread->env, made));
    name_reference(thread, words, LOCAL, made);
}

/* Whether the machine refused an index by its exception, which is told and taken away. */
static int is_refused(Thread *thread, JNIEnv *env) {
    jthrowable thrown = (*env)->ExceptionOccurred(env);
    if (thrown == NULL) return 0;
    (*env)->ExceptionClear(env);
    fprintf(thread->out, "%d ! %s\n", thread->line, (*env)->IsInstanceOf(env, thrown, index_class) ? "E7" : "another exception");
    (*env)->DeleteLocalRef(env, thrown);
    return 1;
}

/* ---- commands: each is handed its words, from its verb on */

typedef void Command(Thread *, JNIEnv *, char **);

static void do_plain(Thread *thread, JNIEnv *env, char **words) { name_object(thread, words, (*env)->AllocObject(env, object_class)); }

static void do_array(Thread *thread, JNIEnv *env, char **words) {
    const Kind *kind = KINDS;
    while (strcmp(kind->verb, words[0]) != 0) kind++;
    name_object(thread, words, kind->make(env, atoi(words[2])));
}

static void do_objs(Thread *thread, JNIEnv *env, char **words) {
    jobject initial = named(thread, words[3]);
    name_object(thread, words, (*env)->NewObjectArray(env, atoi(words[2]), object_class, initial));
}

static void do_string(Thread *thread, JNIEnv *env, char **words) {
    jchar units[MOST_UNITS];
    jsize length = 0;
    for (; words[2 + length] != NULL; length++) units[length] = (jchar)atoi(words[2 + length]);
    name_object(thread, words, (*env)->NewString(env, units, length));
}

static void do_len(Thread *thread, JNIEnv *env, char **words) { fprintf(thread->out, "len %s %d\n", words[1], (*env)->GetArrayLength(env, named(thread, words[1]))); }
static void do_slen(Thread *thread, JNIEnv *env, char **words) { fprintf(thread->out, "slen %s %d\n", words[1], (*env)->GetStringLength(env, named(thread, words[1]))); }

static void do_chars(Thread *thread, JNIEnv *env, char **words) {
    jstring string = named(thread, words[1]);
    jsize length = (*env)->GetStringLength(env, string);
    const jchar *units = (*env)->GetStringChars(env, string, NULL);
    fprintf(thread->out, "chars %s", words[1]);
    for (jsize at = 0; at < length; at++) fprintf(thread->out, " %d", units[at]);
    fprintf(thread->out, "\n");
    (*env)->ReleaseStringChars(env, string, units);
}

static void do_get(Thread *thread, JNIEnv *env, char **words) {
    jobject found = (*env)->GetObjectArrayElement(env, named(thread, words[2]), atoi(words[3]));
    if (!is_refused(thread, env)) name_reference(thread, words, LOCAL, found);
}

static void do_set(Thread *thread, JNIEnv *env, char **words) {
    (*env)->SetObjectArrayElement(env, named(thread, words[1]), atoi(words[2]), named(thread, words[3]));
    is_refused(thread, env);
}

static void do_load(Thread *thread, JNIEnv *env, char **words) {
    jobject array = named(thread, words[1]);
    jlong found = kind_of(env, array)->load(env, array, atoi(words[2]));
    if (!is_refused(thread, env)) fprintf(thread->out, "load %s %s %lld\n", words[1], words[2], (long long)found);
}

static void do_store(Thread *thread, JNIEnv *env, char **words) {
    jobject array = named(thread, words[1]);
    kind_of(env, array)->store(env, array, atoi(words[2]), atoll(words[3]));
    is_refused(thread, env);
}

static void do_elems(Thread *thread, JNIEnv *env, char **words) {
    jobject array = named(thread, words[2]);
    const Kind *kind = kind_of(env, array);
    name_it(thread, words[1], (Value){COPY, (*env)->NewWeakGlobalRef(env, array), kind, kind->copy(env, array)});
}

/* The elements that the name of `eget` or `cget` and their like stands for: of a copy, or of the newest level of that name. */
static Value elements_of(Thread *thread, char **words) {
    if (words[0][0] == 'e') return value(thread, words[1]);
    int at = thread->level_count - 1;
    while (strcmp(thread->levels[at].name, words[1]) != 0) at--;
    return thread->levels[at].value;
}

static void do_read(Thread *thread, JNIEnv *env, char **words) {
    Value of = elements_of(thread, words);
    (void)env;
    fprintf(thread->out, "%s %s %s %lld\n", words[0], words[1], words[2], (long long)of.kind->read(of.elements, atoi(words[2])));
}

static void do_write(Thread *thread, JNIEnv *env, char **words) {
    Value of = elements_of(thread, words);
    (void)env;
    of.kind->write(of.elements, atoi(words[2]), atoll(words[3]));
}

static jint mode_of(const char *word) { return strcmp(word, "copy") == 0 ? 0 : strcmp(word, "commit") == 0 ? JNI_COMMIT : JNI_ABORT; }

static void do_release(Thread *thread, JNIEnv *env, char **words) {
    Value *copy = place(thread, words[1]);
    jint mode = mode_of(words[3]);
    copy->kind->release(env, named(thread, words[2]), copy->elements, mode);
    if (mode == JNI_COMMIT) return;
    (*env)->DeleteWeakGlobalRef(env, copy->reference);
    *copy = (Value){0};
}

/* Opens a level. In a region no JNI function may be called but these: the kind is the one that the machine told when the name was set. */
static void open_level(Thread *thread, const char *name, Sort sort, Value at, const void *elements) {
    thread->levels[thread->level_count++] = (Named){name, {sort, at.reference, at.kind, (void *)elements}};
}

static void do_crit(Thread *thread, JNIEnv *env, char **words) {
    Value at = value(thread, words[2]);
    open_level(thread, words[1], ARRAY_LEVEL, at, (*env)->GetPrimitiveArrayCritical(env, at.reference, NULL));
}

static void do_critstr(Thread *thread, JNIEnv *env, char **words) {
    Value at = {.reference = named(thread, words[2]), .kind = &KINDS[CHAR]};
    open_level(thread, words[1], STRING_LEVEL, at, (*env)->GetStringCritical(env, at.reference, NULL));
}

static void end_level(Thread *thread, JNIEnv *env, jint mode) {
    Value last = thread->levels[--thread->level_count].value;
    if (last.sort == STRING_LEVEL) {
        (*env)->ReleaseStringCritical(env, last.reference, last.elements);
    } else {
        (*env)->ReleasePrimitiveArrayCritical(env, last.reference, last.elements, mode);
    }
}

static void do_endcrit(Thread *thread, JNIEnv *env, char **words) { end_level(thread, env, mode_of(words[1])); }
static void do_global(Thread *thread, JNIEnv *env, char **words) { name_reference(thread, words, GLOBAL, (*env)->NewGlobalRef(env, named(thread, words[2]))); }
static void do_weak(Thread *thread, JNIEnv *env, char **words) { name_reference(thread, words, WEAK, (*env)->NewWeakGlobalRef(env, named(thread, words[2]))); }
static void do_local(Thread *thread, JNIEnv *env, char **words) { name_reference(thread, words, LOCAL, (*env)->NewLocalRef(env, named(thread, words[2]))); }
static void do_pop(Thread *thread, JNIEnv *env, char **words) { name_reference(thread, words, LOCAL, (*env)->PopLocalFrame(env, named(thread, words[2]))); }

static void do_push(Thread *thread, JNIEnv *env, char **words) { (void)thread, must((*env)->PushLocalFrame(env, atoi(words[1])) == JNI_OK); }
static void do_ensure(Thread *thread, JNIEnv *env, char **words) { (void)thread, must((*env)->EnsureLocalCapacity(env, atoi(words[1])) == JNI_OK); }

static void do_drop(Thread *thread, JNIEnv *env, char **words) {
    Value old = value(thread, words[1]);
    if (old.sort == GLOBAL) {
        take(&globals, old.reference);
        (*env)->DeleteGlobalRef(env, old.reference);
    } else if (old.sort == WEAK) {
        take(&weaks, old.reference);
        (*env)->DeleteWeakGlobalRef(env, old.reference);
    } else {
        (*env)->DeleteLocalRef(env, old.reference);
    }
}

static void do_type(Thread *thread, JNIEnv *env, char **words) {
    jobjectRefType type = (*env)->GetObjectRefType(env, named(thread, words[1]));
    fprintf(thread->out, "type %s %d\n", words[1], type);
}

static void do_same(Thread *thread, JNIEnv *env, char **words) {
    jobject left = named(thread, words[1]), right = named(thread, words[2]);
    fprintf(thread->out, "same %s %s %s\n", words[1], words[2], (*env)->IsSameObject(env, left, right) ? "true" : "false");
}

/* Finds which references were cleared since they were last looked at. Returns how many. */
static int count_cleared(JNIEnv *env, List *all) {
    int cleared = 0;
    for (int at = 0; at < all->count; at++) {
        int was_cleared = all->is_cleared[at];
        all->is_cleared[at] = (*env)->IsSameObject(env, all->its[at], NULL);
        cleared += all->is_cleared[at] && !was_cleared;
    }
    return cleared;
}

/* How many words an object takes: an array's length, or a string's. */
static jsize words_of(JNIEnv *env, jobject object) {
    if ((*env)->IsInstanceOf(env, object, string_class)) return (*env)->GetStringLength(env, object);
    return (*env)->IsInstanceOf(env, object, objects_class) || kind_of(env, object) != NULL ? (*env)->GetArrayLength(env, object) : 0;
}

/* How many words the objects that stand take, and how many those are. */
static long count_words(JNIEnv *env, int *live) {
    long sum = 0;
    for (int at = *live = 0; at < objects.count; at++) {
        jobject object = (*env)->NewLocalRef(env, objects.its[at]);
        if (object != NULL) sum += words_of(env, object);
        *live += object != NULL;
        (*env)->DeleteLocalRef(env, object);
    }
    return sum;
}

/* Has the machine collect. Returns whether it did. */
static int collect(JNIEnv *env) {
    (*env)->CallStaticVoidMethod(env, system_class, collection);
    return !(*env)->ExceptionCheck(env);
}

static void do_gc(Thread *thread, JNIEnv *env, char **words) {
    int live;
    (void)words;
    pthread_mutex_lock(&lock);
    must(collect(env));
    int cleared = count_cleared(env, &weaks), dropped = count_cleared(env, &objects);
    fprintf(thread->out, "gc cleared %d dropped %d used %ld\n", cleared, dropped, count_words(env, &live));
    pthread_mutex_unlock(&lock);
}

static void do_post(Thread *thread, JNIEnv *env, char **words) {
    Value posted = value(thread, words[1]);
    (void)env;
    pthread_mutex_lock(&lock);
    board[posts++] = (Named){words[1], posted.sort == COPY ? (Value){0} : posted};
    pthread_cond_broadcast(&was_posted);
    pthread_mutex_unlock(&lock);
}

static void do_wait(Thread *thread, JNIEnv *env, char **words) {
    (void)env;
    pthread_mutex_lock(&lock);
    int at = 0;
    while (at == posts || strcmp(board[at].name, words[1]) != 0) {
        if (at < posts) {
            at++;
        } else {
            pthread_cond_wait(&was_posted, &lock);
        }
    }
    Value posted = board[at].value;
    pthread_mutex_unlock(&lock);
    name_it(thread, words[1], posted);
}

static const struct {
    const char *verb;
    Command *act;
} COMMANDS[] = {
    {"plain", do_plain}, {"boolean", do_array}, {"byte", do_array}, {"char", do_array}, {"short", do_array}, {"int", do_array}, {"long", do_array},
    {"objs", do_objs}, {"string", do_string}, {"len", do_len}, {"slen", do_slen}, {"chars", do_chars}, {"get", do_get}, {"set", do_set},
    {"load", do_load}, {"store", do_store}, {"elems", do_elems}, {"eget", do_read}, {"eput", do_write}, {"release", do_release}, {"crit", do_crit},
    {"critstr", do_critstr}, {"cget", do_read}, {"cset", do_write}, {"endcrit", do_endcrit}, {"global", do_global}, {"weak", do_weak},
    {"local", do_local}, {"pop", do_pop}, {"push", do_push}, {"ensure", do_ensure}, {"drop", do_drop}, {"type", do_type}, {"same", do_same},
    {"gc", do_gc}, {"gcann", do_gc}, {"post", do_post}, {"wait", do_wait},
};

/* ---- threads and scripts */

/* Does a line. Its words stand until the script's end, since names are in it. */
static void act(Thread *thread, char *line) {
    char *words[MOST_WORDS + 1] = {0};
    for (int at = 0; line != NULL; at++) words[at] = strsep(&line, " ");
    int at = 0;
    while (strcmp(COMMANDS[at].verb, words[0]) != 0) at++;
    COMMANDS[at].act(thread, thread->env, words);
}

/* Runs a thread's part, and frees what it leaves but its local references, which end with it. */
static void *run_part(void *of) {
    Thread *thread = of;
    must((*machine)->AttachCurrentThread(machine, (void **)&thread->env, NULL) == JNI_OK);
    for (int at = 0; at < thread->line_count; at++, thread->line++) act(thread, thread->lines[at]);
    while (thread->level_count > 0) end_level(thread, thread->env, 0);
    for (int at = 0; at < thread->name_count; at++) {
        if (thread->names[at].value.sort == COPY) free_copy(thread->env, thread->names[at].value);
    }
    (*machine)->DetachCurrentThread(machine);
    return NULL;
}

/* Splits a text into the parts of its threads. Returns how many there are. */
static int split(char *text, Thread *threads) {
    static char *lines[MOST_LINES];
    static Named names[MOST_LINES * NAMES_OF_A_LINE];
    int count = 0, number = 1;
    strsep(&text, "\n");
    for (char *line; (line = strsep(&text, "\n")) != NULL && *line != 0; number++) {
        if (strncmp(line, "thread ", strlen("thread ")) == 0) {
            threads[count++] = (Thread){.name = line + strlen("thread "), .line = number + 2, .lines = &lines[number], .names = &names[number * NAMES_OF_A_LINE]};
        } else {
            threads[count - 1].lines[threads[count - 1].line_count++] = line;
        }
    }
    return count;
}

/* Runs all threads side by side, to their ends, and prints what they printed and what stands then. */
static void run_all(JNIEnv *env, Thread *threads, int count, FILE *out) {
    int live;
    for (Thread *it = threads; it < threads + count; it++) {
        it->out = open_memstream(&it->text, &it->size);
        must(it->out != NULL && pthread_create(&it->id, NULL, run_part, it) == 0);
    }
    for (Thread *it = threads; it < threads + count; it++) {
        pthread_join(it->id, NULL);
        fclose(it->out);
        fprintf(out, "[%s]\n%s", it->name, it->text);
        free(it->text);
    }
    long used = count_words(env, &live);
    fprintf(out, "[end]\nglobals %d weaks %d live %d used %ld\n", globals.count, weaks.count, live, used);
}

/* Deletes what a script left. */
static void clear(JNIEnv *env) {
    while (globals.count > 0) (*env)->DeleteGlobalRef(env, globals.its[--globals.count]);
    while (weaks.count > 0) (*env)->DeleteWeakGlobalRef(env, weaks.its[--weaks.count]);
    while (objects.count > 0) (*env)->DeleteWeakGlobalRef(env, objects.its[--objects.count]);
    posts = 0;
}

/* A class that stays. */
static jclass class_of(JNIEnv *env, const char *name) { return (*env)->NewGlobalRef(env, (*env)->FindClass(env, name)); }

JNIEXPORT jint JNICALL JNI_OnLoad(JavaVM *of, void *reserved) {
    JNIEnv *env;
    (void)reserved;
    machine = of;
    must((*machine)->GetEnv(machine, (void **)&env, JNI_VERSION_1_8) == JNI_OK);
    object_class = class_of(env, "java/lang/Object");
    objects_class = class_of(env, "[Ljava/lang/Object;");
    string_class = class_of(env, "java/lang/String");
    system_class = class_of(env, "java/lang/System");
    index_class = class_of(env, "java/lang/ArrayIndexOutOfBoundsException");
    for (int at = 0; at < KIND_COUNT; at++) kind_classes[at] = class_of(env, KINDS[at].class_name);
    collection = (*env)->GetStaticMethodID(env, system_class, "gc", "()V");
    return JNI_VERSION_1_8;
}

/* Collects before the script, so that the machine has no cause to do so of its own accord while it runs. */
JNIEXPORT void JNICALL Java_Same_run(JNIEnv *env, jclass class, jstring path) {
    static char text[MOST_BYTES + 1];
    static Thread threads[MOST_THREADS];
    char name[FILENAME_MAX] = "";
    (void)class;
    (*env)->GetStringUTFRegion(env, path, 0, (*env)->GetStringLength(env, path), name);
    must(!(*env)->ExceptionCheck(env) && collect(env));
    FILE *in = fopen(name, "r"), *out = fopen(strcat(name, ".came"), "w");
    must(in != NULL && out != NULL);
    text[fread(text, 1, MOST_BYTES, in)] = 0;
    run_all(env, threads, split(text, threads), out);
    clear(env);
    fclose(in);
    fclose(out);
}
