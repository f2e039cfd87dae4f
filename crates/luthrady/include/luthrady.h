/* Luthrady from C and C++: a room of references and objects, and an env for each of its native threads.

   `.ci/header` makes this file from the sources of the library.

   This is not JNI's C ABI. It has no function table, no pointers to elements and no exceptions.

   A call answers a luthrady_reply. Where `fault` is 0 it was made, and `value` is its answer. Else `fault` is
   the number of the refusal, and `told` and `found` are the numbers that it tells beside it.
   luthrady_fault_text has its text. The comment of a call names its refusals in the order of their checks.
   Where two would come, the first is answered.

   The life of a room: luthrady_open(sizes, &room.at). Each thread calls luthrady_attach(&room, &env.at), makes its
   calls, and ends by luthrady_detach and luthrady_free_env, before or behind the room's own free. One calls
   luthrady_release while it is attached itself: the last detach behind it closes the room, and tells what stood.
   Where no thread is attached at the release, nobody is told. luthrady_free_room is the end. Link
   -lluthrady -lluthrady_c, as pkg-config says.

   Refusals that pass: E12, E13, E14 and E23 come of another thread that was in the way. The call is made again,
   best behind a sched_yield: the library never yields. E10 and E11 pass behind a collection that finds garbage.

   Words: a thread is inside while a call of its looks at the room, or its critical region stands. The gate is what
   it enters by, and a collection shuts it. A thread that waits outside of any call hinders no collection. A stay is
   one entry with several calls. A marker is the memory of an env's own for its collections: it fits its room.

   References: a global or weak word may be used by each thread of the room, a local one by its own env alone. A
   thread that attaches twice has two envs.

   What the caller owes. Nothing checks it but what is said so:

   - A handle is a struct of one pointer. It holds what luthrady_open or luthrady_attach wrote, or NULL.
     Checked: a call by a handle with NULL is E21. So is one by a room's pointer in an env's place or the
     other way round, since a place begins with a mark. A pointer to anything else is not told.
   - An address of a handle, of an `out` or of `count` elements that is NULL is E21 by the tests in this
     header. They end the call before it comes to the library. With LUTHRADY_NO_CHECKS it ends the process.
     Where `count` is 0 the address may be NULL. LUTHRADY_FAULT_NULL is E1: a reference that is NULL.
   - A thread is detached from the room that it was attached to. Checked: a detach from a room with no
     attached thread is E21.
   - Threads that attach and detach by one room's handle take a lock, since a handle is in one call at a time.
   - luthrady_free_env and luthrady_free_room free a place. No copy of the handle is in a call from then on.
   - Each handle, with its copies, is in one call at a time. Whoever hands one to another thread orders that
     by a lock, by a thread's start or join, or by a sequentially consistent atomic.
   - A critical region stands from its first luthrady_get_array_critical or luthrady_get_string_critical until
     its last level is released. Checked: each other call by the env is E19 meanwhile, a detach and a free of
     its place too, and nothing has changed. It is released soon, since no thread can collect while it stands.
   - A word of one room is not handed to another room. It can stand there for something else.
   - `count` elements lie at a pointer with a count. What a call writes to overlaps nothing else.
   - A `bool` is 0 or 1, also one that a call writes to: memory that was never written may hold neither.
   - malloc, realloc and free are of one allocator, which aligns to 16.
   - No call is made in a signal handler, nor in a forked child of a process with threads.
   - The stack has room: 139 KB were measured for an open of 64 threads, 202 KB for an attach, 51 KB for a
     detach, and less than 4 KB for each other call that was tried. */
#ifndef LUTHRADY_H
#define LUTHRADY_H
#ifndef __cplusplus
#include <stdbool.h>
#endif
#include <stddef.h>
#include <stdint.h>

/* The version of this interface. */
#define LUTHRADY_VERSION "0.1.0"
#define LUTHRADY_VERSION_MAJOR 0
#define LUTHRADY_VERSION_MINOR 1
#define LUTHRADY_VERSION_PATCH 0

#ifdef __cplusplus
extern "C" {
#endif

/* The bounds of a room's sizes. At least 1 are the threads, the slots and the objects. */
#define LUTHRADY_MOST_THREADS 64u
#define LUTHRADY_MOST_SLOTS 65536u
#define LUTHRADY_MOST_OBJECTS 65535u
#define LUTHRADY_MOST_WORDS 1048576u
#define LUTHRADY_LEAST_LOCALS 16u
#define LUTHRADY_MOST_LOCALS 4096u

/* The refusals, by their numbers. */
enum luthrady_fault {
    LUTHRADY_FAULT_NULL = 1,
    LUTHRADY_FAULT_STALE = 2,
    LUTHRADY_FAULT_FOREIGN = 3,
    LUTHRADY_FAULT_WRONG_KIND = 4,
    LUTHRADY_FAULT_NOT_ARRAY = 5,
    LUTHRADY_FAULT_WRONG_ELEMENT = 6,
    LUTHRADY_FAULT_RANGE = 7,
    LUTHRADY_FAULT_ROW_FULL = 8,
    LUTHRADY_FAULT_LOCALS_FULL = 9,
    LUTHRADY_FAULT_SPACE_FULL = 10,
    LUTHRADY_FAULT_OBJECTS_FULL = 11,
    LUTHRADY_FAULT_RACED = 12,
    LUTHRADY_FAULT_BARRED = 13,
    LUTHRADY_FAULT_BUSY = 14,
    LUTHRADY_FAULT_NO_FRAME = 15,
    LUTHRADY_FAULT_MEMORY = 16,
    LUTHRADY_FAULT_SIZE = 17,
    LUTHRADY_FAULT_VALUE = 18,
    LUTHRADY_FAULT_IN_CRITICAL = 19,
    LUTHRADY_FAULT_TURNS = 20,
    LUTHRADY_FAULT_NOT_FRESH = 21,
    LUTHRADY_FAULT_LEFT_INSIDE = 22,
    LUTHRADY_FAULT_MOVED = 23
};

/* The types of a reference, as luthrady_get_object_ref_type answers them. */
enum luthrady_ref_type {
    LUTHRADY_REF_INVALID = 0,
    LUTHRADY_REF_LOCAL = 1,
    LUTHRADY_REF_GLOBAL = 2,
    LUTHRADY_REF_WEAK = 3
};

/* The kinds of objects, as luthrady_kind_of answers them. */
enum luthrady_kind {
    LUTHRADY_KIND_PLAIN = 1,
    LUTHRADY_KIND_BOOLEAN = 2,
    LUTHRADY_KIND_BYTE = 3,
    LUTHRADY_KIND_CHAR = 4,
    LUTHRADY_KIND_SHORT = 5,
    LUTHRADY_KIND_INT = 6,
    LUTHRADY_KIND_LONG = 7,
    LUTHRADY_KIND_OBJECTS = 8,
    LUTHRADY_KIND_TEXT = 9
};

/* What a word is, as luthrady_explain tells it: NULL; neither that nor a word that a call answers; beyond
   the room; a local reference of another thread; one that stands; one under whose serial one of the other
   type stands; one that was deleted; one that was not given yet. */
enum luthrady_explanation {
    LUTHRADY_WORD_NULL = 1,
    LUTHRADY_WORD_MALFORMED = 2,
    LUTHRADY_WORD_OUTSIDE = 3,
    LUTHRADY_WORD_FOREIGN = 4,
    LUTHRADY_WORD_STANDING = 5,
    LUTHRADY_WORD_OTHER_KIND = 6,
    LUTHRADY_WORD_GONE = 7,
    LUTHRADY_WORD_NOT_GIVEN = 8
};

/* Which call a call of a batch is. */
enum luthrady_operation {
    LUTHRADY_NEW_GLOBAL_REF = 1,
    LUTHRADY_NEW_WEAK_GLOBAL_REF = 2,
    LUTHRADY_NEW_LOCAL_REF = 3,
    LUTHRADY_DELETE_GLOBAL_REF = 4,
    LUTHRADY_DELETE_WEAK_GLOBAL_REF = 5,
    LUTHRADY_DELETE_LOCAL_REF = 6,
    LUTHRADY_IS_SAME_OBJECT = 7,
    LUTHRADY_GET_OBJECT_REF_TYPE = 8,
    LUTHRADY_GET_ARRAY_LENGTH = 9,
    LUTHRADY_GET_STRING_LENGTH = 10,
    LUTHRADY_GET_OBJECT_ARRAY_ELEMENT = 11,
    LUTHRADY_SET_OBJECT_ARRAY_ELEMENT = 12
};

/* What becomes of a copy that is released: it is written back, or nothing is done. */
enum luthrady_mode {
    LUTHRADY_MODE_COPY = 0,
    LUTHRADY_MODE_COMMIT = 1,
    LUTHRADY_MODE_ABORT = 2
};

/* A call's answer. */
struct luthrady_reply {
    /* What it answers, 0 where it is refused. */
    uint64_t value;
    /* The number of the refusal, 0 where there is none. */
    uint32_t fault;
    /* The number that the refusal tells beside its own, the first where it tells two, 0 where it tells
       none. */
    uint32_t told;
    /* The second number that the refusal tells, 0 where it has none. */
    uint32_t found;
};

/* A call of a batch, and its answer. */
struct luthrady_batch_call {
    /* Which call it is, by its number. */
    uint32_t operation;
    /* The index of an element, where the call has one. */
    uint32_t index;
    /* The reference that it is handed. */
    uint64_t first;
    /* The second reference, where the call has one. */
    uint64_t second;
    /* What it answered. */
    struct luthrady_reply reply;
};

/* How many objects there are, by their kinds. */
struct luthrady_population {
    /* How many have no elements. */
    uint32_t plain;
    /* How many arrays of booleans there are. */
    uint32_t booleans;
    /* How many arrays of bytes there are. */
    uint32_t bytes;
    /* How many arrays of chars there are. */
    uint32_t chars;
    /* How many arrays of shorts there are. */
    uint32_t shorts;
    /* How many arrays of ints there are. */
    uint32_t ints;
    /* How many arrays of longs there are. */
    uint32_t longs;
    /* How many arrays of objects there are. */
    uint32_t objects;
    /* How many strings there are. */
    uint32_t strings;
    /* How many there are of all kinds. */
    uint32_t live;
    /* How many words of array space they have. */
    uint32_t words;
};

/* What stands in a room. */
struct luthrady_inventory {
    /* How many global references stand. */
    uint32_t globals;
    /* How many weak references stand, cleared ones too. */
    uint32_t weaks;
    /* How many of these are cleared. */
    uint32_t cleared;
    /* How many slots are used no more, since each gave its last reference. */
    uint32_t retired;
    /* The objects that are present. */
    struct luthrady_population present;
    /* Those of them that nothing reaches, which a collection would drop. */
    struct luthrady_population unreached;
    /* How many words are used. */
    uint32_t used;
    /* How many of these no object has: creations reserved them that were refused afterwards. */
    uint32_t lost;
    /* How many of these a collection would leave used. */
    uint32_t reached;
    /* How many of these a collection would free. */
    uint32_t freed;
};

/* What a collection did. */
struct luthrady_counts {
    /* How many weak references it cleared. */
    uint32_t cleared;
    /* How many objects it dropped. */
    uint32_t dropped;
    /* How many words were used then. */
    uint32_t used;
};

/* What a slot has. */
struct luthrady_slot {
    /* 2 a global reference, 3 a weak one, as a luthrady_ref_type; 0 none, and 1 none any more. */
    uint32_t state;
    /* The serial of the reference, or that of the slot's next one. A reference's word is state + 4 *
       serial + 2^34 * the slot's index. */
    uint32_t serial;
    /* The identity of the object that the reference names, 0 where it names none. */
    uint32_t object;
};

/* What a number of an object has. */
struct luthrady_object {
    /* The object's kind, a luthrady_kind, 0 where no object has the number. */
    uint32_t kind;
    /* How many elements it has. */
    uint32_t length;
    /* Where its first element stands among the words. */
    uint32_t place;
};

/* A room's handle: NULL, or the pointer to its place. */
struct luthrady_room {
    void *at;
};

/* An env's handle: NULL, or the pointer to its place. */
struct luthrady_env {
    void *at;
};

/* The sizes of a room. */
struct luthrady_sizes {
    /* How many threads there are. */
    uint32_t threads;
    /* How many slots for global and weak references there are. */
    uint32_t slots;
    /* How many objects there may be. */
    uint32_t objects;
    /* How many words of elements there may be. Each element of an array takes one, of whatever kind, and
       each unit of a string. */
    uint32_t words;
    /* How many local references a thread may have. */
    uint32_t locals;
};

/* What stood in a room as it was closed. */
struct luthrady_stood {
    /* How many global references stood. */
    uint32_t globals;
    /* How many weak references stood. */
    uint32_t weaks;
    /* How many objects were present. */
    uint32_t live;
    /* How many words were used. */
    uint32_t used;
};

/* What a word is. */
struct luthrady_explained {
    /* What it is, a luthrady_explanation. */
    uint32_t explanation;
    /* The type of the reference that stands there, a luthrady_ref_type, 0 where none stands. */
    uint32_t reference;
    /* The kind of the reference's object, a luthrady_kind, 0 where none stands or it is cleared. */
    uint32_t kind;
};

/* How many local references a thread has, and how many places for them. */
struct luthrady_locals {
    /* How many frames there are, with the base frame. */
    uint64_t frames;
    /* How many references stand, in all frames together. */
    uint32_t standing;
    /* How many places are free: so many more references can be made. */
    uint32_t free;
    /* How many places have ever given a reference. No more stood at any moment. */
    uint32_t given;
};

/* Opens a room of these sizes, and writes the pointer to it into `out`, the `at` of a room's handle.
   Refused: E17 where the sizes are beyond their limits; E16 where memory was refused. */
struct luthrady_reply luthrady_open(struct luthrady_sizes sizes, void **out);

/* Attaches a thread with an env that no other thread holds, and writes the pointer to it into `out`, the
   `at` of an env's handle. The thread has no local reference. (JNI Specification, chapter 5,
   "AttachCurrentThread")
   Refused: E21 where no room stands behind the handle, no env of it is free, or it was released; E16 where
   memory was refused.
   Nothing has changed then. */
struct luthrady_reply luthrady_attach(struct luthrady_room *room, void **out);

/* Lets go of the envs that no thread holds. No further thread is attached then, and the last one that is
   detached closes the room.
   Refused: E21 where no room stands behind the handle.
   Nothing has changed then. */
struct luthrady_reply luthrady_release(struct luthrady_room *room);

/* Detaches a thread from the room that it was attached to. Its local references are freed, and no env
   stands behind its handle then. The handle's place remains until `luthrady_free_env`. The room has the
   env for the next thread. Where the room was released, the last thread closes it: it answers 1, and
   writes what stood there; else it answers 0. (JNI Specification, chapter 5, "DetachCurrentThread")
   Refused: E21 where no room stands behind the room's handle, no thread is attached to it, or no env
   stands behind the env's handle; E19 in a critical region; E13 where a thread is collecting, or has
   announced that it will; E22 with how many threads were inside, knocking, announcing or collecting as the
   last one closed the room, at least 1.
   At E21 and E19 nothing has changed. At E13 the thread is still attached, with its local references. At
   E22 it is detached, and the room can't be closed any more. */
struct luthrady_reply luthrady_detach(
    struct luthrady_room *room, struct luthrady_env *env, struct luthrady_stood *out);

/* Frees the place of a thread's env, and leaves NULL in its handle.
   Refused: E21 where no place of an env stands behind the handle; E19 where the thread is attached, in a
   critical region too.
   Nothing has changed then. */
struct luthrady_reply luthrady_free_env(struct luthrady_env *env);

/* Frees the place of a room, with the envs that no thread holds, and leaves NULL in its handle.
   Refused: E21 where no room stands behind the handle; E22 with how many threads are attached, at least 1.
   Nothing has changed then. */
struct luthrady_reply luthrady_free_room(struct luthrady_room *room);

/* A new global reference to what the word names, NULL to null. (JNI Specification, chapter 4,
   "NewGlobalRef")
   Refused: E21 where no env stands behind the handle; E19 in a critical region; E13 where a thread is
   collecting at the entry, or has announced that it will; E2 where the handle is malformed or lies outside
   the room; E3 where it is a local one of another thread; E2 where its reference does not stand; E8 where
   each slot was occupied when it was tried, or later in the call.
   Nothing has changed then. */
struct luthrady_reply luthrady_new_global_ref(struct luthrady_env *env, uint64_t object);

/* A new weak global reference to what the word names, NULL to null. (JNI Specification, chapter 4,
   "NewWeakGlobalRef")
   Refused: E21 where no env stands behind the handle; E19 in a critical region; E13 where a thread is
   collecting at the entry, or has announced that it will; E2 where the handle is malformed or lies outside
   the room; E3 where it is a local one of another thread; E2 where its reference does not stand; E8 where
   each slot was occupied when it was tried, or later in the call.
   Nothing has changed then. */
struct luthrady_reply luthrady_new_weak_global_ref(struct luthrady_env *env, uint64_t object);

/* A new local reference to what the word names, NULL to null. (JNI Specification, chapter 4,
   "NewLocalRef")
   Refused: E21 where no env stands behind the handle; E19 in a critical region; E13 where a thread is
   collecting at the entry, or has announced that it will; E2 where the handle is malformed or lies outside
   the room; E3 where it is a local one of another thread; E2 where its reference does not stand; E9 where
   no local place is free.
   Nothing has changed then. */
struct luthrady_reply luthrady_new_local_ref(struct luthrady_env *env, uint64_t object);

/* Deletes a global reference. (JNI Specification, chapter 4, "DeleteGlobalRef")
   Refused: E21 where no env stands behind the handle; E19 in a critical region; E13 where a thread is
   collecting at the entry, or has announced that it will; E2 where the handle is malformed; E4 where it is
   of another kind; E2 where it lies outside the room, its reference does not stand, or another thread
   deletes it first.
   Nothing has changed then. */
struct luthrady_reply luthrady_delete_global_ref(struct luthrady_env *env, uint64_t reference);

/* Deletes a weak global reference. (JNI Specification, chapter 4, "DeleteWeakGlobalRef")
   Refused: E21 where no env stands behind the handle; E19 in a critical region; E13 where a thread is
   collecting at the entry, or has announced that it will; E2 where the handle is malformed; E4 where it is
   of another kind; E2 where it lies outside the room, its reference does not stand, or another thread
   deletes it first.
   Nothing has changed then. */
struct luthrady_reply luthrady_delete_weak_global_ref(struct luthrady_env *env, uint64_t reference);

/* Deletes a local reference. (JNI Specification, chapter 4, "DeleteLocalRef")
   Refused: E21 where no env stands behind the handle; E19 in a critical region; E13 where a thread is
   collecting at the entry, or has announced that it will; E2 where the handle is malformed; E4 where it is
   of another kind; E2 where it lies outside the room; E3 where it is one of another thread; E2 where its
   reference does not stand.
   Nothing has changed then. */
struct luthrady_reply luthrady_delete_local_ref(struct luthrady_env *env, uint64_t reference);

/* Whether both words name the same object, 1 or 0. (JNI Specification, chapter 4, "IsSameObject")
   Refused: E21 where no env stands behind the handle; E19 in a critical region; E13 where a thread is
   collecting at the entry, or has announced that it will; E2 where a handle is malformed or lies outside
   the room; E3 where one is a local one of another thread; E2 where the reference of one does not stand.
   Nothing has changed then. */
struct luthrady_reply luthrady_is_same_object(struct luthrady_env *env, uint64_t left, uint64_t right);

/* The type of a reference: 0 invalid, 1 local, 2 global, 3 weak. (JNI Specification, chapter 4,
   "GetObjectRefType")
   Refused: E21 where no env stands behind the handle; E19 in a critical region; E13 where a thread is
   collecting at the entry, or has announced that it will. */
struct luthrady_reply luthrady_get_object_ref_type(struct luthrady_env *env, uint64_t object);

/* A local reference to what a weak one names, NULL where that is cleared. (JNI Specification, chapter 4,
   "NewLocalRef")
   Refused: E21 where no env stands behind the handle; E19 in a critical region; E13 where a thread is
   collecting at the entry, or has announced that it will; E2 where the handle is malformed or lies outside
   the room; E3 where it is a local one of another thread; E2 where its reference does not stand; E9 where
   no local place is free.
   Nothing has changed then. */
struct luthrady_reply luthrady_upgrade_local(struct luthrady_env *env, uint64_t weak);

/* A global reference to what a weak one names, NULL where that is cleared. (JNI Specification, chapter 4,
   "NewGlobalRef")
   Refused: E21 where no env stands behind the handle; E19 in a critical region; E13 where a thread is
   collecting at the entry, or has announced that it will; E2 where the handle is malformed or lies outside
   the room; E3 where it is a local one of another thread; E2 where its reference does not stand; E8 where
   each slot was occupied when it was tried, or later in the call.
   Nothing has changed then. */
struct luthrady_reply luthrady_upgrade_global(struct luthrady_env *env, uint64_t weak);

/* Deletes a weak global reference where it is cleared, and tells whether it was, 1 or 0: a comparison with
   NULL, and then the deletion, each by an entry of its own. NULL answers 1, and a word that is no weak
   reference 0. Behind a collection it gives slots back, where all were held (E8). The Java Native
   Interface has no such call.
   Refused: E21 where no env stands behind the handle; E19 in a critical region; E13 where a thread is
   collecting at an entry, or has announced that it will; E2 where the handle is malformed or lies outside
   the room; E3 where it is a local one of another thread; E2 where its reference does not stand, at the
   comparison or at the deletion.
   Nothing has changed then. */
struct luthrady_reply luthrady_delete_cleared(struct luthrady_env *env, uint64_t weak);

/* Ensures that so many local references can be made in the current frame. (JNI Specification, chapter 4,
   "EnsureLocalCapacity")
   Refused: E21 where no env stands behind the handle; E19 in a critical region; E9 where fewer places are
   free.
   Nothing has changed then, and the thread stands outside. */
struct luthrady_reply luthrady_ensure_local_capacity(struct luthrady_env *env, uint32_t capacity);

/* Opens a frame for so many local references. (JNI Specification, chapter 4, "PushLocalFrame")
   Refused: E21 where no env stands behind the handle; E19 in a critical region; E9 where 256 frames are
   open, or fewer places are free.
   Nothing has changed then, and the thread stands outside. */
struct luthrady_reply luthrady_push_local_frame(struct luthrady_env *env, uint32_t capacity);

/* Closes the current frame, and makes a reference in the one before to what the word names. (JNI
   Specification, chapter 4, "PopLocalFrame")
   Refused: E21 where no env stands behind the handle; E19 in a critical region; E13 where a thread is
   collecting at the entry, or has announced that it will; E15 where no frame was pushed; E2 where the
   handle is malformed or lies outside the room; E3 where it is a local one of another thread; E2 where its
   reference does not stand; E9 where no place would be free for the result, once those of the frame are.
   Nothing is taken away then. */
struct luthrady_reply luthrady_pop_local_frame(struct luthrady_env *env, uint64_t kept);

/* Frees all local references, as at the end of a native method. The Java Native Interface has no such
   call.
   Refused: E21 where no env stands behind the handle; E19 in a critical region; E13 where a thread is
   collecting at the entry, or has announced that it will. */
struct luthrady_reply luthrady_free_locals(struct luthrady_env *env);

/* A plain object, and a local reference to it. The Java Native Interface has no such call.
   Refused: E21 where no env stands behind the handle; E19 in a critical region; E13 where a thread is
   collecting at the entry, or has announced that it will; E9 where no local place is free; E11 where every
   object number was present at one moment of the call.
   Nothing has changed then. */
struct luthrady_reply luthrady_new_plain(struct luthrady_env *env);

/* An array of booleans, each false, and a local reference to it. (JNI Specification, chapter 4,
   "New<PrimitiveType>Array Routines")
   Refused: E21 where no env stands behind the handle; E19 in a critical region; E13 where a thread is
   collecting at the entry, or has announced that it will; E9 where no local place is free; E10 with how
   many words are reserved, where so many more don't fit; E12 with how many words were looked at and how
   many were found, where another thread reserved some in between; E11 where every object number was
   present at one moment of the call.
   Nothing has changed then; but after E11 the words of the array stay reserved until the next collection. */
struct luthrady_reply luthrady_new_boolean_array(struct luthrady_env *env, uint32_t length);

/* An array of bytes, each zero, and a local reference to it. (JNI Specification, chapter 4,
   "New<PrimitiveType>Array Routines")
   Refused: E21 where no env stands behind the handle; E19 in a critical region; E13 where a thread is
   collecting at the entry, or has announced that it will; E9 where no local place is free; E10 with how
   many words are reserved, where so many more don't fit; E12 with how many words were looked at and how
   many were found, where another thread reserved some in between; E11 where every object number was
   present at one moment of the call.
   Nothing has changed then; but after E11 the words of the array stay reserved until the next collection. */
struct luthrady_reply luthrady_new_byte_array(struct luthrady_env *env, uint32_t length);

/* An array of chars, each zero, and a local reference to it. (JNI Specification, chapter 4,
   "New<PrimitiveType>Array Routines")
   Refused: E21 where no env stands behind the handle; E19 in a critical region; E13 where a thread is
   collecting at the entry, or has announced that it will; E9 where no local place is free; E10 with how
   many words are reserved, where so many more don't fit; E12 with how many words were looked at and how
   many were found, where another thread reserved some in between; E11 where every object number was
   present at one moment of the call.
   Nothing has changed then; but after E11 the words of the array stay reserved until the next collection. */
struct luthrady_reply luthrady_new_char_array(struct luthrady_env *env, uint32_t length);

/* An array of shorts, each zero, and a local reference to it. (JNI Specification, chapter 4,
   "New<PrimitiveType>Array Routines")
   Refused: E21 where no env stands behind the handle; E19 in a critical region; E13 where a thread is
   collecting at the entry, or has announced that it will; E9 where no local place is free; E10 with how
   many words are reserved, where so many more don't fit; E12 with how many words were looked at and how
   many were found, where another thread reserved some in between; E11 where every object number was
   present at one moment of the call.
   Nothing has changed then; but after E11 the words of the array stay reserved until the next collection. */
struct luthrady_reply luthrady_new_short_array(struct luthrady_env *env, uint32_t length);

/* An array of ints, each zero, and a local reference to it. (JNI Specification, chapter 4,
   "New<PrimitiveType>Array Routines")
   Refused: E21 where no env stands behind the handle; E19 in a critical region; E13 where a thread is
   collecting at the entry, or has announced that it will; E9 where no local place is free; E10 with how
   many words are reserved, where so many more don't fit; E12 with how many words were looked at and how
   many were found, where another thread reserved some in between; E11 where every object number was
   present at one moment of the call.
   Nothing has changed then; but after E11 the words of the array stay reserved until the next collection. */
struct luthrady_reply luthrady_new_int_array(struct luthrady_env *env, uint32_t length);

/* An array of longs, each zero, and a local reference to it. (JNI Specification, chapter 4,
   "New<PrimitiveType>Array Routines")
   Refused: E21 where no env stands behind the handle; E19 in a critical region; E13 where a thread is
   collecting at the entry, or has announced that it will; E9 where no local place is free; E10 with how
   many words are reserved, where so many more don't fit; E12 with how many words were looked at and how
   many were found, where another thread reserved some in between; E11 where every object number was
   present at one moment of the call.
   Nothing has changed then; but after E11 the words of the array stay reserved until the next collection. */
struct luthrady_reply luthrady_new_long_array(struct luthrady_env *env, uint32_t length);

/* An array of object references, each to what the word names, and a local reference to it. (JNI
   Specification, chapter 4, "NewObjectArray")
   Refused: E21 where no env stands behind the handle; E19 in a critical region; E13 where a thread is
   collecting at the entry, or has announced that it will; E2 where the handle is malformed or lies outside
   the room; E3 where it is a local one of another thread; E2 where its reference does not stand; E9 where
   no local place is free; E10 with how many words are reserved, where so many more don't fit; E12 with how
   many words were looked at and how many were found, where another thread reserved some in between; E11
   where every object number was present at one moment of the call.
   Nothing has changed then; but after E11 the words of the array stay reserved until the next collection. */
struct luthrady_reply luthrady_new_object_array(struct luthrady_env *env, uint32_t length, uint64_t initial);

/* A string of these UTF-16 units, and a local reference to it. (JNI Specification, chapter 4, "NewString")
   Refused: E21 where no env stands behind the handle; E19 in a critical region; E13 where a thread is
   collecting at the entry, or has announced that it will; E9 where no local place is free; E10 with how
   many words are reserved, where so many more don't fit; E12 with how many words were looked at and how
   many were found, where another thread reserved some in between; E11 where every object number was
   present at one moment of the call.
   Nothing has changed then; but after E11 the words of the string stay reserved until the next collection. */
struct luthrady_reply luthrady_new_string(struct luthrady_env *env, const uint16_t *units, size_t count);

/* How many elements an array has. (JNI Specification, chapter 4, "GetArrayLength")
   Refused: E21 where no env stands behind the handle; E19 in a critical region; E13 where a thread is
   collecting at the entry, or has announced that it will; E2 where the handle is malformed or lies outside
   the room; E3 where it is a local one of another thread; E2 where its reference does not stand; E1 where
   it is to null; E5 where it is to a plain object or a string.
   Nothing has changed then. */
struct luthrady_reply luthrady_get_array_length(struct luthrady_env *env, uint64_t array);

/* How many UTF-16 units a string has. (JNI Specification, chapter 4, "GetStringLength")
   Refused: E21 where no env stands behind the handle; E19 in a critical region; E13 where a thread is
   collecting at the entry, or has announced that it will; E2 where the handle is malformed or lies outside
   the room; E3 where it is a local one of another thread; E2 where its reference does not stand; E1 where
   it is to null; E4 where it is to no string.
   Nothing has changed then. */
struct luthrady_reply luthrady_get_string_length(struct luthrady_env *env, uint64_t string);

/* An element of an object array, as a local reference, NULL for null. (JNI Specification, chapter 4,
   "GetObjectArrayElement")
   Refused: E21 where no env stands behind the handle; E19 in a critical region; E13 where a thread is
   collecting at the entry, or has announced that it will; E2 where the handle is malformed or lies outside
   the room; E3 where it is a local one of another thread; E2 where its reference does not stand; E1 where
   it is to null; E5 where it is to a plain object or a string; E6 where it is to an array of other
   elements than objects; E7 where the index is not below the length; E9 where the element is to an object
   and no local place is free.
   Nothing has changed then. */
struct luthrady_reply luthrady_get_object_array_element(
    struct luthrady_env *env, uint64_t array, uint32_t index);

/* Makes an element of an object array refer to what a word names. (JNI Specification, chapter 4,
   "SetObjectArrayElement")
   Refused: E21 where no env stands behind the handle; E19 in a critical region; E13 where a thread is
   collecting at the entry, or has announced that it will; E2 where a handle is malformed or lies outside
   the room; E3 where one is a local one of another thread; E2 where the reference of one does not stand;
   E1 where the array's is to null; E5 where it is to a plain object or a string; E6 where it is to an
   array of other elements than objects; E7 where the index is not below the length.
   Nothing has changed then. */
struct luthrady_reply luthrady_set_object_array_element(
    struct luthrady_env *env, uint64_t array, uint32_t index, uint64_t value);

/* Copies booleans into a part of an array, from an index on. (JNI Specification, chapter 4,
   "Set<PrimitiveType>ArrayRegion Routines")
   Refused: E21 where no env stands behind the handle; E19 in a critical region; E13 where a thread is
   collecting at the entry, or has announced that it will; E2 where the handle is malformed or lies outside
   the room; E3 where it is a local one of another thread; E2 where its reference does not stand; E1 where
   it is to null; E5 where it is to a plain object or a string; E6 where it is to an array of other
   elements; E7 where the part does not lie in the array.
   Nothing is written then. */
struct luthrady_reply luthrady_set_boolean_array_region(
    struct luthrady_env *env, uint64_t array, uint32_t start, const bool *elements, size_t count);

/* Copies bytes into a part of an array, from an index on. (JNI Specification, chapter 4,
   "Set<PrimitiveType>ArrayRegion Routines")
   Refused: E21 where no env stands behind the handle; E19 in a critical region; E13 where a thread is
   collecting at the entry, or has announced that it will; E2 where the handle is malformed or lies outside
   the room; E3 where it is a local one of another thread; E2 where its reference does not stand; E1 where
   it is to null; E5 where it is to a plain object or a string; E6 where it is to an array of other
   elements; E7 where the part does not lie in the array.
   Nothing is written then. */
struct luthrady_reply luthrady_set_byte_array_region(
    struct luthrady_env *env, uint64_t array, uint32_t start, const int8_t *elements, size_t count);

/* Copies chars into a part of an array, from an index on. (JNI Specification, chapter 4,
   "Set<PrimitiveType>ArrayRegion Routines")
   Refused: E21 where no env stands behind the handle; E19 in a critical region; E13 where a thread is
   collecting at the entry, or has announced that it will; E2 where the handle is malformed or lies outside
   the room; E3 where it is a local one of another thread; E2 where its reference does not stand; E1 where
   it is to null; E5 where it is to a plain object or a string; E6 where it is to an array of other
   elements; E7 where the part does not lie in the array.
   Nothing is written then. */
struct luthrady_reply luthrady_set_char_array_region(
    struct luthrady_env *env, uint64_t array, uint32_t start, const uint16_t *elements, size_t count);

/* Copies shorts into a part of an array, from an index on. (JNI Specification, chapter 4,
   "Set<PrimitiveType>ArrayRegion Routines")
   Refused: E21 where no env stands behind the handle; E19 in a critical region; E13 where a thread is
   collecting at the entry, or has announced that it will; E2 where the handle is malformed or lies outside
   the room; E3 where it is a local one of another thread; E2 where its reference does not stand; E1 where
   it is to null; E5 where it is to a plain object or a string; E6 where it is to an array of other
   elements; E7 where the part does not lie in the array.
   Nothing is written then. */
struct luthrady_reply luthrady_set_short_array_region(
    struct luthrady_env *env, uint64_t array, uint32_t start, const int16_t *elements, size_t count);

/* Copies ints into a part of an array, from an index on. (JNI Specification, chapter 4,
   "Set<PrimitiveType>ArrayRegion Routines")
   Refused: E21 where no env stands behind the handle; E19 in a critical region; E13 where a thread is
   collecting at the entry, or has announced that it will; E2 where the handle is malformed or lies outside
   the room; E3 where it is a local one of another thread; E2 where its reference does not stand; E1 where
   it is to null; E5 where it is to a plain object or a string; E6 where it is to an array of other
   elements; E7 where the part does not lie in the array.
   Nothing is written then. */
struct luthrady_reply luthrady_set_int_array_region(
    struct luthrady_env *env, uint64_t array, uint32_t start, const int32_t *elements, size_t count);

/* Copies longs into a part of an array, from an index on. (JNI Specification, chapter 4,
   "Set<PrimitiveType>ArrayRegion Routines")
   Refused: E21 where no env stands behind the handle; E19 in a critical region; E13 where a thread is
   collecting at the entry, or has announced that it will; E2 where the handle is malformed or lies outside
   the room; E3 where it is a local one of another thread; E2 where its reference does not stand; E1 where
   it is to null; E5 where it is to a plain object or a string; E6 where it is to an array of other
   elements; E7 where the part does not lie in the array.
   Nothing is written then. */
struct luthrady_reply luthrady_set_long_array_region(
    struct luthrady_env *env, uint64_t array, uint32_t start, const int64_t *elements, size_t count);

/* Copies a part of an array of booleans out, from an index on: as many elements as there is room for. (JNI
   Specification, chapter 4, "Get<PrimitiveType>ArrayRegion Routines")
   Refused: E21 where no env stands behind the handle; E19 in a critical region; E13 where a thread is
   collecting at the entry, or has announced that it will; E2 where the handle is malformed or lies outside
   the room; E3 where it is a local one of another thread; E2 where its reference does not stand; E1 where
   it is to null; E5 where it is to a plain object or a string; E6 where it is to an array of other
   elements; E7 where the part does not lie in the array.
   The slice is as it was, and nothing has changed. */
struct luthrady_reply luthrady_get_boolean_array_region(
    struct luthrady_env *env, uint64_t array, uint32_t start, bool *elements, size_t count);

/* Copies a part of an array of bytes out, from an index on: as many elements as there is room for. (JNI
   Specification, chapter 4, "Get<PrimitiveType>ArrayRegion Routines")
   Refused: E21 where no env stands behind the handle; E19 in a critical region; E13 where a thread is
   collecting at the entry, or has announced that it will; E2 where the handle is malformed or lies outside
   the room; E3 where it is a local one of another thread; E2 where its reference does not stand; E1 where
   it is to null; E5 where it is to a plain object or a string; E6 where it is to an array of other
   elements; E7 where the part does not lie in the array.
   The slice is as it was, and nothing has changed. */
struct luthrady_reply luthrady_get_byte_array_region(
    struct luthrady_env *env, uint64_t array, uint32_t start, int8_t *elements, size_t count);

/* Copies a part of an array of chars out, from an index on: as many elements as there is room for. (JNI
   Specification, chapter 4, "Get<PrimitiveType>ArrayRegion Routines")
   Refused: E21 where no env stands behind the handle; E19 in a critical region; E13 where a thread is
   collecting at the entry, or has announced that it will; E2 where the handle is malformed or lies outside
   the room; E3 where it is a local one of another thread; E2 where its reference does not stand; E1 where
   it is to null; E5 where it is to a plain object or a string; E6 where it is to an array of other
   elements; E7 where the part does not lie in the array.
   The slice is as it was, and nothing has changed. */
struct luthrady_reply luthrady_get_char_array_region(
    struct luthrady_env *env, uint64_t array, uint32_t start, uint16_t *elements, size_t count);

/* Copies a part of an array of shorts out, from an index on: as many elements as there is room for. (JNI
   Specification, chapter 4, "Get<PrimitiveType>ArrayRegion Routines")
   Refused: E21 where no env stands behind the handle; E19 in a critical region; E13 where a thread is
   collecting at the entry, or has announced that it will; E2 where the handle is malformed or lies outside
   the room; E3 where it is a local one of another thread; E2 where its reference does not stand; E1 where
   it is to null; E5 where it is to a plain object or a string; E6 where it is to an array of other
   elements; E7 where the part does not lie in the array.
   The slice is as it was, and nothing has changed. */
struct luthrady_reply luthrady_get_short_array_region(
    struct luthrady_env *env, uint64_t array, uint32_t start, int16_t *elements, size_t count);

/* Copies a part of an array of ints out, from an index on: as many elements as there is room for. (JNI
   Specification, chapter 4, "Get<PrimitiveType>ArrayRegion Routines")
   Refused: E21 where no env stands behind the handle; E19 in a critical region; E13 where a thread is
   collecting at the entry, or has announced that it will; E2 where the handle is malformed or lies outside
   the room; E3 where it is a local one of another thread; E2 where its reference does not stand; E1 where
   it is to null; E5 where it is to a plain object or a string; E6 where it is to an array of other
   elements; E7 where the part does not lie in the array.
   The slice is as it was, and nothing has changed. */
struct luthrady_reply luthrady_get_int_array_region(
    struct luthrady_env *env, uint64_t array, uint32_t start, int32_t *elements, size_t count);

/* Copies a part of an array of longs out, from an index on: as many elements as there is room for. (JNI
   Specification, chapter 4, "Get<PrimitiveType>ArrayRegion Routines")
   Refused: E21 where no env stands behind the handle; E19 in a critical region; E13 where a thread is
   collecting at the entry, or has announced that it will; E2 where the handle is malformed or lies outside
   the room; E3 where it is a local one of another thread; E2 where its reference does not stand; E1 where
   it is to null; E5 where it is to a plain object or a string; E6 where it is to an array of other
   elements; E7 where the part does not lie in the array.
   The slice is as it was, and nothing has changed. */
struct luthrady_reply luthrady_get_long_array_region(
    struct luthrady_env *env, uint64_t array, uint32_t start, int64_t *elements, size_t count);

/* Copies a part of a string's UTF-16 units out, from an index on: as many as there is room for. It is one
   critical region. (JNI Specification, chapter 4, "GetStringRegion")
   Refused: E21 where no env stands behind the handle; E19 in a critical region; E13 where a thread is
   collecting at the entry, or has announced that it will; E2 where the handle is malformed or lies outside
   the room; E3 where it is a local one of another thread; E2 where its reference does not stand; E1 where
   it is to null; E4 where it is to no string; E7 where the part does not lie in the string.
   The units are as they were, and nothing has changed. */
struct luthrady_reply luthrady_get_string_region(
    struct luthrady_env *env, uint64_t string, uint32_t start, uint16_t *units, size_t count);

/* A string of a text in UTF-8, and a local reference to it. The Java Native Interface's is of modified
   UTF-8. (JNI Specification, chapter 4, "NewStringUTF")
   Refused: E21 where no env stands behind the handle; E19 in a critical region; E18 where the bytes are no
   UTF-8; E16 where memory was refused; E13 where a thread is collecting at the entry, or has announced
   that it will; E9 where no local place is free; E10 with how many words are reserved, where so many more
   don't fit; E12 with how many words were looked at and how many were found, where another thread reserved
   some in between; E11 where every object number was present at one moment of the call.
   Nothing has changed then; but after E11 the words of the string stay reserved until the next collection. */
struct luthrady_reply luthrady_new_string_utf8(struct luthrady_env *env, const uint8_t *text, size_t count);

/* Reads a string as a text in UTF-8, and answers how many bytes that has. They stand in front then, where
   there is room for all of them, and else the bytes are as they were. (JNI Specification, chapter 4,
   "GetStringUTFRegion", "GetStringUTFLength")
   Refused: E21 where no env stands behind the handle; E19 in a critical region; E13 where a thread is
   collecting at the entry, or has announced that it will; E2 where the handle is malformed or lies outside
   the room; E3 where it is a local one of another thread; E2 where its reference does not stand; E1 where
   it is to null; E4 where it is to no string; E16 where memory was refused; E18 where a surrogate among
   the units has no partner.
   The bytes are as they were, and nothing has changed. */
struct luthrady_reply luthrady_get_string_utf8(
    struct luthrady_env *env, uint64_t string, uint8_t *bytes, size_t count);

/* Copies all elements of an array of booleans out. It is one critical region. (JNI Specification, chapter
   4, "Get<PrimitiveType>ArrayElements Routines")
   Refused: E21 where no env stands behind the handle; E19 in a critical region; E13 where a thread is
   collecting at the entry, or has announced that it will; E2 where the handle is malformed or lies outside
   the room; E3 where it is a local one of another thread; E2 where its reference does not stand; E1 where
   it is to null; E5 where it is to a plain object or a string; E6 where it is to an array of other
   elements; E7 where the array has another number of elements.
   The elements are as they were, and nothing has changed. */
struct luthrady_reply luthrady_get_boolean_array_elements(
    struct luthrady_env *env, uint64_t array, bool *elements, size_t count);

/* Copies all elements of an array of bytes out. It is one critical region. (JNI Specification, chapter 4,
   "Get<PrimitiveType>ArrayElements Routines")
   Refused: E21 where no env stands behind the handle; E19 in a critical region; E13 where a thread is
   collecting at the entry, or has announced that it will; E2 where the handle is malformed or lies outside
   the room; E3 where it is a local one of another thread; E2 where its reference does not stand; E1 where
   it is to null; E5 where it is to a plain object or a string; E6 where it is to an array of other
   elements; E7 where the array has another number of elements.
   The elements are as they were, and nothing has changed. */
struct luthrady_reply luthrady_get_byte_array_elements(
    struct luthrady_env *env, uint64_t array, int8_t *elements, size_t count);

/* Copies all elements of an array of chars out. It is one critical region. (JNI Specification, chapter 4,
   "Get<PrimitiveType>ArrayElements Routines")
   Refused: E21 where no env stands behind the handle; E19 in a critical region; E13 where a thread is
   collecting at the entry, or has announced that it will; E2 where the handle is malformed or lies outside
   the room; E3 where it is a local one of another thread; E2 where its reference does not stand; E1 where
   it is to null; E5 where it is to a plain object or a string; E6 where it is to an array of other
   elements; E7 where the array has another number of elements.
   The elements are as they were, and nothing has changed. */
struct luthrady_reply luthrady_get_char_array_elements(
    struct luthrady_env *env, uint64_t array, uint16_t *elements, size_t count);

/* Copies all elements of an array of shorts out. It is one critical region. (JNI Specification, chapter 4,
   "Get<PrimitiveType>ArrayElements Routines")
   Refused: E21 where no env stands behind the handle; E19 in a critical region; E13 where a thread is
   collecting at the entry, or has announced that it will; E2 where the handle is malformed or lies outside
   the room; E3 where it is a local one of another thread; E2 where its reference does not stand; E1 where
   it is to null; E5 where it is to a plain object or a string; E6 where it is to an array of other
   elements; E7 where the array has another number of elements.
   The elements are as they were, and nothing has changed. */
struct luthrady_reply luthrady_get_short_array_elements(
    struct luthrady_env *env, uint64_t array, int16_t *elements, size_t count);

/* Copies all elements of an array of ints out. It is one critical region. (JNI Specification, chapter 4,
   "Get<PrimitiveType>ArrayElements Routines")
   Refused: E21 where no env stands behind the handle; E19 in a critical region; E13 where a thread is
   collecting at the entry, or has announced that it will; E2 where the handle is malformed or lies outside
   the room; E3 where it is a local one of another thread; E2 where its reference does not stand; E1 where
   it is to null; E5 where it is to a plain object or a string; E6 where it is to an array of other
   elements; E7 where the array has another number of elements.
   The elements are as they were, and nothing has changed. */
struct luthrady_reply luthrady_get_int_array_elements(
    struct luthrady_env *env, uint64_t array, int32_t *elements, size_t count);

/* Copies all elements of an array of longs out. It is one critical region. (JNI Specification, chapter 4,
   "Get<PrimitiveType>ArrayElements Routines")
   Refused: E21 where no env stands behind the handle; E19 in a critical region; E13 where a thread is
   collecting at the entry, or has announced that it will; E2 where the handle is malformed or lies outside
   the room; E3 where it is a local one of another thread; E2 where its reference does not stand; E1 where
   it is to null; E5 where it is to a plain object or a string; E6 where it is to an array of other
   elements; E7 where the array has another number of elements.
   The elements are as they were, and nothing has changed. */
struct luthrady_reply luthrady_get_long_array_elements(
    struct luthrady_env *env, uint64_t array, int64_t *elements, size_t count);

/* Releases a copy of all elements of an array of booleans by the number of a mode: to copy (0) and to
   commit (1) write them to the array, in one critical region. To abort (2) looks at nothing. (JNI
   Specification, chapter 4, "Release<PrimitiveType>ArrayElements Routines")
   Refused: E21 where no env stands behind the handle; E19 in a critical region; E7 where no mode has the
   number; E13 where a thread is collecting at the entry, or has announced that it will; E2 where the
   handle is malformed or lies outside the room; E3 where it is a local one of another thread; E2 where its
   reference does not stand; E1 where it is to null; E5 where it is to a plain object or a string; E6 where
   it is to an array of other elements; E7 where the array has another number of elements.
   Nothing is written then. */
struct luthrady_reply luthrady_release_boolean_array_elements(
    struct luthrady_env *env, uint64_t array, const bool *elements, size_t count, uint32_t mode);

/* Releases a copy of all elements of an array of bytes by the number of a mode: to copy (0) and to commit
   (1) write them to the array, in one critical region. To abort (2) looks at nothing. (JNI Specification,
   chapter 4, "Release<PrimitiveType>ArrayElements Routines")
   Refused: E21 where no env stands behind the handle; E19 in a critical region; E7 where no mode has the
   number; E13 where a thread is collecting at the entry, or has announced that it will; E2 where the
   handle is malformed or lies outside the room; E3 where it is a local one of another thread; E2 where its
   reference does not stand; E1 where it is to null; E5 where it is to a plain object or a string; E6 where
   it is to an array of other elements; E7 where the array has another number of elements.
   Nothing is written then. */
struct luthrady_reply luthrady_release_byte_array_elements(
    struct luthrady_env *env, uint64_t array, const int8_t *elements, size_t count, uint32_t mode);

/* Releases a copy of all elements of an array of chars by the number of a mode: to copy (0) and to commit
   (1) write them to the array, in one critical region. To abort (2) looks at nothing. (JNI Specification,
   chapter 4, "Release<PrimitiveType>ArrayElements Routines")
   Refused: E21 where no env stands behind the handle; E19 in a critical region; E7 where no mode has the
   number; E13 where a thread is collecting at the entry, or has announced that it will; E2 where the
   handle is malformed or lies outside the room; E3 where it is a local one of another thread; E2 where its
   reference does not stand; E1 where it is to null; E5 where it is to a plain object or a string; E6 where
   it is to an array of other elements; E7 where the array has another number of elements.
   Nothing is written then. */
struct luthrady_reply luthrady_release_char_array_elements(
    struct luthrady_env *env, uint64_t array, const uint16_t *elements, size_t count, uint32_t mode);

/* Releases a copy of all elements of an array of shorts by the number of a mode: to copy (0) and to commit
   (1) write them to the array, in one critical region. To abort (2) looks at nothing. (JNI Specification,
   chapter 4, "Release<PrimitiveType>ArrayElements Routines")
   Refused: E21 where no env stands behind the handle; E19 in a critical region; E7 where no mode has the
   number; E13 where a thread is collecting at the entry, or has announced that it will; E2 where the
   handle is malformed or lies outside the room; E3 where it is a local one of another thread; E2 where its
   reference does not stand; E1 where it is to null; E5 where it is to a plain object or a string; E6 where
   it is to an array of other elements; E7 where the array has another number of elements.
   Nothing is written then. */
struct luthrady_reply luthrady_release_short_array_elements(
    struct luthrady_env *env, uint64_t array, const int16_t *elements, size_t count, uint32_t mode);

/* Releases a copy of all elements of an array of ints by the number of a mode: to copy (0) and to commit
   (1) write them to the array, in one critical region. To abort (2) looks at nothing. (JNI Specification,
   chapter 4, "Release<PrimitiveType>ArrayElements Routines")
   Refused: E21 where no env stands behind the handle; E19 in a critical region; E7 where no mode has the
   number; E13 where a thread is collecting at the entry, or has announced that it will; E2 where the
   handle is malformed or lies outside the room; E3 where it is a local one of another thread; E2 where its
   reference does not stand; E1 where it is to null; E5 where it is to a plain object or a string; E6 where
   it is to an array of other elements; E7 where the array has another number of elements.
   Nothing is written then. */
struct luthrady_reply luthrady_release_int_array_elements(
    struct luthrady_env *env, uint64_t array, const int32_t *elements, size_t count, uint32_t mode);

/* Releases a copy of all elements of an array of longs by the number of a mode: to copy (0) and to commit
   (1) write them to the array, in one critical region. To abort (2) looks at nothing. (JNI Specification,
   chapter 4, "Release<PrimitiveType>ArrayElements Routines")
   Refused: E21 where no env stands behind the handle; E19 in a critical region; E7 where no mode has the
   number; E13 where a thread is collecting at the entry, or has announced that it will; E2 where the
   handle is malformed or lies outside the room; E3 where it is a local one of another thread; E2 where its
   reference does not stand; E1 where it is to null; E5 where it is to a plain object or a string; E6 where
   it is to an array of other elements; E7 where the array has another number of elements.
   Nothing is written then. */
struct luthrady_reply luthrady_release_long_array_elements(
    struct luthrady_env *env, uint64_t array, const int64_t *elements, size_t count, uint32_t mode);

/* Opens a level of a critical region over an array whose elements are no objects, and answers its number.
   The first one has the number 0, and enters the region: the thread is within until it is released. Each
   further one has the next number. Until the region ends each call by the env but those at its levels is
   E19, and no collection comes. (JNI Specification, chapter 4, "GetPrimitiveArrayCritical")
   Refused: E21 where no env stands behind the handle; at the first level E13 where a thread is collecting
   at the entry, or has announced that it will; E2 where the handle is malformed or lies outside the room;
   E3 where it is a local one of another thread; E2 where its reference does not stand; E1 where it is to
   null; E5 where it is to a plain object or a string; E6 where it is to an array of objects; E17 where
   sixteen levels stand.
   The levels that stood still stand. Where none did the thread stands outside. */
struct luthrady_reply luthrady_get_array_critical(struct luthrady_env *env, uint64_t array);

/* Opens a level of a critical region over a string, as `luthrady_get_array_critical` does over an array.
   (JNI Specification, chapter 4, "GetStringCritical")
   Refused: E21 where no env stands behind the handle; at the first level E13 where a thread is collecting
   at the entry, or has announced that it will; E2 where the handle is malformed or lies outside the room;
   E3 where it is a local one of another thread; E2 where its reference does not stand; E1 where it is to
   null; E4 where it is to no string; E17 where sixteen levels stand.
   The levels that stood still stand. Where none did the thread stands outside. */
struct luthrady_reply luthrady_get_string_critical(struct luthrady_env *env, uint64_t string);

/* Releases the last level of a critical region, and answers how many are left. With the first one the
   region ends: the thread leaves the gate, and calls by the env are made again. What was written stands,
   whatever mode JNI would be handed. (JNI Specification, chapter 4, "ReleasePrimitiveArrayCritical",
   "ReleaseStringCritical")
   Refused: E21 where no env stands behind the handle; E19 where no region stands.
   Nothing has changed then. */
struct luthrady_reply luthrady_release_critical(struct luthrady_env *env);

/* How many elements or units a level of a critical region has. Nothing has changed then.
   Refused: E21 where no env stands behind the handle; E19 where no region stands; E2 where no level of the
   number does. */
struct luthrady_reply luthrady_get_level_length(struct luthrady_env *env, uint32_t level);

/* A boolean at an index of a level of a critical region. It answers 0 or 1. (JNI Specification, chapter 4,
   "GetPrimitiveArrayCritical")
   Refused: E21 where no env stands behind the handle; E19 where no region stands; E2 where no level of the
   number does; E6 where its elements are of another kind; E7 where the index is not below the length.
   Nothing is read then, and the levels stand. */
struct luthrady_reply luthrady_get_boolean_level_element(
    struct luthrady_env *env, uint32_t level, uint32_t index);

/* Makes a boolean the element at an index of a level of a critical region. (JNI Specification, chapter 4,
   "GetPrimitiveArrayCritical")
   Refused: E21 where no env stands behind the handle; E19 where no region stands; E2 where no level of the
   number does; E5 at a string; E6 where its elements are of another kind; E7 where the index is not below
   the length.
   Nothing is written then, and the levels stand. */
struct luthrady_reply luthrady_set_boolean_level_element(
    struct luthrady_env *env, uint32_t level, uint32_t index, bool value);

/* A byte at an index of a level of a critical region. It answers 8 bits in two's complement. (JNI
   Specification, chapter 4, "GetPrimitiveArrayCritical")
   Refused: E21 where no env stands behind the handle; E19 where no region stands; E2 where no level of the
   number does; E6 where its elements are of another kind; E7 where the index is not below the length.
   Nothing is read then, and the levels stand. */
struct luthrady_reply luthrady_get_byte_level_element(
    struct luthrady_env *env, uint32_t level, uint32_t index);

/* Makes a byte the element at an index of a level of a critical region. (JNI Specification, chapter 4,
   "GetPrimitiveArrayCritical")
   Refused: E21 where no env stands behind the handle; E19 where no region stands; E2 where no level of the
   number does; E5 at a string; E6 where its elements are of another kind; E7 where the index is not below
   the length.
   Nothing is written then, and the levels stand. */
struct luthrady_reply luthrady_set_byte_level_element(
    struct luthrady_env *env, uint32_t level, uint32_t index, int8_t value);

/* A char at an index of a level of a critical region, or a unit of a string. (JNI Specification, chapter
   4, "GetPrimitiveArrayCritical")
   Refused: E21 where no env stands behind the handle; E19 where no region stands; E2 where no level of the
   number does; E6 where its elements are of another kind; E7 where the index is not below the length.
   Nothing is read then, and the levels stand. */
struct luthrady_reply luthrady_get_char_level_element(
    struct luthrady_env *env, uint32_t level, uint32_t index);

/* Makes a char the element at an index of a level of a critical region. (JNI Specification, chapter 4,
   "GetPrimitiveArrayCritical")
   Refused: E21 where no env stands behind the handle; E19 where no region stands; E2 where no level of the
   number does; E5 at a string; E6 where its elements are of another kind; E7 where the index is not below
   the length.
   Nothing is written then, and the levels stand. */
struct luthrady_reply luthrady_set_char_level_element(
    struct luthrady_env *env, uint32_t level, uint32_t index, uint16_t value);

/* A short at an index of a level of a critical region. It answers 16 bits in two's complement. (JNI
   Specification, chapter 4, "GetPrimitiveArrayCritical")
   Refused: E21 where no env stands behind the handle; E19 where no region stands; E2 where no level of the
   number does; E6 where its elements are of another kind; E7 where the index is not below the length.
   Nothing is read then, and the levels stand. */
struct luthrady_reply luthrady_get_short_level_element(
    struct luthrady_env *env, uint32_t level, uint32_t index);

/* Makes a short the element at an index of a level of a critical region. (JNI Specification, chapter 4,
   "GetPrimitiveArrayCritical")
   Refused: E21 where no env stands behind the handle; E19 where no region stands; E2 where no level of the
   number does; E5 at a string; E6 where its elements are of another kind; E7 where the index is not below
   the length.
   Nothing is written then, and the levels stand. */
struct luthrady_reply luthrady_set_short_level_element(
    struct luthrady_env *env, uint32_t level, uint32_t index, int16_t value);

/* An int at an index of a level of a critical region. It answers 32 bits in two's complement. (JNI
   Specification, chapter 4, "GetPrimitiveArrayCritical")
   Refused: E21 where no env stands behind the handle; E19 where no region stands; E2 where no level of the
   number does; E6 where its elements are of another kind; E7 where the index is not below the length.
   Nothing is read then, and the levels stand. */
struct luthrady_reply luthrady_get_int_level_element(
    struct luthrady_env *env, uint32_t level, uint32_t index);

/* Makes an int the element at an index of a level of a critical region. (JNI Specification, chapter 4,
   "GetPrimitiveArrayCritical")
   Refused: E21 where no env stands behind the handle; E19 where no region stands; E2 where no level of the
   number does; E5 at a string; E6 where its elements are of another kind; E7 where the index is not below
   the length.
   Nothing is written then, and the levels stand. */
struct luthrady_reply luthrady_set_int_level_element(
    struct luthrady_env *env, uint32_t level, uint32_t index, int32_t value);

/* A long at an index of a level of a critical region. It answers 64 bits in two's complement. (JNI
   Specification, chapter 4, "GetPrimitiveArrayCritical")
   Refused: E21 where no env stands behind the handle; E19 where no region stands; E2 where no level of the
   number does; E6 where its elements are of another kind; E7 where the index is not below the length.
   Nothing is read then, and the levels stand. */
struct luthrady_reply luthrady_get_long_level_element(
    struct luthrady_env *env, uint32_t level, uint32_t index);

/* Makes a long the element at an index of a level of a critical region. (JNI Specification, chapter 4,
   "GetPrimitiveArrayCritical")
   Refused: E21 where no env stands behind the handle; E19 where no region stands; E2 where no level of the
   number does; E5 at a string; E6 where its elements are of another kind; E7 where the index is not below
   the length.
   Nothing is written then, and the levels stand. */
struct luthrady_reply luthrady_set_long_level_element(
    struct luthrady_env *env, uint32_t level, uint32_t index, int64_t value);

/* Copies a part of the booleans at a level of a critical region out, from an index on: as many as there is
   room for. Others may write meanwhile. (JNI Specification, chapter 4, "GetPrimitiveArrayCritical")
   Refused: E21 where no env stands behind the handle; E19 where no region stands; E2 where no level of the
   number does; E6 where its elements are of another kind; E7 where the part does not lie in its array.
   The elements are as they were, and the levels stand. */
struct luthrady_reply luthrady_get_boolean_level_part(
    struct luthrady_env *env, uint32_t level, uint32_t start, bool *elements, size_t count);

/* Copies booleans into a part of a level of a critical region, from an index on. Others may read
   meanwhile. (JNI Specification, chapter 4, "GetPrimitiveArrayCritical")
   Refused: E21 where no env stands behind the handle; E19 where no region stands; E2 where no level of the
   number does; E5 at a string; E6 where its elements are of another kind; E7 where the part does not lie
   in its array.
   Nothing is written then, and the levels stand. */
struct luthrady_reply luthrady_set_boolean_level_part(
    struct luthrady_env *env, uint32_t level, uint32_t start, const bool *elements, size_t count);

/* Copies a part of the bytes at a level of a critical region out, from an index on: as many as there is
   room for. Others may write meanwhile. (JNI Specification, chapter 4, "GetPrimitiveArrayCritical")
   Refused: E21 where no env stands behind the handle; E19 where no region stands; E2 where no level of the
   number does; E6 where its elements are of another kind; E7 where the part does not lie in its array.
   The elements are as they were, and the levels stand. */
struct luthrady_reply luthrady_get_byte_level_part(
    struct luthrady_env *env, uint32_t level, uint32_t start, int8_t *elements, size_t count);

/* Copies bytes into a part of a level of a critical region, from an index on. Others may read meanwhile.
   (JNI Specification, chapter 4, "GetPrimitiveArrayCritical")
   Refused: E21 where no env stands behind the handle; E19 where no region stands; E2 where no level of the
   number does; E5 at a string; E6 where its elements are of another kind; E7 where the part does not lie
   in its array.
   Nothing is written then, and the levels stand. */
struct luthrady_reply luthrady_set_byte_level_part(
    struct luthrady_env *env, uint32_t level, uint32_t start, const int8_t *elements, size_t count);

/* Copies a part of the chars at a level of a critical region out, from an index on: as many as there is
   room for. The units of a string are read as chars. Others may write meanwhile. (JNI Specification,
   chapter 4, "GetPrimitiveArrayCritical")
   Refused: E21 where no env stands behind the handle; E19 where no region stands; E2 where no level of the
   number does; E6 where its elements are of another kind; E7 where the part does not lie in its array or
   string.
   The elements are as they were, and the levels stand. */
struct luthrady_reply luthrady_get_char_level_part(
    struct luthrady_env *env, uint32_t level, uint32_t start, uint16_t *elements, size_t count);

/* Copies chars into a part of a level of a critical region, from an index on. Others may read meanwhile.
   (JNI Specification, chapter 4, "GetPrimitiveArrayCritical")
   Refused: E21 where no env stands behind the handle; E19 where no region stands; E2 where no level of the
   number does; E5 at a string; E6 where its elements are of another kind; E7 where the part does not lie
   in its array.
   Nothing is written then, and the levels stand. */
struct luthrady_reply luthrady_set_char_level_part(
    struct luthrady_env *env, uint32_t level, uint32_t start, const uint16_t *elements, size_t count);

/* Copies a part of the shorts at a level of a critical region out, from an index on: as many as there is
   room for. Others may write meanwhile. (JNI Specification, chapter 4, "GetPrimitiveArrayCritical")
   Refused: E21 where no env stands behind the handle; E19 where no region stands; E2 where no level of the
   number does; E6 where its elements are of another kind; E7 where the part does not lie in its array.
   The elements are as they were, and the levels stand. */
struct luthrady_reply luthrady_get_short_level_part(
    struct luthrady_env *env, uint32_t level, uint32_t start, int16_t *elements, size_t count);

/* Copies shorts into a part of a level of a critical region, from an index on. Others may read meanwhile.
   (JNI Specification, chapter 4, "GetPrimitiveArrayCritical")
   Refused: E21 where no env stands behind the handle; E19 where no region stands; E2 where no level of the
   number does; E5 at a string; E6 where its elements are of another kind; E7 where the part does not lie
   in its array.
   Nothing is written then, and the levels stand. */
struct luthrady_reply luthrady_set_short_level_part(
    struct luthrady_env *env, uint32_t level, uint32_t start, const int16_t *elements, size_t count);

/* Copies a part of the ints at a level of a critical region out, from an index on: as many as there is
   room for. Others may write meanwhile. (JNI Specification, chapter 4, "GetPrimitiveArrayCritical")
   Refused: E21 where no env stands behind the handle; E19 where no region stands; E2 where no level of the
   number does; E6 where its elements are of another kind; E7 where the part does not lie in its array.
   The elements are as they were, and the levels stand. */
struct luthrady_reply luthrady_get_int_level_part(
    struct luthrady_env *env, uint32_t level, uint32_t start, int32_t *elements, size_t count);

/* Copies ints into a part of a level of a critical region, from an index on. Others may read meanwhile.
   (JNI Specification, chapter 4, "GetPrimitiveArrayCritical")
   Refused: E21 where no env stands behind the handle; E19 where no region stands; E2 where no level of the
   number does; E5 at a string; E6 where its elements are of another kind; E7 where the part does not lie
   in its array.
   Nothing is written then, and the levels stand. */
struct luthrady_reply luthrady_set_int_level_part(
    struct luthrady_env *env, uint32_t level, uint32_t start, const int32_t *elements, size_t count);

/* Copies a part of the longs at a level of a critical region out, from an index on: as many as there is
   room for. Others may write meanwhile. (JNI Specification, chapter 4, "GetPrimitiveArrayCritical")
   Refused: E21 where no env stands behind the handle; E19 where no region stands; E2 where no level of the
   number does; E6 where its elements are of another kind; E7 where the part does not lie in its array.
   The elements are as they were, and the levels stand. */
struct luthrady_reply luthrady_get_long_level_part(
    struct luthrady_env *env, uint32_t level, uint32_t start, int64_t *elements, size_t count);

/* Copies longs into a part of a level of a critical region, from an index on. Others may read meanwhile.
   (JNI Specification, chapter 4, "GetPrimitiveArrayCritical")
   Refused: E21 where no env stands behind the handle; E19 where no region stands; E2 where no level of the
   number does; E5 at a string; E6 where its elements are of another kind; E7 where the part does not lie
   in its array.
   Nothing is written then, and the levels stand. */
struct luthrady_reply luthrady_set_long_level_part(
    struct luthrady_env *env, uint32_t level, uint32_t start, const int64_t *elements, size_t count);

/* The kind of what the word names, by its number: 1 plain, 2 to 7 an array of booleans, bytes, chars,
   shorts, ints, longs, 8 an array of objects, 9 a string. The Java Native Interface has no such call.
   Refused: E21 where no env stands behind the handle; E19 in a critical region; E13 where a thread is
   collecting at the entry, or has announced that it will; E2 where the handle is malformed or lies outside
   the room; E3 where it is a local one of another thread; E2 where its reference does not stand; E1 where
   it is to null.
   Nothing has changed then. */
struct luthrady_reply luthrady_kind_of(struct luthrady_env *env, uint64_t object);

/* The identity of what the word names: a number, at least 1, that all references to one object share, and
   that no other object has while that one is present. A collection leaves it. Once a collection has
   dropped the object, another may have its number. The Java Native Interface has no such call.
   Refused: E21 where no env stands behind the handle; E19 in a critical region; E13 where a thread is
   collecting at the entry, or has announced that it will; E2 where the handle is malformed or lies outside
   the room; E3 where it is a local one of another thread; E2 where its reference does not stand; E1 where
   it is to null.
   Nothing has changed then. */
struct luthrady_reply luthrady_identity_of(struct luthrady_env *env, uint64_t object);

/* What a word is that is handed in as a reference, whatever word it is. What is told of the room was so at
   the call's one look. It changes nothing.
   Refused: E21 where no env stands behind the handle; E19 in a critical region; E13 where a thread is
   collecting at the entry, or has announced that it will.
   Nothing has changed then. */
struct luthrady_reply luthrady_explain(
    struct luthrady_env *env, uint64_t word, struct luthrady_explained *out);

/* How many words of array space are used: reserved, be it for objects that stand or for such as nothing
   reaches. Others may go on meanwhile.
   Refused: E21 where no env stands behind the handle; E19 in a critical region; E13 where a thread is
   collecting at the entry, or has announced that it will.
   Nothing has changed then. */
struct luthrady_reply luthrady_words_used(struct luthrady_env *env);

/* How many local references the thread has, and how many places for them. It enters no gate.
   Refused: E21 where no env stands behind the handle; E19 in a critical region.
   Nothing has changed then, and nothing is written. */
struct luthrady_reply luthrady_local_counts(struct luthrady_env *env, struct luthrady_locals *out);

/* Counts what stands in the room, at one step that shuts the gate for it, and changes nothing. It writes
   the counts, and how many local references each thread has, by the thread's number: as many of these as
   there is room for, and 64 at the most. A thread that the room doesn't have has none.
   Refused: E21 where no env stands behind the handle; E19 in a critical region; E17 exactly where the
   marker was made for another number of objects; E14 with how many threads were inside, knocking,
   announcing or collecting at its one step, at least 1.
   Nothing has changed then, and the marker is as it was. At E14 the thread stands outside, and at E17 it
   has taken no step. Over one thread a marker that fits is never refused. */
struct luthrady_reply luthrady_census(
    struct luthrady_env *env, uint32_t *locals, size_t count, struct luthrady_inventory *out);

/* Counts as `luthrady_census` does, but announces it first, and tries so many times to shut the gate, at
   least once.
   Refused: E21 where no env stands behind the handle; E19 in a critical region; E17 exactly where the
   marker was made for another number of objects; E14 with how many threads were inside, knocking,
   announcing or collecting, at least 1, where another thread kept the gate closed already; E23 with two
   counts of the open gate, where another thread went in or out between the look at it and the
   announcement; E14 with how many other threads were inside or knocking at the last try, at least 1.
   Nothing has changed then, and the marker is as it was. At E14 and E23 the thread stands outside, and at
   E17 it has taken no step. Over one thread a marker that fits is never refused. */
struct luthrady_reply luthrady_census_announced(
    struct luthrady_env *env, uint32_t tries, uint32_t *locals, size_t count, struct luthrady_inventory *out);

/* Notes what each slot, each local place of each thread and each object number of the room has, at one
   step that shuts the gate for it, and changes nothing. It writes a row for each at the front of four
   buffers, as many as there is room for. What lies behind stays. The room has as many as its sizes say. A
   slot's row is that of its index. A local place has the identity of the object that its reference names,
   0 where it has none: a thread's places stand behind those of the threads before it. An object's row is
   that of its identity less one. Its elements' words stand in a row from its place on: that of an array of
   objects is the identity of the element's object, 0 for NULL.
   Refused: E21 where no env stands behind the handle; E19 in a critical region; E16 where memory for the
   notes was refused; E14 with how many threads were inside, knocking, announcing or collecting at its one
   step, at least 1.
   Nothing has changed then, the rows are as they were, and the thread stands outside. Over one thread it
   is refused by E16 alone. */
struct luthrady_reply luthrady_dump(
    struct luthrady_env *env, struct luthrady_slot *slots, size_t slots_count, uint16_t *locals,
    size_t locals_count, struct luthrady_object *objects, size_t objects_count, uint64_t *words,
    size_t words_count);

/* Notes what stands in the room as `luthrady_dump` does, but announces it first, and tries so many times
   to shut the gate, at least once.
   Refused: E21 where no env stands behind the handle; E19 in a critical region; E16 where memory for the
   notes was refused; E14 with how many threads were inside, knocking, announcing or collecting, at least
   1, where another thread kept the gate closed already; E23 with two counts of the open gate, where
   another thread went in or out between the look at it and the announcement; E14 with how many other
   threads were inside or knocking at the last try, at least 1.
   Nothing has changed then, the rows are as they were, and the thread stands outside. Over one thread it
   is refused by E16 alone. */
struct luthrady_reply luthrady_dump_announced(
    struct luthrady_env *env, uint32_t tries, struct luthrady_slot *slots, size_t slots_count,
    uint16_t *locals, size_t locals_count, struct luthrady_object *objects, size_t objects_count,
    uint64_t *words, size_t words_count);

/* Collects, by the thread's own marker, and writes what it did.
   Refused: E21 where no env stands behind the handle; E19 in a critical region; E17 exactly where the
   marker was made for another number of objects; E14 with how many threads were inside, knocking,
   announcing or collecting at its one step, at least 1.
   Nothing has changed then, and the marker is as it was. At E14 the thread stands outside, and at E17 it
   has taken no step. Over one thread a marker that fits is never refused. */
struct luthrady_reply luthrady_collect(struct luthrady_env *env, struct luthrady_counts *out);

/* Collects as `luthrady_collect` does, but announces it first, and tries so many times to shut the gate,
   at least once.
   Refused: E21 where no env stands behind the handle; E19 in a critical region; E17 exactly where the
   marker was made for another number of objects; E14 with how many threads were inside, knocking,
   announcing or collecting, at least 1, where another thread kept the gate closed already; E23 with two
   counts of the open gate, where another thread went in or out between the look at it and the
   announcement; E14 with how many other threads were inside or knocking at the last try, at least 1.
   Nothing has changed then, and the marker is as it was. At E14 and E23 the thread stands outside, and at
   E17 it has taken no step. Over one thread a marker that fits is never refused. */
struct luthrady_reply luthrady_collect_announced(
    struct luthrady_env *env, uint32_t tries, struct luthrady_counts *out);

/* Collects as `luthrady_collect_announced` does, and announces it anew as long as it gets no turn (E14,
   E23), but no more than so many times more. The last answer is the answer. Between two announcements none
   stands, so that others go in. It yields to nobody.
   Refused: E21 where no env stands behind the handle; E19 in a critical region; E17 exactly where the
   marker was made for another number of objects; E14 with how many threads were inside, knocking,
   announcing or collecting, at least 1, where another thread kept the gate closed at the last
   announcement; E23 with two counts of the open gate, where another thread went in or out between its look
   at the gate and that announcement; E14 with how many other threads were inside or knocking at its last
   try, at least 1.
   Nothing has changed then, and the marker is as it was. At E14 and E23 the thread stands outside, and at
   E17 it has taken no step. Over one thread a marker that fits is never refused. */
struct luthrady_reply luthrady_collect_in_turn(
    struct luthrady_env *env, uint32_t tries, uint32_t more, struct luthrady_counts *out);

/* Collects as `luthrady_collect_in_turn` does, and lists what went at the front of two buffers, in the
   order in which it went and as much as there is room for: the weak references that it cleared, by their
   words, and the objects that it dropped, by their identities. What lies behind stays. The counts tell how
   many there were, which may be more than the buffers have room for. Memory for the list of references is
   taken first.
   Refused: E21 where no env stands behind the handle; E19 in a critical region; E16 where that memory was
   refused; E17 exactly where the marker was made for another number of objects; E14 with how many threads
   were inside, knocking, announcing or collecting, at least 1, where another thread kept the gate closed
   at the last announcement; E23 with two counts of the open gate, where another thread went in or out
   between its look at the gate and that announcement; E14 with how many other threads were inside or
   knocking at its last try, at least 1.
   Nothing has changed then, and the marker and the buffers are as they were. At E14 and E23 the thread
   stands outside, and at E17 it has taken no step. Over one thread a marker that fits is refused by E16
   alone. */
struct luthrady_reply luthrady_collect_in_turn_listing(
    struct luthrady_env *env, uint32_t tries, uint32_t more, uint64_t *references, size_t references_count,
    uint16_t *identities, size_t identities_count, struct luthrady_counts *out);

/* Makes calls in one stay: each as by its own function, but between one entry at the gate and one exit.
   Each call's answer is written to it. A call whose number is none is E7.
   Refused: E21 where no env stands behind the handle; E19 in a critical region; E13 where a thread is
   collecting at the entry, or has announced that it will.
   No call is made then. */
struct luthrady_reply luthrady_batch(
    struct luthrady_env *env, struct luthrady_batch_call *calls, size_t count);

/* What a refusal says, in a clause of English. A number that is none has a text too. */
static inline const char *luthrady_fault_text(uint32_t fault)
{
    switch (fault) {
    case 0: return "not refused";
    case 1: return "null, where an object is needed";
    case 2: return "no reference of this word stands, or no level of this number";
    case 3: return "the word is a local reference of another thread";
    case 4: return "the word names something of another kind than the call is for";
    case 5: return "the object is not an array";
    case 6: return "the array's elements are of another kind than the call is for";
    case 7: return "an index, a part or a length doesn't fit the object";
    case 8: return "the search found no free slot";
    case 9: return "the thread has too little room for local references";
    case 10: return "the request doesn't fit beside the words in use";
    case 11: return "every object number is present";
    case 12: return "another thread reserved words meanwhile";
    case 13: return "a collection keeps threads from coming in";
    case 14: return "other threads keep the collection from coming in";
    case 15: return "the base frame can't be popped";
    case 16: return "the system refused memory or a thread";
    case 17: return "a size or a count is outside of its limits";
    case 18: return "the word is none of the array's element kind";
    case 19: return "the env is in a critical region, a level is asked for where no region stands, or the place of an attached thread is to be freed";
    case 20: return "the turns ran out";
    case 21: return "no room or no env that may be used stands behind the pointer, no env of a room is free, or no thread is attached to it";
    case 22: return "other threads kept the room from being closed";
    case 23: return "a thread went in or out before the announcement";
    default: return "no refusal has this number";
    }
}

/* The calls with a test of their pointers before them: an env, a room, an out or count elements whose
   address is NULL are E21, and nothing is done. They take the names of the calls where LUTHRADY_NO_CHECKS
   isn't defined. In brackets a name is the call's own: (luthrady_free_locals)(&env). */
#ifndef LUTHRADY_NO_CHECKS
static inline struct luthrady_reply luthrady_refused_null(void)
{
    struct luthrady_reply reply = {0, LUTHRADY_FAULT_NOT_FRESH, 0, 0};
    return reply;
}

static inline struct luthrady_reply luthrady_checked_open(struct luthrady_sizes sizes, void **out)
{
    return out == NULL ? luthrady_refused_null() : luthrady_open(sizes, out);
}

static inline struct luthrady_reply luthrady_checked_attach(struct luthrady_room *room, void **out)
{
    return room == NULL || out == NULL ? luthrady_refused_null() : luthrady_attach(room, out);
}

static inline struct luthrady_reply luthrady_checked_release(struct luthrady_room *room)
{
    return room == NULL ? luthrady_refused_null() : luthrady_release(room);
}

static inline struct luthrady_reply luthrady_checked_detach(
    struct luthrady_room *room, struct luthrady_env *env, struct luthrady_stood *out)
{
    return room == NULL || env == NULL || out == NULL
        ? luthrady_refused_null()
        : luthrady_detach(room, env, out);
}

static inline struct luthrady_reply luthrady_checked_free_env(struct luthrady_env *env)
{
    return env == NULL ? luthrady_refused_null() : luthrady_free_env(env);
}

static inline struct luthrady_reply luthrady_checked_free_room(struct luthrady_room *room)
{
    return room == NULL ? luthrady_refused_null() : luthrady_free_room(room);
}

static inline struct luthrady_reply luthrady_checked_new_global_ref(struct luthrady_env *env, uint64_t object)
{
    return env == NULL ? luthrady_refused_null() : luthrady_new_global_ref(env, object);
}

static inline struct luthrady_reply luthrady_checked_new_weak_global_ref(
    struct luthrady_env *env, uint64_t object)
{
    return env == NULL ? luthrady_refused_null() : luthrady_new_weak_global_ref(env, object);
}

static inline struct luthrady_reply luthrady_checked_new_local_ref(struct luthrady_env *env, uint64_t object)
{
    return env == NULL ? luthrady_refused_null() : luthrady_new_local_ref(env, object);
}

static inline struct luthrady_reply luthrady_checked_delete_global_ref(
    struct luthrady_env *env, uint64_t reference)
{
    return env == NULL ? luthrady_refused_null() : luthrady_delete_global_ref(env, reference);
}

static inline struct luthrady_reply luthrady_checked_delete_weak_global_ref(
    struct luthrady_env *env, uint64_t reference)
{
    return env == NULL ? luthrady_refused_null() : luthrady_delete_weak_global_ref(env, reference);
}

static inline struct luthrady_reply luthrady_checked_delete_local_ref(
    struct luthrady_env *env, uint64_t reference)
{
    return env == NULL ? luthrady_refused_null() : luthrady_delete_local_ref(env, reference);
}

static inline struct luthrady_reply luthrady_checked_is_same_object(
    struct luthrady_env *env, uint64_t left, uint64_t right)
{
    return env == NULL ? luthrady_refused_null() : luthrady_is_same_object(env, left, right);
}

static inline struct luthrady_reply luthrady_checked_get_object_ref_type(
    struct luthrady_env *env, uint64_t object)
{
    return env == NULL ? luthrady_refused_null() : luthrady_get_object_ref_type(env, object);
}

static inline struct luthrady_reply luthrady_checked_upgrade_local(struct luthrady_env *env, uint64_t weak)
{
    return env == NULL ? luthrady_refused_null() : luthrady_upgrade_local(env, weak);
}

static inline struct luthrady_reply luthrady_checked_upgrade_global(struct luthrady_env *env, uint64_t weak)
{
    return env == NULL ? luthrady_refused_null() : luthrady_upgrade_global(env, weak);
}

static inline struct luthrady_reply luthrady_checked_delete_cleared(struct luthrady_env *env, uint64_t weak)
{
    return env == NULL ? luthrady_refused_null() : luthrady_delete_cleared(env, weak);
}

static inline struct luthrady_reply luthrady_checked_ensure_local_capacity(
    struct luthrady_env *env, uint32_t capacity)
{
    return env == NULL ? luthrady_refused_null() : luthrady_ensure_local_capacity(env, capacity);
}

static inline struct luthrady_reply luthrady_checked_push_local_frame(
    struct luthrady_env *env, uint32_t capacity)
{
    return env == NULL ? luthrady_refused_null() : luthrady_push_local_frame(env, capacity);
}

static inline struct luthrady_reply luthrady_checked_pop_local_frame(struct luthrady_env *env, uint64_t kept)
{
    return env == NULL ? luthrady_refused_null() : luthrady_pop_local_frame(env, kept);
}

static inline struct luthrady_reply luthrady_checked_free_locals(struct luthrady_env *env)
{
    return env == NULL ? luthrady_refused_null() : luthrady_free_locals(env);
}

static inline struct luthrady_reply luthrady_checked_new_plain(struct luthrady_env *env)
{
    return env == NULL ? luthrady_refused_null() : luthrady_new_plain(env);
}

static inline struct luthrady_reply luthrady_checked_new_boolean_array(
    struct luthrady_env *env, uint32_t length)
{
    return env == NULL ? luthrady_refused_null() : luthrady_new_boolean_array(env, length);
}

static inline struct luthrady_reply luthrady_checked_new_byte_array(struct luthrady_env *env, uint32_t length)
{
    return env == NULL ? luthrady_refused_null() : luthrady_new_byte_array(env, length);
}

static inline struct luthrady_reply luthrady_checked_new_char_array(struct luthrady_env *env, uint32_t length)
{
    return env == NULL ? luthrady_refused_null() : luthrady_new_char_array(env, length);
}

static inline struct luthrady_reply luthrady_checked_new_short_array(
    struct luthrady_env *env, uint32_t length)
{
    return env == NULL ? luthrady_refused_null() : luthrady_new_short_array(env, length);
}

static inline struct luthrady_reply luthrady_checked_new_int_array(struct luthrady_env *env, uint32_t length)
{
    return env == NULL ? luthrady_refused_null() : luthrady_new_int_array(env, length);
}

static inline struct luthrady_reply luthrady_checked_new_long_array(struct luthrady_env *env, uint32_t length)
{
    return env == NULL ? luthrady_refused_null() : luthrady_new_long_array(env, length);
}

static inline struct luthrady_reply luthrady_checked_new_object_array(
    struct luthrady_env *env, uint32_t length, uint64_t initial)
{
    return env == NULL ? luthrady_refused_null() : luthrady_new_object_array(env, length, initial);
}

static inline struct luthrady_reply luthrady_checked_new_string(
    struct luthrady_env *env, const uint16_t *units, size_t count)
{
    return env == NULL || (count != 0 && units == NULL)
        ? luthrady_refused_null()
        : luthrady_new_string(env, units, count);
}

static inline struct luthrady_reply luthrady_checked_get_array_length(
    struct luthrady_env *env, uint64_t array)
{
    return env == NULL ? luthrady_refused_null() : luthrady_get_array_length(env, array);
}

static inline struct luthrady_reply luthrady_checked_get_string_length(
    struct luthrady_env *env, uint64_t string)
{
    return env == NULL ? luthrady_refused_null() : luthrady_get_string_length(env, string);
}

static inline struct luthrady_reply luthrady_checked_get_object_array_element(
    struct luthrady_env *env, uint64_t array, uint32_t index)
{
    return env == NULL ? luthrady_refused_null() : luthrady_get_object_array_element(env, array, index);
}

static inline struct luthrady_reply luthrady_checked_set_object_array_element(
    struct luthrady_env *env, uint64_t array, uint32_t index, uint64_t value)
{
    return env == NULL
        ? luthrady_refused_null()
        : luthrady_set_object_array_element(env, array, index, value);
}

static inline struct luthrady_reply luthrady_checked_set_boolean_array_region(
    struct luthrady_env *env, uint64_t array, uint32_t start, const bool *elements, size_t count)
{
    return env == NULL || (count != 0 && elements == NULL)
        ? luthrady_refused_null()
        : luthrady_set_boolean_array_region(env, array, start, elements, count);
}

static inline struct luthrady_reply luthrady_checked_set_byte_array_region(
    struct luthrady_env *env, uint64_t array, uint32_t start, const int8_t *elements, size_t count)
{
    return env == NULL || (count != 0 && elements == NULL)
        ? luthrady_refused_null()
        : luthrady_set_byte_array_region(env, array, start, elements, count);
}

static inline struct luthrady_reply luthrady_checked_set_char_array_region(
    struct luthrady_env *env, uint64_t array, uint32_t start, const uint16_t *elements, size_t count)
{
    return env == NULL || (count != 0 && elements == NULL)
        ? luthrady_refused_null()
        : luthrady_set_char_array_region(env, array, start, elements, count);
}

static inline struct luthrady_reply luthrady_checked_set_short_array_region(
    struct luthrady_env *env, uint64_t array, uint32_t start, const int16_t *elements, size_t count)
{
    return env == NULL || (count != 0 && elements == NULL)
        ? luthrady_refused_null()
        : luthrady_set_short_array_region(env, array, start, elements, count);
}

static inline struct luthrady_reply luthrady_checked_set_int_array_region(
    struct luthrady_env *env, uint64_t array, uint32_t start, const int32_t *elements, size_t count)
{
    return env == NULL || (count != 0 && elements == NULL)
        ? luthrady_refused_null()
        : luthrady_set_int_array_region(env, array, start, elements, count);
}

static inline struct luthrady_reply luthrady_checked_set_long_array_region(
    struct luthrady_env *env, uint64_t array, uint32_t start, const int64_t *elements, size_t count)
{
    return env == NULL || (count != 0 && elements == NULL)
        ? luthrady_refused_null()
        : luthrady_set_long_array_region(env, array, start, elements, count);
}

static inline struct luthrady_reply luthrady_checked_get_boolean_array_region(
    struct luthrady_env *env, uint64_t array, uint32_t start, bool *elements, size_t count)
{
    return env == NULL || (count != 0 && elements == NULL)
        ? luthrady_refused_null()
        : luthrady_get_boolean_array_region(env, array, start, elements, count);
}

static inline struct luthrady_reply luthrady_checked_get_byte_array_region(
    struct luthrady_env *env, uint64_t array, uint32_t start, int8_t *elements, size_t count)
{
    return env == NULL || (count != 0 && elements == NULL)
        ? luthrady_refused_null()
        : luthrady_get_byte_array_region(env, array, start, elements, count);
}

static inline struct luthrady_reply luthrady_checked_get_char_array_region(
    struct luthrady_env *env, uint64_t array, uint32_t start, uint16_t *elements, size_t count)
{
    return env == NULL || (count != 0 && elements == NULL)
        ? luthrady_refused_null()
        : luthrady_get_char_array_region(env, array, start, elements, count);
}

static inline struct luthrady_reply luthrady_checked_get_short_array_region(
    struct luthrady_env *env, uint64_t array, uint32_t start, int16_t *elements, size_t count)
{
    return env == NULL || (count != 0 && elements == NULL)
        ? luthrady_refused_null()
        : luthrady_get_short_array_region(env, array, start, elements, count);
}

static inline struct luthrady_reply luthrady_checked_get_int_array_region(
    struct luthrady_env *env, uint64_t array, uint32_t start, int32_t *elements, size_t count)
{
    return env == NULL || (count != 0 && elements == NULL)
        ? luthrady_refused_null()
        : luthrady_get_int_array_region(env, array, start, elements, count);
}

static inline struct luthrady_reply luthrady_checked_get_long_array_region(
    struct luthrady_env *env, uint64_t array, uint32_t start, int64_t *elements, size_t count)
{
    return env == NULL || (count != 0 && elements == NULL)
        ? luthrady_refused_null()
        : luthrady_get_long_array_region(env, array, start, elements, count);
}

static inline struct luthrady_reply luthrady_checked_get_string_region(
    struct luthrady_env *env, uint64_t string, uint32_t start, uint16_t *units, size_t count)
{
    return env == NULL || (count != 0 && units == NULL)
        ? luthrady_refused_null()
        : luthrady_get_string_region(env, string, start, units, count);
}

static inline struct luthrady_reply luthrady_checked_new_string_utf8(
    struct luthrady_env *env, const uint8_t *text, size_t count)
{
    return env == NULL || (count != 0 && text == NULL)
        ? luthrady_refused_null()
        : luthrady_new_string_utf8(env, text, count);
}

static inline struct luthrady_reply luthrady_checked_get_string_utf8(
    struct luthrady_env *env, uint64_t string, uint8_t *bytes, size_t count)
{
    return env == NULL || (count != 0 && bytes == NULL)
        ? luthrady_refused_null()
        : luthrady_get_string_utf8(env, string, bytes, count);
}

static inline struct luthrady_reply luthrady_checked_get_boolean_array_elements(
    struct luthrady_env *env, uint64_t array, bool *elements, size_t count)
{
    return env == NULL || (count != 0 && elements == NULL)
        ? luthrady_refused_null()
        : luthrady_get_boolean_array_elements(env, array, elements, count);
}

static inline struct luthrady_reply luthrady_checked_get_byte_array_elements(
    struct luthrady_env *env, uint64_t array, int8_t *elements, size_t count)
{
    return env == NULL || (count != 0 && elements == NULL)
        ? luthrady_refused_null()
        : luthrady_get_byte_array_elements(env, array, elements, count);
}

static inline struct luthrady_reply luthrady_checked_get_char_array_elements(
    struct luthrady_env *env, uint64_t array, uint16_t *elements, size_t count)
{
    return env == NULL || (count != 0 && elements == NULL)
        ? luthrady_refused_null()
        : luthrady_get_char_array_elements(env, array, elements, count);
}

static inline struct luthrady_reply luthrady_checked_get_short_array_elements(
    struct luthrady_env *env, uint64_t array, int16_t *elements, size_t count)
{
    return env == NULL || (count != 0 && elements == NULL)
        ? luthrady_refused_null()
        : luthrady_get_short_array_elements(env, array, elements, count);
}

static inline struct luthrady_reply luthrady_checked_get_int_array_elements(
    struct luthrady_env *env, uint64_t array, int32_t *elements, size_t count)
{
    return env == NULL || (count != 0 && elements == NULL)
        ? luthrady_refused_null()
        : luthrady_get_int_array_elements(env, array, elements, count);
}

static inline struct luthrady_reply luthrady_checked_get_long_array_elements(
    struct luthrady_env *env, uint64_t array, int64_t *elements, size_t count)
{
    return env == NULL || (count != 0 && elements == NULL)
        ? luthrady_refused_null()
        : luthrady_get_long_array_elements(env, array, elements, count);
}

static inline struct luthrady_reply luthrady_checked_release_boolean_array_elements(
    struct luthrady_env *env, uint64_t array, const bool *elements, size_t count, uint32_t mode)
{
    return env == NULL || (count != 0 && elements == NULL)
        ? luthrady_refused_null()
        : luthrady_release_boolean_array_elements(env, array, elements, count, mode);
}

static inline struct luthrady_reply luthrady_checked_release_byte_array_elements(
    struct luthrady_env *env, uint64_t array, const int8_t *elements, size_t count, uint32_t mode)
{
    return env == NULL || (count != 0 && elements == NULL)
        ? luthrady_refused_null()
        : luthrady_release_byte_array_elements(env, array, elements, count, mode);
}

static inline struct luthrady_reply luthrady_checked_release_char_array_elements(
    struct luthrady_env *env, uint64_t array, const uint16_t *elements, size_t count, uint32_t mode)
{
    return env == NULL || (count != 0 && elements == NULL)
        ? luthrady_refused_null()
        : luthrady_release_char_array_elements(env, array, elements, count, mode);
}

static inline struct luthrady_reply luthrady_checked_release_short_array_elements(
    struct luthrady_env *env, uint64_t array, const int16_t *elements, size_t count, uint32_t mode)
{
    return env == NULL || (count != 0 && elements == NULL)
        ? luthrady_refused_null()
        : luthrady_release_short_array_elements(env, array, elements, count, mode);
}

static inline struct luthrady_reply luthrady_checked_release_int_array_elements(
    struct luthrady_env *env, uint64_t array, const int32_t *elements, size_t count, uint32_t mode)
{
    return env == NULL || (count != 0 && elements == NULL)
        ? luthrady_refused_null()
        : luthrady_release_int_array_elements(env, array, elements, count, mode);
}

static inline struct luthrady_reply luthrady_checked_release_long_array_elements(
    struct luthrady_env *env, uint64_t array, const int64_t *elements, size_t count, uint32_t mode)
{
    return env == NULL || (count != 0 && elements == NULL)
        ? luthrady_refused_null()
        : luthrady_release_long_array_elements(env, array, elements, count, mode);
}

static inline struct luthrady_reply luthrady_checked_get_array_critical(
    struct luthrady_env *env, uint64_t array)
{
    return env == NULL ? luthrady_refused_null() : luthrady_get_array_critical(env, array);
}

static inline struct luthrady_reply luthrady_checked_get_string_critical(
    struct luthrady_env *env, uint64_t string)
{
    return env == NULL ? luthrady_refused_null() : luthrady_get_string_critical(env, string);
}

static inline struct luthrady_reply luthrady_checked_release_critical(struct luthrady_env *env)
{
    return env == NULL ? luthrady_refused_null() : luthrady_release_critical(env);
}

static inline struct luthrady_reply luthrady_checked_get_level_length(
    struct luthrady_env *env, uint32_t level)
{
    return env == NULL ? luthrady_refused_null() : luthrady_get_level_length(env, level);
}

static inline struct luthrady_reply luthrady_checked_get_boolean_level_element(
    struct luthrady_env *env, uint32_t level, uint32_t index)
{
    return env == NULL ? luthrady_refused_null() : luthrady_get_boolean_level_element(env, level, index);
}

static inline struct luthrady_reply luthrady_checked_set_boolean_level_element(
    struct luthrady_env *env, uint32_t level, uint32_t index, bool value)
{
    return env == NULL
        ? luthrady_refused_null()
        : luthrady_set_boolean_level_element(env, level, index, value);
}

static inline struct luthrady_reply luthrady_checked_get_byte_level_element(
    struct luthrady_env *env, uint32_t level, uint32_t index)
{
    return env == NULL ? luthrady_refused_null() : luthrady_get_byte_level_element(env, level, index);
}

static inline struct luthrady_reply luthrady_checked_set_byte_level_element(
    struct luthrady_env *env, uint32_t level, uint32_t index, int8_t value)
{
    return env == NULL ? luthrady_refused_null() : luthrady_set_byte_level_element(env, level, index, value);
}

static inline struct luthrady_reply luthrady_checked_get_char_level_element(
    struct luthrady_env *env, uint32_t level, uint32_t index)
{
    return env == NULL ? luthrady_refused_null() : luthrady_get_char_level_element(env, level, index);
}

static inline struct luthrady_reply luthrady_checked_set_char_level_element(
    struct luthrady_env *env, uint32_t level, uint32_t index, uint16_t value)
{
    return env == NULL ? luthrady_refused_null() : luthrady_set_char_level_element(env, level, index, value);
}

static inline struct luthrady_reply luthrady_checked_get_short_level_element(
    struct luthrady_env *env, uint32_t level, uint32_t index)
{
    return env == NULL ? luthrady_refused_null() : luthrady_get_short_level_element(env, level, index);
}

static inline struct luthrady_reply luthrady_checked_set_short_level_element(
    struct luthrady_env *env, uint32_t level, uint32_t index, int16_t value)
{
    return env == NULL ? luthrady_refused_null() : luthrady_set_short_level_element(env, level, index, value);
}

static inline struct luthrady_reply luthrady_checked_get_int_level_element(
    struct luthrady_env *env, uint32_t level, uint32_t index)
{
    return env == NULL ? luthrady_refused_null() : luthrady_get_int_level_element(env, level, index);
}

static inline struct luthrady_reply luthrady_checked_set_int_level_element(
    struct luthrady_env *env, uint32_t level, uint32_t index, int32_t value)
{
    return env == NULL ? luthrady_refused_null() : luthrady_set_int_level_element(env, level, index, value);
}

static inline struct luthrady_reply luthrady_checked_get_long_level_element(
    struct luthrady_env *env, uint32_t level, uint32_t index)
{
    return env == NULL ? luthrady_refused_null() : luthrady_get_long_level_element(env, level, index);
}

static inline struct luthrady_reply luthrady_checked_set_long_level_element(
    struct luthrady_env *env, uint32_t level, uint32_t index, int64_t value)
{
    return env == NULL ? luthrady_refused_null() : luthrady_set_long_level_element(env, level, index, value);
}

static inline struct luthrady_reply luthrady_checked_get_boolean_level_part(
    struct luthrady_env *env, uint32_t level, uint32_t start, bool *elements, size_t count)
{
    return env == NULL || (count != 0 && elements == NULL)
        ? luthrady_refused_null()
        : luthrady_get_boolean_level_part(env, level, start, elements, count);
}

static inline struct luthrady_reply luthrady_checked_set_boolean_level_part(
    struct luthrady_env *env, uint32_t level, uint32_t start, const bool *elements, size_t count)
{
    return env == NULL || (count != 0 && elements == NULL)
        ? luthrady_refused_null()
        : luthrady_set_boolean_level_part(env, level, start, elements, count);
}

static inline struct luthrady_reply luthrady_checked_get_byte_level_part(
    struct luthrady_env *env, uint32_t level, uint32_t start, int8_t *elements, size_t count)
{
    return env == NULL || (count != 0 && elements == NULL)
        ? luthrady_refused_null()
        : luthrady_get_byte_level_part(env, level, start, elements, count);
}

static inline struct luthrady_reply luthrady_checked_set_byte_level_part(
    struct luthrady_env *env, uint32_t level, uint32_t start, const int8_t *elements, size_t count)
{
    return env == NULL || (count != 0 && elements == NULL)
        ? luthrady_refused_null()
        : luthrady_set_byte_level_part(env, level, start, elements, count);
}

static inline struct luthrady_reply luthrady_checked_get_char_level_part(
    struct luthrady_env *env, uint32_t level, uint32_t start, uint16_t *elements, size_t count)
{
    return env == NULL || (count != 0 && elements == NULL)
        ? luthrady_refused_null()
        : luthrady_get_char_level_part(env, level, start, elements, count);
}

static inline struct luthrady_reply luthrady_checked_set_char_level_part(
    struct luthrady_env *env, uint32_t level, uint32_t start, const uint16_t *elements, size_t count)
{
    return env == NULL || (count != 0 && elements == NULL)
        ? luthrady_refused_null()
        : luthrady_set_char_level_part(env, level, start, elements, count);
}

static inline struct luthrady_reply luthrady_checked_get_short_level_part(
    struct luthrady_env *env, uint32_t level, uint32_t start, int16_t *elements, size_t count)
{
    return env == NULL || (count != 0 && elements == NULL)
        ? luthrady_refused_null()
        : luthrady_get_short_level_part(env, level, start, elements, count);
}

static inline struct luthrady_reply luthrady_checked_set_short_level_part(
    struct luthrady_env *env, uint32_t level, uint32_t start, const int16_t *elements, size_t count)
{
    return env == NULL || (count != 0 && elements == NULL)
        ? luthrady_refused_null()
        : luthrady_set_short_level_part(env, level, start, elements, count);
}

static inline struct luthrady_reply luthrady_checked_get_int_level_part(
    struct luthrady_env *env, uint32_t level, uint32_t start, int32_t *elements, size_t count)
{
    return env == NULL || (count != 0 && elements == NULL)
        ? luthrady_refused_null()
        : luthrady_get_int_level_part(env, level, start, elements, count);
}

static inline struct luthrady_reply luthrady_checked_set_int_level_part(
    struct luthrady_env *env, uint32_t level, uint32_t start, const int32_t *elements, size_t count)
{
    return env == NULL || (count != 0 && elements == NULL)
        ? luthrady_refused_null()
        : luthrady_set_int_level_part(env, level, start, elements, count);
}

static inline struct luthrady_reply luthrady_checked_get_long_level_part(
    struct luthrady_env *env, uint32_t level, uint32_t start, int64_t *elements, size_t count)
{
    return env == NULL || (count != 0 && elements == NULL)
        ? luthrady_refused_null()
        : luthrady_get_long_level_part(env, level, start, elements, count);
}

static inline struct luthrady_reply luthrady_checked_set_long_level_part(
    struct luthrady_env *env, uint32_t level, uint32_t start, const int64_t *elements, size_t count)
{
    return env == NULL || (count != 0 && elements == NULL)
        ? luthrady_refused_null()
        : luthrady_set_long_level_part(env, level, start, elements, count);
}

static inline struct luthrady_reply luthrady_checked_kind_of(struct luthrady_env *env, uint64_t object)
{
    return env == NULL ? luthrady_refused_null() : luthrady_kind_of(env, object);
}

static inline struct luthrady_reply luthrady_checked_identity_of(struct luthrady_env *env, uint64_t object)
{
    return env == NULL ? luthrady_refused_null() : luthrady_identity_of(env, object);
}

static inline struct luthrady_reply luthrady_checked_explain(
    struct luthrady_env *env, uint64_t word, struct luthrady_explained *out)
{
    return env == NULL || out == NULL ? luthrady_refused_null() : luthrady_explain(env, word, out);
}

static inline struct luthrady_reply luthrady_checked_words_used(struct luthrady_env *env)
{
    return env == NULL ? luthrady_refused_null() : luthrady_words_used(env);
}

static inline struct luthrady_reply luthrady_checked_local_counts(
    struct luthrady_env *env, struct luthrady_locals *out)
{
    return env == NULL || out == NULL ? luthrady_refused_null() : luthrady_local_counts(env, out);
}

static inline struct luthrady_reply luthrady_checked_census(
    struct luthrady_env *env, uint32_t *locals, size_t count, struct luthrady_inventory *out)
{
    return env == NULL || (count != 0 && locals == NULL) || out == NULL
        ? luthrady_refused_null()
        : luthrady_census(env, locals, count, out);
}

static inline struct luthrady_reply luthrady_checked_census_announced(
    struct luthrady_env *env, uint32_t tries, uint32_t *locals, size_t count, struct luthrady_inventory *out)
{
    return env == NULL || (count != 0 && locals == NULL) || out == NULL
        ? luthrady_refused_null()
        : luthrady_census_announced(env, tries, locals, count, out);
}

static inline struct luthrady_reply luthrady_checked_dump(
    struct luthrady_env *env, struct luthrady_slot *slots, size_t slots_count, uint16_t *locals,
    size_t locals_count, struct luthrady_object *objects, size_t objects_count, uint64_t *words,
    size_t words_count)
{
    return env == NULL || (slots_count != 0 && slots == NULL) || (locals_count != 0 && locals == NULL) || (objects_count != 0 && objects == NULL) || (words_count != 0 && words == NULL)
        ? luthrady_refused_null()
        : luthrady_dump(env, slots, slots_count, locals, locals_count, objects, objects_count, words, words_count);
}

static inline struct luthrady_reply luthrady_checked_dump_announced(
    struct luthrady_env *env, uint32_t tries, struct luthrady_slot *slots, size_t slots_count,
    uint16_t *locals, size_t locals_count, struct luthrady_object *objects, size_t objects_count,
    uint64_t *words, size_t words_count)
{
    return env == NULL || (slots_count != 0 && slots == NULL) || (locals_count != 0 && locals == NULL) || (objects_count != 0 && objects == NULL) || (words_count != 0 && words == NULL)
        ? luthrady_refused_null()
        : luthrady_dump_announced(env, tries, slots, slots_count, locals, locals_count, objects, objects_count, words, words_count);
}

static inline struct luthrady_reply luthrady_checked_collect(
    struct luthrady_env *env, struct luthrady_counts *out)
{
    return env == NULL || out == NULL ? luthrady_refused_null() : luthrady_collect(env, out);
}

static inline struct luthrady_reply luthrady_checked_collect_announced(
    struct luthrady_env *env, uint32_t tries, struct luthrady_counts *out)
{
    return env == NULL || out == NULL ? luthrady_refused_null() : luthrady_collect_announced(env, tries, out);
}

static inline struct luthrady_reply luthrady_checked_collect_in_turn(
    struct luthrady_env *env, uint32_t tries, uint32_t more, struct luthrady_counts *out)
{
    return env == NULL || out == NULL
        ? luthrady_refused_null()
        : luthrady_collect_in_turn(env, tries, more, out);
}

static inline struct luthrady_reply luthrady_checked_collect_in_turn_listing(
    struct luthrady_env *env, uint32_t tries, uint32_t more, uint64_t *references, size_t references_count,
    uint16_t *identities, size_t identities_count, struct luthrady_counts *out)
{
    return env == NULL || (references_count != 0 && references == NULL) || (identities_count != 0 && identities == NULL) || out == NULL
        ? luthrady_refused_null()
        : luthrady_collect_in_turn_listing(env, tries, more, references, references_count, identities, identities_count, out);
}

static inline struct luthrady_reply luthrady_checked_batch(
    struct luthrady_env *env, struct luthrady_batch_call *calls, size_t count)
{
    return env == NULL || (count != 0 && calls == NULL)
        ? luthrady_refused_null()
        : luthrady_batch(env, calls, count);
}

#define luthrady_open(...) luthrady_checked_open(__VA_ARGS__)
#define luthrady_attach(...) luthrady_checked_attach(__VA_ARGS__)
#define luthrady_release(...) luthrady_checked_release(__VA_ARGS__)
#define luthrady_detach(...) luthrady_checked_detach(__VA_ARGS__)
#define luthrady_free_env(...) luthrady_checked_free_env(__VA_ARGS__)
#define luthrady_free_room(...) luthrady_checked_free_room(__VA_ARGS__)
#define luthrady_new_global_ref(...) luthrady_checked_new_global_ref(__VA_ARGS__)
#define luthrady_new_weak_global_ref(...) luthrady_checked_new_weak_global_ref(__VA_ARGS__)
#define luthrady_new_local_ref(...) luthrady_checked_new_local_ref(__VA_ARGS__)
#define luthrady_delete_global_ref(...) luthrady_checked_delete_global_ref(__VA_ARGS__)
#define luthrady_delete_weak_global_ref(...) luthrady_checked_delete_weak_global_ref(__VA_ARGS__)
#define luthrady_delete_local_ref(...) luthrady_checked_delete_local_ref(__VA_ARGS__)
#define luthrady_is_same_object(...) luthrady_checked_is_same_object(__VA_ARGS__)
#define luthrady_get_object_ref_type(...) luthrady_checked_get_object_ref_type(__VA_ARGS__)
#define luthrady_upgrade_local(...) luthrady_checked_upgrade_local(__VA_ARGS__)
#define luthrady_upgrade_global(...) luthrady_checked_upgrade_global(__VA_ARGS__)
#define luthrady_delete_cleared(...) luthrady_checked_delete_cleared(__VA_ARGS__)
#define luthrady_ensure_local_capacity(...) luthrady_checked_ensure_local_capacity(__VA_ARGS__)
#define luthrady_push_local_frame(...) luthrady_checked_push_local_frame(__VA_ARGS__)
#define luthrady_pop_local_frame(...) luthrady_checked_pop_local_frame(__VA_ARGS__)
#define luthrady_free_locals(...) luthrady_checked_free_locals(__VA_ARGS__)
#define luthrady_new_plain(...) luthrady_checked_new_plain(__VA_ARGS__)
#define luthrady_new_boolean_array(...) luthrady_checked_new_boolean_array(__VA_ARGS__)
#define luthrady_new_byte_array(...) luthrady_checked_new_byte_array(__VA_ARGS__)
#define luthrady_new_char_array(...) luthrady_checked_new_char_array(__VA_ARGS__)
#define luthrady_new_short_array(...) luthrady_checked_new_short_array(__VA_ARGS__)
#define luthrady_new_int_array(...) luthrady_checked_new_int_array(__VA_ARGS__)
#define luthrady_new_long_array(...) luthrady_checked_new_long_array(__VA_ARGS__)
#define luthrady_new_object_array(...) luthrady_checked_new_object_array(__VA_ARGS__)
#define luthrady_new_string(...) luthrady_checked_new_string(__VA_ARGS__)
#define luthrady_get_array_length(...) luthrady_checked_get_array_length(__VA_ARGS__)
#define luthrady_get_string_length(...) luthrady_checked_get_string_length(__VA_ARGS__)
#define luthrady_get_object_array_element(...) luthrady_checked_get_object_array_element(__VA_ARGS__)
#define luthrady_set_object_array_element(...) luthrady_checked_set_object_array_element(__VA_ARGS__)
#define luthrady_set_boolean_array_region(...) luthrady_checked_set_boolean_array_region(__VA_ARGS__)
#define luthrady_set_byte_array_region(...) luthrady_checked_set_byte_array_region(__VA_ARGS__)
#define luthrady_set_char_array_region(...) luthrady_checked_set_char_array_region(__VA_ARGS__)
#define luthrady_set_short_array_region(...) luthrady_checked_set_short_array_region(__VA_ARGS__)
#define luthrady_set_int_array_region(...) luthrady_checked_set_int_array_region(__VA_ARGS__)
#define luthrady_set_long_array_region(...) luthrady_checked_set_long_array_region(__VA_ARGS__)
#define luthrady_get_boolean_array_region(...) luthrady_checked_get_boolean_array_region(__VA_ARGS__)
#define luthrady_get_byte_array_region(...) luthrady_checked_get_byte_array_region(__VA_ARGS__)
#define luthrady_get_char_array_region(...) luthrady_checked_get_char_array_region(__VA_ARGS__)
#define luthrady_get_short_array_region(...) luthrady_checked_get_short_array_region(__VA_ARGS__)
#define luthrady_get_int_array_region(...) luthrady_checked_get_int_array_region(__VA_ARGS__)
#define luthrady_get_long_array_region(...) luthrady_checked_get_long_array_region(__VA_ARGS__)
#define luthrady_get_string_region(...) luthrady_checked_get_string_region(__VA_ARGS__)
#define luthrady_new_string_utf8(...) luthrady_checked_new_string_utf8(__VA_ARGS__)
#define luthrady_get_string_utf8(...) luthrady_checked_get_string_utf8(__VA_ARGS__)
#define luthrady_get_boolean_array_elements(...) luthrady_checked_get_boolean_array_elements(__VA_ARGS__)
#define luthrady_get_byte_array_elements(...) luthrady_checked_get_byte_array_elements(__VA_ARGS__)
#define luthrady_get_char_array_elements(...) luthrady_checked_get_char_array_elements(__VA_ARGS__)
#define luthrady_get_short_array_elements(...) luthrady_checked_get_short_array_elements(__VA_ARGS__)
#define luthrady_get_int_array_elements(...) luthrady_checked_get_int_array_elements(__VA_ARGS__)
#define luthrady_get_long_array_elements(...) luthrady_checked_get_long_array_elements(__VA_ARGS__)
#define luthrady_release_boolean_array_elements(...) luthrady_checked_release_boolean_array_elements(__VA_ARGS__)
#define luthrady_release_byte_array_elements(...) luthrady_checked_release_byte_array_elements(__VA_ARGS__)
#define luthrady_release_char_array_elements(...) luthrady_checked_release_char_array_elements(__VA_ARGS__)
#define luthrady_release_short_array_elements(...) luthrady_checked_release_short_array_elements(__VA_ARGS__)
#define luthrady_release_int_array_elements(...) luthrady_checked_release_int_array_elements(__VA_ARGS__)
#define luthrady_release_long_array_elements(...) luthrady_checked_release_long_array_elements(__VA_ARGS__)
#define luthrady_get_array_critical(...) luthrady_checked_get_array_critical(__VA_ARGS__)
#define luthrady_get_string_critical(...) luthrady_checked_get_string_critical(__VA_ARGS__)
#define luthrady_release_critical(...) luthrady_checked_release_critical(__VA_ARGS__)
#define luthrady_get_level_length(...) luthrady_checked_get_level_length(__VA_ARGS__)
#define luthrady_get_boolean_level_element(...) luthrady_checked_get_boolean_level_element(__VA_ARGS__)
#define luthrady_set_boolean_level_element(...) luthrady_checked_set_boolean_level_element(__VA_ARGS__)
#define luthrady_get_byte_level_element(...) luthrady_checked_get_byte_level_element(__VA_ARGS__)
#define luthrady_set_byte_level_element(...) luthrady_checked_set_byte_level_element(__VA_ARGS__)
#define luthrady_get_char_level_element(...) luthrady_checked_get_char_level_element(__VA_ARGS__)
#define luthrady_set_char_level_element(...) luthrady_checked_set_char_level_element(__VA_ARGS__)
#define luthrady_get_short_level_element(...) luthrady_checked_get_short_level_element(__VA_ARGS__)
#define luthrady_set_short_level_element(...) luthrady_checked_set_short_level_element(__VA_ARGS__)
#define luthrady_get_int_level_element(...) luthrady_checked_get_int_level_element(__VA_ARGS__)
#define luthrady_set_int_level_element(...) luthrady_checked_set_int_level_element(__VA_ARGS__)
#define luthrady_get_long_level_element(...) luthrady_checked_get_long_level_element(__VA_ARGS__)
#define luthrady_set_long_level_element(...) luthrady_checked_set_long_level_element(__VA_ARGS__)
#define luthrady_get_boolean_level_part(...) luthrady_checked_get_boolean_level_part(__VA_ARGS__)
#define luthrady_set_boolean_level_part(...) luthrady_checked_set_boolean_level_part(__VA_ARGS__)
#define luthrady_get_byte_level_part(...) luthrady_checked_get_byte_level_part(__VA_ARGS__)
#define luthrady_set_byte_level_part(...) luthrady_checked_set_byte_level_part(__VA_ARGS__)
#define luthrady_get_char_level_part(...) luthrady_checked_get_char_level_part(__VA_ARGS__)
#define luthrady_set_char_level_part(...) luthrady_checked_set_char_level_part(__VA_ARGS__)
#define luthrady_get_short_level_part(...) luthrady_checked_get_short_level_part(__VA_ARGS__)
#define luthrady_set_short_level_part(...) luthrady_checked_set_short_level_part(__VA_ARGS__)
#define luthrady_get_int_level_part(...) luthrady_checked_get_int_level_part(__VA_ARGS__)
#define luthrady_set_int_level_part(...) luthrady_checked_set_int_level_part(__VA_ARGS__)
#define luthrady_get_long_level_part(...) luthrady_checked_get_long_level_part(__VA_ARGS__)
#define luthrady_set_long_level_part(...) luthrady_checked_set_long_level_part(__VA_ARGS__)
#define luthrady_kind_of(...) luthrady_checked_kind_of(__VA_ARGS__)
#define luthrady_identity_of(...) luthrady_checked_identity_of(__VA_ARGS__)
#define luthrady_explain(...) luthrady_checked_explain(__VA_ARGS__)
#define luthrady_words_used(...) luthrady_checked_words_used(__VA_ARGS__)
#define luthrady_local_counts(...) luthrady_checked_local_counts(__VA_ARGS__)
#define luthrady_census(...) luthrady_checked_census(__VA_ARGS__)
#define luthrady_census_announced(...) luthrady_checked_census_announced(__VA_ARGS__)
#define luthrady_dump(...) luthrady_checked_dump(__VA_ARGS__)
#define luthrady_dump_announced(...) luthrady_checked_dump_announced(__VA_ARGS__)
#define luthrady_collect(...) luthrady_checked_collect(__VA_ARGS__)
#define luthrady_collect_announced(...) luthrady_checked_collect_announced(__VA_ARGS__)
#define luthrady_collect_in_turn(...) luthrady_checked_collect_in_turn(__VA_ARGS__)
#define luthrady_collect_in_turn_listing(...) luthrady_checked_collect_in_turn_listing(__VA_ARGS__)
#define luthrady_batch(...) luthrady_checked_batch(__VA_ARGS__)
#endif

#ifdef __cplusplus
}
#endif

#endif
