//! What the static library `luthrady` has, as Rust declares it. `.ci/header` makes this file.
#![no_std]

/// The version of this interface.
pub const VERSION: &str = "0.1.0";

/// The most threads of a room.
pub const MOST_THREADS: u32 = 64;

/// The most slots of a room.
pub const MOST_SLOTS: u32 = 65_536;

/// The most objects of a room.
pub const MOST_OBJECTS: u32 = 65_535;

/// The most words of a room's array space.
pub const MOST_WORDS: u32 = 1_048_576;

/// The fewest places for local references of a thread.
pub const LEAST_LOCALS: u32 = 16;

/// The most places for local references of a thread.
pub const MOST_LOCALS: u32 = 4_096;

/// What a refusal says, by its number, in a clause of English.
pub const fn fault_text(fault: u32) -> &'static str {
    match fault {
        0 => "not refused",
        1 => "null, where an object is needed",
        2 => "no reference of this word stands, or no level of this number",
        3 => "the word is a local reference of another thread",
        4 => "the word names something of another kind than the call is for",
        5 => "the object is not an array",
        6 => "the array's elements are of another kind than the call is for",
        7 => "an index, a part or a length doesn't fit the object",
        8 => "the search found no free slot",
        9 => "the thread has too little room for local references",
        10 => "the request doesn't fit beside the words in use",
        11 => "every object number is present",
        12 => "another thread reserved words meanwhile",
        13 => "a collection keeps threads from coming in",
        14 => "other threads keep the collection from coming in",
        15 => "the base frame can't be popped",
        16 => "the system refused memory or a thread",
        17 => "a size or a count is outside of its limits",
        18 => "the word is none of the array's element kind",
        19 => {
            "the env is in a critical region, a level is asked for where no region stands, or the place of an attached thread is to be freed"
        }
        20 => "the turns ran out",
        21 => {
            "no room or no env that may be used stands behind the pointer, no env of a room is free, or no thread is attached to it"
        }
        22 => "other threads kept the room from being closed",
        23 => "a thread went in or out before the announcement",
        _ => "no refusal has this number",
    }
}

/// Which call a call of a batch is.
#[derive(Clone, Copy, Debug, PartialEq, Eq)]
pub enum Operation {
    NewGlobalRef = 1,
    NewWeakGlobalRef = 2,
    NewLocalRef = 3,
    DeleteGlobalRef = 4,
    DeleteWeakGlobalRef = 5,
    DeleteLocalRef = 6,
    IsSameObject = 7,
    GetObjectRefType = 8,
    GetArrayLength = 9,
    GetStringLength = 10,
    GetObjectArrayElement = 11,
    SetObjectArrayElement = 12,
}

/// A call's answer.
#[repr(C)]
#[derive(Clone, Copy, Debug, Default, PartialEq, Eq)]
pub struct Reply {
    /// What it answers, 0 where it is refused.
    pub value: u64,
    /// The number of the refusal, 0 where there is none.
    pub fault: u32,
    /// The number that the refusal tells beside its own, the first where it tells two, 0 where it tells none.
    pub told: u32,
    /// The second number that the refusal tells, 0 where it has none.
    pub found: u32,
}

/// A call of a batch, and its answer.
#[repr(C)]
#[derive(Clone, Copy, Debug, Default, PartialEq, Eq)]
pub struct BatchCall {
    /// Which call it is, by its number.
    pub operation: u32,
    /// The index of an element, where the call has one.
    pub index: u32,
    /// The reference that it is handed.
    pub first: u64,
    /// The second reference, where the call has one.
    pub second: u64,
    /// What it answered.
    pub reply: Reply,
}

/// How many objects there are, by their kinds.
#[repr(C)]
#[derive(Clone, Copy, Debug, Default, PartialEq, Eq)]
pub struct Population {
    /// How many have no elements.
    pub plain: u32,
    /// How many arrays of booleans there are.
    pub booleans: u32,
    /// How many arrays of bytes there are.
    pub bytes: u32,
    /// How many arrays of chars there are.
    pub chars: u32,
    /// How many arrays of shorts there are.
    pub shorts: u32,
    /// How many arrays of ints there are.
    pub ints: u32,
    /// How many arrays of longs there are.
    pub longs: u32,
    /// How many arrays of objects there are.
    pub objects: u32,
    /// How many strings there are.
    pub strings: u32,
    /// How many there are of all kinds.
    pub live: u32,
    /// How many words of array space they have.
    pub words: u32,
}

/// What stands in a room.
#[repr(C)]
#[derive(Clone, Copy, Debug, Default, PartialEq, Eq)]
pub struct Inventory {
    /// How many global references stand.
    pub globals: u32,
    /// How many weak references stand, cleared ones too.
    pub weaks: u32,
    /// How many of these are cleared.
    pub cleared: u32,
    /// How many slots are used no more, since each gave its last reference.
    pub retired: u32,
    /// The objects that are present.
    pub present: Population,
    /// Those of them that nothing reaches, which a collection would drop.
    pub unreached: Population,
    /// How many words are used.
    pub used: u32,
    /// How many of these no object has: creations reserved them that were refused afterwards.
    pub lost: u32,
    /// How many of these a collection would leave used.
    pub reached: u32,
    /// How many of these a collection would free.
    pub freed: u32,
}

/// What a collection did.
#[repr(C)]
#[derive(Clone, Copy, Debug, Default, PartialEq, Eq)]
pub struct Counts {
    /// How many weak references it cleared.
    pub cleared: u32,
    /// How many objects it dropped.
    pub dropped: u32,
    /// How many words were used then.
    pub used: u32,
}

/// What a slot has.
#[repr(C)]
#[derive(Clone, Copy, Debug, Default, PartialEq, Eq)]
pub struct Slot {
    /// 2 a global reference, 3 a weak one, as a luthrady_ref_type; 0 none, and 1 none any more.
    pub state: u32,
    /// The serial of the reference, or that of the slot's next one. A reference's word is state + 4 * serial + 2^34 * the slot's index.
    pub serial: u32,
    /// The identity of the object that the reference names, 0 where it names none.
    pub object: u32,
}

/// What a number of an object has.
#[repr(C)]
#[derive(Clone, Copy, Debug, Default, PartialEq, Eq)]
pub struct Object {
    /// The object's kind, a luthrady_kind, 0 where no object has the number.
    pub kind: u32,
    /// How many elements it has.
    pub length: u32,
    /// Where its first element stands among the words.
    pub place: u32,
}

/// A room's handle: NULL, or the pointer to its place.
#[repr(C)]
#[derive(Debug)]
pub struct RoomHandle {
    pub at: *mut u8,
}

/// An env's handle: NULL, or the pointer to its place.
#[repr(C)]
#[derive(Debug)]
pub struct EnvHandle {
    pub at: *mut u8,
}

/// The sizes of a room.
#[repr(C)]
#[derive(Clone, Copy, Debug, Default, PartialEq, Eq)]
pub struct Sizes {
    /// How many threads there are.
    pub threads: u32,
    /// How many slots for global and weak references there are.
    pub slots: u32,
    /// How many objects there may be.
    pub objects: u32,
    /// How many words of elements there may be. Each element of an array takes one, of whatever kind, and each unit of a string.
    pub words: u32,
    /// How many local references a thread may have.
    pub locals: u32,
}

/// What stood in a room as it was closed.
#[repr(C)]
#[derive(Clone, Copy, Debug, Default, PartialEq, Eq)]
pub struct Stood {
    /// How many global references stood.
    pub globals: u32,
    /// How many weak references stood.
    pub weaks: u32,
    /// How many objects were present.
    pub live: u32,
    /// How many words were used.
    pub used: u32,
}

/// What a word is.
#[repr(C)]
#[derive(Clone, Copy, Debug, Default, PartialEq, Eq)]
pub struct Explained {
    /// What it is, a luthrady_explanation.
    pub explanation: u32,
    /// The type of the reference that stands there, a luthrady_ref_type, 0 where none stands.
    pub reference: u32,
    /// The kind of the reference's object, a luthrady_kind, 0 where none stands or it is cleared.
    pub kind: u32,
}

/// How many local references a thread has, and how many places for them.
#[repr(C)]
#[derive(Clone, Copy, Debug, Default, PartialEq, Eq)]
pub struct Locals {
    /// How many frames there are, with the base frame.
    pub frames: u64,
    /// How many references stand, in all frames together.
    pub standing: u32,
    /// How many places are free: so many more references can be made.
    pub free: u32,
    /// How many places have ever given a reference. No more stood at any moment.
    pub given: u32,
}

unsafe extern "C" {
    /// Opens a room of these sizes, and writes the pointer to it into `out`, the `at` of a room's handle.
    ///
    /// Refused: E17 where the sizes are beyond their limits; E16 where memory was refused.
    pub fn luthrady_open(sizes: Sizes, out: *mut *mut u8) -> Reply;
    /// Attaches a thread with an env that no other thread holds, and writes the pointer to it into `out`, the `at` of an env's handle. The thread has no local reference. (JNI Specification, chapter 5, "AttachCurrentThread")
    ///
    /// Refused: E21 where no room stands behind the handle, no env of it is free, or it was released; E16 where memory was refused.
    ///
    /// Nothing has changed then.
    pub fn luthrady_attach(room: *mut RoomHandle, out: *mut *mut u8) -> Reply;
    /// Lets go of the envs that no thread holds. No further thread is attached then, and the last one that is detached closes the room.
    ///
    /// Refused: E21 where no room stands behind the handle.
    ///
    /// Nothing has changed then.
    pub fn luthrady_release(room: *mut RoomHandle) -> Reply;
    /// Detaches a thread from the room that it was attached to. Its local references are freed, and no env stands behind its handle then. The handle's place remains until `luthrady_free_env`. The room has the env for the next thread. Where the room was released, the last thread closes it: it answers 1, and writes what stood there; else it answers 0. (JNI Specification, chapter 5, "DetachCurrentThread")
    ///
    /// Refused: E21 where no room stands behind the room's handle, no thread is attached to it, or no env stands behind the env's handle; E19 in a critical region; E13 where a thread is collecting, or has announced that it will; E22 with how many threads were inside, knocking, announcing or collecting as the last one closed the room, at least 1.
    ///
    /// At E21 and E19 nothing has changed. At E13 the thread is still attached, with its local references. At E22 it is detached, and the room can't be closed any more.
    pub fn luthrady_detach(room: *mut RoomHandle, env: *mut EnvHandle, out: *mut Stood) -> Reply;
    /// Frees the place of a thread's env, and leaves NULL in its handle.
    ///
    /// Refused: E21 where no place of an env stands behind the handle; E19 where the thread is attached, in a critical region too.
    ///
    /// Nothing has changed then.
    pub fn luthrady_free_env(env: *mut EnvHandle) -> Reply;
    /// Frees the place of a room, with the envs that no thread holds, and leaves NULL in its handle.
    ///
    /// Refused: E21 where no room stands behind the handle; E22 with how many threads are attached, at least 1.
    ///
    /// Nothing has changed then.
    pub fn luthrady_free_room(room: *mut RoomHandle) -> Reply;
    /// A new global reference to what the word names, NULL to null. (JNI Specification, chapter 4, "NewGlobalRef")
    ///
    /// Refused: E21 where no env stands behind the handle; E19 in a critical region; E13 where a thread is collecting at the entry, or has announced that it will; E2 where the handle is malformed or lies outside the room; E3 where it is a local one of another thread; E2 where its reference does not stand; E8 where each slot was occupied when it was tried, or later in the call.
    ///
    /// Nothing has changed then.
    pub fn luthrady_new_global_ref(env: *mut EnvHandle, object: u64) -> Reply;
    /// A new weak global reference to what the word names, NULL to null. (JNI Specification, chapter 4, "NewWeakGlobalRef")
    ///
    /// Refused: E21 where no env stands behind the handle; E19 in a critical region; E13 where a thread is collecting at the entry, or has announced that it will; E2 where the handle is malformed or lies outside the room; E3 where it is a local one of another thread; E2 where its reference does not stand; E8 where each slot was occupied when it was tried, or later in the call.
    ///
    /// Nothing has changed then.
    pub fn luthrady_new_weak_global_ref(env: *mut EnvHandle, object: u64) -> Reply;
    /// A new local reference to what the word names, NULL to null. (JNI Specification, chapter 4, "NewLocalRef")
    ///
    /// Refused: E21 where no env stands behind the handle; E19 in a critical region; E13 where a thread is collecting at the entry, or has announced that it will; E2 where the handle is malformed or lies outside the room; E3 where it is a local one of another thread; E2 where its reference does not stand; E9 where no local place is free.
    ///
    /// Nothing has changed then.
    pub fn luthrady_new_local_ref(env: *mut EnvHandle, object: u64) -> Reply;
    /// Deletes a global reference. (JNI Specification, chapter 4, "DeleteGlobalRef")
    ///
    /// Refused: E21 where no env stands behind the handle; E19 in a critical region; E13 where a thread is collecting at the entry, or has announced that it will; E2 where the handle is malformed; E4 where it is of another kind; E2 where it lies outside the room, its reference does not stand, or another thread deletes it first.
    ///
    /// Nothing has changed then.
    pub fn luthrady_delete_global_ref(env: *mut EnvHandle, reference: u64) -> Reply;
    /// Deletes a weak global reference. (JNI Specification, chapter 4, "DeleteWeakGlobalRef")
    ///
    /// Refused: E21 where no env stands behind the handle; E19 in a critical region; E13 where a thread is collecting at the entry, or has announced that it will; E2 where the handle is malformed; E4 where it is of another kind; E2 where it lies outside the room, its reference does not stand, or another thread deletes it first.
    ///
    /// Nothing has changed then.
    pub fn luthrady_delete_weak_global_ref(env: *mut EnvHandle, reference: u64) -> Reply;
    /// Deletes a local reference. (JNI Specification, chapter 4, "DeleteLocalRef")
    ///
    /// Refused: E21 where no env stands behind the handle; E19 in a critical region; E13 where a thread is collecting at the entry, or has announced that it will; E2 where the handle is malformed; E4 where it is of another kind; E2 where it lies outside the room; E3 where it is one of another thread; E2 where its reference does not stand.
    ///
    /// Nothing has changed then.
    pub fn luthrady_delete_local_ref(env: *mut EnvHandle, reference: u64) -> Reply;
    /// Whether both words name the same object, 1 or 0. (JNI Specification, chapter 4, "IsSameObject")
    ///
    /// Refused: E21 where no env stands behind the handle; E19 in a critical region; E13 where a thread is collecting at the entry, or has announced that it will; E2 where a handle is malformed or lies outside the room; E3 where one is a local one of another thread; E2 where the reference of one does not stand.
    ///
    /// Nothing has changed then.
    pub fn luthrady_is_same_object(env: *mut EnvHandle, left: u64, right: u64) -> Reply;
    /// The type of a reference: 0 invalid, 1 local, 2 global, 3 weak. (JNI Specification, chapter 4, "GetObjectRefType")
    ///
    /// Refused: E21 where no env stands behind the handle; E19 in a critical region; E13 where a thread is collecting at the entry, or has announced that it will.
    pub fn luthrady_get_object_ref_type(env: *mut EnvHandle, object: u64) -> Reply;
    /// A local reference to what a weak one names, NULL where that is cleared. (JNI Specification, chapter 4, "NewLocalRef")
    ///
    /// Refused: E21 where no env stands behind the handle; E19 in a critical region; E13 where a thread is collecting at the entry, or has announced that it will; E2 where the handle is malformed or lies outside the room; E3 where it is a local one of another thread; E2 where its reference does not stand; E9 where no local place is free.
    ///
    /// Nothing has changed then.
    pub fn luthrady_upgrade_local(env: *mut EnvHandle, weak: u64) -> Reply;
    /// A global reference to what a weak one names, NULL where that is cleared. (JNI Specification, chapter 4, "NewGlobalRef")
    ///
    /// Refused: E21 where no env stands behind the handle; E19 in a critical region; E13 where a thread is collecting at the entry, or has announced that it will; E2 where the handle is malformed or lies outside the room; E3 where it is a local one of another thread; E2 where its reference does not stand; E8 where each slot was occupied when it was tried, or later in the call.
    ///
    /// Nothing has changed then.
    pub fn luthrady_upgrade_global(env: *mut EnvHandle, weak: u64) -> Reply;
    /// Deletes a weak global reference where it is cleared, and tells whether it was, 1 or 0: a comparison with NULL, and then the deletion, each by an entry of its own. NULL answers 1, and a word that is no weak reference 0. Behind a collection it gives slots back, where all were held (E8). The Java Native Interface has no such call.
    ///
    /// Refused: E21 where no env stands behind the handle; E19 in a critical region; E13 where a thread is collecting at an entry, or has announced that it will; E2 where the handle is malformed or lies outside the room; E3 where it is a local one of another thread; E2 where its reference does not stand, at the comparison or at the deletion.
    ///
    /// Nothing has changed then.
    pub fn luthrady_delete_cleared(env: *mut EnvHandle, weak: u64) -> Reply;
    /// Ensures that so many local references can be made in the current frame. (JNI Specification, chapter 4, "EnsureLocalCapacity")
    ///
    /// Refused: E21 where no env stands behind the handle; E19 in a critical region; E9 where fewer places are free.
    ///
    /// Nothing has changed then, and the thread stands outside.
    pub fn luthrady_ensure_local_capacity(env: *mut EnvHandle, capacity: u32) -> Reply;
    /// Opens a frame for so many local references. (JNI Specification, chapter 4, "PushLocalFrame")
    ///
    /// Refused: E21 where no env stands behind the handle; E19 in a critical region; E9 where 256 frames are open, or fewer places are free.
    ///
    /// Nothing has changed then, and the thread stands outside.
    pub fn luthrady_push_local_frame(env: *mut EnvHandle, capacity: u32) -> Reply;
    /// Closes the current frame, and makes a reference in the one before to what the word names. (JNI Specification, chapter 4, "PopLocalFrame")
    ///
    /// Refused: E21 where no env stands behind the handle; E19 in a critical region; E13 where a thread is collecting at the entry, or has announced that it will; E15 where no frame was pushed; E2 where the handle is malformed or lies outside the room; E3 where it is a local one of another thread; E2 where its reference does not stand; E9 where no place would be free for the result, once those of the frame are.
    ///
    /// Nothing is taken away then.
    pub fn luthrady_pop_local_frame(env: *mut EnvHandle, kept: u64) -> Reply;
    /// Frees all local references, as at the end of a native method. The Java Native Interface has no such call.
    ///
    /// Refused: E21 where no env stands behind the handle; E19 in a critical region; E13 where a thread is collecting at the entry, or has announced that it will.
    pub fn luthrady_free_locals(env: *mut EnvHandle) -> Reply;
    /// A plain object, and a local reference to it. The Java Native Interface has no such call.
    ///
    /// Refused: E21 where no env stands behind the handle; E19 in a critical region; E13 where a thread is collecting at the entry, or has announced that it will; E9 where no local place is free; E11 where every object number was present at one moment of the call.
    ///
    /// Nothing has changed then.
    pub fn luthrady_new_plain(env: *mut EnvHandle) -> Reply;
    /// An array of booleans, each false, and a local reference to it. (JNI Specification, chapter 4, "New<PrimitiveType>Array Routines")
    ///
    /// Refused: E21 where no env stands behind the handle; E19 in a critical region; E13 where a thread is collecting at the entry, or has announced that it will; E9 where no local place is free; E10 with how many words are reserved, where so many more don't fit; E12 with how many words were looked at and how many were found, where another thread reserved some in between; E11 where every object number was present at one moment of the call.
    ///
    /// Nothing has changed then; but after E11 the words of the array stay reserved until the next collection.
    pub fn luthrady_new_boolean_array(env: *mut EnvHandle, length: u32) -> Reply;
    /// An array of bytes, each zero, and a local reference to it. (JNI Specification, chapter 4, "New<PrimitiveType>Array Routines")
    ///
    /// Refused: E21 where no env stands behind the handle; E19 in a critical region; E13 where a thread is collecting at the entry, or has announced that it will; E9 where no local place is free; E10 with how many words are reserved, where so many more don't fit; E12 with how many words were looked at and how many were found, where another thread reserved some in between; E11 where every object number was present at one moment of the call.
    ///
    /// Nothing has changed then; but after E11 the words of the array stay reserved until the next collection.
    pub fn luthrady_new_byte_array(env: *mut EnvHandle, length: u32) -> Reply;
    /// An array of chars, each zero, and a local reference to it. (JNI Specification, chapter 4, "New<PrimitiveType>Array Routines")
    ///
    /// Refused: E21 where no env stands behind the handle; E19 in a critical region; E13 where a thread is collecting at the entry, or has announced that it will; E9 where no local place is free; E10 with how many words are reserved, where so many more don't fit; E12 with how many words were looked at and how many were found, where another thread reserved some in between; E11 where every object number was present at one moment of the call.
    ///
    /// Nothing has changed then; but after E11 the words of the array stay reserved until the next collection.
    pub fn luthrady_new_char_array(env: *mut EnvHandle, length: u32) -> Reply;
    /// An array of shorts, each zero, and a local reference to it. (JNI Specification, chapter 4, "New<PrimitiveType>Array Routines")
    ///
    /// Refused: E21 where no env stands behind the handle; E19 in a critical region; E13 where a thread is collecting at the entry, or has announced that it will; E9 where no local place is free; E10 with how many words are reserved, where so many more don't fit; E12 with how many words were looked at and how many were found, where another thread reserved some in between; E11 where every object number was present at one moment of the call.
    ///
    /// Nothing has changed then; but after E11 the words of the array stay reserved until the next collection.
    pub fn luthrady_new_short_array(env: *mut EnvHandle, length: u32) -> Reply;
    /// An array of ints, each zero, and a local reference to it. (JNI Specification, chapter 4, "New<PrimitiveType>Array Routines")
    ///
    /// Refused: E21 where no env stands behind the handle; E19 in a critical region; E13 where a thread is collecting at the entry, or has announced that it will; E9 where no local place is free; E10 with how many words are reserved, where so many more don't fit; E12 with how many words were looked at and how many were found, where another thread reserved some in between; E11 where every object number was present at one moment of the call.
    ///
    /// Nothing has changed then; but after E11 the words of the array stay reserved until the next collection.
    pub fn luthrady_new_int_array(env: *mut EnvHandle, length: u32) -> Reply;
    /// An array of longs, each zero, and a local reference to it. (JNI Specification, chapter 4, "New<PrimitiveType>Array Routines")
    ///
    /// Refused: E21 where no env stands behind the handle; E19 in a critical region; E13 where a thread is collecting at the entry, or has announced that it will; E9 where no local place is free; E10 with how many words are reserved, where so many more don't fit; E12 with how many words were looked at and how many were found, where another thread reserved some in between; E11 where every object number was present at one moment of the call.
    ///
    /// Nothing has changed then; but after E11 the words of the array stay reserved until the next collection.
    pub fn luthrady_new_long_array(env: *mut EnvHandle, length: u32) -> Reply;
    /// An array of object references, each to what the word names, and a local reference to it. (JNI Specification, chapter 4, "NewObjectArray")
    ///
    /// Refused: E21 where no env stands behind the handle; E19 in a critical region; E13 where a thread is collecting at the entry, or has announced that it will; E2 where the handle is malformed or lies outside the room; E3 where it is a local one of another thread; E2 where its reference does not stand; E9 where no local place is free; E10 with how many words are reserved, where so many more don't fit; E12 with how many words were looked at and how many were found, where another thread reserved some in between; E11 where every object number was present at one moment of the call.
    ///
    /// Nothing has changed then; but after E11 the words of the array stay reserved until the next collection.
    pub fn luthrady_new_object_array(env: *mut EnvHandle, length: u32, initial: u64) -> Reply;
    /// A string of these UTF-16 units, and a local reference to it. (JNI Specification, chapter 4, "NewString")
    ///
    /// Refused: E21 where no env stands behind the handle; E19 in a critical region; E13 where a thread is collecting at the entry, or has announced that it will; E9 where no local place is free; E10 with how many words are reserved, where so many more don't fit; E12 with how many words were looked at and how many were found, where another thread reserved some in between; E11 where every object number was present at one moment of the call.
    ///
    /// Nothing has changed then; but after E11 the words of the string stay reserved until the next collection.
    pub fn luthrady_new_string(env: *mut EnvHandle, units: *const u16, count: usize) -> Reply;
    /// How many elements an array has. (JNI Specification, chapter 4, "GetArrayLength")
    ///
    /// Refused: E21 where no env stands behind the handle; E19 in a critical region; E13 where a thread is collecting at the entry, or has announced that it will; E2 where the handle is malformed or lies outside the room; E3 where it is a local one of another thread; E2 where its reference does not stand; E1 where it is to null; E5 where it is to a plain object or a string.
    ///
    /// Nothing has changed then.
    pub fn luthrady_get_array_length(env: *mut EnvHandle, array: u64) -> Reply;
    /// How many UTF-16 units a string has. (JNI Specification, chapter 4, "GetStringLength")
    ///
    /// Refused: E21 where no env stands behind the handle; E19 in a critical region; E13 where a thread is collecting at the entry, or has announced that it will; E2 where the handle is malformed or lies outside the room; E3 where it is a local one of another thread; E2 where its reference does not stand; E1 where it is to null; E4 where it is to no string.
    ///
    /// Nothing has changed then.
    pub fn luthrady_get_string_length(env: *mut EnvHandle, string: u64) -> Reply;
    /// An element of an object array, as a local reference, NULL for null. (JNI Specification, chapter 4, "GetObjectArrayElement")
    ///
    /// Refused: E21 where no env stands behind the handle; E19 in a critical region; E13 where a thread is collecting at the entry, or has announced that it will; E2 where the handle is malformed or lies outside the room; E3 where it is a local one of another thread; E2 where its reference does not stand; E1 where it is to null; E5 where it is to a plain object or a string; E6 where it is to an array of other elements than objects; E7 where the index is not below the length; E9 where the element is to an object and no local place is free.
    ///
    /// Nothing has changed then.
    pub fn luthrady_get_object_array_element(env: *mut EnvHandle, array: u64, index: u32) -> Reply;
    /// Makes an element of an object array refer to what a word names. (JNI Specification, chapter 4, "SetObjectArrayElement")
    ///
    /// Refused: E21 where no env stands behind the handle; E19 in a critical region; E13 where a thread is collecting at the entry, or has announced that it will; E2 where a handle is malformed or lies outside the room; E3 where one is a local one of another thread; E2 where the reference of one does not stand; E1 where the array's is to null; E5 where it is to a plain object or a string; E6 where it is to an array of other elements than objects; E7 where the index is not below the length.
    ///
    /// Nothing has changed then.
    pub fn luthrady_set_object_array_element(
        env: *mut EnvHandle,
        array: u64,
        index: u32,
        value: u64,
    ) -> Reply;
    /// Copies booleans into a part of an array, from an index on. (JNI Specification, chapter 4, "Set<PrimitiveType>ArrayRegion Routines")
    ///
    /// Refused: E21 where no env stands behind the handle; E19 in a critical region; E13 where a thread is collecting at the entry, or has announced that it will; E2 where the handle is malformed or lies outside the room; E3 where it is a local one of another thread; E2 where its reference does not stand; E1 where it is to null; E5 where it is to a plain object or a string; E6 where it is to an array of other elements; E7 where the part does not lie in the array.
    ///
    /// Nothing is written then.
    pub fn luthrady_set_boolean_array_region(
        env: *mut EnvHandle,
        array: u64,
        start: u32,
        elements: *const bool,
        count: usize,
    ) -> Reply;
    /// Copies bytes into a part of an array, from an index on. (JNI Specification, chapter 4, "Set<PrimitiveType>ArrayRegion Routines")
    ///
    /// Refused: E21 where no env stands behind the handle; E19 in a critical region; E13 where a thread is collecting at the entry, or has announced that it will; E2 where the handle is malformed or lies outside the room; E3 where it is a local one of another thread; E2 where its reference does not stand; E1 where it is to null; E5 where it is to a plain object or a string; E6 where it is to an array of other elements; E7 where the part does not lie in the array.
    ///
    /// Nothing is written then.
    pub fn luthrady_set_byte_array_region(
        env: *mut EnvHandle,
        array: u64,
        start: u32,
        elements: *const i8,
        count: usize,
    ) -> Reply;
    /// Copies chars into a part of an array, from an index on. (JNI Specification, chapter 4, "Set<PrimitiveType>ArrayRegion Routines")
    ///
    /// Refused: E21 where no env stands behind the handle; E19 in a critical region; E13 where a thread is collecting at the entry, or has announced that it will; E2 where the handle is malformed or lies outside the room; E3 where it is a local one of another thread; E2 where its reference does not stand; E1 where it is to null; E5 where it is to a plain object or a string; E6 where it is to an array of other elements; E7 where the part does not lie in the array.
    ///
    /// Nothing is written then.
    pub fn luthrady_set_char_array_region(
        env: *mut EnvHandle,
        array: u64,
        start: u32,
        elements: *const u16,
        count: usize,
    ) -> Reply;
    /// Copies shorts into a part of an array, from an index on. (JNI Specification, chapter 4, "Set<PrimitiveType>ArrayRegion Routines")
    ///
    /// Refused: E21 where no env stands behind the handle; E19 in a critical region; E13 where a thread is collecting at the entry, or has announced that it will; E2 where the handle is malformed or lies outside the room; E3 where it is a local one of another thread; E2 where its reference does not stand; E1 where it is to null; E5 where it is to a plain object or a string; E6 where it is to an array of other elements; E7 where the part does not lie in the array.
    ///
    /// Nothing is written then.
    pub fn luthrady_set_short_array_region(
        env: *mut EnvHandle,
        array: u64,
        start: u32,
        elements: *const i16,
        count: usize,
    ) -> Reply;
    /// Copies ints into a part of an array, from an index on. (JNI Specification, chapter 4, "Set<PrimitiveType>ArrayRegion Routines")
    ///
    /// Refused: E21 where no env stands behind the handle; E19 in a critical region; E13 where a thread is collecting at the entry, or has announced that it will; E2 where the handle is malformed or lies outside the room; E3 where it is a local one of another thread; E2 where its reference does not stand; E1 where it is to null; E5 where it is to a plain object or a string; E6 where it is to an array of other elements; E7 where the part does not lie in the array.
    ///
    /// Nothing is written then.
    pub fn luthrady_set_int_array_region(
        env: *mut EnvHandle,
        array: u64,
        start: u32,
        elements: *const i32,
        count: usize,
    ) -> Reply;
    /// Copies longs into a part of an array, from an index on. (JNI Specification, chapter 4, "Set<PrimitiveType>ArrayRegion Routines")
    ///
    /// Refused: E21 where no env stands behind the handle; E19 in a critical region; E13 where a thread is collecting at the entry, or has announced that it will; E2 where the handle is malformed or lies outside the room; E3 where it is a local one of another thread; E2 where its reference does not stand; E1 where it is to null; E5 where it is to a plain object or a string; E6 where it is to an array of other elements; E7 where the part does not lie in the array.
    ///
    /// Nothing is written then.
    pub fn luthrady_set_long_array_region(
        env: *mut EnvHandle,
        array: u64,
        start: u32,
        elements: *const i64,
        count: usize,
    ) -> Reply;
    /// Copies a part of an array of booleans out, from an index on: as many elements as there is room for. (JNI Specification, chapter 4, "Get<PrimitiveType>ArrayRegion Routines")
    ///
    /// Refused: E21 where no env stands behind the handle; E19 in a critical region; E13 where a thread is collecting at the entry, or has announced that it will; E2 where the handle is malformed or lies outside the room; E3 where it is a local one of another thread; E2 where its reference does not stand; E1 where it is to null; E5 where it is to a plain object or a string; E6 where it is to an array of other elements; E7 where the part does not lie in the array.
    ///
    /// The slice is as it was, and nothing has changed.
    pub fn luthrady_get_boolean_array_region(
        env: *mut EnvHandle,
        array: u64,
        start: u32,
        elements: *mut bool,
        count: usize,
    ) -> Reply;
    /// Copies a part of an array of bytes out, from an index on: as many elements as there is room for. (JNI Specification, chapter 4, "Get<PrimitiveType>ArrayRegion Routines")
    ///
    /// Refused: E21 where no env stands behind the handle; E19 in a critical region; E13 where a thread is collecting at the entry, or has announced that it will; E2 where the handle is malformed or lies outside the room; E3 where it is a local one of another thread; E2 where its reference does not stand; E1 where it is to null; E5 where it is to a plain object or a string; E6 where it is to an array of other elements; E7 where the part does not lie in the array.
    ///
    /// The slice is as it was, and nothing has changed.
    pub fn luthrady_get_byte_array_region(
        env: *mut EnvHandle,
        array: u64,
        start: u32,
        elements: *mut i8,
        count: usize,
    ) -> Reply;
    /// Copies a part of an array of chars out, from an index on: as many elements as there is room for. (JNI Specification, chapter 4, "Get<PrimitiveType>ArrayRegion Routines")
    ///
    /// Refused: E21 where no env stands behind the handle; E19 in a critical region; E13 where a thread is collecting at the entry, or has announced that it will; E2 where the handle is malformed or lies outside the room; E3 where it is a local one of another thread; E2 where its reference does not stand; E1 where it is to null; E5 where it is to a plain object or a string; E6 where it is to an array of other elements; E7 where the part does not lie in the array.
    ///
    /// The slice is as it was, and nothing has changed.
    pub fn luthrady_get_char_array_region(
        env: *mut EnvHandle,
        array: u64,
        start: u32,
        elements: *mut u16,
        count: usize,
    ) -> Reply;
    /// Copies a part of an array of shorts out, from an index on: as many elements as there is room for. (JNI Specification, chapter 4, "Get<PrimitiveType>ArrayRegion Routines")
    ///
    /// Refused: E21 where no env stands behind the handle; E19 in a critical region; E13 where a thread is collecting at the entry, or has announced that it will; E2 where the handle is malformed or lies outside the room; E3 where it is a local one of another thread; E2 where its reference does not stand; E1 where it is to null; E5 where it is to a plain object or a string; E6 where it is to an array of other elements; E7 where the part does not lie in the array.
    ///
    /// The slice is as it was, and nothing has changed.
    pub fn luthrady_get_short_array_region(
        env: *mut EnvHandle,
        array: u64,
        start: u32,
        elements: *mut i16,
        count: usize,
    ) -> Reply;
    /// Copies a part of an array of ints out, from an index on: as many elements as there is room for. (JNI Specification, chapter 4, "Get<PrimitiveType>ArrayRegion Routines")
    ///
    /// Refused: E21 where no env stands behind the handle; E19 in a critical region; E13 where a thread is collecting at the entry, or has announced that it will; E2 where the handle is malformed or lies outside the room; E3 where it is a local one of another thread; E2 where its reference does not stand; E1 where it is to null; E5 where it is to a plain object or a string; E6 where it is to an array of other elements; E7 where the part does not lie in the array.
    ///
    /// The slice is as it was, and nothing has changed.
    pub fn luthrady_get_int_array_region(
        env: *mut EnvHandle,
        array: u64,
        start: u32,
        elements: *mut i32,
        count: usize,
    ) -> Reply;
    /// Copies a part of an array of longs out, from an index on: as many elements as there is room for. (JNI Specification, chapter 4, "Get<PrimitiveType>ArrayRegion Routines")
    ///
    /// Refused: E21 where no env stands behind the handle; E19 in a critical region; E13 where a thread is collecting at the entry, or has announced that it will; E2 where the handle is malformed or lies outside the room; E3 where it is a local one of another thread; E2 where its reference does not stand; E1 where it is to null; E5 where it is to a plain object or a string; E6 where it is to an array of other elements; E7 where the part does not lie in the array.
    ///
    /// The slice is as it was, and nothing has changed.
    pub fn luthrady_get_long_array_region(
        env: *mut EnvHandle,
        array: u64,
        start: u32,
        elements: *mut i64,
        count: usize,
    ) -> Reply;
    /// Copies a part of a string's UTF-16 units out, from an index on: as many as there is room for. It is one critical region. (JNI Specification, chapter 4, "GetStringRegion")
    ///
    /// Refused: E21 where no env stands behind the handle; E19 in a critical region; E13 where a thread is collecting at the entry, or has announced that it will; E2 where the handle is malformed or lies outside the room; E3 where it is a local one of another thread; E2 where its reference does not stand; E1 where it is to null; E4 where it is to no string; E7 where the part does not lie in the string.
    ///
    /// The units are as they were, and nothing has changed.
    pub fn luthrady_get_string_region(
        env: *mut EnvHandle,
        string: u64,
        start: u32,
        units: *mut u16,
        count: usize,
    ) -> Reply;
    /// A string of a text in UTF-8, and a local reference to it. The Java Native Interface's is of modified UTF-8. (JNI Specification, chapter 4, "NewStringUTF")
    ///
    /// Refused: E21 where no env stands behind the handle; E19 in a critical region; E18 where the bytes are no UTF-8; E16 where memory was refused; E13 where a thread is collecting at the entry, or has announced that it will; E9 where no local place is free; E10 with how many words are reserved, where so many more don't fit; E12 with how many words were looked at and how many were found, where another thread reserved some in between; E11 where every object number was present at one moment of the call.
    ///
    /// Nothing has changed then; but after E11 the words of the string stay reserved until the next collection.
    pub fn luthrady_new_string_utf8(env: *mut EnvHandle, text: *const u8, count: usize) -> Reply;
    /// Reads a string as a text in UTF-8, and answers how many bytes that has. They stand in front then, where there is room for all of them, and else the bytes are as they were. (JNI Specification, chapter 4, "GetStringUTFRegion", "GetStringUTFLength")
    ///
    /// Refused: E21 where no env stands behind the handle; E19 in a critical region; E13 where a thread is collecting at the entry, or has announced that it will; E2 where the handle is malformed or lies outside the room; E3 where it is a local one of another thread; E2 where its reference does not stand; E1 where it is to null; E4 where it is to no string; E16 where memory was refused; E18 where a surrogate among the units has no partner.
    ///
    /// The bytes are as they were, and nothing has changed.
    pub fn luthrady_get_string_utf8(
        env: *mut EnvHandle,
        string: u64,
        bytes: *mut u8,
        count: usize,
    ) -> Reply;
    /// Copies all elements of an array of booleans out. It is one critical region. (JNI Specification, chapter 4, "Get<PrimitiveType>ArrayElements Routines")
    ///
    /// Refused: E21 where no env stands behind the handle; E19 in a critical region; E13 where a thread is collecting at the entry, or has announced that it will; E2 where the handle is malformed or lies outside the room; E3 where it is a local one of another thread; E2 where its reference does not stand; E1 where it is to null; E5 where it is to a plain object or a string; E6 where it is to an array of other elements; E7 where the array has another number of elements.
    ///
    /// The elements are as they were, and nothing has changed.
    pub fn luthrady_get_boolean_array_elements(
        env: *mut EnvHandle,
        array: u64,
        elements: *mut bool,
        count: usize,
    ) -> Reply;
    /// Copies all elements of an array of bytes out. It is one critical region. (JNI Specification, chapter 4, "Get<PrimitiveType>ArrayElements Routines")
    ///
    /// Refused: E21 where no env stands behind the handle; E19 in a critical region; E13 where a thread is collecting at the entry, or has announced that it will; E2 where the handle is malformed or lies outside the room; E3 where it is a local one of another thread; E2 where its reference does not stand; E1 where it is to null; E5 where it is to a plain object or a string; E6 where it is to an array of other elements; E7 where the array has another number of elements.
    ///
    /// The elements are as they were, and nothing has changed.
    pub fn luthrady_get_byte_array_elements(
        env: *mut EnvHandle,
        array: u64,
        elements: *mut i8,
        count: usize,
    ) -> Reply;
    /// Copies all elements of an array of chars out. It is one critical region. (JNI Specification, chapter 4, "Get<PrimitiveType>ArrayElements Routines")
    ///
    /// Refused: E21 where no env stands behind the handle; E19 in a critical region; E13 where a thread is collecting at the entry, or has announced that it will; E2 where the handle is malformed or lies outside the room; E3 where it is a local one of another thread; E2 where its reference does not stand; E1 where it is to null; E5 where it is to a plain object or a string; E6 where it is to an array of other elements; E7 where the array has another number of elements.
    ///
    /// The elements are as they were, and nothing has changed.
    pub fn luthrady_get_char_array_elements(
        env: *mut EnvHandle,
        array: u64,
        elements: *mut u16,
        count: usize,
    ) -> Reply;
    /// Copies all elements of an array of shorts out. It is one critical region. (JNI Specification, chapter 4, "Get<PrimitiveType>ArrayElements Routines")
    ///
    /// Refused: E21 where no env stands behind the handle; E19 in a critical region; E13 where a thread is collecting at the entry, or has announced that it will; E2 where the handle is malformed or lies outside the room; E3 where it is a local one of another thread; E2 where its reference does not stand; E1 where it is to null; E5 where it is to a plain object or a string; E6 where it is to an array of other elements; E7 where the array has another number of elements.
    ///
    /// The elements are as they were, and nothing has changed.
    pub fn luthrady_get_short_array_elements(
        env: *mut EnvHandle,
        array: u64,
        elements: *mut i16,
        count: usize,
    ) -> Reply;
    /// Copies all elements of an array of ints out. It is one critical region. (JNI Specification, chapter 4, "Get<PrimitiveType>ArrayElements Routines")
    ///
    /// Refused: E21 where no env stands behind the handle; E19 in a critical region; E13 where a thread is collecting at the entry, or has announced that it will; E2 where the handle is malformed or lies outside the room; E3 where it is a local one of another thread; E2 where its reference does not stand; E1 where it is to null; E5 where it is to a plain object or a string; E6 where it is to an array of other elements; E7 where the array has another number of elements.
    ///
    /// The elements are as they were, and nothing has changed.
    pub fn luthrady_get_int_array_elements(
        env: *mut EnvHandle,
        array: u64,
        elements: *mut i32,
        count: usize,
    ) -> Reply;
    /// Copies all elements of an array of longs out. It is one critical region. (JNI Specification, chapter 4, "Get<PrimitiveType>ArrayElements Routines")
    ///
    /// Refused: E21 where no env stands behind the handle; E19 in a critical region; E13 where a thread is collecting at the entry, or has announced that it will; E2 where the handle is malformed or lies outside the room; E3 where it is a local one of another thread; E2 where its reference does not stand; E1 where it is to null; E5 where it is to a plain object or a string; E6 where it is to an array of other elements; E7 where the array has another number of elements.
    ///
    /// The elements are as they were, and nothing has changed.
    pub fn luthrady_get_long_array_elements(
        env: *mut EnvHandle,
        array: u64,
        elements: *mut i64,
        count: usize,
    ) -> Reply;
    /// Releases a copy of all elements of an array of booleans by the number of a mode: to copy (0) and to commit (1) write them to the array, in one critical region. To abort (2) looks at nothing. (JNI Specification, chapter 4, "Release<PrimitiveType>ArrayElements Routines")
    ///
    /// Refused: E21 where no env stands behind the handle; E19 in a critical region; E7 where no mode has the number; E13 where a thread is collecting at the entry, or has announced that it will; E2 where the handle is malformed or lies outside the room; E3 where it is a local one of another thread; E2 where its reference does not stand; E1 where it is to null; E5 where it is to a plain object or a string; E6 where it is to an array of other elements; E7 where the array has another number of elements.
    ///
    /// Nothing is written then.
    pub fn luthrady_release_boolean_array_elements(
        env: *mut EnvHandle,
        array: u64,
        elements: *const bool,
        count: usize,
        mode: u32,
    ) -> Reply;
    /// Releases a copy of all elements of an array of bytes by the number of a mode: to copy (0) and to commit (1) write them to the array, in one critical region. To abort (2) looks at nothing. (JNI Specification, chapter 4, "Release<PrimitiveType>ArrayElements Routines")
    ///
    /// Refused: E21 where no env stands behind the handle; E19 in a critical region; E7 where no mode has the number; E13 where a thread is collecting at the entry, or has announced that it will; E2 where the handle is malformed or lies outside the room; E3 where it is a local one of another thread; E2 where its reference does not stand; E1 where it is to null; E5 where it is to a plain object or a string; E6 where it is to an array of other elements; E7 where the array has another number of elements.
    ///
    /// Nothing is written then.
    pub fn luthrady_release_byte_array_elements(
        env: *mut EnvHandle,
        array: u64,
        elements: *const i8,
        count: usize,
        mode: u32,
    ) -> Reply;
    /// Releases a copy of all elements of an array of chars by the number of a mode: to copy (0) and to commit (1) write them to the array, in one critical region. To abort (2) looks at nothing. (JNI Specification, chapter 4, "Release<PrimitiveType>ArrayElements Routines")
    ///
    /// Refused: E21 where no env stands behind the handle; E19 in a critical region; E7 where no mode has the number; E13 where a thread is collecting at the entry, or has announced that it will; E2 where the handle is malformed or lies outside the room; E3 where it is a local one of another thread; E2 where its reference does not stand; E1 where it is to null; E5 where it is to a plain object or a string; E6 where it is to an array of other elements; E7 where the array has another number of elements.
    ///
    /// Nothing is written then.
    pub fn luthrady_release_char_array_elements(
        env: *mut EnvHandle,
        array: u64,
        elements: *const u16,
        count: usize,
        mode: u32,
    ) -> Reply;
    /// Releases a copy of all elements of an array of shorts by the number of a mode: to copy (0) and to commit (1) write them to the array, in one critical region. To abort (2) looks at nothing. (JNI Specification, chapter 4, "Release<PrimitiveType>ArrayElements Routines")
    ///
    /// Refused: E21 where no env stands behind the handle; E19 in a critical region; E7 where no mode has the number; E13 where a thread is collecting at the entry, or has announced that it will; E2 where the handle is malformed or lies outside the room; E3 where it is a local one of another thread; E2 where its reference does not stand; E1 where it is to null; E5 where it is to a plain object or a string; E6 where it is to an array of other elements; E7 where the array has another number of elements.
    ///
    /// Nothing is written then.
    pub fn luthrady_release_short_array_elements(
        env: *mut EnvHandle,
        array: u64,
        elements: *const i16,
        count: usize,
        mode: u32,
    ) -> Reply;
    /// Releases a copy of all elements of an array of ints by the number of a mode: to copy (0) and to commit (1) write them to the array, in one critical region. To abort (2) looks at nothing. (JNI Specification, chapter 4, "Release<PrimitiveType>ArrayElements Routines")
    ///
    /// Refused: E21 where no env stands behind the handle; E19 in a critical region; E7 where no mode has the number; E13 where a thread is collecting at the entry, or has announced that it will; E2 where the handle is malformed or lies outside the room; E3 where it is a local one of another thread; E2 where its reference does not stand; E1 where it is to null; E5 where it is to a plain object or a string; E6 where it is to an array of other elements; E7 where the array has another number of elements.
    ///
    /// Nothing is written then.
    pub fn luthrady_release_int_array_elements(
        env: *mut EnvHandle,
        array: u64,
        elements: *const i32,
        count: usize,
        mode: u32,
    ) -> Reply;
    /// Releases a copy of all elements of an array of longs by the number of a mode: to copy (0) and to commit (1) write them to the array, in one critical region. To abort (2) looks at nothing. (JNI Specification, chapter 4, "Release<PrimitiveType>ArrayElements Routines")
    ///
    /// Refused: E21 where no env stands behind the handle; E19 in a critical region; E7 where no mode has the number; E13 where a thread is collecting at the entry, or has announced that it will; E2 where the handle is malformed or lies outside the room; E3 where it is a local one of another thread; E2 where its reference does not stand; E1 where it is to null; E5 where it is to a plain object or a string; E6 where it is to an array of other elements; E7 where the array has another number of elements.
    ///
    /// Nothing is written then.
    pub fn luthrady_release_long_array_elements(
        env: *mut EnvHandle,
        array: u64,
        elements: *const i64,
        count: usize,
        mode: u32,
    ) -> Reply;
    /// Opens a level of a critical region over an array whose elements are no objects, and answers its number. The first one has the number 0, and enters the region: the thread is within until it is released. Each further one has the next number. Until the region ends each call by the env but those at its levels is E19, and no collection comes. (JNI Specification, chapter 4, "GetPrimitiveArrayCritical")
    ///
    /// Refused: E21 where no env stands behind the handle; at the first level E13 where a thread is collecting at the entry, or has announced that it will; E2 where the handle is malformed or lies outside the room; E3 where it is a local one of another thread; E2 where its reference does not stand; E1 where it is to null; E5 where it is to a plain object or a string; E6 where it is to an array of objects; E17 where sixteen levels stand.
    ///
    /// The levels that stood still stand. Where none did the thread stands outside.
    pub fn luthrady_get_array_critical(env: *mut EnvHandle, array: u64) -> Reply;
    /// Opens a level of a critical region over a string, as `luthrady_get_array_critical` does over an array. (JNI Specification, chapter 4, "GetStringCritical")
    ///
    /// Refused: E21 where no env stands behind the handle; at the first level E13 where a thread is collecting at the entry, or has announced that it will; E2 where the handle is malformed or lies outside the room; E3 where it is a local one of another thread; E2 where its reference does not stand; E1 where it is to null; E4 where it is to no string; E17 where sixteen levels stand.
    ///
    /// The levels that stood still stand. Where none did the thread stands outside.
    pub fn luthrady_get_string_critical(env: *mut EnvHandle, string: u64) -> Reply;
    /// Releases the last level of a critical region, and answers how many are left. With the first one the region ends: the thread leaves the gate, and calls by the env are made again. What was written stands, whatever mode JNI would be handed. (JNI Specification, chapter 4, "ReleasePrimitiveArrayCritical", "ReleaseStringCritical")
    ///
    /// Refused: E21 where no env stands behind the handle; E19 where no region stands.
    ///
    /// Nothing has changed then.
    pub fn luthrady_release_critical(env: *mut EnvHandle) -> Reply;
    /// How many elements or units a level of a critical region has. Nothing has changed then.
    ///
    /// Refused: E21 where no env stands behind the handle; E19 where no region stands; E2 where no level of the number does.
    pub fn luthrady_get_level_length(env: *mut EnvHandle, level: u32) -> Reply;
    /// A boolean at an index of a level of a critical region. It answers 0 or 1. (JNI Specification, chapter 4, "GetPrimitiveArrayCritical")
    ///
    /// Refused: E21 where no env stands behind the handle; E19 where no region stands; E2 where no level of the number does; E6 where its elements are of another kind; E7 where the index is not below the length.
    ///
    /// Nothing is read then, and the levels stand.
    pub fn luthrady_get_boolean_level_element(env: *mut EnvHandle, level: u32, index: u32) -> Reply;
    /// Makes a boolean the element at an index of a level of a critical region. (JNI Specification, chapter 4, "GetPrimitiveArrayCritical")
    ///
    /// Refused: E21 where no env stands behind the handle; E19 where no region stands; E2 where no level of the number does; E5 at a string; E6 where its elements are of another kind; E7 where the index is not below the length.
    ///
    /// Nothing is written then, and the levels stand.
    pub fn luthrady_set_boolean_level_element(
        env: *mut EnvHandle,
        level: u32,
        index: u32,
        value: bool,
    ) -> Reply;
    /// A byte at an index of a level of a critical region. It answers 8 bits in two's complement. (JNI Specification, chapter 4, "GetPrimitiveArrayCritical")
    ///
    /// Refused: E21 where no env stands behind the handle; E19 where no region stands; E2 where no level of the number does; E6 where its elements are of another kind; E7 where the index is not below the length.
    ///
    /// Nothing is read then, and the levels stand.
    pub fn luthrady_get_byte_level_element(env: *mut EnvHandle, level: u32, index: u32) -> Reply;
    /// Makes a byte the element at an index of a level of a critical region. (JNI Specification, chapter 4, "GetPrimitiveArrayCritical")
    ///
    /// Refused: E21 where no env stands behind the handle; E19 where no region stands; E2 where no level of the number does; E5 at a string; E6 where its elements are of another kind; E7 where the index is not below the length.
    ///
    /// Nothing is written then, and the levels stand.
    pub fn luthrady_set_byte_level_element(
        env: *mut EnvHandle,
        level: u32,
        index: u32,
        value: i8,
    ) -> Reply;
    /// A char at an index of a level of a critical region, or a unit of a string. (JNI Specification, chapter 4, "GetPrimitiveArrayCritical")
    ///
    /// Refused: E21 where no env stands behind the handle; E19 where no region stands; E2 where no level of the number does; E6 where its elements are of another kind; E7 where the index is not below the length.
    ///
    /// Nothing is read then, and the levels stand.
    pub fn luthrady_get_char_level_element(env: *mut EnvHandle, level: u32, index: u32) -> Reply;
    /// Makes a char the element at an index of a level of a critical region. (JNI Specification, chapter 4, "GetPrimitiveArrayCritical")
    ///
    /// Refused: E21 where no env stands behind the handle; E19 where no region stands; E2 where no level of the number does; E5 at a string; E6 where its elements are of another kind; E7 where the index is not below the length.
    ///
    /// Nothing is written then, and the levels stand.
    pub fn luthrady_set_char_level_element(
        env: *mut EnvHandle,
        level: u32,
        index: u32,
        value: u16,
    ) -> Reply;
    /// A short at an index of a level of a critical region. It answers 16 bits in two's complement. (JNI Specification, chapter 4, "GetPrimitiveArrayCritical")
    ///
    /// Refused: E21 where no env stands behind the handle; E19 where no region stands; E2 where no level of the number does; E6 where its elements are of another kind; E7 where the index is not below the length.
    ///
    /// Nothing is read then, and the levels stand.
    pub fn luthrady_get_short_level_element(env: *mut EnvHandle, level: u32, index: u32) -> Reply;
    /// Makes a short the element at an index of a level of a critical region. (JNI Specification, chapter 4, "GetPrimitiveArrayCritical")
    ///
    /// Refused: E21 where no env stands behind the handle; E19 where no region stands; E2 where no level of the number does; E5 at a string; E6 where its elements are of another kind; E7 where the index is not below the length.
    ///
    /// Nothing is written then, and the levels stand.
    pub fn luthrady_set_short_level_element(
        env: *mut EnvHandle,
        level: u32,
        index: u32,
        value: i16,
    ) -> Reply;
    /// An int at an index of a level of a critical region. It answers 32 bits in two's complement. (JNI Specification, chapter 4, "GetPrimitiveArrayCritical")
    ///
    /// Refused: E21 where no env stands behind the handle; E19 where no region stands; E2 where no level of the number does; E6 where its elements are of another kind; E7 where the index is not below the length.
    ///
    /// Nothing is read then, and the levels stand.
    pub fn luthrady_get_int_level_element(env: *mut EnvHandle, level: u32, index: u32) -> Reply;
    /// Makes an int the element at an index of a level of a critical region. (JNI Specification, chapter 4, "GetPrimitiveArrayCritical")
    ///
    /// Refused: E21 where no env stands behind the handle; E19 where no region stands; E2 where no level of the number does; E5 at a string; E6 where its elements are of another kind; E7 where the index is not below the length.
    ///
    /// Nothing is written then, and the levels stand.
    pub fn luthrady_set_int_level_element(
        env: *mut EnvHandle,
        level: u32,
        index: u32,
        value: i32,
    ) -> Reply;
    /// A long at an index of a level of a critical region. It answers 64 bits in two's complement. (JNI Specification, chapter 4, "GetPrimitiveArrayCritical")
    ///
    /// Refused: E21 where no env stands behind the handle; E19 where no region stands; E2 where no level of the number does; E6 where its elements are of another kind; E7 where the index is not below the length.
    ///
    /// Nothing is read then, and the levels stand.
    pub fn luthrady_get_long_level_element(env: *mut EnvHandle, level: u32, index: u32) -> Reply;
    /// Makes a long the element at an index of a level of a critical region. (JNI Specification, chapter 4, "GetPrimitiveArrayCritical")
    ///
    /// Refused: E21 where no env stands behind the handle; E19 where no region stands; E2 where no level of the number does; E5 at a string; E6 where its elements are of another kind; E7 where the index is not below the length.
    ///
    /// Nothing is written then, and the levels stand.
    pub fn luthrady_set_long_level_element(
        env: *mut EnvHandle,
        level: u32,
        index: u32,
        value: i64,
    ) -> Reply;
    /// Copies a part of the booleans at a level of a critical region out, from an index on: as many as there is room for. Others may write meanwhile. (JNI Specification, chapter 4, "GetPrimitiveArrayCritical")
    ///
    /// Refused: E21 where no env stands behind the handle; E19 where no region stands; E2 where no level of the number does; E6 where its elements are of another kind; E7 where the part does not lie in its array.
    ///
    /// The elements are as they were, and the levels stand.
    pub fn luthrady_get_boolean_level_part(
        env: *mut EnvHandle,
        level: u32,
        start: u32,
        elements: *mut bool,
        count: usize,
    ) -> Reply;
    /// Copies booleans into a part of a level of a critical region, from an index on. Others may read meanwhile. (JNI Specification, chapter 4, "GetPrimitiveArrayCritical")
    ///
    /// Refused: E21 where no env stands behind the handle; E19 where no region stands; E2 where no level of the number does; E5 at a string; E6 where its elements are of another kind; E7 where the part does not lie in its array.
    ///
    /// Nothing is written then, and the levels stand.
    pub fn luthrady_set_boolean_level_part(
        env: *mut EnvHandle,
        level: u32,
        start: u32,
        elements: *const bool,
        count: usize,
    ) -> Reply;
    /// Copies a part of the bytes at a level of a critical region out, from an index on: as many as there is room for. Others may write meanwhile. (JNI Specification, chapter 4, "GetPrimitiveArrayCritical")
    ///
    /// Refused: E21 where no env stands behind the handle; E19 where no region stands; E2 where no level of the number does; E6 where its elements are of another kind; E7 where the part does not lie in its array.
    ///
    /// The elements are as they were, and the levels stand.
    pub fn luthrady_get_byte_level_part(
        env: *mut EnvHandle,
        level: u32,
        start: u32,
        elements: *mut i8,
        count: usize,
    ) -> Reply;
    /// Copies bytes into a part of a level of a critical region, from an index on. Others may read meanwhile. (JNI Specification, chapter 4, "GetPrimitiveArrayCritical")
    ///
    /// Refused: E21 where no env stands behind the handle; E19 where no region stands; E2 where no level of the number does; E5 at a string; E6 where its elements are of another kind; E7 where the part does not lie in its array.
    ///
    /// Nothing is written then, and the levels stand.
    pub fn luthrady_set_byte_level_part(
        env: *mut EnvHandle,
        level: u32,
        start: u32,
        elements: *const i8,
        count: usize,
    ) -> Reply;
    /// Copies a part of the chars at a level of a critical region out, from an index on: as many as there is room for. The units of a string are read as chars. Others may write meanwhile. (JNI Specification, chapter 4, "GetPrimitiveArrayCritical")
    ///
    /// Refused: E21 where no env stands behind the handle; E19 where no region stands; E2 where no level of the number does; E6 where its elements are of another kind; E7 where the part does not lie in its array or string.
    ///
    /// The elements are as they were, and the levels stand.
    pub fn luthrady_get_char_level_part(
        env: *mut EnvHandle,
        level: u32,
        start: u32,
        elements: *mut u16,
        count: usize,
    ) -> Reply;
    /// Copies chars into a part of a level of a critical region, from an index on. Others may read meanwhile. (JNI Specification, chapter 4, "GetPrimitiveArrayCritical")
    ///
    /// Refused: E21 where no env stands behind the handle; E19 where no region stands; E2 where no level of the number does; E5 at a string; E6 where its elements are of another kind; E7 where the part does not lie in its array.
    ///
    /// Nothing is written then, and the levels stand.
    pub fn luthrady_set_char_level_part(
        env: *mut EnvHandle,
        level: u32,
        start: u32,
        elements: *const u16,
        count: usize,
    ) -> Reply;
    /// Copies a part of the shorts at a level of a critical region out, from an index on: as many as there is room for. Others may write meanwhile. (JNI Specification, chapter 4, "GetPrimitiveArrayCritical")
    ///
    /// Refused: E21 where no env stands behind the handle; E19 where no region stands; E2 where no level of the number does; E6 where its elements are of another kind; E7 where the part does not lie in its array.
    ///
    /// The elements are as they were, and the levels stand.
    pub fn luthrady_get_short_level_part(
        env: *mut EnvHandle,
        level: u32,
        start: u32,
        elements: *mut i16,
        count: usize,
    ) -> Reply;
    /// Copies shorts into a part of a level of a critical region, from an index on. Others may read meanwhile. (JNI Specification, chapter 4, "GetPrimitiveArrayCritical")
    ///
    /// Refused: E21 where no env stands behind the handle; E19 where no region stands; E2 where no level of the number does; E5 at a string; E6 where its elements are of another kind; E7 where the part does not lie in its array.
    ///
    /// Nothing is written then, and the levels stand.
    pub fn luthrady_set_short_level_part(
        env: *mut EnvHandle,
        level: u32,
        start: u32,
        elements: *const i16,
        count: usize,
    ) -> Reply;
    /// Copies a part of the ints at a level of a critical region out, from an index on: as many as there is room for. Others may write meanwhile. (JNI Specification, chapter 4, "GetPrimitiveArrayCritical")
    ///
    /// Refused: E21 where no env stands behind the handle; E19 where no region stands; E2 where no level of the number does; E6 where its elements are of another kind; E7 where the part does not lie in its array.
    ///
    /// The elements are as they were, and the levels stand.
    pub fn luthrady_get_int_level_part(
        env: *mut EnvHandle,
        level: u32,
        start: u32,
        elements: *mut i32,
        count: usize,
    ) -> Reply;
    /// Copies ints into a part of a level of a critical region, from an index on. Others may read meanwhile. (JNI Specification, chapter 4, "GetPrimitiveArrayCritical")
    ///
    /// Refused: E21 where no env stands behind the handle; E19 where no region stands; E2 where no level of the number does; E5 at a string; E6 where its elements are of another kind; E7 where the part does not lie in its array.
    ///
    /// Nothing is written then, and the levels stand.
    pub fn luthrady_set_int_level_part(
        env: *mut EnvHandle,
        level: u32,
        start: u32,
        elements: *const i32,
        count: usize,
    ) -> Reply;
    /// Copies a part of the longs at a level of a critical region out, from an index on: as many as there is room for. Others may write meanwhile. (JNI Specification, chapter 4, "GetPrimitiveArrayCritical")
    ///
    /// Refused: E21 where no env stands behind the handle; E19 where no region stands; E2 where no level of the number does; E6 where its elements are of another kind; E7 where the part does not lie in its array.
    ///
    /// The elements are as they were, and the levels stand.
    pub fn luthrady_get_long_level_part(
        env: *mut EnvHandle,
        level: u32,
        start: u32,
        elements: *mut i64,
        count: usize,
    ) -> Reply;
    /// Copies longs into a part of a level of a critical region, from an index on. Others may read meanwhile. (JNI Specification, chapter 4, "GetPrimitiveArrayCritical")
    ///
    /// Refused: E21 where no env stands behind the handle; E19 where no region stands; E2 where no level of the number does; E5 at a string; E6 where its elements are of another kind; E7 where the part does not lie in its array.
    ///
    /// Nothing is written then, and the levels stand.
    pub fn luthrady_set_long_level_part(
        env: *mut EnvHandle,
        level: u32,
        start: u32,
        elements: *const i64,
        count: usize,
    ) -> Reply;
    /// The kind of what the word names, by its number: 1 plain, 2 to 7 an array of booleans, bytes, chars, shorts, ints, longs, 8 an array of objects, 9 a string. The Java Native Interface has no such call.
    ///
    /// Refused: E21 where no env stands behind the handle; E19 in a critical region; E13 where a thread is collecting at the entry, or has announced that it will; E2 where the handle is malformed or lies outside the room; E3 where it is a local one of another thread; E2 where its reference does not stand; E1 where it is to null.
    ///
    /// Nothing has changed then.
    pub fn luthrady_kind_of(env: *mut EnvHandle, object: u64) -> Reply;
    /// The identity of what the word names: a number, at least 1, that all references to one object share, and that no other object has while that one is present. A collection leaves it. Once a collection has dropped the object, another may have its number. The Java Native Interface has no such call.
    ///
    /// Refused: E21 where no env stands behind the handle; E19 in a critical region; E13 where a thread is collecting at the entry, or has announced that it will; E2 where the handle is malformed or lies outside the room; E3 where it is a local one of another thread; E2 where its reference does not stand; E1 where it is to null.
    ///
    /// Nothing has changed then.
    pub fn luthrady_identity_of(env: *mut EnvHandle, object: u64) -> Reply;
    /// What a word is that is handed in as a reference, whatever word it is. What is told of the room was so at the call's one look. It changes nothing.
    ///
    /// Refused: E21 where no env stands behind the handle; E19 in a critical region; E13 where a thread is collecting at the entry, or has announced that it will.
    ///
    /// Nothing has changed then.
    pub fn luthrady_explain(env: *mut EnvHandle, word: u64, out: *mut Explained) -> Reply;
    /// How many words of array space are used: reserved, be it for objects that stand or for such as nothing reaches. Others may go on meanwhile.
    ///
    /// Refused: E21 where no env stands behind the handle; E19 in a critical region; E13 where a thread is collecting at the entry, or has announced that it will.
    ///
    /// Nothing has changed then.
    pub fn luthrady_words_used(env: *mut EnvHandle) -> Reply;
    /// How many local references the thread has, and how many places for them. It enters no gate.
    ///
    /// Refused: E21 where no env stands behind the handle; E19 in a critical region.
    ///
    /// Nothing has changed then, and nothing is written.
    pub fn luthrady_local_counts(env: *mut EnvHandle, out: *mut Locals) -> Reply;
    /// Counts what stands in the room, at one step that shuts the gate for it, and changes nothing. It writes the counts, and how many local references each thread has, by the thread's number: as many of these as there is room for, and 64 at the most. A thread that the room doesn't have has none.
    ///
    /// Refused: E21 where no env stands behind the handle; E19 in a critical region; E17 exactly where the marker was made for another number of objects; E14 with how many threads were inside, knocking, announcing or collecting at its one step, at least 1.
    ///
    /// Nothing has changed then, and the marker is as it was. At E14 the thread stands outside, and at E17 it has taken no step. Over one thread a marker that fits is never refused.
    pub fn luthrady_census(
        env: *mut EnvHandle,
        locals: *mut u32,
        count: usize,
        out: *mut Inventory,
    ) -> Reply;
    /// Counts as `luthrady_census` does, but announces it first, and tries so many times to shut the gate, at least once.
    ///
    /// Refused: E21 where no env stands behind the handle; E19 in a critical region; E17 exactly where the marker was made for another number of objects; E14 with how many threads were inside, knocking, announcing or collecting, at least 1, where another thread kept the gate closed already; E23 with two counts of the open gate, where another thread went in or out between the look at it and the announcement; E14 with how many other threads were inside or knocking at the last try, at least 1.
    ///
    /// Nothing has changed then, and the marker is as it was. At E14 and E23 the thread stands outside, and at E17 it has taken no step. Over one thread a marker that fits is never refused.
    pub fn luthrady_census_announced(
        env: *mut EnvHandle,
        tries: u32,
        locals: *mut u32,
        count: usize,
        out: *mut Inventory,
    ) -> Reply;
    /// Notes what each slot, each local place of each thread and each object number of the room has, at one step that shuts the gate for it, and changes nothing. It writes a row for each at the front of four buffers, as many as there is room for. What lies behind stays. The room has as many as its sizes say. A slot's row is that of its index. A local place has the identity of the object that its reference names, 0 where it has none: a thread's places stand behind those of the threads before it. An object's row is that of its identity less one. Its elements' words stand in a row from its place on: that of an array of objects is the identity of the element's object, 0 for NULL.
    ///
    /// Refused: E21 where no env stands behind the handle; E19 in a critical region; E16 where memory for the notes was refused; E14 with how many threads were inside, knocking, announcing or collecting at its one step, at least 1.
    ///
    /// Nothing has changed then, the rows are as they were, and the thread stands outside. Over one thread it is refused by E16 alone.
    pub fn luthrady_dump(
        env: *mut EnvHandle,
        slots: *mut Slot,
        slots_count: usize,
        locals: *mut u16,
        locals_count: usize,
        objects: *mut Object,
        objects_count: usize,
        words: *mut u64,
        words_count: usize,
    ) -> Reply;
    /// Notes what stands in the room as `luthrady_dump` does, but announces it first, and tries so many times to shut the gate, at least once.
    ///
    /// Refused: E21 where no env stands behind the handle; E19 in a critical region; E16 where memory for the notes was refused; E14 with how many threads were inside, knocking, announcing or collecting, at least 1, where another thread kept the gate closed already; E23 with two counts of the open gate, where another thread went in or out between the look at it and the announcement; E14 with how many other threads were inside or knocking at the last try, at least 1.
    ///
    /// Nothing has changed then, the rows are as they were, and the thread stands outside. Over one thread it is refused by E16 alone.
    pub fn luthrady_dump_announced(
        env: *mut EnvHandle,
        tries: u32,
        slots: *mut Slot,
        slots_count: usize,
        locals: *mut u16,
        locals_count: usize,
        objects: *mut Object,
        objects_count: usize,
        words: *mut u64,
        words_count: usize,
    ) -> Reply;
    /// Collects, by the thread's own marker, and writes what it did.
    ///
    /// Refused: E21 where no env stands behind the handle; E19 in a critical region; E17 exactly where the marker was made for another number of objects; E14 with how many threads were inside, knocking, announcing or collecting at its one step, at least 1.
    ///
    /// Nothing has changed then, and the marker is as it was. At E14 the thread stands outside, and at E17 it has taken no step. Over one thread a marker that fits is never refused.
    pub fn luthrady_collect(env: *mut EnvHandle, out: *mut Counts) -> Reply;
    /// Collects as `luthrady_collect` does, but announces it first, and tries so many times to shut the gate, at least once.
    ///
    /// Refused: E21 where no env stands behind the handle; E19 in a critical region; E17 exactly where the marker was made for another number of objects; E14 with how many threads were inside, knocking, announcing or collecting, at least 1, where another thread kept the gate closed already; E23 with two counts of the open gate, where another thread went in or out between the look at it and the announcement; E14 with how many other threads were inside or knocking at the last try, at least 1.
    ///
    /// Nothing has changed then, and the marker is as it was. At E14 and E23 the thread stands outside, and at E17 it has taken no step. Over one thread a marker that fits is never refused.
    pub fn luthrady_collect_announced(env: *mut EnvHandle, tries: u32, out: *mut Counts) -> Reply;
    /// Collects as `luthrady_collect_announced` does, and announces it anew as long as it gets no turn (E14, E23), but no more than so many times more. The last answer is the answer. Between two announcements none stands, so that others go in. It yields to nobody.
    ///
    /// Refused: E21 where no env stands behind the handle; E19 in a critical region; E17 exactly where the marker was made for another number of objects; E14 with how many threads were inside, knocking, announcing or collecting, at least 1, where another thread kept the gate closed at the last announcement; E23 with two counts of the open gate, where another thread went in or out between its look at the gate and that announcement; E14 with how many other threads were inside or knocking at its last try, at least 1.
    ///
    /// Nothing has changed then, and the marker is as it was. At E14 and E23 the thread stands outside, and at E17 it has taken no step. Over one thread a marker that fits is never refused.
    pub fn luthrady_collect_in_turn(
        env: *mut EnvHandle,
        tries: u32,
        more: u32,
        out: *mut Counts,
    ) -> Reply;
    /// Collects as `luthrady_collect_in_turn` does, and lists what went at the front of two buffers, in the order in which it went and as much as there is room for: the weak references that it cleared, by their words, and the objects that it dropped, by their identities. What lies behind stays. The counts tell how many there were, which may be more than the buffers have room for. Memory for the list of references is taken first.
    ///
    /// Refused: E21 where no env stands behind the handle; E19 in a critical region; E16 where that memory was refused; E17 exactly where the marker was made for another number of objects; E14 with how many threads were inside, knocking, announcing or collecting, at least 1, where another thread kept the gate closed at the last announcement; E23 with two counts of the open gate, where another thread went in or out between its look at the gate and that announcement; E14 with how many other threads were inside or knocking at its last try, at least 1.
    ///
    /// Nothing has changed then, and the marker and the buffers are as they were. At E14 and E23 the thread stands outside, and at E17 it has taken no step. Over one thread a marker that fits is refused by E16 alone.
    pub fn luthrady_collect_in_turn_listing(
        env: *mut EnvHandle,
        tries: u32,
        more: u32,
        references: *mut u64,
        references_count: usize,
        identities: *mut u16,
        identities_count: usize,
        out: *mut Counts,
    ) -> Reply;
    /// Makes calls in one stay: each as by its own function, but between one entry at the gate and one exit. Each call's answer is written to it. A call whose number is none is E7.
    ///
    /// Refused: E21 where no env stands behind the handle; E19 in a critical region; E13 where a thread is collecting at the entry, or has announced that it will.
    ///
    /// No call is made then.
    pub fn luthrady_batch(env: *mut EnvHandle, calls: *mut BatchCall, count: usize) -> Reply;
}
