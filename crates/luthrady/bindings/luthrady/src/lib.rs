//! Safe Rust over the static library `luthrady`.
//!
//! What is proved ends at the entry of each function. This file answers for the rest:
//! - a handle is what `luthrady_open` or `luthrady_attach` wrote;
//! - each handle is in one call at a time: an env's by `&mut self`, a room's by a lock;
//! - a thread is detached from the room that it was attached to;
//! - a critical region borrows its env, and ends with its value, or where its env's next one is opened;
//! - an env's place is freed when its value is dropped, so that a call after a detach is E21;
//! - a room's place is freed with the last value that holds it.
//!
//! Each declaration of `luthrady_sys` is made of the function that it is of.

use luthrady_sys as sys;
use std::sync::{Arc, Mutex, MutexGuard, PoisonError};
use std::{error, fmt, ptr, thread};

pub use sys::{Counts, Object, Operation, Sizes, Slot, Stood};

/// Room for a dump.
#[derive(Debug, Default)]
pub struct Rows<'a> {
    /// What each slot has.
    pub slots: &'a mut [Slot],
    /// The identities that the local places of each thread have.
    pub locals: &'a mut [u16],
    /// What each number of an object has.
    pub objects: &'a mut [Object],
    /// The words of the elements.
    pub words: &'a mut [u64],
}

/// A call of a batch, and its answer.
#[derive(Clone, Copy, Debug, Default, PartialEq, Eq)]
#[repr(transparent)]
pub struct BatchCall(sys::BatchCall);

impl BatchCall {
    /// A call that is handed these references, and an index.
    pub fn new(operation: Operation, first: u64, second: u64, index: u32) -> BatchCall {
        BatchCall(sys::BatchCall {
            operation: operation as u32,
            index,
            first,
            second,
            reply: sys::Reply::default(),
        })
    }

    /// What it answered in the batch that it was last in.
    pub fn answer(&self) -> Answer<u64> {
        value(self.0.reply)
    }
}

/// A refusal: its number, and the two that it tells beside it, 0 where it tells none.
#[derive(Clone, Copy, Debug, PartialEq, Eq)]
pub struct Fault {
    pub number: u32,
    pub told: u32,
    pub found: u32,
}

impl Fault {
    /// A refusal that tells one number, or 0.
    pub fn new(number: u32, told: u32) -> Fault {
        Fault {
            number,
            told,
            found: 0,
        }
    }
}

impl fmt::Display for Fault {
    fn fmt(&self, to: &mut fmt::Formatter<'_>) -> fmt::Result {
        write!(to, "E{}: {}", self.number, sys::fault_text(self.number))?;
        match (self.told, self.found) {
            (0, 0) => Ok(()),
            (told, 0) => write!(to, " ({told})"),
            (told, found) => write!(to, " ({told}, {found})"),
        }
    }
}

impl error::Error for Fault {}

/// The number of a refusal that ends by itself: a collection keeps threads from coming in.
const BARRED: u32 = 13;

/// What a call answers.
pub type Answer<T> = Result<T, Fault>;

fn value(reply: sys::Reply) -> Answer<u64> {
    match reply.fault {
        0 => Ok(reply.value),
        number => Err(Fault {
            number,
            told: reply.told,
            found: reply.found,
        }),
    }
}

fn nothing(reply: sys::Reply) -> Answer<()> {
    value(reply).map(|_| ())
}

/// The place of a room, which is freed once nobody holds it.
#[derive(Debug)]
struct Place(sys::RoomHandle);

/// A place that threads share.
#[derive(Clone, Debug)]
struct Shared(Arc<Mutex<Place>>);

/// A room. Where it is dropped it is released.
#[derive(Debug)]
pub struct Room(Shared);

/// A thread's env. Where it is dropped the thread is detached.
#[derive(Debug)]
pub struct Env(sys::EnvHandle, Shared);

// SAFETY: the library proves that what stands behind the pointers may go to another thread.
unsafe impl Send for Place {}
unsafe impl Send for Env {}

impl Shared {
    fn lock(&self) -> MutexGuard<'_, Place> {
        self.0.lock().unwrap_or_else(PoisonError::into_inner)
    }
}

impl Drop for Place {
    fn drop(&mut self) {
        let _ = unsafe { sys::luthrady_free_room(&mut self.0) };
    }
}

impl Room {
    /// Opens a room.
    pub fn open(sizes: Sizes) -> Answer<Room> {
        let mut at = ptr::null_mut();
        nothing(unsafe { sys::luthrady_open(sizes, &mut at) })?;
        let place = Place(sys::RoomHandle { at });
        Ok(Room(Shared(Arc::new(Mutex::new(place)))))
    }

    /// An env that no other thread holds. E21 where none is free.
    pub fn attach(&self) -> Answer<Env> {
        let mut at = ptr::null_mut();
        nothing(unsafe { sys::luthrady_attach(&mut self.0.lock().0, &mut at) })?;
        Ok(Env(sys::EnvHandle { at }, self.0.clone()))
    }

    /// Lets go of the envs that no thread holds: each later attach is E21, and the last thread that is detached closes the room.
    pub fn release(&self) {
        let _ = unsafe { sys::luthrady_release(&mut self.0.lock().0) };
    }
}

impl Drop for Room {
    fn drop(&mut self) {
        self.release();
    }
}

/// What the elements of an array of numbers or booleans are.
pub trait Element: Copy {
    /// Makes an array.
    fn new_array(env: &mut Env, length: u32) -> Answer<u64>;
    /// Copies a part of an array out.
    fn get(env: &mut Env, array: u64, start: u32, to: &mut [Self]) -> Answer<()>;
    /// Copies elements into a part of an array.
    fn set(env: &mut Env, array: u64, start: u32, from: &[Self]) -> Answer<()>;
    /// Copies all elements of an array out.
    fn get_all(env: &mut Env, array: u64, to: &mut [Self]) -> Answer<()>;
    /// Releases a copy of all elements of an array.
    fn release(env: &mut Env, array: u64, from: &[Self], mode: Mode) -> Answer<()>;
    /// Copies a part of a level of a region out.
    fn get_part(env: &mut Env, level: u32, start: u32, to: &mut [Self]) -> Answer<()>;
    /// Copies elements into a part of a level of a region.
    fn set_part(env: &mut Env, level: u32, start: u32, from: &[Self]) -> Answer<()>;
    /// An element of a level of a region.
    fn get_at(env: &mut Env, level: u32, index: u32) -> Answer<Self>;
    /// Writes an element of a level of a region.
    fn set_at(env: &mut Env, level: u32, index: u32, value: Self) -> Answer<()>;
}

/// What becomes of a copy that is released: it is written to the array, or nothing is done.
#[derive(Clone, Copy, Debug, PartialEq, Eq)]
pub enum Mode {
    Copy = 0,
    Commit = 1,
    Abort = 2,
}

macro_rules! element {
    ($element:ty, $new:path, $get:path, $set:path, $get_all:path, $release:path, $of_level:path, $to_level:path, $at:path, $set_at:path, $of_word:expr) => {
        impl Element for $element {
            fn new_array(env: &mut Env, length: u32) -> Answer<u64> {
                value(unsafe { $new(&mut env.0, length) })
            }

            fn get(env: &mut Env, array: u64, start: u32, to: &mut [Self]) -> Answer<()> {
                let (at, count) = (to.as_mut_ptr(), to.len());
                nothing(unsafe { $get(&mut env.0, array, start, at, count) })
            }

            fn set(env: &mut Env, array: u64, start: u32, from: &[Self]) -> Answer<()> {
                let (at, count) = (from.as_ptr(), from.len());
                nothing(unsafe { $set(&mut env.0, array, start, at, count) })
            }

            fn get_all(env: &mut Env, array: u64, to: &mut [Self]) -> Answer<()> {
                let (at, count) = (to.as_mut_ptr(), to.len());
                nothing(unsafe { $get_all(&mut env.0, array, at, count) })
            }

            fn release(env: &mut Env, array: u64, from: &[Self], mode: Mode) -> Answer<()> {
                let (at, count) = (from.as_ptr(), from.len());
                nothing(unsafe { $release(&mut env.0, array, at, count, mode as u32) })
            }

            fn get_part(env: &mut Env, level: u32, start: u32, to: &mut [Self]) -> Answer<()> {
                let (at, count) = (to.as_mut_ptr(), to.len());
                nothing(unsafe { $of_level(&mut env.0, level, start, at, count) })
            }

            fn set_part(env: &mut Env, level: u32, start: u32, from: &[Self]) -> Answer<()> {
                let (at, count) = (from.as_ptr(), from.len());
                nothing(unsafe { $to_level(&mut env.0, level, start, at, count) })
            }

            fn get_at(env: &mut Env, level: u32, index: u32) -> Answer<Self> {
                value(unsafe { $at(&mut env.0, level, index) }).map($of_word)
            }

            fn set_at(env: &mut Env, level: u32, index: u32, value: Self) -> Answer<()> {
                nothing(unsafe { $set_at(&mut env.0, level, index, value) })
            }
        }
    };
}

element!(
    bool,
    sys::luthrady_new_boolean_array,
    sys::luthrady_get_boolean_array_region,
    sys::luthrady_set_boolean_array_region,
    sys::luthrady_get_boolean_array_elements,
    sys::luthrady_release_boolean_array_elements,
    sys::luthrady_get_boolean_level_part,
    sys::luthrady_set_boolean_level_part,
    sys::luthrady_get_boolean_level_element,
    sys::luthrady_set_boolean_level_element,
    |word| word == 1
);
element!(
    i8,
    sys::luthrady_new_byte_array,
    sys::luthrady_get_byte_array_region,
    sys::luthrady_set_byte_array_region,
    sys::luthrady_get_byte_array_elements,
    sys::luthrady_release_byte_array_elements,
    sys::luthrady_get_byte_level_part,
    sys::luthrady_set_byte_level_part,
    sys::luthrady_get_byte_level_element,
    sys::luthrady_set_byte_level_element,
    |word| word as i8
);
element!(
    u16,
    sys::luthrady_new_char_array,
    sys::luthrady_get_char_array_region,
    sys::luthrady_set_char_array_region,
    sys::luthrady_get_char_array_elements,
    sys::luthrady_release_char_array_elements,
    sys::luthrady_get_char_level_part,
    sys::luthrady_set_char_level_part,
    sys::luthrady_get_char_level_element,
    sys::luthrady_set_char_level_element,
    |word| word as u16
);
element!(
    i16,
    sys::luthrady_new_short_array,
    sys::luthrady_get_short_array_region,
    sys::luthrady_set_short_array_region,
    sys::luthrady_get_short_array_elements,
    sys::luthrady_release_short_array_elements,
    sys::luthrady_get_short_level_part,
    sys::luthrady_set_short_level_part,
    sys::luthrady_get_short_level_element,
    sys::luthrady_set_short_level_element,
    |word| word as i16
);
element!(
    i32,
    sys::luthrady_new_int_array,
    sys::luthrady_get_int_array_region,
    sys::luthrady_set_int_array_region,
    sys::luthrady_get_int_array_elements,
    sys::luthrady_release_int_array_elements,
    sys::luthrady_get_int_level_part,
    sys::luthrady_set_int_level_part,
    sys::luthrady_get_int_level_element,
    sys::luthrady_set_int_level_element,
    |word| word as i32
);
element!(
    i64,
    sys::luthrady_new_long_array,
    sys::luthrady_get_long_array_region,
    sys::luthrady_set_long_array_region,
    sys::luthrady_get_long_array_elements,
    sys::luthrady_release_long_array_elements,
    sys::luthrady_get_long_level_part,
    sys::luthrady_set_long_level_part,
    sys::luthrady_get_long_level_element,
    sys::luthrady_set_long_level_element,
    |word| word as i64
);

impl Env {
    /// Frees the thread's local references and detaches it: each later call is E21. At E13 it is still attached. The last one of a room that was released closes it, and tells what stood there.
    pub fn detach(&mut self) -> Answer<Option<Stood>> {
        let mut stood = Stood::default();
        let room = self.1.clone();
        let closed =
            value(unsafe { sys::luthrady_detach(&mut room.lock().0, &mut self.0, &mut stood) })?;
        Ok((closed == 1).then_some(stood))
    }

    pub fn global(&mut self, object: u64) -> Answer<u64> {
        value(unsafe { sys::luthrady_new_global_ref(&mut self.0, object) })
    }

    pub fn weak(&mut self, object: u64) -> Answer<u64> {
        value(unsafe { sys::luthrady_new_weak_global_ref(&mut self.0, object) })
    }

    pub fn local(&mut self, object: u64) -> Answer<u64> {
        value(unsafe { sys::luthrady_new_local_ref(&mut self.0, object) })
    }

    pub fn delete_global(&mut self, global: u64) -> Answer<()> {
        nothing(unsafe { sys::luthrady_delete_global_ref(&mut self.0, global) })
    }

    pub fn delete_weak(&mut self, weak: u64) -> Answer<()> {
        nothing(unsafe { sys::luthrady_delete_weak_global_ref(&mut self.0, weak) })
    }

    pub fn delete_local(&mut self, local: u64) -> Answer<()> {
        nothing(unsafe { sys::luthrady_delete_local_ref(&mut self.0, local) })
    }

    /// The type of a reference: 0 invalid, 1 local, 2 global, 3 weak.
    pub fn ref_type(&mut self, object: u64) -> Answer<u64> {
        value(unsafe { sys::luthrady_get_object_ref_type(&mut self.0, object) })
    }

    pub fn same(&mut self, left: u64, right: u64) -> Answer<bool> {
        let same = value(unsafe { sys::luthrady_is_same_object(&mut self.0, left, right) })?;
        Ok(same == 1)
    }

    pub fn ensure(&mut self, capacity: u32) -> Answer<()> {
        nothing(unsafe { sys::luthrady_ensure_local_capacity(&mut self.0, capacity) })
    }

    pub fn push_frame(&mut self, capacity: u32) -> Answer<()> {
        nothing(unsafe { sys::luthrady_push_local_frame(&mut self.0, capacity) })
    }

    pub fn pop_frame(&mut self, kept: u64) -> Answer<u64> {
        value(unsafe { sys::luthrady_pop_local_frame(&mut self.0, kept) })
    }

    pub fn free_locals(&mut self) -> Answer<()> {
        nothing(unsafe { sys::luthrady_free_locals(&mut self.0) })
    }

    pub fn new_plain(&mut self) -> Answer<u64> {
        value(unsafe { sys::luthrady_new_plain(&mut self.0) })
    }

    pub fn new_array<E: Element>(&mut self, length: u32) -> Answer<u64> {
        E::new_array(self, length)
    }

    pub fn new_objects(&mut self, length: u32, initial: u64) -> Answer<u64> {
        value(unsafe { sys::luthrady_new_object_array(&mut self.0, length, initial) })
    }

    pub fn new_string(&mut self, units: &[u16]) -> Answer<u64> {
        value(unsafe { sys::luthrady_new_string(&mut self.0, units.as_ptr(), units.len()) })
    }

    /// Makes a string of a text.
    pub fn new_text(&mut self, text: &str) -> Answer<u64> {
        value(unsafe { sys::luthrady_new_string_utf8(&mut self.0, text.as_ptr(), text.len()) })
    }

    /// Copies a part of a string's units out.
    pub fn units(&mut self, string: u64, start: u32, to: &mut [u16]) -> Answer<()> {
        let (at, count) = (to.as_mut_ptr(), to.len());
        nothing(unsafe { sys::luthrady_get_string_region(&mut self.0, string, start, at, count) })
    }

    /// Reads a string as a text in UTF-8: how many bytes it has, which stand in front where there is room for all of them.
    pub fn text(&mut self, string: u64, to: &mut [u8]) -> Answer<usize> {
        let (at, count) = (to.as_mut_ptr(), to.len());
        let long = value(unsafe { sys::luthrady_get_string_utf8(&mut self.0, string, at, count) })?;
        Ok(long as usize)
    }

    pub fn length(&mut self, array: u64) -> Answer<u32> {
        let length = value(unsafe { sys::luthrady_get_array_length(&mut self.0, array) })?;
        Ok(length as u32)
    }

    pub fn string_length(&mut self, string: u64) -> Answer<u32> {
        let length = value(unsafe { sys::luthrady_get_string_length(&mut self.0, string) })?;
        Ok(length as u32)
    }

    pub fn element(&mut self, array: u64, index: u32) -> Answer<u64> {
        value(unsafe { sys::luthrady_get_object_array_element(&mut self.0, array, index) })
    }

    pub fn set_element(&mut self, array: u64, index: u32, value: u64) -> Answer<()> {
        nothing(unsafe { sys::luthrady_set_object_array_element(&mut self.0, array, index, value) })
    }

    pub fn get<E: Element>(&mut self, array: u64, start: u32, to: &mut [E]) -> Answer<()> {
        E::get(self, array, start, to)
    }

    pub fn set<E: Element>(&mut self, array: u64, start: u32, from: &[E]) -> Answer<()> {
        E::set(self, array, start, from)
    }

    /// Copies all elements of an array out.
    pub fn get_all<E: Element>(&mut self, array: u64, to: &mut [E]) -> Answer<()> {
        E::get_all(self, array, to)
    }

    /// Releases a copy of all elements of an array.
    pub fn release<E: Element>(&mut self, array: u64, from: &[E], mode: Mode) -> Answer<()> {
        E::release(self, array, from, mode)
    }

    /// Makes calls between one entry at the gate and one exit, and writes each answer to its call.
    pub fn batch(&mut self, calls: &mut [BatchCall]) -> Answer<()> {
        nothing(unsafe { sys::luthrady_batch(&mut self.0, calls.as_mut_ptr().cast(), calls.len()) })
    }

    pub fn collect(&mut self) -> Answer<Counts> {
        let mut counts = Counts::default();
        nothing(unsafe { sys::luthrady_collect(&mut self.0, &mut counts) })?;
        Ok(counts)
    }

    /// Collects, announced first, with so many tries at the gate.
    pub fn collect_announced(&mut self, tries: u32) -> Answer<Counts> {
        let mut counts = Counts::default();
        nothing(unsafe { sys::luthrady_collect_announced(&mut self.0, tries, &mut counts) })?;
        Ok(counts)
    }

    /// Collects, announced with so many tries, and again up to so many times more as long as it gets no turn.
    pub fn collect_in_turn(&mut self, tries: u32, more: u32) -> Answer<Counts> {
        let mut counts = Counts::default();
        nothing(unsafe { sys::luthrady_collect_in_turn(&mut self.0, tries, more, &mut counts) })?;
        Ok(counts)
    }

    /// The same, which lists the weak references that it cleared and the identities of the objects that it dropped, in front of two slices and as much as there is room for.
    pub fn collect_listing(
        &mut self,
        (tries, more): (u32, u32),
        references: &mut [u64],
        identities: &mut [u16],
    ) -> Answer<Counts> {
        let mut counts = Counts::default();
        nothing(unsafe {
            sys::luthrady_collect_in_turn_listing(
                &mut self.0,
                tries,
                more,
                references.as_mut_ptr(),
                references.len(),
                identities.as_mut_ptr(),
                identities.len(),
                &mut counts,
            )
        })?;
        Ok(counts)
    }

    /// Writes what stands in the room in front of four slices, as much as there is room for.
    pub fn dump(&mut self, rows: Rows<'_>) -> Answer<()> {
        nothing(unsafe {
            sys::luthrady_dump(
                &mut self.0,
                rows.slots.as_mut_ptr(),
                rows.slots.len(),
                rows.locals.as_mut_ptr(),
                rows.locals.len(),
                rows.objects.as_mut_ptr(),
                rows.objects.len(),
                rows.words.as_mut_ptr(),
                rows.words.len(),
            )
        })
    }

    /// The same, announced first, with so many tries at the gate.
    pub fn dump_announced(&mut self, tries: u32, rows: Rows<'_>) -> Answer<()> {
        nothing(unsafe {
            sys::luthrady_dump_announced(
                &mut self.0,
                tries,
                rows.slots.as_mut_ptr(),
                rows.slots.len(),
                rows.locals.as_mut_ptr(),
                rows.locals.len(),
                rows.objects.as_mut_ptr(),
                rows.objects.len(),
                rows.words.as_mut_ptr(),
                rows.words.len(),
            )
        })
    }
}

/// A critical region of an env. The elements of the arrays and strings at its levels are read and written in place, and no collection comes.
/// While it stands no other call by the env compiles. Where it is dropped it ends, with all its levels.
#[derive(Debug)]
pub struct Region<'e>(&'e mut Env);

impl Env {
    /// Opens a region, with the array at level 0. One whose value was forgotten ends before.
    pub fn array_critical(&mut self, array: u64) -> Answer<Region<'_>> {
        if value(unsafe { sys::luthrady_get_array_critical(&mut self.0, array) })? != 0 {
            self.end_region();
            value(unsafe { sys::luthrady_get_array_critical(&mut self.0, array) })?;
        }
        Ok(Region(self))
    }

    /// Opens a region, with the string at level 0. One whose value was forgotten ends before.
    pub fn string_critical(&mut self, string: u64) -> Answer<Region<'_>> {
        if value(unsafe { sys::luthrady_get_string_critical(&mut self.0, string) })? != 0 {
            self.end_region();
            value(unsafe { sys::luthrady_get_string_critical(&mut self.0, string) })?;
        }
        Ok(Region(self))
    }

    /// Ends the region that stands, if one does.
    fn end_region(&mut self) {
        while value(unsafe { sys::luthrady_release_critical(&mut self.0) })
            .is_ok_and(|left| left > 0)
        {}
    }
}

impl<'e> Region<'e> {
    /// Adds a level over an array, and answers its number.
    pub fn nest_array(&mut self, array: u64) -> Answer<u32> {
        let level = value(unsafe { sys::luthrady_get_array_critical(&mut self.0.0, array) })?;
        Ok(level as u32)
    }

    /// Adds a level over a string, and answers its number.
    pub fn nest_string(&mut self, string: u64) -> Answer<u32> {
        let level = value(unsafe { sys::luthrady_get_string_critical(&mut self.0.0, string) })?;
        Ok(level as u32)
    }

    /// How many elements or units a level has.
    pub fn length(&mut self, level: u32) -> Answer<u32> {
        let length = value(unsafe { sys::luthrady_get_level_length(&mut self.0.0, level) })?;
        Ok(length as u32)
    }

    /// Copies a part of a level out.
    pub fn get<E: Element>(&mut self, level: u32, start: u32, to: &mut [E]) -> Answer<()> {
        E::get_part(self.0, level, start, to)
    }

    /// Copies elements into a part of a level.
    pub fn set<E: Element>(&mut self, level: u32, start: u32, from: &[E]) -> Answer<()> {
        E::set_part(self.0, level, start, from)
    }

    /// An element of a level, or a unit as a char.
    pub fn element<E: Element>(&mut self, level: u32, index: u32) -> Answer<E> {
        E::get_at(self.0, level, index)
    }

    /// Writes an element of a level.
    pub fn set_element<E: Element>(&mut self, level: u32, index: u32, value: E) -> Answer<()> {
        E::set_at(self.0, level, index, value)
    }

    /// Releases the last level. With level 0 the region ends, and none is left.
    pub fn release(self) -> Answer<Option<Region<'e>>> {
        let left = value(unsafe { sys::luthrady_release_critical(&mut self.0.0) })?;
        Ok((left > 0).then_some(self))
    }
}

impl Drop for Region<'_> {
    fn drop(&mut self) {
        self.0.end_region();
    }
}

impl Drop for Env {
    fn drop(&mut self) {
        self.end_region();
        while self.detach().is_err_and(|fault| fault.number == BARRED) {
            thread::yield_now();
        }
        let _ = unsafe { sys::luthrady_free_env(&mut self.0) };
    }
}
