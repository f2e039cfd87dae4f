//! The floor under `jr_bench`: the same calls in plain Rust, with just the atomic operations that each takes, and the checks of its refusals.
//!
//! The row of words, the handles, the order in which slots and local places are given, and the rounds are those of the product; there is no proof, and no index is checked where no refusal asks for it. A room's sizes are known when it is opened, as an embedder's are, and not when the floor is built. Its words and lines are those of `jr_bench`.

use std::hint::black_box;
use std::sync::atomic::{AtomicU64, Ordering::SeqCst};
use std::time::{Duration, Instant};

// What the gate's word has where it is shut, and where it is announced that it will be.
const SHUT: u64 = 1 << 16;
const ANNOUNCED: u64 = 1 << 17;
const CLOSED: u64 = SHUT | ANNOUNCED;
const SLOTS: usize = 65_536;
const OBJECTS: u64 = 65_535;
const WORDS: u64 = 131_072;
const PLACES: usize = 4_096;
const LAST: u64 = u32::MAX as u64;
const LOOKS: u32 = 1 << 24;
const MOST_BESIDE: u32 = 2_000;

// Kinds of references, as the low bits of handles and of slots' words have them, and kinds of objects, as those of headers have them.
const LOCAL: u64 = 1;
const GLOBAL: u64 = 2;
const WEAK: u64 = 3;
const PLAIN: u64 = 1;
const INT: u64 = 6;
const OBJECT_ARRAY: u64 = 8;
const STRING: u64 = 9;

// Refusals, as the first bits of an answer.
const ERROR: u64 = 1 << 63;
const NULL: u64 = ERROR + 1;
const STALE: u64 = ERROR + 2;
const FOREIGN: u64 = ERROR + 3;
const WRONG_KIND: u64 = ERROR + 4;
const NOT_ARRAY: u64 = ERROR + 5;
const WRONG_ELEMENT: u64 = ERROR + 6;
const RANGE: u64 = ERROR + 7;
const ROW_FULL: u64 = ERROR + 8;
const LOCALS_FULL: u64 = ERROR + 9;
const NO_FRAME: u64 = ERROR + 15;
const SPACE_FULL: u64 = ERROR + 10;
const OBJECTS_FULL: u64 = ERROR + 11;
const RACED: u64 = ERROR + 12;
const BARRED: u64 = ERROR + 13;

/// A room: the gate, the top, slots, local words thread by thread, headers, and elements. Its sizes, and where headers and elements begin.
pub struct Room {
    row: Vec<AtomicU64>,
    threads: u64,
    slots: usize,
    places: usize,
    objects: u64,
    words: u64,
    headers: usize,
    elements: usize,
}

impl Room {
    pub fn new(threads: u64) -> Room {
        // (or the compiler would leave out the checks of an index against them)
        let (slots, places, objects, words) = black_box((SLOTS, PLACES, OBJECTS, WORDS));
        let headers = 2 + slots + threads as usize * places;
        let elements = headers + objects as usize;
        let row = (0..elements + words as usize).map(|_| AtomicU64::new(0)).collect();
        Room { row, threads, slots, places, objects, words, headers, elements }
    }
    #[inline(always)]
    fn word(&self, at: usize) -> &AtomicU64 {
        // Each index is in range: of a slot, a place or an element by a check of the call, of a header by the search.
        unsafe { self.row.get_unchecked(at) }
    }
    #[inline(always)]
    fn gate(&self) -> &AtomicU64 {
        self.word(0)
    }
    #[inline(always)]
    fn slot(&self, index: usize) -> &AtomicU64 {
        self.word(2 + index)
    }
    #[inline(always)]
    fn header(&self, object: u64) -> &AtomicU64 {
        self.word(self.headers + object as usize - 1)
    }
    /// The words of elements from a place on, so many.
    #[inline(always)]
    fn elements(&self, place: u64, length: usize) -> &[AtomicU64] {
        let first = self.elements + place as usize;
        unsafe { self.row.get_unchecked(first..first + length) }
    }
}

#[derive(Clone, Copy, Default)]
struct Place {
    given: u32,
    object: u32,
}

#[derive(Clone, Copy, Default)]
struct Link {
    older: u16,
    newer: u16,
}

/// How many levels a critical region may have.
const LEVELS: usize = 16;

/// The levels of a critical region: the headers of their arrays.
struct Levels {
    headers: [u64; LEVELS],
    depth: usize,
}

/// A thread's calls, with its local references in rings: of the free places, and of each frame.
pub struct Env<'a> {
    room: &'a Room,
    thread: u64,
    hint: usize,
    next_object: u64,
    free: u32,
    frame: u16,
    /// The ends of the ring of the free places and of that of the first frame.
    free_end: u16,
    base: u16,
    places: Vec<Place>,
    links: Vec<Link>,
}

const FRAMES: u16 = 256;
const CAPACITY: u32 = 16;

impl Env<'_> {
    pub fn new(room: &Room, thread: u64) -> Env<'_> {
        let places = vec![Place::default(); room.places];
        let (free_end, base) = (room.places as u16, room.places as u16 + 1);
        let mut links = vec![Link::default(); room.places + 1 + FRAMES as usize];
        for at in 0..=free_end {
            links[at as usize] = Link { older: at.checked_sub(1).unwrap_or(free_end), newer: if at == free_end { 0 } else { at + 1 } };
        }
        links[base as usize] = Link { older: base, newer: base };
        Env { room, thread, hint: 0, next_object: 1, free: room.places as u32, frame: base, free_end, base, places, links }
    }
    #[inline(always)]
    fn link(&mut self, at: u16) -> &mut Link {
        unsafe { self.links.get_unchecked_mut(at as usize) }
    }
    #[inline(always)]
    fn place(&mut self, at: usize) -> &mut Place {
        unsafe { self.places.get_unchecked_mut(at) }
    }
    #[inline(always)]
    fn move_to(&mut self, at: u16, end: u16) {
        let Link { older, newer } = *self.link(at);
        self.link(older).newer = newer;
        self.link(newer).older = older;
        let last = self.link(end).older;
        *self.link(at) = Link { older: last, newer: end };
        self.link(last).newer = at;
        self.link(end).older = at;
    }

    /// The entry, the work, and the exit. What is made in a stay too has its work in a function of its own, `.._within`.
    #[inline(always)]
    fn call(&mut self, work: impl FnOnce(&mut Self) -> u64) -> u64 {
        if self.room.gate().fetch_add(1, SeqCst) & CLOSED != 0 {
            self.room.gate().fetch_sub(1, SeqCst);
            return BARRED;
        }
        let answer = work(self);
        self.room.gate().fetch_sub(1, SeqCst);
        answer
    }
    #[inline(always)]
    fn index_of(handle: u64) -> usize {
        (handle >> 34 & 0xffff) as usize
    }
    /// The object of a reference, 0 of NULL and a cleared one: one load for a global or weak one, none for a local one.
    #[inline(always)]
    fn resolve(&mut self, handle: u64) -> u64 {
        match self.refusal(handle) {
            0 => self.look_up(handle),
            refused => refused,
        }
    }
    /// The objects of two references: each check of the first and then of the second before the next one, and all before the looks.
    #[inline(always)]
    fn resolve_both(&mut self, left: u64, right: u64) -> Result<(u64, u64), u64> {
        let (one, other) = (self.refusal(left), self.refusal(right));
        if one | other != 0 {
            return Err(if one == STALE || other == STALE { STALE } else { FOREIGN });
        }
        let first = self.look_up(left);
        if first & ERROR != 0 {
            return Err(first);
        }
        let second = self.look_up(right);
        if second & ERROR != 0 { Err(second) } else { Ok((first, second)) }
    }
    /// What a reference is refused by before any look at it: 0 where it is NULL or lies in the room, and is no local one of another thread.
    #[inline(always)]
    fn refusal(&self, handle: u64) -> u64 {
        if handle == 0 {
            return 0;
        }
        let (kind, index, owner) = (handle & 3, Self::index_of(handle), handle >> 50);
        if kind != LOCAL {
            return if kind == 0 || owner != 0 || index >= self.room.slots { STALE } else { 0 };
        }
        if owner >= self.room.threads || index >= self.room.places {
            return STALE;
        }
        if owner != self.thread { FOREIGN } else { 0 }
    }
    /// The object of a reference that isn't refused before.
    #[inline(always)]
    fn look_up(&mut self, handle: u64) -> u64 {
        match handle & 3 {
            0 => 0,
            LOCAL => {
                let Place { given, object } = *self.place(Self::index_of(handle));
                if object == 0 || u64::from(given) != (handle >> 2 & LAST) + 1 { STALE } else { u64::from(object) }
            }
            _ => {
                let word = self.room.slot(Self::index_of(handle)).load(SeqCst);
                if (word ^ handle) & 0x3_ffff_ffff != 0 { STALE } else { word >> 34 }
            }
        }
    }
    /// Loads slots from the hint on, and exchanges the first free one.
    #[inline(always)]
    fn create(&mut self, kind: u64, object: u64) -> u64 {
        let mut index = self.hint;
        for _ in 0..self.room.slots {
            let next = if index + 1 == self.room.slots { 0 } else { index + 1 };
            let word = self.room.slot(index).load(SeqCst);
            if word & 3 == 0 {
                let made = kind | word | object << 34;
                if self.room.slot(index).compare_exchange(word, made, SeqCst, SeqCst).is_ok() {
                    self.hint = next;
                    return kind | word | (index as u64) << 34;
                }
            }
            index = next;
        }
        ROW_FULL
    }
    #[inline(always)]
    fn add_local(&mut self, object: u64) -> u64 {
        if self.free == 0 {
            return LOCALS_FULL;
        }
        let at = self.link(self.free_end).newer;
        let serial = u64::from(self.place(at as usize).given);
        self.local_word(at as usize).store(object, SeqCst);
        *self.place(at as usize) = Place { given: serial as u32 + 1, object: object as u32 };
        self.move_to(at, self.frame);
        self.free -= 1;
        LOCAL | serial << 2 | u64::from(at) << 34 | self.thread << 50
    }
    #[inline(always)]
    fn local_word(&self, at: usize) -> &AtomicU64 {
        self.room.word(2 + self.room.slots + self.thread as usize * self.room.places + at)
    }
    /// Exchanges the header of the first absent object from the next number on, and makes a local reference to it.
    #[inline(always)]
    fn publish(&mut self, header: u64) -> u64 {
        let mut object = self.next_object;
        for _ in 0..self.room.objects {
            let next = if object == self.room.objects { 1 } else { object + 1 };
            if self.room.header(object).compare_exchange(0, header, SeqCst, SeqCst).is_ok() {
                self.next_object = next;
                return self.add_local(object);
            }
            object = next;
        }
        OBJECTS_FULL
    }
    #[inline(always)]
    fn new_plain(&mut self) -> u64 {
        self.call(|env| if env.free == 0 { LOCALS_FULL } else { env.publish(PLAIN) })
    }
    /// Reserves words by one load and one exchange, stores the word in each, and publishes.
    #[inline(always)]
    fn make_array(&mut self, kind: u64, length: u64, word: u64) -> u64 {
        if self.free == 0 {
            return LOCALS_FULL;
        }
        let top = self.room.word(1);
        let used = top.load(SeqCst);
        if used + length > self.room.words {
            return SPACE_FULL;
        }
        if top.compare_exchange(used, used + length, SeqCst, SeqCst).is_err() {
            return RACED;
        }
        for element in self.room.elements(used, length as usize) {
            element.store(word, SeqCst);
        }
        self.publish(kind | length << 4 | used << 28)
    }
    #[inline(always)]
    fn new_array(&mut self, length: u64) -> u64 {
        self.call(|env| env.make_array(INT, length, 0))
    }
    /// Makes an array, and again as long as another thread is faster at its words.
    #[inline(always)]
    fn is_array_made(&mut self) -> bool {
        for _ in 0..TRIES {
            match self.new_array(SHORT) {
                RACED => {}
                answer => return is_made(answer),
            }
        }
        false
    }
    #[inline(always)]
    fn new_object_array(&mut self, length: u64, initial: u64) -> u64 {
        self.call(|env| match env.resolve(initial) {
            refused if refused & ERROR != 0 => refused,
            object => env.make_array(OBJECT_ARRAY, length, object),
        })
    }
    /// The header of the object, which is an array of the kind.
    #[inline(always)]
    fn array(&mut self, object: u64, kind: u64) -> u64 {
        if object & ERROR != 0 {
            return object;
        }
        if object == 0 {
            return NULL;
        }
        let header = self.room.header(object).load(SeqCst);
        if !(2..=8).contains(&(header & 15)) {
            return NOT_ARRAY;
        }
        if header & 15 == kind { header } else { WRONG_ELEMENT }
    }
    #[inline(always)]
    fn array_length(&mut self, array: u64) -> u64 {
        self.call(|env| env.array_length_within(array))
    }
    #[inline(always)]
    fn array_length_within(&mut self, array: u64) -> u64 {
        match self.resolve(array) {
            0 => NULL,
            refused if refused & ERROR != 0 => refused,
            object => {
                let header = self.room.header(object).load(SeqCst);
                if (2..=8).contains(&(header & 15)) { header >> 4 & 0xff_ffff } else { NOT_ARRAY }
            }
        }
    }
    /// A string of so many units, each 0.
    fn new_string(&mut self, length: u64) -> u64 {
        self.call(|env| env.make_array(STRING, length, 0))
    }
    /// All words of an array of integers, or of a string.
    #[inline(always)]
    fn whole(&mut self, array: u64, kind: u64) -> Result<&[AtomicU64], u64> {
        let object = self.resolve(array);
        let header = if kind == STRING { self.string(object) } else { self.array(object, kind) };
        if header & ERROR != 0 {
            return Err(header);
        }
        Ok(self.room.elements(header >> 28, (header >> 4 & 0xff_ffff) as usize))
    }
    /// The header of the object, which is a string.
    #[inline(always)]
    fn string(&mut self, object: u64) -> u64 {
        if object & ERROR != 0 {
            return object;
        }
        if object == 0 {
            return NULL;
        }
        let header = self.room.header(object).load(SeqCst);
        if header & 15 == STRING { header } else { WRONG_KIND }
    }
    /// A copy of all elements of an array of integers, or of all units of a string.
    #[inline(always)]
    fn copy_out<E>(&mut self, array: u64, kind: u64, element: impl Fn(u64) -> E) -> Result<Vec<E>, u64> {
        let mut elements = Vec::new();
        let answer = self.call(|env| match env.whole(array, kind) {
            Err(refused) => refused,
            Ok(words) => {
                elements.reserve_exact(words.len());
                elements.extend(words.iter().map(|word| element(word.load(SeqCst))));
                0
            }
        });
        if answer == 0 { Ok(elements) } else { Err(answer) }
    }
    #[inline(always)]
    fn get_elements(&mut self, array: u64) -> Result<Vec<i32>, u64> {
        self.copy_out(array, INT, |word| word as u32 as i32)
    }
    #[inline(always)]
    fn get_chars(&mut self, string: u64) -> Result<Vec<u16>, u64> {
        self.copy_out(string, STRING, |word| word as u16)
    }
    /// Writes copied elements to the whole array, and hands them back.
    #[inline(always)]
    fn commit(&mut self, array: u64, elements: Vec<i32>) -> Result<Vec<i32>, u64> {
        let answer = self.call(|env| match env.whole(array, INT) {
            Err(refused) => refused,
            Ok(words) if words.len() != elements.len() => RANGE,
            Ok(words) => {
                for (element, word) in elements.iter().zip(words) {
                    word.store(u64::from(*element as u32), SeqCst);
                }
                0
            }
        });
        if answer == 0 { Ok(elements) } else { Err(answer) }
    }
    /// Enters the gate, and stays there with the array as the first level.
    #[inline(always)]
    fn open(&mut self, array: u64) -> Result<Levels, u64> {
        if self.room.gate().fetch_add(1, SeqCst) & CLOSED != 0 {
            self.room.gate().fetch_sub(1, SeqCst);
            return Err(BARRED);
        }
        let object = self.resolve(array);
        let header = self.array(object, INT);
        if header & ERROR != 0 {
            self.room.gate().fetch_sub(1, SeqCst);
            return Err(header);
        }
        let mut levels = Levels { headers: [0; LEVELS], depth: 1 };
        levels.headers[0] = header;
        Ok(levels)
    }
    /// Gives up the last level, and leaves the gate with the first.
    #[inline(always)]
    fn release(&mut self, mut levels: Levels) -> Option<Levels> {
        levels.depth -= 1;
        if levels.depth == 0 {
            self.room.gate().fetch_sub(1, SeqCst);
            return None;
        }
        Some(levels)
    }
    /// The word of an element at a level.
    #[inline(always)]
    fn word_at(&self, levels: &Levels, level: usize, index: u64) -> Result<&AtomicU64, u64> {
        let header = levels.headers[level];
        if header & 15 != INT {
            return Err(WRONG_ELEMENT);
        }
        if index >= header >> 4 & 0xff_ffff {
            return Err(RANGE);
        }
        Ok(&self.room.elements((header >> 28) + index, 1)[0])
    }
    #[inline(always)]
    fn get_at(&self, levels: &Levels, level: usize, index: u64) -> Result<i32, u64> {
        Ok(self.word_at(levels, level, index)?.load(SeqCst) as u32 as i32)
    }
    #[inline(always)]
    fn set_at(&self, levels: &Levels, level: usize, index: u64, element: i32) -> Result<(), u64> {
        self.word_at(levels, level, index)?.store(u64::from(element as u32), SeqCst);
        Ok(())
    }
    /// The words of a part at a level.
    #[inline(always)]
    fn part_at(&self, levels: &Levels, level: usize, start: u64, length: usize) -> Result<&[AtomicU64], u64> {
        let header = levels.headers[level];
        if header & 15 != INT {
            return Err(WRONG_ELEMENT);
        }
        let most = header >> 4 & 0xff_ffff;
        if start > most || length as u64 > most - start {
            return Err(RANGE);
        }
        Ok(self.room.elements((header >> 28) + start, length))
    }
    #[inline(always)]
    fn get_part_at(&self, levels: &Levels, level: usize, start: u64, elements: &mut [i32]) -> Result<(), u64> {
        let words = self.part_at(levels, level, start, elements.len())?;
        for (element, word) in elements.iter_mut().zip(words) {
            *element = word.load(SeqCst) as u32 as i32;
        }
        Ok(())
    }
    #[inline(always)]
    fn set_part_at(&self, levels: &Levels, level: usize, start: u64, elements: &[i32]) -> Result<(), u64> {
        for (element, word) in elements.iter().zip(self.part_at(levels, level, start, elements.len())?) {
            word.store(u64::from(*element as u32), SeqCst);
        }
        Ok(())
    }
    /// The words of a part of an array of integers.
    #[inline(always)]
    fn part(&mut self, array: u64, start: u64, length: usize) -> Result<&[AtomicU64], u64> {
        let object = self.resolve(array);
        let header = self.array(object, INT);
        if header & ERROR != 0 {
            return Err(header);
        }
        if start + length as u64 > header >> 4 & 0xff_ffff {
            return Err(RANGE);
        }
        Ok(self.room.elements((header >> 28) + start, length))
    }
    #[inline(always)]
    fn get_region(&mut self, array: u64, start: u64, elements: &mut [i32]) -> u64 {
        self.call(|env| match env.part(array, start, elements.len()) {
            Err(refused) => refused,
            Ok(words) => {
                for (element, word) in elements.iter_mut().zip(words) {
                    *element = word.load(SeqCst) as u32 as i32;
                }
                0
            }
        })
    }
    #[inline(always)]
    fn set_region(&mut self, array: u64, start: u64, elements: &[i32]) -> u64 {
        self.call(|env| match env.part(array, start, elements.len()) {
            Err(refused) => refused,
            Ok(words) => {
                for (element, word) in elements.iter().zip(words) {
                    word.store(u64::from(*element as u32), SeqCst);
                }
                0
            }
        })
    }
    #[inline(always)]
    fn get_element(&mut self, array: u64, index: u64) -> u64 {
        self.call(|env| {
            let object = env.resolve(array);
            let header = env.array(object, OBJECT_ARRAY);
            if header & ERROR != 0 {
                return header;
            }
            if index >= header >> 4 & 0xff_ffff {
                return RANGE;
            }
            match env.room.elements((header >> 28) + index, 1)[0].load(SeqCst) {
                0 => 0,
                object => env.add_local(object),
            }
        })
    }
    #[inline(always)]
    fn set_element(&mut self, array: u64, index: u64, value: u64) -> u64 {
        self.call(|env| {
            let (object, value) = match env.resolve_both(array, value) {
                Ok(found) => found,
                Err(refused) => return refused,
            };
            let header = env.array(object, OBJECT_ARRAY);
            if header & ERROR != 0 {
                return header;
            }
            if index >= header >> 4 & 0xff_ffff {
                return RANGE;
            }
            env.room.elements((header >> 28) + index, 1)[0].store(value, SeqCst);
            0
        })
    }
    #[inline(always)]
    fn new_slot(&mut self, kind: u64, to: u64) -> u64 {
        self.call(|env| env.new_slot_within(kind, to))
    }
    #[inline(always)]
    fn new_slot_within(&mut self, kind: u64, to: u64) -> u64 {
        match self.resolve(to) {
            0 => 0,
            refused if refused & ERROR != 0 => refused,
            object => self.create(kind, object),
        }
    }
    #[inline(always)]
    fn delete_slot(&mut self, kind: u64, handle: u64) -> u64 {
        self.call(|env| env.delete_slot_within(kind, handle))
    }
    #[inline(always)]
    fn delete_slot_within(&mut self, kind: u64, handle: u64) -> u64 {
        if handle == 0 {
            return 0;
        }
        if handle & 3 != kind {
            return if handle & 3 == 0 { STALE } else { WRONG_KIND };
        }
        if handle >> 50 != 0 || Self::index_of(handle) >= self.room.slots {
            return STALE;
        }
        let slot = self.room.slot(Self::index_of(handle));
        let word = slot.load(SeqCst);
        if (word ^ handle) & 0x3_ffff_ffff != 0 {
            return STALE;
        }
        let serial = word >> 2 & LAST;
        let freed = if serial < LAST { serial + 1 << 2 } else { 1 | LAST << 2 };
        if slot.compare_exchange(word, freed, SeqCst, SeqCst).is_ok() { 0 } else { STALE }
    }
    #[inline(always)]
    fn new_local(&mut self, to: u64) -> u64 {
        self.call(|env| env.new_local_within(to))
    }
    #[inline(always)]
    fn new_local_within(&mut self, to: u64) -> u64 {
        match self.resolve(to) {
            0 => 0,
            refused if refused & ERROR != 0 => refused,
            object => self.add_local(object),
        }
    }
    #[inline(always)]
    fn delete_local(&mut self, handle: u64) -> u64 {
        self.call(|env| env.delete_local_within(handle))
    }
    #[inline(always)]
    fn delete_local_within(&mut self, handle: u64) -> u64 {
        if handle == 0 {
            return 0;
        }
        if handle & 3 != LOCAL {
            return if handle & 3 == 0 { STALE } else { WRONG_KIND };
        }
        let object = self.resolve(handle);
        if object & ERROR != 0 {
            return object;
        }
        self.drop_local(Self::index_of(handle));
        0
    }
    #[inline(always)]
    fn drop_local(&mut self, at: usize) {
        self.local_word(at).store(0, SeqCst);
        self.place(at).object = 0;
        if self.place(at).given != 0 {
            self.move_to(at as u16, self.free_end);
            self.free += 1;
        }
    }
    /// Drops the references of the frame that ends here, the oldest first.
    #[inline(always)]
    fn drop_frame(&mut self, end: u16) {
        while self.link(end).newer != end {
            let at = self.link(end).newer;
            self.drop_local(at as usize);
        }
    }
    #[inline(always)]
    fn ensure(&mut self, capacity: u32) -> u64 {
        if self.free < capacity { LOCALS_FULL } else { 0 }
    }
    #[inline(always)]
    fn push(&mut self, capacity: u32) -> u64 {
        if self.frame == self.base + FRAMES - 1 || self.free < capacity {
            return LOCALS_FULL;
        }
        self.frame += 1;
        let end = self.frame;
        *self.link(end) = Link { older: end, newer: end };
        0
    }
    #[inline(always)]
    fn pop(&mut self, kept: u64) -> u64 {
        self.call(|env| {
            if env.frame == env.base {
                return NO_FRAME;
            }
            let object = env.resolve(kept);
            if object & ERROR != 0 {
                return object;
            }
            if object != 0 && env.free == 0 && env.link(env.frame).newer == env.frame {
                return LOCALS_FULL;
            }
            env.drop_frame(env.frame);
            env.frame -= 1;
            if object == 0 { 0 } else { env.add_local(object) }
        })
    }
    #[inline(always)]
    fn free_locals(&mut self) -> u64 {
        self.call(|env| {
            for end in env.base..=env.frame {
                env.drop_frame(end);
            }
            env.frame = env.base;
            0
        })
    }
    #[inline(always)]
    fn frame_of_four(&mut self, handle: u64) -> bool {
        if self.push(CAPACITY) != 0 {
            return false;
        }
        for _ in 0..4 {
            if !is_made(self.new_local(handle)) {
                return false;
            }
        }
        let kept = self.pop(handle);
        is_made(kept) && self.delete_local(kept) == 0
    }
    #[inline(always)]
    fn is_same(&mut self, left: u64, right: u64) -> u64 {
        self.call(|env| env.is_same_within(left, right))
    }
    #[inline(always)]
    fn is_same_within(&mut self, left: u64, right: u64) -> u64 {
        match self.resolve_both(left, right) {
            Ok((left, right)) => u64::from(left == right),
            Err(refused) => refused,
        }
    }
    #[inline(always)]
    fn ref_type(&mut self, handle: u64) -> u64 {
        self.call(|env| env.ref_type_within(handle))
    }
    #[inline(always)]
    fn ref_type_within(&mut self, handle: u64) -> u64 {
        if handle == 0 || self.resolve(handle) & ERROR != 0 { 0 } else { handle & 3 }
    }
}

/// The calls, as `jr_bench` names them.
pub const CASES: [&str; 42] = [
    "get_object_ref_type(NULL)",
    "new_plain",
    "new_global_ref(local)",
    "delete_global_ref",
    "new_weak_global_ref(local)",
    "delete_weak_global_ref",
    "new_local_ref(global)",
    "delete_local_ref",
    "is_same_object(global,global)",
    "get_object_ref_type(global)",
    "ensure_local_capacity,push_local_frame,pop_local_frame(NULL)",
    "push_local_frame,4*new_local_ref,pop_local_frame(global),delete_local_ref",
    "new_local_ref,free_locals",
    "get_array_length",
    "get_array_region(1)",
    "get_array_region(64)",
    "get_array_region(4096)",
    "set_array_region(1)",
    "set_array_region(64)",
    "set_array_region(4096)",
    "new_array(16)",
    "get_object_array_element",
    "set_object_array_element",
    "get_array_elements(64),release_array_elements(copy)",
    "get_array_elements(4096),release_array_elements(copy)",
    "get_array_elements(64),release_array_elements(commit),release_array_elements(abort)",
    "get_array_elements(4096),release_array_elements(commit),release_array_elements(abort)",
    "get_string_chars(64)",
    "get_array_critical,release",
    "get_of_region",
    "set_of_region",
    "get_part_of_region(64)",
    "set_part_of_region(64)",
    "copy_array(64)",
    "in_a_stay:get_object_ref_type(NULL)",
    "in_a_stay:new_global_ref(local)",
    "in_a_stay:delete_global_ref",
    "in_a_stay:new_local_ref(global)",
    "in_a_stay:delete_local_ref",
    "in_a_stay:is_same_object(global,global)",
    "in_a_stay:get_object_ref_type(global)",
    "in_a_stay:get_array_length",
];
const EMPTY_FRAME: usize = 10;
const FREE_ONE: usize = 12;
const NEW_PLAIN: usize = 1;
const LENGTH: usize = 13;
const NEW_ARRAY: usize = 20;
const GET_ELEMENT: usize = 21;
const SET_ELEMENT: usize = 22;
const COPY_BACK: usize = 23;
const COPY_BACK_LONG: usize = 24;
const COMMIT: usize = 25;
const COMMIT_LONG: usize = 26;
const CHARS: usize = 27;
const CRITICAL: usize = 28;
const GET_OF_REGION: usize = 29;
const GET_PART: usize = 31;
const SET_PART: usize = 32;
const COPY_ARRAY: usize = 33;
/// The first of the cases in stays, and for each the case whose call is made in them.
const STAYS: usize = 34;
const OF_STAYS: [usize; 8] = [0, 2, 3, 6, 7, 8, 9, LENGTH];
/// How many calls are made in a stay.
const CALLS_OF_STAY: usize = 16;

/// How many elements the longest part has, and the array.
const LONG: usize = 4_096;
/// How many elements a new array has.
const SHORT: u64 = 16;
/// How many elements the shorter copies have.
const SMALL: u64 = 64;
/// How often an array is made again where another thread was faster at its words.
const TRIES: u32 = 1_000;

// Each call is a function of its own and no part of the loop that makes it, as none is of native code. It says whether it answered as it should.
macro_rules! calls {
    ($($name:ident: |$env:ident, $first:ident, $handle:ident| $right:expr;)*) => {
        $(#[inline(never)]
        fn $name($env: &mut Env, $first: u64, $handle: u64) -> bool {
            let _ = ($first, $handle);
            $right
        })*
    };
}

fn is_copied_back(env: &mut Env, array: u64) -> bool {
    let Ok(elements) = env.get_elements(array) else { return false };
    env.commit(array, elements).is_ok()
}

fn is_committed(env: &mut Env, array: u64) -> bool {
    let Ok(elements) = env.get_elements(array) else { return false };
    let Ok(elements) = env.commit(array, elements) else { return false };
    drop(elements);
    true
}

fn is_opened(env: &mut Env, array: u64) -> bool {
    let Ok(levels) = env.open(array) else { return false };
    env.release(levels).is_none()
}

fn is_made(answer: u64) -> bool {
    answer != 0 && answer & ERROR == 0
}

calls! {
    type_of_null: |env, first, handle| env.ref_type(handle) == 0;
    new_plain: |env, first, handle| is_made(env.new_plain());
    new_global: |env, first, handle| is_made(env.new_slot(GLOBAL, handle));
    delete_global: |env, first, handle| env.delete_slot(GLOBAL, handle) == 0;
    new_weak: |env, first, handle| is_made(env.new_slot(WEAK, handle));
    delete_weak: |env, first, handle| env.delete_slot(WEAK, handle) == 0;
    new_local: |env, first, handle| is_made(env.new_local(handle));
    delete_local: |env, first, handle| env.delete_local(handle) == 0;
    is_same: |env, first, handle| env.is_same(first, handle) == 1;
    type_of_global: |env, first, handle| env.ref_type(handle) == GLOBAL;
    empty_frame: |env, first, handle| env.ensure(CAPACITY) == 0 && env.push(CAPACITY) == 0 && env.pop(handle) == 0;
    frame_of_four: |env, first, handle| env.frame_of_four(handle);
    free_one: |env, first, handle| is_made(env.new_local(handle)) && env.free_locals() == 0;
    array_length: |env, first, handle| env.array_length(handle) == LONG as u64;
    new_array: |env, first, handle| env.is_array_made();
    get_element: |env, first, handle| is_made(env.get_element(handle, 0));
    set_element: |env, first, handle| env.set_element(handle, 0, handle) == 0;
    copy_back: |env, first, handle| is_copied_back(env, handle);
    commit: |env, first, handle| is_committed(env, handle);
    chars: |env, first, handle| env.get_chars(handle).is_ok_and(|units| units.len() == SMALL as usize);
    critical: |env, first, handle| is_opened(env, handle);
    type_of_null_within: |env, first, handle| env.ref_type_within(handle) == 0;
    new_global_within: |env, first, handle| is_made(env.new_slot_within(GLOBAL, handle));
    delete_global_within: |env, first, handle| env.delete_slot_within(GLOBAL, handle) == 0;
    new_local_within: |env, first, handle| is_made(env.new_local_within(handle));
    delete_local_within: |env, first, handle| env.delete_local_within(handle) == 0;
    is_same_within: |env, first, handle| env.is_same_within(first, handle) == 1;
    type_of_global_within: |env, first, handle| env.ref_type_within(handle) == GLOBAL;
    array_length_within: |env, first, handle| env.array_length_within(handle) == LONG as u64;
}

#[inline(never)]
fn get_region(env: &mut Env, handle: u64, elements: &mut [i32]) -> bool {
    env.get_region(handle, 0, elements) == 0
}

#[inline(never)]
fn set_region(env: &mut Env, handle: u64, elements: &[i32]) -> bool {
    env.set_region(handle, 0, elements) == 0
}

/// Copies so many elements out or in with each of the handles.
fn region_each(env: &mut Env, handed: &[u64], length: usize, is_out: bool) -> usize {
    let mut elements = [0; LONG];
    let part = &mut elements[..length];
    let mut right = 0;
    for handle in handed {
        let is_right = if is_out { get_region(env, *handle, part) } else { set_region(env, *handle, part) };
        right += usize::from(is_right);
    }
    right
}

#[inline(never)]
fn get_at(env: &mut Env, levels: &Levels, index: u64) -> bool {
    env.get_at(levels, 0, index) == Ok(0)
}

#[inline(never)]
fn set_at(env: &mut Env, levels: &Levels, index: u64) -> bool {
    env.set_at(levels, 0, index, 0).is_ok()
}

/// Reads or writes an element of one critical region for each of the handles.
fn region_of_each(env: &mut Env, handed: &[u64], is_read: bool) -> usize {
    let Ok(levels) = env.open(handed[0]) else { return 0 };
    let mut right = 0;
    for handle in handed {
        let index = *handle & 63;
        let is_right = if is_read { get_at(env, &levels, index) } else { set_at(env, &levels, index) };
        right += usize::from(is_right);
    }
    env.release(levels);
    right
}

#[inline(never)]
fn get_part_of(env: &mut Env, levels: &Levels, elements: &mut [i32]) -> bool {
    env.get_part_at(levels, 0, 0, elements).is_ok()
}

#[inline(never)]
fn set_part_of(env: &mut Env, levels: &Levels, elements: &[i32]) -> bool {
    env.set_part_at(levels, 0, 0, elements).is_ok()
}

/// Copies elements out of one critical region, or into it, for each of the handles.
fn part_of_region_each(env: &mut Env, handed: &[u64], is_out: bool) -> usize {
    let mut elements = [0; SMALL as usize];
    let Ok(levels) = env.open(handed[0]) else { return 0 };
    let mut right = 0;
    for _ in handed {
        let is_right = if is_out { get_part_of(env, &levels, &mut elements) } else { set_part_of(env, &levels, &elements) };
        right += usize::from(is_right);
    }
    env.release(levels);
    right
}

/// Copies elements within each array, through a buffer.
fn copy_array_each(env: &mut Env, handed: &[u64]) -> usize {
    let mut elements = [0; SMALL as usize];
    handed.iter().filter(|handle| get_region(env, **handle, &mut elements) && set_region(env, **handle, &elements)).count()
}

#[inline(always)]
fn make_each(env: &mut Env, handed: &[u64], call: impl Fn(&mut Env, u64, u64) -> bool) -> usize {
    handed.iter().filter(|handle| call(env, handed[0], **handle)).count()
}

/// Makes a call with each of the handles, in stays: how often it answered as it should.
#[inline(always)]
fn make_in_stays(env: &mut Env, handed: &[u64], call: impl Fn(&mut Env, u64, u64) -> bool) -> usize {
    let mut right = 0;
    for part in handed.chunks(CALLS_OF_STAY) {
        if env.room.gate().fetch_add(1, SeqCst) & CLOSED == 0 {
            right += part.iter().filter(|handle| call(env, handed[0], **handle)).count();
        }
        env.room.gate().fetch_sub(1, SeqCst);
    }
    right
}

/// The same by the number of the case in stays.
fn make_all_in_stays(of_stays: usize, env: &mut Env, handed: &[u64]) -> usize {
    match OF_STAYS[of_stays] {
        0 => make_in_stays(env, handed, type_of_null_within),
        2 => make_in_stays(env, handed, new_global_within),
        3 => make_in_stays(env, handed, delete_global_within),
        6 => make_in_stays(env, handed, new_local_within),
        7 => make_in_stays(env, handed, delete_local_within),
        8 => make_in_stays(env, handed, is_same_within),
        9 => make_in_stays(env, handed, type_of_global_within),
        _ => make_in_stays(env, handed, array_length_within),
    }
}

/// Makes the call with each of the handles: how often it answered as it should. (no part of its caller, so that its instructions can be counted)
#[inline(never)]
pub fn make_all(case: usize, env: &mut Env, handed: &[u64]) -> usize {
    match case {
        STAYS.. => make_all_in_stays(case - STAYS, env, handed),
        0 => make_each(env, handed, type_of_null),
        1 => make_each(env, handed, new_plain),
        2 => make_each(env, handed, new_global),
        3 => make_each(env, handed, delete_global),
        4 => make_each(env, handed, new_weak),
        5 => make_each(env, handed, delete_weak),
        6 => make_each(env, handed, new_local),
        7 => make_each(env, handed, delete_local),
        8 => make_each(env, handed, is_same),
        9 => make_each(env, handed, type_of_global),
        EMPTY_FRAME => make_each(env, handed, empty_frame),
        11 => make_each(env, handed, frame_of_four),
        FREE_ONE => make_each(env, handed, free_one),
        LENGTH => make_each(env, handed, array_length),
        14 => region_each(env, handed, 1, true),
        15 => region_each(env, handed, 64, true),
        16 => region_each(env, handed, LONG, true),
        17 => region_each(env, handed, 1, false),
        18 => region_each(env, handed, 64, false),
        19 => region_each(env, handed, LONG, false),
        NEW_ARRAY => make_each(env, handed, new_array),
        GET_ELEMENT => make_each(env, handed, get_element),
        SET_ELEMENT => make_each(env, handed, set_element),
        COPY_BACK | COPY_BACK_LONG => make_each(env, handed, copy_back),
        COMMIT | COMMIT_LONG => make_each(env, handed, commit),
        CHARS => make_each(env, handed, chars),
        CRITICAL => make_each(env, handed, critical),
        GET_PART | SET_PART => part_of_region_each(env, handed, case == GET_PART),
        COPY_ARRAY => copy_array_each(env, handed),
        _ => region_of_each(env, handed, case == GET_OF_REGION),
    }
}

/// What each of so many calls is handed, in order.
pub fn handed(case: usize, env: &mut Env, calls: u32) -> Vec<u64> {
    let case = if case < STAYS { case } else { OF_STAYS[case - STAYS] };
    let local = env.new_plain();
    let array = match case {
        LENGTH..=19 | COPY_BACK_LONG | COMMIT_LONG | CRITICAL.. => env.new_array(LONG as u64),
        GET_ELEMENT | SET_ELEMENT => env.new_object_array(1, local),
        COPY_BACK | COMMIT => env.new_array(SMALL),
        CHARS => env.new_string(SMALL),
        _ => local,
    };
    let global = env.new_slot(GLOBAL, array);
    let handle = |env: &mut Env| match case {
        0 | NEW_PLAIN | EMPTY_FRAME | NEW_ARRAY => 0,
        2 | 4 => local,
        3 => env.new_slot(GLOBAL, local),
        5 => env.new_slot(WEAK, local),
        7 => env.new_local(global),
        _ => global,
    };
    (0..calls).map(|_| handle(env)).collect()
}

/// What the threads of a round do.
#[derive(Clone, Copy)]
struct Work {
    threads: u32,
    standing: u32,
    calls: u32,
}

/// Makes what stands beside the calls.
fn stand(env: &mut Env, case: usize, work: Work) {
    let object = env.new_plain();
    for _ in 0..work.standing / work.threads {
        env.new_slot(GLOBAL, object);
    }
    let beside = work.standing.min(MOST_BESIDE);
    if case != FREE_ONE {
        for _ in 0..beside {
            env.new_local(object);
        }
    }
    if case == NEW_PLAIN {
        for _ in 0..beside / work.threads {
            let made = env.new_plain();
            env.delete_local(made);
        }
    }
}

fn all_came(came: &AtomicU64, threads: u32) -> bool {
    came.fetch_add(1, SeqCst);
    for _ in 0..LOOKS {
        if came.load(SeqCst) >= u64::from(threads) {
            return true;
        }
        std::hint::spin_loop();
    }
    false
}

type Done = (Instant, Instant, usize);

fn work_one(room: &Room, thread: u64, case: usize, work: Work, came: &AtomicU64) -> Option<Done> {
    let mut env = Env::new(room, thread);
    stand(&mut env, case, work);
    let handed = handed(case, &mut env, work.calls);
    if !all_came(came, work.threads) {
        return None;
    }
    let began = Instant::now();
    let right = make_all(case, &mut env, &handed);
    Some((began, Instant::now(), right))
}

/// A round in a room of its own: this thread does the first thread's work.
fn round(case: usize, work: Work) -> Option<Vec<Done>> {
    let (room, came) = (Room::new(u64::from(work.threads)), AtomicU64::new(0));
    let (room, came) = (&room, &came);
    std::thread::scope(|scope| {
        let others: Vec<_> = (1..u64::from(work.threads)).map(|thread| scope.spawn(move || work_one(room, thread, case, work, came))).collect();
        let first = work_one(room, 0, case, work, came);
        std::iter::once(first).chain(others.into_iter().map(|other| other.join().ok()?)).collect()
    })
}

/// What a note costs that is made and learned: a load of the gate as it leaves its thread's seat, one as it joins it, and the look.
fn note_all(room: &Room, work: Work, came: &AtomicU64) -> Option<Done> {
    if !all_came(came, work.threads) {
        return None;
    }
    let began = Instant::now();
    for _ in 0..work.calls {
        for _ in 0..3 {
            std::hint::black_box(room.gate().load(SeqCst));
        }
    }
    Some((began, Instant::now(), work.calls as usize))
}

/// A round of notes.
fn round_of_notes(work: Work) -> Option<Vec<Done>> {
    let (room, came) = (Room::new(u64::from(work.threads)), AtomicU64::new(0));
    let (room, came) = (&room, &came);
    std::thread::scope(|scope| {
        let others: Vec<_> = (1..work.threads).map(|_| scope.spawn(move || note_all(room, work, came))).collect();
        let first = note_all(room, work, came);
        std::iter::once(first).chain(others.into_iter().map(|other| other.join().ok()?)).collect()
    })
}

/// How long a call took, in tenths of nanoseconds, where all threads ran most of the time.
fn time_of_call(work: Work, done: &[Done]) -> Option<u128> {
    let calls = work.calls as usize;
    if done.iter().any(|one| one.2 != calls) {
        return None;
    }
    let together = done.iter().map(|one| one.1).min()?.saturating_duration_since(done.iter().map(|one| one.0).max()?);
    let whole = done.iter().map(|one| one.1).max()?.duration_since(done.iter().map(|one| one.0).min()?);
    if together * 4 < whole * 3 {
        return None;
    }
    let sum: Duration = done.iter().map(|one| one.1.duration_since(one.0)).sum();
    (sum * 10).as_nanos().checked_div(done.len() as u128 * calls as u128)
}

/// A room of one thread that its arrays fill: the gate, the top, slots, local words, headers, and elements, with a global reference to each array that is reached.
struct FullRoom {
    row: Vec<AtomicU64>,
    arrays: usize,
    marked: Vec<bool>,
    found: Vec<u16>,
    noted: Vec<(u32, u16, u32)>,
}

/// What stands in a full room: slots by their state, objects and their words by kind, those that nothing reaches, local references, and the words that are used.
#[derive(Default)]
struct Census {
    slots: [u32; 4],
    cleared: u32,
    objects: [(u32, u32); 16],
    unreached: [(u32, u32); 16],
    locals: u32,
    used: u32,
}

/// How many local places the thread of a full room has.
const FEW_PLACES: usize = 16;

/// How often an announced collection tries to shut the gate.
const SHUT_TRIES: u32 = 100_000;

impl FullRoom {
    /// A room of so many arrays, of which one in so many is not reached, and how many are. Its words are stored in the order in which calls store them, and the buffers are made behind them, so that the collection finds in the caches what the product's does.
    fn new(arrays: usize, every: usize) -> (FullRoom, usize) {
        let length = SHORT as usize;
        let words = 2 + arrays + FEW_PLACES + arrays + arrays * length;
        let row = (0..words).map(|_| AtomicU64::new(0)).collect();
        let mut room = FullRoom { row, arrays, marked: Vec::new(), found: Vec::new(), noted: Vec::new() };
        let mut reached = 0;
        for number in 0..arrays {
            for at in 0..length {
                room.element(number * length + at).store(0, SeqCst);
            }
            room.header(number + 1).store(INT | SHORT << 4 | ((number * length) as u64) << 28, SeqCst);
            if every == 0 || number % every != 0 {
                room.word(2 + reached).store(GLOBAL | (number as u64 + 1) << 34, SeqCst);
                reached += 1;
            }
        }
        room.word(1).store((arrays * length) as u64, SeqCst);
        room.marked.resize(arrays + 1, false);
        room.found.resize(arrays, 0);
        room.noted.resize(arrays, (0, 0, 0));
        (room, reached)
    }
    #[inline(always)]
    fn word(&self, at: usize) -> &AtomicU64 {
        unsafe { self.row.get_unchecked(at) }
    }
    #[inline(always)]
    fn header(&self, object: usize) -> &AtomicU64 {
        self.word(1 + self.arrays + FEW_PLACES + object)
    }
    #[inline(always)]
    fn element(&self, place: usize) -> &AtomicU64 {
        self.word(2 + self.arrays + FEW_PLACES + self.arrays + place)
    }
    #[inline(always)]
    fn reach(&mut self, object: usize, count: &mut usize) {
        if object != 0 && !self.marked[object] {
            self.marked[object] = true;
            self.found[*count] = object as u16;
            *count += 1;
        }
    }
    /// Marks what global and local references name, and what marked arrays of objects name.
    fn mark(&mut self) -> usize {
        self.marked.fill(false);
        let mut count = 0;
        for at in 2..2 + self.arrays {
            let word = self.word(at).load(SeqCst);
            if word & 3 == GLOBAL {
                self.reach((word >> 34) as usize, &mut count);
            }
        }
        for at in 2 + self.arrays..2 + self.arrays + FEW_PLACES {
            self.reach(self.word(at).load(SeqCst) as usize, &mut count);
        }
        let mut next = 0;
        while next < count {
            let header = self.header(self.found[next] as usize).load(SeqCst);
            if header & 15 == OBJECT_ARRAY {
                for at in 0..header >> 4 & 0xff_ffff {
                    self.reach(self.element(((header >> 28) + at) as usize).load(SeqCst) as usize, &mut count);
                }
            }
            next += 1;
        }
        count
    }
    fn clear_weak(&self) -> u32 {
        let mut cleared = 0;
        for at in 2..2 + self.arrays {
            let word = self.word(at).load(SeqCst);
            if word & 3 == WEAK && word >> 34 != 0 && !self.marked[(word >> 34) as usize] {
                self.word(at).store(word & 0x3_ffff_ffff, SeqCst);
                cleared += 1;
            }
        }
        cleared
    }
    fn drop_unreached(&self) -> usize {
        let mut dropped = 0;
        for object in 1..=self.arrays {
            if !self.marked[object] && self.header(object).load(SeqCst) != 0 {
                self.header(object).store(0, SeqCst);
                dropped += 1;
            }
        }
        dropped
    }
    /// Moves all marked arrays together in the order of their places, and sets the top.
    fn compact(&mut self, count: usize) -> usize {
        let mut arrays = 0;
        for at in 0..count {
            let object = self.found[at];
            let header = self.header(object as usize).load(SeqCst);
            let length = (header >> 4 & 0xff_ffff) as u32;
            if length != 0 {
                self.noted[arrays] = ((header >> 28) as u32, object, length);
                arrays += 1;
            }
        }
        self.noted[..arrays].sort_unstable_by_key(|noted| noted.0);
        let mut used = 0;
        for &(place, object, length) in &self.noted[..arrays] {
            if place as usize != used {
                for at in 0..length as usize {
                    let word = self.element(place as usize + at).load(SeqCst);
                    self.element(used + at).store(word, SeqCst);
                }
                let header = self.header(object as usize);
                header.store(header.load(SeqCst) & 0xfff_ffff | (used as u64) << 28, SeqCst);
            }
            used += length as usize;
        }
        self.word(1).store(used as u64, SeqCst);
        used
    }
    /// Shuts the gate where nobody is inside.
    fn is_shut(&self) -> bool {
        self.word(0).compare_exchange(0, SHUT, SeqCst, SeqCst).is_ok()
    }
    /// Announces that the gate will be shut, and shuts it once nobody is inside.
    fn is_shut_announced(&self) -> bool {
        let looked = self.word(0).load(SeqCst);
        if looked & CLOSED != 0 || self.word(0).compare_exchange(looked, looked | ANNOUNCED, SeqCst, SeqCst).is_err() {
            return false;
        }
        for _ in 0..SHUT_TRIES {
            if self.word(0).compare_exchange(ANNOUNCED, SHUT, SeqCst, SeqCst).is_ok() {
                return true;
            }
        }
        self.word(0).fetch_sub(ANNOUNCED, SeqCst);
        false
    }
    /// A collection, announced or not: how many weak references it cleared, how many arrays it dropped, and how many words are used then.
    #[inline(never)]
    fn collect(&mut self, is_announced: bool) -> Option<(u32, usize, usize)> {
        let is_shut = if is_announced { self.is_shut_announced() } else { self.is_shut() };
        if !is_shut {
            return None;
        }
        let count = self.mark();
        let (cleared, dropped) = (self.clear_weak(), self.drop_unreached());
        let used = self.compact(count);
        self.word(0).fetch_sub(SHUT, SeqCst);
        Some((cleared, dropped, used))
    }
    /// A census: a collection's marking, and a look at each slot, header and local word, and at the top.
    #[inline(never)]
    fn census(&mut self) -> Option<Census> {
        if !self.is_shut() {
            return None;
        }
        self.mark();
        let mut census = Census::default();
        for at in 2..2 + self.arrays {
            let word = self.word(at).load(SeqCst);
            census.slots[(word & 3) as usize] += 1;
            census.cleared += u32::from(word & 3 == WEAK && word >> 34 == 0);
        }
        for object in 1..=self.arrays {
            let header = self.header(object).load(SeqCst);
            let (kind, length) = ((header & 15) as usize, (header >> 4 & 0xff_ffff) as u32);
            census.objects[kind].0 += 1;
            census.objects[kind].1 += length;
            if !self.marked[object] {
                census.unreached[kind].0 += 1;
                census.unreached[kind].1 += length;
            }
        }
        for at in 2 + self.arrays..2 + self.arrays + FEW_PLACES {
            census.locals += u32::from(self.word(at).load(SeqCst) != 0);
        }
        census.used = self.word(1).load(SeqCst) as u32;
        self.word(0).fetch_sub(SHUT, SeqCst);
        Some(census)
    }
}

/// How long a census took, in tenths of nanoseconds.
fn time_of_census(arrays: usize, every: usize) -> Option<u128> {
    let (mut room, reached) = FullRoom::new(arrays, every);
    let began = Instant::now();
    let census = std::hint::black_box(room.census()?);
    let time = began.elapsed();
    let (unreached, used) = (census.unreached[INT as usize].0 as usize, census.used as usize);
    if unreached == arrays - reached && used == arrays * SHORT as usize { Some((time * 10).as_nanos()) } else { None }
}

/// How long a collection took, in tenths of nanoseconds.
fn time_of_collection(arrays: usize, every: usize, is_announced: bool) -> Option<u128> {
    let (mut room, reached) = FullRoom::new(arrays, every);
    let began = Instant::now();
    let collected = room.collect(is_announced)?;
    let time = began.elapsed();
    if collected == (0, arrays - reached, reached * SHORT as usize) { Some((time * 10).as_nanos()) } else { None }
}

/// Prints a line of times in tenths of nanoseconds.
fn print_times(name: &str, mut times: Vec<u128>) {
    times.sort();
    match (times.first(), times.get(times.len() / 2)) {
        (Some(least), Some(median)) => {
            println!("{name} {}.{} {}.{} {}", median / 10, median % 10, least / 10, least % 10, times.len())
        }
        _ => println!("{name} - - 0"),
    }
}

fn main() {
    let kind = std::env::args().nth(1).filter(|word| word == "collect" || word == "stays" || word == "notes");
    let words: Vec<u32> = std::env::args().skip(1 + usize::from(kind.is_some())).filter_map(|word| word.parse().ok()).collect();
    match (kind.as_deref(), &words[..]) {
        (Some("collect"), &[arrays, every, rounds]) => {
            for (name, is_announced) in [("collect", false), ("collect_announced", true)] {
                print_times(name, (0..rounds).filter_map(|_| time_of_collection(arrays as usize, every as usize, is_announced)).collect());
            }
            print_times("census", (0..rounds).filter_map(|_| time_of_census(arrays as usize, every as usize)).collect());
        }
        (Some("notes"), &[threads, standing, calls, rounds]) => {
            let work = Work { threads, standing, calls };
            print_times("note,learn", (0..rounds).filter_map(|_| time_of_call(work, &round_of_notes(work)?)).collect());
        }
        (None | Some("stays"), &[threads, standing, calls, rounds]) => {
            let work = Work { threads, standing, calls };
            let is_asked = |case: &usize| kind.is_none() || *case >= STAYS || OF_STAYS.contains(case);
            for case in (0..CASES.len()).filter(is_asked) {
                print_times(CASES[case], (0..rounds).filter_map(|_| time_of_call(work, &round(case, work)?)).collect());
            }
        }
        _ => {
            eprintln!("usage: floor [stays | notes] THREADS STANDING CALLS ROUNDS | floor collect ARRAYS EVERY ROUNDS");
            std::process::exit(1);
        }
    }
}
