//! What the functions of the library answer one thread after the other, as the page of .ci/reference says it: with lists and maps in the
//! place of a row of words. It is for the fuzz target beside it, and knows nothing of the library's text.
use luthrady::{Answer, Counts, Fault, Object as ObjectRow, Sizes, Slot, Stood};
use std::collections::{BTreeMap, BTreeSet, HashMap, HashSet};

const MOST_FRAMES: usize = 256;
const MOST_LEVELS: usize = 16;

/// The kind of a reference, by its number.
#[derive(Clone, Copy, PartialEq, Eq, Debug)]
pub enum Kind {
    Local = 1,
    Global = 2,
    Weak = 3,
}

/// What an object is, by its number as a luthrady_kind.
#[derive(Clone, Copy, PartialEq, Eq, Debug)]
pub enum Sort {
    Plain = 1,
    Bytes = 3,
    Ints = 6,
    Longs = 7,
    Objects = 8,
    Text = 9,
}

impl Sort {
    /// The word of an element, which is no reference.
    fn word(self, element: i64) -> u64 {
        let bits = match self {
            Sort::Bytes => 8,
            Sort::Text => 16,
            Sort::Ints => 32,
            _ => 64,
        };
        element as u64 & u64::MAX >> (64 - bits)
    }
}

/// An object: its elements, of an array of objects their numbers, 0 for null.
struct Object {
    sort: Sort,
    elements: Vec<i64>,
}

/// A reference that stands, to an object by its number, 0 for null.
struct Reference {
    kind: Kind,
    owner: usize,
    place: u64,
    object: usize,
}

/// Which object of the model has which identity.
#[derive(Default)]
struct Identities {
    of: BTreeMap<usize, u64>,
    given: BTreeSet<u64>,
    /// Those whose elements were not looked at yet.
    unseen: Vec<(usize, u64)>,
}

impl Identities {
    /// Learns that an object, 0 for null, has an identity, 0 for none.
    fn learn(&mut self, object: usize, identity: u64) {
        assert_eq!(object == 0, identity == 0, "null in a dump");
        let known = self.of.insert(object, identity);
        match known {
            _ if object == 0 => (),
            Some(known) => assert_eq!(known, identity, "two identities of one object"),
            None => {
                assert!(self.given.insert(identity), "one identity of two objects");
                self.unseen.push((object, identity));
            }
        }
    }
}

/// What a word says as a handle.
struct Parts {
    kind: Kind,
    owner: u64,
    place: u64,
}

/// A part of a level of a critical region.
#[derive(Clone, Copy)]
pub struct LevelPart {
    pub level: u32,
    pub start: u32,
    pub count: usize,
}

/// A room, and its threads.
pub struct Model {
    sizes: Sizes,
    used: u32,
    made: usize,
    objects: BTreeMap<usize, Object>,
    references: HashMap<u64, Reference>,
    given: HashSet<u64>,
    /// Of each thread its local references by frames, the newest last.
    frames: Vec<Vec<Vec<u64>>>,
}

fn refused<T>(number: u32) -> Answer<T> {
    Err(Fault::new(number, 0))
}

impl Parts {
    /// None of a word that is malformed.
    fn of(word: u64) -> Option<Parts> {
        let kind = match word & 3 {
            1 => Kind::Local,
            2 => Kind::Global,
            3 => Kind::Weak,
            _ => return None,
        };
        let (owner, place) = (word >> 50, word >> 34 & 0xffff);
        let most = if kind == Kind::Local { 64 } else { 1 };
        (owner < most).then_some(Parts { kind, owner, place })
    }

    fn is_foreign(&self, thread: usize) -> bool {
        self.kind == Kind::Local && self.owner != thread as u64
    }

    fn is_outside(&self, sizes: &Sizes) -> bool {
        match self.kind {
            Kind::Local => {
                self.place >= u64::from(sizes.locals) || self.owner >= u64::from(sizes.threads)
            }
            _ => self.place >= u64::from(sizes.slots),
        }
    }
}

impl Model {
    pub fn new(sizes: Sizes) -> Model {
        Model {
            sizes,
            used: 0,
            made: 0,
            objects: BTreeMap::new(),
            references: HashMap::new(),
            given: HashSet::new(),
            frames: vec![vec![vec![]]; sizes.threads as usize],
        }
    }

    pub fn sizes(&self) -> &Sizes {
        &self.sizes
    }

    // ---- checks

    /// Each check is made of all words, one after the other, before the next.
    fn check(&self, thread: usize, words: &[u64]) -> Answer<()> {
        let words: Vec<u64> = words.iter().copied().filter(|it| *it != 0).collect();
        let parts: Vec<Option<Parts>> = words.iter().map(|it| Parts::of(*it)).collect();
        for it in &parts {
            match it {
                Some(it) if !it.is_outside(&self.sizes) => (),
                _ => return refused(2),
            }
        }
        if parts.iter().flatten().any(|it| it.is_foreign(thread)) {
            return refused(3);
        }
        if words.iter().any(|it| !self.references.contains_key(it)) {
            return refused(2);
        }
        Ok(())
    }

    /// The number of what a word names, 0 for null.
    fn named(&self, thread: usize, word: u64) -> Answer<usize> {
        self.check(thread, &[word])?;
        Ok(self.references.get(&word).map_or(0, |it| it.object))
    }

    fn object(&self, thread: usize, word: u64) -> Answer<usize> {
        match self.named(thread, word)? {
            0 => refused(1),
            found => Ok(found),
        }
    }

    /// An array of this sort.
    fn array(&self, thread: usize, word: u64, sort: Sort) -> Answer<usize> {
        let found = self.object(thread, word)?;
        match self.objects[&found].sort {
            it if it == sort => Ok(found),
            Sort::Plain | Sort::Text => refused(5),
            _ => refused(6),
        }
    }

    fn free_places(&self, thread: usize) -> usize {
        self.sizes.locals as usize - self.frames[thread].iter().map(Vec::len).sum::<usize>()
    }

    fn has_place(&self, thread: usize) -> Answer<()> {
        if self.free_places(thread) == 0 {
            return refused(9);
        }
        Ok(())
    }

    // ---- references

    /// Takes a reference that was made: no word is given twice, and each says what it is.
    pub fn refers(&mut self, thread: usize, kind: Kind, word: u64, object: usize) {
        let parts = Parts::of(word).expect("what was made is malformed");
        let is_local = kind == Kind::Local;
        assert_eq!(parts.kind, kind, "the kind of {word:x}");
        assert_eq!(
            parts.owner,
            if is_local { thread as u64 } else { 0 },
            "the owner of {word:x}"
        );
        assert!(!parts.is_outside(&self.sizes), "{word:x} lies outside");
        assert!(self.given.insert(word), "{word:x} was given before");
        let (place, owner) = (parts.place, parts.owner as usize);
        let beside = |it: &&Reference| (it.kind == Kind::Local) == is_local && it.owner == owner;
        let mut others = self.references.values().filter(beside);
        assert!(
            others.all(|it| it.place != place),
            "two references at one place: {word:x}"
        );
        if is_local {
            self.frames[thread].last_mut().unwrap().push(word);
        }
        let made = Reference {
            kind,
            owner,
            place,
            object,
        };
        self.references.insert(word, made);
    }

    /// What a new reference is to, 0 for none.
    pub fn new_ref(&self, thread: usize, kind: Kind, word: u64) -> Answer<usize> {
        let found = self.named(thread, word)?;
        let slots = self
            .references
            .values()
            .filter(|it| it.kind != Kind::Local)
            .count();
        match kind {
            _ if found == 0 => Ok(0),
            Kind::Local => self.has_place(thread).map(|()| found),
            _ if slots == self.sizes.slots as usize => refused(8),
            _ => Ok(found),
        }
    }

    pub fn delete(&mut self, thread: usize, kind: Kind, word: u64) -> Answer<()> {
        if word == 0 {
            return Ok(());
        }
        match Parts::of(word) {
            None => return refused(2),
            Some(it) if it.kind != kind => return refused(4),
            Some(_) => self.check(thread, &[word])?,
        }
        for frame in &mut self.frames[thread] {
            frame.retain(|it| *it != word);
        }
        self.references.remove(&word);
        Ok(())
    }

    pub fn ref_type(&self, thread: usize, word: u64) -> u64 {
        match self.references.get(&word) {
            Some(it) if it.kind != Kind::Local || it.owner == thread => it.kind as u64,
            _ => 0,
        }
    }

    pub fn same(&self, thread: usize, left: u64, right: u64) -> Answer<bool> {
        self.check(thread, &[left, right])?;
        Ok(self.named(thread, left)? == self.named(thread, right)?)
    }

    // ---- frames

    pub fn ensure(&self, thread: usize, capacity: u32) -> Answer<()> {
        if capacity as usize > self.free_places(thread) {
            return refused(9);
        }
        Ok(())
    }

    pub fn push(&mut self, thread: usize, capacity: u32) -> Answer<()> {
        if self.frames[thread].len() == MOST_FRAMES {
            return refused(9);
        }
        self.ensure(thread, capacity)?;
        self.frames[thread].push(vec![]);
        Ok(())
    }

    /// What the result is to, 0 for none.
    pub fn pop(&mut self, thread: usize, kept: u64) -> Answer<usize> {
        if self.frames[thread].len() == 1 {
            return refused(15);
        }
        let found = self.named(thread, kept)?;
        let freed = self.frames[thread].last().unwrap().len();
        if found != 0 && self.free_places(thread) + freed == 0 {
            return refused(9);
        }
        let gone = self.frames[thread].pop().unwrap();
        self.references.retain(|word, _| !gone.contains(word));
        Ok(found)
    }

    pub fn free_locals(&mut self, thread: usize) {
        let gone: HashSet<u64> = self.frames[thread].drain(..).flatten().collect();
        self.references.retain(|word, _| !gone.contains(word));
        self.frames[thread].push(vec![]);
    }

    // ---- objects

    /// A new object, by its number.
    pub fn make(&mut self, thread: usize, sort: Sort, elements: Vec<i64>) -> Answer<usize> {
        let length = elements.len() as u32;
        self.has_room(thread, length)?;
        self.used += length;
        if self.objects.len() == self.sizes.objects as usize {
            return refused(11);
        }
        self.made += 1;
        self.objects.insert(self.made, Object { sort, elements });
        Ok(self.made)
    }

    /// An array of so many elements, each zero.
    pub fn make_array(&mut self, thread: usize, sort: Sort, length: u32) -> Answer<usize> {
        self.has_room(thread, length)?;
        self.make(thread, sort, vec![0; length as usize])
    }

    pub fn make_objects(&mut self, thread: usize, length: u32, initial: u64) -> Answer<usize> {
        let first = self.named(thread, initial)? as i64;
        self.has_room(thread, length)?;
        self.make(thread, Sort::Objects, vec![first; length as usize])
    }

    fn has_room(&self, thread: usize, length: u32) -> Answer<()> {
        self.has_place(thread)?;
        if u64::from(self.used) + u64::from(length) > u64::from(self.sizes.words) {
            return Err(Fault::new(10, self.used));
        }
        Ok(())
    }

    pub fn length(&self, thread: usize, array: u64) -> Answer<u32> {
        let found = &self.objects[&self.object(thread, array)?];
        match found.sort {
            Sort::Plain | Sort::Text => refused(5),
            _ => Ok(found.elements.len() as u32),
        }
    }

    pub fn string_length(&self, thread: usize, string: u64) -> Answer<u32> {
        let found = &self.objects[&self.object(thread, string)?];
        match found.sort {
            Sort::Text => Ok(found.elements.len() as u32),
            _ => refused(4),
        }
    }

    /// A part of an array, to look at or to write in.
    pub fn part(
        &mut self,
        thread: usize,
        array: u64,
        sort: Sort,
        start: u32,
        count: usize,
    ) -> Answer<&mut [i64]> {
        let found = self.array(thread, array, sort)?;
        let elements = &mut self.objects.get_mut(&found).unwrap().elements;
        let (first, last) = (start as usize, start as usize + count);
        elements.get_mut(first..last).ok_or(Fault::new(7, 0))
    }

    /// What an element of an array of objects is to, 0 for null.
    pub fn element(&mut self, thread: usize, array: u64, index: u32) -> Answer<usize> {
        let found = self.part(thread, array, Sort::Objects, index, 1)?[0] as usize;
        if found != 0 {
            self.has_place(thread)?;
        }
        Ok(found)
    }

    pub fn set_element(&mut self, thread: usize, array: u64, index: u32, value: u64) -> Answer<()> {
        self.check(thread, &[array, value])?;
        let value = self.named(thread, value)? as i64;
        self.part(thread, array, Sort::Objects, index, 1)?[0] = value;
        Ok(())
    }

    // ---- critical regions

    /// What a new level of a region with so many levels is over.
    pub fn level(&self, thread: usize, word: u64, is_string: bool, levels: usize) -> Answer<usize> {
        let found = self.object(thread, word)?;
        match self.objects[&found].sort {
            it if is_string && it != Sort::Text => refused(4),
            Sort::Plain | Sort::Text if !is_string => refused(5),
            Sort::Objects => refused(6),
            _ if levels == MOST_LEVELS => refused(17),
            _ => Ok(found),
        }
    }

    pub fn level_length(&self, levels: &[usize], level: u32) -> Answer<usize> {
        match levels.get(level as usize) {
            Some(found) => Ok(self.objects[found].elements.len()),
            None => refused(2),
        }
    }

    /// A part of a level, to look at or to write in.
    pub fn level_part(
        &mut self,
        levels: &[usize],
        at: LevelPart,
        sort: Sort,
        is_write: bool,
    ) -> Answer<&mut [i64]> {
        let Some(found) = levels.get(at.level as usize) else {
            return refused(2);
        };
        let object = self.objects.get_mut(found).unwrap();
        if object.sort == Sort::Text && is_write {
            return refused(5);
        }
        if object.sort != sort {
            return refused(6);
        }
        let (first, last) = (at.start as usize, at.start as usize + at.count);
        object.elements.get_mut(first..last).ok_or(Fault::new(7, 0))
    }

    // ---- collections

    fn reached(&self) -> BTreeSet<usize> {
        let strong = self.references.values().filter(|it| it.kind != Kind::Weak);
        let mut left: Vec<usize> = strong.map(|it| it.object).collect();
        let mut reached = BTreeSet::new();
        while let Some(it) = left.pop() {
            if it != 0 && reached.insert(it) && self.objects[&it].sort == Sort::Objects {
                left.extend(self.objects[&it].elements.iter().map(|it| *it as usize));
            }
        }
        reached
    }

    pub fn collect(&mut self) -> Counts {
        self.collect_listing().0
    }

    /// Collects, and tells which references were cleared.
    pub fn collect_listing(&mut self) -> (Counts, BTreeSet<u64>) {
        let (reached, mut cleared) = (self.reached(), BTreeSet::new());
        for (word, it) in &mut self.references {
            if it.object != 0 && !reached.contains(&it.object) {
                it.object = 0;
                cleared.insert(*word);
            }
        }
        let before = self.objects.len();
        self.objects.retain(|it, _| reached.contains(it));
        self.used = self
            .objects
            .values()
            .map(|it| it.elements.len() as u32)
            .sum();
        let counts = Counts {
            cleared: cleared.len() as u32,
            dropped: (before - self.objects.len()) as u32,
            used: self.used,
        };
        (counts, cleared)
    }

    /// Checks the rows of a dump. An identity is of one object throughout.
    pub fn check_dump(&self, slots: &[Slot], locals: &[u16], objects: &[ObjectRow], words: &[u64]) {
        let mut known = Identities::default();
        for (word, it) in &self.references {
            let place = it.place as usize;
            if it.kind == Kind::Local {
                let at = it.owner * self.sizes.locals as usize + place;
                known.learn(it.object, locals[at].into());
            } else {
                let slot = slots[place];
                let stands = u64::from(slot.state) | u64::from(slot.serial) << 2 | it.place << 34;
                assert_eq!(stands, *word, "the reference in slot {place}");
                known.learn(it.object, slot.object.into());
            }
        }
        let standing = slots.iter().filter(|it| it.state > 1).count()
            + locals.iter().filter(|it| **it != 0).count();
        assert_eq!(standing, self.references.len(), "references in a dump");
        let present = objects.iter().filter(|it| it.kind > 0).count();
        assert_eq!(present, self.objects.len(), "objects in a dump");
        while let Some((object, identity)) = known.unseen.pop() {
            let (row, it) = (objects[identity as usize - 1], &self.objects[&object]);
            let length = it.elements.len();
            assert_eq!((row.kind, row.length), (it.sort as u32, length as u32));
            let found = &words[row.place as usize..][..length];
            for (element, word) in it.elements.iter().zip(found) {
                match it.sort {
                    Sort::Objects => known.learn(*element as usize, *word),
                    sort => assert_eq!(*word, sort.word(*element), "an element's word"),
                }
            }
        }
    }

    /// What stands in the room.
    pub fn stood(&self) -> Stood {
        let count = |kind| {
            self.references
                .values()
                .filter(|it| it.kind == kind)
                .count() as u32
        };
        Stood {
            globals: count(Kind::Global),
            weaks: count(Kind::Weak),
            live: self.objects.len() as u32,
            used: self.used,
        }
    }
}
