//! A fuzz target: bytes say which calls the threads of a room make, in turn. Each answer is compared with the model's. Any difference ends
//! the process.
//!
//! With libFuzzer it is `LLVMFuzzerTestOneInput`. Without it `main` draws the bytes: `fuzz RUNS [SEED]`.
#![allow(dead_code)]
mod model;
mod regions;

use luthrady::{Answer, BatchCall, Env, Fault, Object, Operation, Room, Rows, Sizes, Slot};
use model::{Kind, LevelPart, Model, Sort};
use regions::{Compared, Drawn, Inside, Levels, elements, two};
use std::fmt::Debug;

/// How many words the bytes can name.
const REMEMBERED: usize = 48;

const OPERATIONS: [Operation; 12] = [
    Operation::NewGlobalRef,
    Operation::NewWeakGlobalRef,
    Operation::NewLocalRef,
    Operation::DeleteGlobalRef,
    Operation::DeleteWeakGlobalRef,
    Operation::DeleteLocalRef,
    Operation::IsSameObject,
    Operation::GetObjectRefType,
    Operation::GetArrayLength,
    Operation::GetStringLength,
    Operation::GetObjectArrayElement,
    Operation::SetObjectArrayElement,
];

/// The bytes that are left. Behind their end all are 0.
struct Input<'a>(&'a [u8]);

impl Input<'_> {
    fn byte(&mut self) -> u8 {
        let Some((first, rest)) = self.0.split_first() else {
            return 0;
        };
        self.0 = rest;
        *first
    }

    /// A number, mostly a small one.
    fn number(&mut self) -> u32 {
        match self.byte() {
            255 => u32::MAX,
            254 => u32::MAX / 2 + 1,
            it => u32::from(it % 16),
        }
    }

    fn long(&mut self) -> u64 {
        (0..8).fold(0, |it, _| it << 8 | u64::from(self.byte()))
    }

    fn kind(&mut self) -> Kind {
        [Kind::Local, Kind::Global, Kind::Weak][usize::from(self.byte() % 3)]
    }
}

/// A call of a batch.
struct Asked {
    operation: Operation,
    first: u64,
    second: u64,
    index: u32,
}

impl Asked {
    fn call(&self) -> BatchCall {
        BatchCall::new(self.operation, self.first, self.second, self.index)
    }

    /// What the model says of a call that makes no reference.
    fn told(&self, env: usize, model: &mut Model) -> Answer<u64> {
        let (first, second) = (self.first, self.second);
        match self.operation {
            Operation::DeleteGlobalRef => model.delete(env, Kind::Global, first).map(|()| 0),
            Operation::DeleteWeakGlobalRef => model.delete(env, Kind::Weak, first).map(|()| 0),
            Operation::DeleteLocalRef => model.delete(env, Kind::Local, first).map(|()| 0),
            Operation::IsSameObject => model.same(env, first, second).map(u64::from),
            Operation::GetObjectRefType => Ok(model.ref_type(env, first)),
            Operation::GetArrayLength => model.length(env, first).map(u64::from),
            Operation::GetStringLength => model.string_length(env, first).map(u64::from),
            _ => model
                .set_element(env, first, self.index, second)
                .map(|()| 0),
        }
    }
}

/// A room, its attached threads, the model of it, and the words that were given last.
struct Case<'a> {
    input: Input<'a>,
    room: Room,
    envs: Vec<Env>,
    is_attached: Vec<bool>,
    is_released: bool,
    model: Model,
    words: Vec<u64>,
    /// The threads whose envs lie in the room, the next to be attached last.
    free: Vec<usize>,
    /// How many calls were made, and how many were refused with each number.
    calls: u64,
    refusals: [u64; 24],
}

impl Case<'_> {
    /// A word: mostly one that was given, and else one that is near it, NULL, or any.
    fn word(&mut self) -> u64 {
        let how = self.input.byte();
        let one = match self.words.len() {
            0 => 0,
            count => self.words[usize::from(self.input.byte()) % count],
        };
        match how % 24 {
            0 => 0,
            1 => one ^ 1 << (self.input.byte() % 64),
            2 => self.input.long(),
            3 => one & !3 | u64::from(self.input.byte() & 3),
            4 => one ^ 1 << 50,
            _ => one,
        }
    }

    /// Compares an answer with the model's. A thread that was detached is E21.
    fn same<T: PartialEq + Debug>(&mut self, env: usize, wanted: Answer<T>, found: Answer<T>) {
        let wanted = if self.is_attached[env] {
            wanted
        } else {
            Err(Fault::new(21, 0))
        };
        assert_eq!(
            found, wanted,
            "by thread {env}, behind {} calls",
            self.calls
        );
        self.calls += 1;
        if let Err(Fault { number, .. }) = found {
            self.refusals[number as usize] += 1;
        }
    }

    /// Compares a reference that was made with what the model says that it is to, 0 for none.
    fn made(&mut self, env: usize, kind: Kind, wanted: Answer<usize>, found: Answer<u64>) {
        self.same(env, wanted.map(|it| it != 0), found.map(|it| it != 0));
        if let (Ok(object), Ok(word)) = (wanted, found)
            && word != 0
        {
            self.model.refers(env, kind, word, object);
            self.words.push(word);
            if self.words.len() > REMEMBERED {
                self.words.remove(0);
            }
        }
    }

    // ---- what the bytes can say

    fn new_reference(&mut self, env: usize) {
        let (kind, word) = (self.input.kind(), self.word());
        let wanted = self.model.new_ref(env, kind, word);
        let found = match kind {
            Kind::Local => self.envs[env].local(word),
            Kind::Global => self.envs[env].global(word),
            Kind::Weak => self.envs[env].weak(word),
        };
        self.made(env, kind, wanted, found);
    }

    fn delete_reference(&mut self, env: usize) {
        let (kind, word) = (self.input.kind(), self.word());
        let found = match kind {
            Kind::Local => self.envs[env].delete_local(word),
            Kind::Global => self.envs[env].delete_global(word),
            Kind::Weak => self.envs[env].delete_weak(word),
        };
        let wanted = self.by(env, |model| model.delete(env, kind, word));
        self.same(env, wanted, found);
    }

    /// What the model says, which is not asked for a thread that was detached.
    fn by<T>(&mut self, env: usize, ask: impl FnOnce(&mut Model) -> Answer<T>) -> Answer<T> {
        match self.is_attached[env] {
            true => ask(&mut self.model),
            false => Err(Fault::new(21, 0)),
        }
    }

    fn look_at_reference(&mut self, env: usize) {
        let word = self.word();
        let wanted = Ok(self.model.ref_type(env, word));
        let found = self.envs[env].ref_type(word);
        self.same(env, wanted, found);
    }

    fn compare(&mut self, env: usize) {
        let (left, right) = (self.word(), self.word());
        let wanted = self.model.same(env, left, right);
        let found = self.envs[env].same(left, right);
        self.same(env, wanted, found);
    }

    fn frames(&mut self, env: usize) {
        match self.input.byte() % 8 {
            0 => {
                let wanted = self.by(env, |model| {
                    model.free_locals(env);
                    Ok(())
                });
                let found = self.envs[env].free_locals();
                self.same(env, wanted, found);
            }
            1 | 2 => {
                let capacity = self.input.number();
                let wanted = self.model.ensure(env, capacity);
                let found = self.envs[env].ensure(capacity);
                self.same(env, wanted, found);
            }
            3..6 => {
                let capacity = self.input.number();
                let wanted = self.by(env, |model| model.push(env, capacity));
                let found = self.envs[env].push_frame(capacity);
                self.same(env, wanted, found);
            }
            _ => {
                let kept = self.word();
                let wanted = self.by(env, |model| model.pop(env, kept));
                let found = self.envs[env].pop_frame(kept);
                self.made(env, Kind::Local, wanted, found);
            }
        }
    }

    fn new_object(&mut self, env: usize) {
        let how = self.input.byte() % 8;
        let length = self.input.number();
        let (wanted, found) = match how {
            0 => {
                let wanted = self.by(env, |model| model.make(env, Sort::Plain, vec![]));
                (wanted, self.envs[env].new_plain())
            }
            1 => self.new_array::<i8>(env, length),
            2 | 3 => self.new_array::<i32>(env, length),
            4 => self.new_array::<i64>(env, length),
            5 => {
                let units: Vec<u16> = (0..length % 16).map(|_| self.input.byte().into()).collect();
                let elements = units.iter().copied().map(i64::from).collect();
                let wanted = self.by(env, |model| model.make(env, Sort::Text, elements));
                (wanted, self.envs[env].new_string(&units))
            }
            _ => {
                let first = self.word();
                let wanted = self.by(env, |model| model.make_objects(env, length, first));
                (wanted, self.envs[env].new_objects(length, first))
            }
        };
        self.made(env, Kind::Local, wanted, found);
    }

    fn new_array<E: Drawn>(&mut self, env: usize, length: u32) -> (Answer<usize>, Answer<u64>) {
        let wanted = self.by(env, |model| model.make_array(env, E::SORT, length));
        (wanted, self.envs[env].new_array::<E>(length))
    }

    fn length(&mut self, env: usize) {
        let (how, word) = (self.input.byte() % 2, self.word());
        let (wanted, found) = match how {
            0 => (self.model.length(env, word), self.envs[env].length(word)),
            _ => {
                let wanted = self.model.string_length(env, word);
                (wanted, self.envs[env].string_length(word))
            }
        };
        self.same(env, wanted, found);
    }

    fn element(&mut self, env: usize) {
        let (how, array, index) = (self.input.byte() % 2, self.word(), self.input.number());
        if how == 0 {
            let wanted = self.model.element(env, array, index);
            let found = self.envs[env].element(array, index);
            self.made(env, Kind::Local, wanted, found);
        } else {
            let value = self.word();
            let wanted = self.by(env, |model| model.set_element(env, array, index, value));
            let found = self.envs[env].set_element(array, index, value);
            self.same(env, wanted, found);
        }
    }

    fn part(&mut self, env: usize) {
        match self.input.byte() % 6 {
            0 => self.read::<i8>(env),
            1 => self.read::<i32>(env),
            2 => self.read::<i64>(env),
            3 => self.write::<i8>(env),
            4 => self.write::<i32>(env),
            _ => self.write::<i64>(env),
        }
    }

    fn read<E: Drawn>(&mut self, env: usize) {
        let (array, start) = (self.word(), self.input.number());
        let count = usize::from(self.input.byte() % 16);
        let mut read: Vec<E> = vec![E::of(0x77); count];
        let part = self.model.part(env, array, E::SORT, start, count);
        let wanted = part.map(|it| it.to_vec());
        let found = self.envs[env].get(array, start, &mut read);
        if found.is_err() {
            assert!(read.iter().all(|it| *it == E::of(0x77)), "a refusal wrote");
        }
        let found = found.map(|()| read.into_iter().map(E::word).collect());
        self.same(env, wanted, found);
    }

    fn write<E: Drawn>(&mut self, env: usize) {
        let (array, start) = (self.word(), self.input.number());
        let count = usize::from(self.input.byte() % 16);
        let written: Vec<E> = elements(count, self.input.byte().into());
        let wanted = self.by(env, |model| {
            let part = model.part(env, array, E::SORT, start, count)?;
            let words = written.iter().map(|it| it.word());
            part.iter_mut().zip(words).for_each(|(to, it)| *to = it);
            Ok(())
        });
        let found = self.envs[env].set(array, start, &written);
        self.same(env, wanted, found);
    }

    /// Opens a critical region, and ends it behind what is done in it.
    fn region(&mut self, env: usize) {
        let (is_string, word) = (self.input.byte() % 4 == 0, self.word());
        let again = if self.input.byte() == 0 { 17 } else { 0 };
        let mut asked: Vec<Inside> = (0..again).map(|_| Inside::NestArray(word)).collect();
        asked.extend((0..self.input.byte() % 40).map(|_| self.inside()));
        let wanted = self.by(env, |model| model.level(env, word, is_string, 0));
        let (own, other) = two(&mut self.envs, env);
        let opened = match is_string {
            true => own.string_critical(word),
            false => own.array_critical(word),
        };
        let mut told: Vec<Compared> = vec![(
            wanted.map(|_| vec![]),
            opened.as_ref().map(|_| vec![]).map_err(|it| *it),
        )];
        if let (Ok(object), Ok(region)) = (wanted, opened) {
            let levels = Levels {
                region,
                of: vec![object],
            };
            let barred = other.map(|(at, it)| (self.is_attached[at], it));
            regions::act(env, levels, &mut self.model, barred, asked, &mut told);
        }
        for (wanted, found) in told {
            self.same(env, wanted, found);
        }
    }

    fn inside(&mut self) -> Inside {
        let how = self.input.byte() % 16;
        let level = self.input.number() % 8;
        match how {
            0..4 => Inside::NestArray(self.word()),
            4 | 5 => Inside::NestString(self.word()),
            6 => Inside::Length(level),
            7 => Inside::Collect,
            8 => Inside::Release,
            _ => {
                let kind = self.input.byte() % 4;
                let start = self.input.number();
                let count = usize::from(self.input.byte() % 8);
                let at = LevelPart {
                    level,
                    start,
                    count,
                };
                match how {
                    9..12 => Inside::Read(kind, at),
                    _ => Inside::Write(kind, at, self.input.byte().into()),
                }
            }
        }
    }

    /// Makes up to seven calls in one stay. Each answer is compared as that of its own function.
    fn batch(&mut self, env: usize) {
        let asked: Vec<Asked> = (0..self.input.byte() % 8).map(|_| self.asked()).collect();
        let before: Vec<BatchCall> = asked.iter().map(Asked::call).collect();
        let mut calls = before.clone();
        let found = self.envs[env].batch(&mut calls);
        self.same(env, Ok(()), found);
        if found.is_err() {
            assert_eq!(calls, before, "a refusal wrote");
            return;
        }
        for (asked, call) in asked.into_iter().zip(calls) {
            self.answered(env, asked, call.answer());
        }
    }

    fn asked(&mut self) -> Asked {
        Asked {
            operation: OPERATIONS[usize::from(self.input.byte()) % OPERATIONS.len()],
            first: self.word(),
            second: self.word(),
            index: self.input.number(),
        }
    }

    /// Compares what a call of a batch answered.
    fn answered(&mut self, env: usize, asked: Asked, found: Answer<u64>) {
        let (first, model) = (asked.first, &mut self.model);
        let (kind, wanted) = match asked.operation {
            Operation::NewGlobalRef => (Kind::Global, model.new_ref(env, Kind::Global, first)),
            Operation::NewWeakGlobalRef => (Kind::Weak, model.new_ref(env, Kind::Weak, first)),
            Operation::NewLocalRef => (Kind::Local, model.new_ref(env, Kind::Local, first)),
            Operation::GetObjectArrayElement => {
                (Kind::Local, model.element(env, first, asked.index))
            }
            _ => {
                let wanted = asked.told(env, model);
                return self.same(env, wanted, found);
            }
        };
        self.made(env, kind, wanted, found);
    }

    fn collect(&mut self, env: usize) {
        let tries = self.input.number();
        let wanted = self.by(env, |model| Ok(model.collect()));
        let found = match tries % 2 {
            0 => self.envs[env].collect(),
            _ => self.envs[env].collect_announced(tries / 2),
        };
        self.same(env, wanted, found);
    }

    /// Collects, and looks at the lists: what was cleared, as much as there is room for, and as many identities.
    fn collect_listing(&mut self, env: usize) {
        let turns = (self.input.number(), self.input.number());
        let room = usize::from(self.input.byte() % 16);
        let (mut references, mut identities) = (vec![u64::MAX; room], vec![0; room]);
        let wanted = self.by(env, |model| Ok(model.collect_listing()));
        let found = self.envs[env].collect_listing(turns, &mut references, &mut identities);
        if let (Ok((counts, cleared)), Ok(_)) = (&wanted, &found) {
            let (listed, behind) = references.split_at(room.min(cleared.len()));
            assert!(
                listed.iter().all(|it| cleared.contains(it)),
                "what was cleared"
            );
            assert!(behind.iter().all(|it| *it == u64::MAX), "behind the list");
            references.truncate(listed.len());
            references.sort_unstable();
            references.dedup();
            assert_eq!(references.len(), room.min(cleared.len()), "listed twice");
            identities.sort_unstable();
            identities.dedup();
            identities.retain(|it| *it != 0);
            assert_eq!(
                identities.len(),
                room.min(counts.dropped as usize),
                "what was dropped"
            );
        }
        self.same(env, wanted.map(|it| it.0), found);
    }

    fn dump(&mut self, env: usize) {
        let (sizes, tries) = (*self.model.sizes(), self.input.number());
        let threads = sizes.threads as usize;
        let mut slots = vec![Slot::default(); sizes.slots as usize];
        let mut locals = vec![0; threads * sizes.locals as usize];
        let mut objects = vec![Object::default(); sizes.objects as usize];
        let mut words = vec![0; sizes.words as usize];
        let rows = Rows {
            slots: &mut slots,
            locals: &mut locals,
            objects: &mut objects,
            words: &mut words,
        };
        let found = match tries % 2 {
            0 => self.envs[env].dump(rows),
            _ => self.envs[env].dump_announced(tries / 2, rows),
        };
        if found.is_ok() {
            self.model.check_dump(&slots, &locals, &objects, &words);
        }
        self.same(env, Ok(()), found);
    }

    // ---- threads

    /// A room hands out the env that came back last.
    fn attach(&mut self) {
        let found = self.room.attach();
        match (found, self.free.pop()) {
            (Ok(env), Some(thread)) => {
                self.envs[thread] = env;
                self.is_attached[thread] = true;
            }
            (Err(Fault { number: 21, .. }), None) => (),
            (it, _) => panic!("an attach answered {:?}", it.err()),
        }
    }

    fn release(&mut self) {
        self.room.release();
        self.is_released = true;
        self.free.clear();
    }

    /// A thread's local references go with it. Only the last one of a room that was released closes it.
    fn detach(&mut self, env: usize) {
        let found = self.envs[env].detach();
        let was_attached = std::mem::replace(&mut self.is_attached[env], false);
        if was_attached {
            self.model.free_locals(env);
        }
        if was_attached && !self.is_released {
            self.free.push(env);
        }
        let is_last = self.is_released && !self.is_attached.contains(&true);
        let wanted = match was_attached {
            true => Ok(is_last.then(|| self.model.stood())),
            false => Err(Fault::new(21, 0)),
        };
        assert_eq!(found, wanted, "a detach of thread {env}");
        self.calls += 1;
    }

    fn step(&mut self) {
        let what = self.input.byte();
        let env = usize::from(what / 32) % self.envs.len();
        match what % 32 {
            0..5 => self.new_object(env),
            5..11 => self.new_reference(env),
            11..15 => self.delete_reference(env),
            15 => self.look_at_reference(env),
            16 => self.compare(env),
            17..20 => self.frames(env),
            20 | 21 => self.length(env),
            22..25 => self.element(env),
            25 => self.part(env),
            26 => self.region(env),
            27 => self.batch(env),
            28 | 29 => self.collect(env),
            30 => self.attach(),
            _ => match self.input.byte() {
                0..16 => self.detach(env),
                16..24 => self.release(),
                24..128 => self.dump(env),
                _ => self.collect_listing(env),
            },
        }
    }
}

/// The sizes that the bytes say. Some are beyond the limits.
fn sizes(input: &mut Input) -> Sizes {
    Sizes {
        threads: u32::from(input.byte() % 32).min(3),
        slots: u32::from(input.byte() % 64).min(6),
        objects: u32::from(input.byte() % 64).min(9),
        words: u32::from(input.byte() % 48),
        locals: 16 + u32::from(input.byte() % 3) - u32::from(input.byte() == 255),
    }
}

/// What was met: calls, and refusals by number.
#[derive(Default, Clone, Copy)]
struct Met {
    calls: u64,
    refusals: [u64; 24],
}

fn run(bytes: &[u8]) -> Met {
    let mut input = Input(bytes);
    let sizes = sizes(&mut input);
    let is_in_limits =
        sizes.threads > 0 && sizes.slots > 0 && sizes.objects > 0 && sizes.locals > 15;
    let room = match Room::open(sizes) {
        Ok(room) if is_in_limits => room,
        Err(Fault { number: 17, .. }) if !is_in_limits => return Met::default(),
        it => panic!("an open answered {:?}", it.err()),
    };
    let mut envs: Vec<Env> = (0..sizes.threads).map(|_| room.attach().unwrap()).collect();
    // A room hands the env of its last thread out first.
    envs.reverse();
    let mut case = Case {
        input,
        room,
        is_attached: vec![true; envs.len()],
        envs,
        is_released: false,
        model: Model::new(sizes),
        words: vec![],
        free: vec![],
        calls: 0,
        refusals: [0; 24],
    };
    while !case.input.0.is_empty() {
        case.step();
    }
    case.release();
    for env in 0..case.envs.len() {
        if case.is_attached[env] {
            case.detach(env);
        }
    }
    Met {
        calls: case.calls,
        refusals: case.refusals,
    }
}

#[unsafe(no_mangle)]
pub unsafe extern "C" fn LLVMFuzzerTestOneInput(data: *const u8, size: usize) -> i32 {
    if size > 0 {
        run(unsafe { std::slice::from_raw_parts(data, size) });
    }
    0
}

/// Draws bytes from a seed.
fn drawn(seed: u64) -> Vec<u8> {
    let mut state = seed.wrapping_mul(0x9e37_79b9_7f4a_7c15) | 1;
    let mut next = || {
        state ^= state << 13;
        state ^= state >> 7;
        state ^= state << 17;
        (state >> 24) as u8
    };
    let length = 16 + 4 * usize::from(next());
    (0..length).map(|_| next()).collect()
}

fn main() {
    let words: Vec<u64> = std::env::args()
        .skip(1)
        .map(|it| it.parse().unwrap())
        .collect();
    let (runs, first) = (words[0], words.get(1).copied().unwrap_or(1));
    let mut met = Met::default();
    for seed in first..first + runs {
        let bytes = drawn(seed);
        let Ok(more) = std::panic::catch_unwind(|| run(&bytes)) else {
            println!(
                "seed {seed}: not as the model says, run {}",
                seed - first + 1
            );
            std::process::exit(1);
        };
        met.calls += more.calls;
        for (all, more) in met.refusals.iter_mut().zip(more.refusals) {
            *all += more;
        }
    }
    let refusals: Vec<String> = (1..24)
        .filter(|it| met.refusals[*it] > 0)
        .map(|it| format!("E{it} {}", met.refusals[it]))
        .collect();
    println!(
        "{runs} runs, of {} calls, from seed {first}: as the model says; refused {}",
        met.calls,
        refusals.join(", ")
    );
}
