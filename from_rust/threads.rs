//! Four native threads hand each other global references in a ring, while each collects now and then. Each knows what it must find.

use luthrady::{Answer, Counts, Env, Fault, Room, Sizes, Stood};
use std::sync::Arc;
use std::sync::atomic::Ordering::SeqCst;
use std::sync::atomic::{AtomicBool, AtomicI32, AtomicU64};
use std::thread;

const THREADS: u32 = 4;

/// How many arrays a thread makes in a round beside the one that it hands on.
const OWN: u64 = 16;

/// Whether a thread detaches. One does at a time: ThreadSanitizer doesn't see the order that a room's lock gives to threads that wait for it, since the
/// standard library is compiled without its looks.
static DETACHES: AtomicBool = AtomicBool::new(false);

/// A place where one thread leaves a reference for the next, with the number that its array begins with.
#[derive(Default)]
struct Mail {
    word: AtomicU64,
    base: AtomicI32,
}

impl Mail {
    fn send(&self, word: u64, base: i32) {
        while self.word.load(SeqCst) != 0 {
            thread::yield_now();
        }
        self.base.store(base, SeqCst);
        self.word.store(word, SeqCst);
    }

    fn take(&self) -> (u64, i32) {
        loop {
            let word = self.word.load(SeqCst);
            if word != 0 {
                let base = self.base.load(SeqCst);
                self.word.store(0, SeqCst);
                return (word, base);
            }
            thread::yield_now();
        }
    }
}

/// What a thread met.
#[derive(Default, Debug, Clone, Copy)]
struct Tally {
    again: u64,
    full: u64,
    collections: u64,
    dropped: u64,
    sum: i64,
    closed: Option<Stood>,
}

impl Tally {
    fn collected(&mut self, counts: Counts) {
        self.collections += 1;
        self.dropped += u64::from(counts.dropped);
    }
}

/// A thread, with its env.
struct Native {
    env: Env,
    tally: Tally,
}

impl Native {
    /// Makes a call again while it is raced, barred or kept out, and behind a collection where room is short.
    fn again<T>(&mut self, mut call: impl FnMut(&mut Env) -> Answer<T>) -> T {
        loop {
            match call(&mut self.env) {
                Ok(answer) => return answer,
                Err(Fault {
                    number: 12 | 13 | 14 | 23,
                    ..
                }) => self.tally.again += 1,
                Err(Fault {
                    number: 10 | 11, ..
                }) => self.make_room(),
                Err(fault) => panic!("refused: {fault:?}"),
            }
            thread::yield_now();
        }
    }

    fn make_room(&mut self) {
        self.tally.full += 1;
        if let Ok(counts) = self.env.collect() {
            self.tally.collected(counts);
        }
    }

    /// An array of these elements, as a local reference.
    fn array(&mut self, elements: &[i32]) -> u64 {
        let array = self.again(|env| env.new_array::<i32>(elements.len() as u32));
        self.again(|env| env.set(array, 0, elements));
        array
    }

    /// Makes and reads an array that no other thread sees.
    fn work(&mut self, own: i32, round: i32) {
        let array = self.array(&[own, round, -round]);
        let mut found = [0; 3];
        self.again(|env| env.get(array, 0, &mut found));
        assert_eq!(found, [own, round, -round]);
        self.again(|env| env.delete_local(array));
    }

    /// Reads what another thread handed over, and deletes it.
    fn read(&mut self, theirs: u64, base: i32) {
        let mut found = [0; 5];
        self.again(|env| env.get(theirs, 0, &mut found));
        assert_eq!(found, [base, -base, 3 * base, i32::MIN, i32::MAX]);
        assert_eq!(self.again(|env| env.length(theirs)), 5);
        assert_eq!(self.again(|env| env.ref_type(theirs)), 2);
        self.tally.sum += i64::from(found[0]);
        self.again(|env| env.delete_global(theirs));
        // A deleted handle is no reference, whoever was given its slot meanwhile.
        assert_eq!(self.again(|env| env.ref_type(theirs)), 0);
    }

    fn round(&mut self, base: i32, round: i32, to: &Mail, from: &Mail) {
        let array = self.array(&[base, -base, 3 * base, i32::MIN, i32::MAX]);
        let weak = self.again(|env| env.weak(array));
        let global = self.again(|env| env.global(array));
        self.again(|env| env.delete_local(array));
        for own in 0..OWN as i32 {
            self.work(own, round);
        }
        to.send(global, base);
        let (theirs, base) = from.take();
        self.read(theirs, base);
        if round % 64 == 0 {
            let counts = self.again(|env| env.collect_announced(1_000));
            self.tally.collected(counts);
        }
        assert_eq!(self.again(|env| env.ref_type(weak)), 3);
        self.again(|env| env.delete_weak(weak));
    }
}

fn run(number: u32, env: Env, to: &Mail, from: &Mail, rounds: i32) -> Tally {
    let mut native = Native {
        env,
        tally: Tally::default(),
    };
    for round in 0..rounds {
        native.round(number as i32 * 1_000_000 + round, round, to, from);
    }
    while DETACHES.swap(true, SeqCst) {
        thread::yield_now();
    }
    let closed = native.again(Env::detach);
    let Native { env, tally } = native;
    // (it detaches once more, which is refused)
    drop(env);
    DETACHES.store(false, SeqCst);
    Tally { closed, ..tally }
}

/// A room that was released, and its envs.
fn opened() -> (Room, Vec<Env>) {
    let sizes = Sizes {
        threads: THREADS,
        slots: 64,
        objects: 256,
        words: 2_048,
        locals: 16,
    };
    assert_eq!(
        Room::open(Sizes {
            threads: 65,
            ..sizes
        })
        .err(),
        Some(Fault::new(17, 0))
    );
    let room = Room::open(sizes).unwrap();
    let envs = (0..THREADS).map(|_| room.attach().unwrap()).collect();
    assert_eq!(room.attach().err(), Some(Fault::new(21, 0)));
    room.release();
    (room, envs)
}

fn main() {
    let rounds: i32 = std::env::args()
        .nth(1)
        .map_or(1_000, |it| it.parse().unwrap());
    let mail: Arc<Vec<Mail>> = Arc::new((0..THREADS).map(|_| Mail::default()).collect());
    // It outlives the threads: ThreadSanitizer doesn't see the fence by which the last `Arc` is dropped.
    let (_room, envs) = opened();
    let starts = envs.into_iter().enumerate().map(|(number, env)| {
        let mail = Arc::clone(&mail);
        let next = (number + 1) % THREADS as usize;
        thread::spawn(move || run(number as u32, env, &mail[next], &mail[number], rounds))
    });
    let joins: Vec<_> = starts.collect();
    let tallies: Vec<Tally> = joins.into_iter().map(|it| it.join().unwrap()).collect();
    for (number, tally) in tallies.iter().enumerate() {
        eprintln!("thread {number}: {tally:?}");
    }
    // Just one thread closes the room.
    let closed: Vec<Stood> = tallies.iter().filter_map(|it| it.closed).collect();
    assert_eq!(closed.len(), 1);
    assert_eq!((closed[0].globals, closed[0].weaks), (0, 0));
    // Each array was dropped by a collection, or stood at the close.
    let dropped: u64 = tallies.iter().map(|it| it.dropped).sum();
    assert_eq!(
        dropped + u64::from(closed[0].live),
        (OWN + 1) * u64::from(THREADS) * rounds as u64
    );
    let (rounds, threads) = (i64::from(rounds), i64::from(THREADS));
    let wanted =
        1_000_000 * rounds * threads * (threads - 1) / 2 + threads * rounds * (rounds - 1) / 2;
    assert_eq!(tallies.iter().map(|it| it.sum).sum::<i64>(), wanted);
    println!("sum {wanted}, as it must be");
}
