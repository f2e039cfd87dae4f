//! What a call takes from Rust, through the static library, beside the same call of the floor: one thread, both in one process, in turn.
//!
//! `bench [ROUNDS]`. The floor is `bench/floor.rs`. Its cases have the numbers that it gives them, and what they are handed.
#[allow(dead_code)]
#[path = "../bench/floor.rs"]
mod floor;

use luthrady::{Answer, BatchCall, Env, Operation, Room, Sizes};
use std::time::Instant;

const CALLS: u32 = 1_000;
/// The last case of `floor` with calls of their own that the static library has, too.
const LAST: usize = 22;
/// The first of its cases in stays of sixteen calls, and what is made in a batch for each: the case, and the call.
const STAYS: usize = 31;
const OF_STAYS: [(usize, Operation); 8] = [
    (0, Operation::GetObjectRefType),
    (2, Operation::NewGlobalRef),
    (3, Operation::DeleteGlobalRef),
    (6, Operation::NewLocalRef),
    (7, Operation::DeleteLocalRef),
    (8, Operation::IsSameObject),
    (9, Operation::GetObjectRefType),
    (13, Operation::GetArrayLength),
];
const CALLS_OF_STAY: usize = 16;
const LONG: u32 = 4_096;
/// As many as the floor's room has.
const SIZES: Sizes = Sizes {
    threads: 1,
    slots: 65_536,
    objects: 65_535,
    words: 131_072,
    locals: 4_096,
};

// Each call is a function of its own and no part of the loop that makes it, as in the floor. It says whether it answered as it should.
macro_rules! calls {
    ($($name:ident: |$env:ident, $first:ident, $handle:ident| $right:expr;)*) => {
        $(#[inline(never)]
        fn $name($env: &mut Env, $first: u64, $handle: u64) -> bool {
            let _ = ($first, $handle);
            $right
        })*
    };
}

fn is_made(answer: Answer<u64>) -> bool {
    answer.is_ok_and(|it| it != 0)
}

fn frame_of_four(env: &mut Env, handle: u64) -> bool {
    env.push_frame(16).is_ok()
        && (0..4).all(|_| is_made(env.local(handle)))
        && env
            .pop_frame(handle)
            .is_ok_and(|it| env.delete_local(it).is_ok())
}

calls! {
    type_of_null: |env, first, handle| env.ref_type(handle) == Ok(0);
    new_plain: |env, first, handle| is_made(env.new_plain());
    new_global: |env, first, handle| is_made(env.global(handle));
    delete_global: |env, first, handle| env.delete_global(handle).is_ok();
    new_weak: |env, first, handle| is_made(env.weak(handle));
    delete_weak: |env, first, handle| env.delete_weak(handle).is_ok();
    new_local: |env, first, handle| is_made(env.local(handle));
    delete_local: |env, first, handle| env.delete_local(handle).is_ok();
    is_same: |env, first, handle| env.same(first, handle) == Ok(true);
    type_of_global: |env, first, handle| env.ref_type(handle) == Ok(2);
    empty_frame: |env, first, handle| env.ensure(16).is_ok() && env.push_frame(16).is_ok() && env.pop_frame(0) == Ok(0);
    four: |env, first, handle| frame_of_four(env, handle);
    free_one: |env, first, handle| is_made(env.local(handle)) && env.free_locals().is_ok();
    array_length: |env, first, handle| env.length(handle) == Ok(LONG);
    new_array: |env, first, handle| is_made(env.new_array::<i32>(16));
    get_element: |env, first, handle| is_made(env.element(handle, 0));
    set_element: |env, first, handle| env.set_element(handle, 0, handle).is_ok();
}

#[inline(never)]
fn get_region(env: &mut Env, handle: u64, elements: &mut [i32]) -> bool {
    env.get(handle, 0, elements).is_ok()
}

#[inline(never)]
fn set_region(env: &mut Env, handle: u64, elements: &[i32]) -> bool {
    env.set(handle, 0, elements).is_ok()
}

fn region_each(env: &mut Env, handed: &[u64], length: usize, is_out: bool) -> usize {
    let mut elements = [0; LONG as usize];
    let part = &mut elements[..length];
    let mut right = 0;
    for handle in handed {
        let is_right = if is_out {
            get_region(env, *handle, part)
        } else {
            set_region(env, *handle, part)
        };
        right += usize::from(is_right);
    }
    right
}

#[inline(always)]
fn make_each(env: &mut Env, handed: &[u64], call: impl Fn(&mut Env, u64, u64) -> bool) -> usize {
    handed
        .iter()
        .filter(|handle| call(env, handed[0], **handle))
        .count()
}

/// Makes a call with each of the handles, in batches.
fn batch_each(env: &mut Env, handed: &[u64], operation: Operation) -> usize {
    let mut right = 0;
    for part in handed.chunks(CALLS_OF_STAY) {
        let mut calls = [BatchCall::new(operation, 0, 0, 0); CALLS_OF_STAY];
        for (call, handle) in calls.iter_mut().zip(part) {
            *call = BatchCall::new(operation, *handle, handed[0], 0);
        }
        let calls = &mut calls[..part.len()];
        if env.batch(calls).is_ok() {
            right += calls.iter().filter(|it| it.answer().is_ok()).count();
        }
    }
    right
}

/// Makes the call with each of the handles: how often it answered as it should.
#[inline(never)]
fn make_all(case: usize, env: &mut Env, handed: &[u64]) -> usize {
    match case {
        STAYS.. => batch_each(env, handed, OF_STAYS[case - STAYS].1),
        0 => make_each(env, handed, type_of_null),
        1 => make_each(env, handed, new_plain),
        2 => make_each(env, handed, new_global),
        3 => make_each(env, handed, delete_global),
        4 => make_each(env, handed, new_weak),
        5 => make_each(env, handed, delete_weak),
        6 => make_each(env, handed, new_local),
        7 => make_each(env, handed, delete_local),
        8 => make_each(env, handed, is_same),
        9 => make_each(env, handed, type_of_global),
        10 => make_each(env, handed, empty_frame),
        11 => make_each(env, handed, four),
        12 => make_each(env, handed, free_one),
        13 => make_each(env, handed, array_length),
        14 => region_each(env, handed, 1, true),
        15 => region_each(env, handed, 64, true),
        16 => region_each(env, handed, LONG as usize, true),
        17 => region_each(env, handed, 1, false),
        18 => region_each(env, handed, 64, false),
        19 => region_each(env, handed, LONG as usize, false),
        20 => make_each(env, handed, new_array),
        21 => make_each(env, handed, get_element),
        _ => make_each(env, handed, set_element),
    }
}

/// What each of so many calls is handed, in order.
fn handed(case: usize, env: &mut Env, calls: u32) -> Answer<Vec<u64>> {
    let case = if case < STAYS {
        case
    } else {
        OF_STAYS[case - STAYS].0
    };
    let local = env.new_plain()?;
    let array = match case {
        13..=19 => env.new_array::<i32>(LONG)?,
        21 | 22 => env.new_objects(1, local)?,
        _ => local,
    };
    let global = env.global(array)?;
    let handle = |env: &mut Env| match case {
        0 | 1 | 10 | 20 => Ok(0),
        2 | 4 => Ok(local),
        3 => env.global(local),
        5 => env.weak(local),
        7 => env.local(global),
        _ => Ok(global),
    };
    (0..calls).map(|_| handle(env)).collect()
}

fn calls_of(case: usize) -> u32 {
    if matches!(case, 16 | 19) {
        CALLS / 10
    } else {
        CALLS
    }
}

/// The nanoseconds of a call of the library, in a room of its own.
fn time_of_library(case: usize) -> f64 {
    let room = Room::open(SIZES).unwrap();
    let mut env = room.attach().unwrap();
    room.release();
    let handed = handed(case, &mut env, calls_of(case)).unwrap();
    let began = Instant::now();
    let right = make_all(case, &mut env, &handed);
    let took = began.elapsed();
    assert_eq!(right, handed.len());
    env.detach().unwrap();
    took.as_nanos() as f64 / handed.len() as f64
}

/// The same of the floor.
fn time_of_floor(case: usize) -> f64 {
    let room = floor::Room::new(1);
    let mut env = floor::Env::new(&room, 0);
    let handed = floor::handed(case, &mut env, calls_of(case));
    let began = Instant::now();
    let right = floor::make_all(case, &mut env, &handed);
    let took = began.elapsed();
    assert_eq!(right, handed.len());
    took.as_nanos() as f64 / handed.len() as f64
}

fn main() {
    let rounds: usize = std::env::args()
        .nth(1)
        .map_or(101, |it| it.parse().unwrap());
    println!("| call | floor, ns | from Rust, ns | ratio |\n|---|---|---|---|");
    let cases = floor::CASES.iter().enumerate();
    for (case, name) in cases.filter(|(it, _)| *it <= LAST || *it >= STAYS) {
        let (mut floor, mut ours) = (vec![], vec![]);
        for _ in 0..rounds {
            floor.push(time_of_floor(case));
            ours.push(time_of_library(case));
        }
        floor.sort_by(f64::total_cmp);
        ours.sort_by(f64::total_cmp);
        let (floor_median, our_median) = (floor[rounds / 2], ours[rounds / 2]);
        println!(
            "| {name} | {floor_median:.1} | {our_median:.1} | {:.2} ({:.2}) |",
            our_median / floor_median,
            ours[0] / floor[0]
        );
    }
}
