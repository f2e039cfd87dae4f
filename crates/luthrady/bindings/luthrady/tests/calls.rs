//! What the crate adds to the functions: refusals as errors, envs that detach, and rooms that are released.

use luthrady::{
    Answer, BatchCall, Element, Env, Fault, Mode, Object, Operation, Room, Rows, Sizes, Slot,
};
use std::error::Error;
use std::thread;

const SIZES: Sizes = Sizes {
    threads: 2,
    slots: 4,
    objects: 4,
    words: 8,
    locals: 16,
};

#[test]
fn a_refusal_is_an_error_with_text_and_numbers() -> Result<(), Box<dyn Error>> {
    let room = Room::open(SIZES)?;
    let mut env = room.attach()?;
    env.new_array::<i32>(3)?;
    let full = env.new_array::<i64>(6).unwrap_err();
    assert_eq!(full, Fault::new(10, 3));
    assert_eq!(
        full.to_string(),
        "E10: the request doesn't fit beside the words in use (3)"
    );
    let stale: Box<dyn Error> = Box::new(env.length(7).unwrap_err());
    assert_eq!(
        stale.to_string(),
        "E2: no reference of this word stands, or no level of this number"
    );
    Ok(())
}

#[test]
fn elements_come_back_and_a_refused_read_leaves_the_slice() -> Answer<()> {
    let room = Room::open(SIZES)?;
    let mut env = room.attach()?;
    let array = env.new_array::<i8>(4)?;
    env.set(array, 1, &[-7i8, 9])?;
    let mut read = [1i8; 4];
    env.get(array, 0, &mut read)?;
    assert_eq!(read, [0, -7, 9, 0]);
    let mut part = [5i8; 2];
    assert_eq!(env.get(array, 3, &mut part), Err(Fault::new(7, 0)));
    assert_eq!(part, [5, 5]);
    Ok(())
}

fn comes_back<E: Element + Default + PartialEq + std::fmt::Debug>(value: E) -> Answer<()> {
    let room = Room::open(SIZES)?;
    let mut env = room.attach()?;
    let array = env.new_array::<E>(2)?;
    env.set(array, 1, &[value])?;
    let mut copy = [value; 2];
    env.get_all(array, &mut copy)?;
    assert_eq!(copy, [E::default(), value]);
    assert_eq!(env.get_all(array, &mut copy[..1]), Err(Fault::new(7, 0)));
    copy[0] = value;
    env.release(array, &copy, Mode::Abort)?;
    let mut first = [value];
    env.get(array, 0, &mut first)?;
    assert_eq!(first, [E::default()]);
    env.release(array, &copy, Mode::Commit)?;
    env.get(array, 0, &mut first)?;
    assert_eq!(first, [value]);
    Ok(())
}

#[test]
fn elements_of_each_kind_come_back() -> Answer<()> {
    comes_back(true)?;
    comes_back(i8::MIN)?;
    comes_back(u16::MAX)?;
    comes_back(i16::MIN)?;
    comes_back(i32::MIN)?;
    comes_back(i64::MIN)
}

#[test]
fn a_copy_of_other_elements_is_refused_before_one_of_another_number() -> Answer<()> {
    let room = Room::open(SIZES)?;
    let mut env = room.attach()?;
    let array = env.new_array::<i32>(2)?;
    let mut bytes = [9i8; 3];
    assert_eq!(env.get_all(array, &mut bytes), Err(Fault::new(6, 0)));
    assert_eq!(bytes, [9; 3]);
    let string = env.new_string(&[7])?;
    assert_eq!(env.get_all(string, &mut bytes), Err(Fault::new(5, 0)));
    assert_eq!(
        env.release(array, &[1i32], Mode::Copy),
        Err(Fault::new(7, 0))
    );
    Ok(())
}

#[test]
fn a_string_is_read_in_parts_and_as_a_text() -> Answer<()> {
    let room = Room::open(SIZES)?;
    let mut env = room.attach()?;
    let string = env.new_text("a\u{1f40c}")?;
    assert_eq!(env.string_length(string), Ok(3));
    let mut units = [0; 2];
    env.units(string, 1, &mut units)?;
    assert_eq!(units, [0xd83d, 0xdc0c]);
    assert_eq!(env.units(string, 2, &mut units), Err(Fault::new(7, 0)));
    assert_eq!(units, [0xd83d, 0xdc0c]);
    let mut bytes = [9; 6];
    assert_eq!(env.text(string, &mut bytes[..4]), Ok(5));
    assert_eq!(bytes, [9; 6]);
    assert_eq!(env.text(string, &mut bytes), Ok(5));
    assert_eq!(&bytes[..], b"a\xf0\x9f\x90\x8c\t");
    let broken = env.new_string(&[0xd83d])?;
    assert_eq!(env.text(broken, &mut bytes), Err(Fault::new(18, 0)));
    Ok(())
}

#[test]
fn a_batch_answers_each_call() -> Answer<()> {
    let room = Room::open(SIZES)?;
    let mut env = room.attach()?;
    let object = env.new_plain()?;
    let mut calls = [
        BatchCall::new(Operation::GetObjectRefType, object, 0, 0),
        BatchCall::new(Operation::IsSameObject, object, 0, 0),
        BatchCall::new(Operation::GetArrayLength, object, 0, 0),
    ];
    env.batch(&mut calls)?;
    assert_eq!(
        calls.map(|it| it.answer()),
        [Ok(1), Ok(0), Err(Fault::new(5, 0))]
    );
    Ok(())
}

#[test]
fn what_went_is_listed_as_far_as_there_is_room() -> Answer<()> {
    let room = Room::open(SIZES)?;
    let mut env = room.attach()?;
    let (first, second) = (env.new_plain()?, env.new_plain()?);
    let weaks = [env.weak(first)?, env.weak(second)?];
    assert_eq!(env.collect_in_turn(1, 0)?.cleared, 0);
    env.delete_local(first)?;
    env.delete_local(second)?;
    let (mut references, mut identities) = ([0; 1], [0; 3]);
    let counts = env.collect_listing((1, 0), &mut references, &mut identities)?;
    assert_eq!((counts.cleared, counts.dropped), (2, 2));
    assert!(weaks.contains(&references[0]));
    assert!(identities[0] != 0 && identities[1] != 0 && identities[2] == 0);
    Ok(())
}

#[test]
fn a_dump_has_what_stands() -> Answer<()> {
    let room = Room::open(SIZES)?;
    let mut env = room.attach()?;
    let array = env.new_array::<i32>(2)?;
    env.set(array, 1, &[5])?;
    env.global(array)?;
    let (mut slots, mut objects) = ([Slot::default(); 4], [Object::default(); 4]);
    let (mut locals, mut words) = ([0; 32], [0; 8]);
    env.dump(Rows {
        slots: &mut slots,
        locals: &mut locals,
        objects: &mut objects,
        words: &mut words,
    })?;
    let kept = slots.iter().find(|it| it.state == 2).expect("it stands");
    let object = objects[kept.object as usize - 1];
    let place = object.place as usize;
    assert_eq!((object.kind, object.length), (6, 2));
    assert_eq!(words[place..place + 2], [0, 5]);
    assert_eq!(locals.iter().filter(|&&it| it != 0).count(), 1);
    env.dump_announced(1, Rows::default())
}

#[test]
fn a_dropped_env_is_detached_and_the_last_one_closes_the_room() -> Answer<()> {
    let room = Room::open(SIZES)?;
    let mut first = room.attach()?;
    let mut second = room.attach()?;
    assert_eq!(room.attach().unwrap_err(), Fault::new(21, 0));
    room.release();
    let object = second.new_plain()?;
    let global = second.global(object)?;
    let other = thread::spawn(move || -> Answer<u64> { first.ref_type(global) });
    assert_eq!(other.join().unwrap()?, 2);
    let stood = second.detach()?.expect("it is the last one");
    assert_eq!((stood.globals, stood.live), (1, 1));
    assert_eq!(second.new_plain(), Err(Fault::new(21, 0)));
    assert_eq!(second.detach().unwrap_err(), Fault::new(21, 0));
    Ok(())
}

#[test]
fn a_room_of_two_serves_many_threads_one_after_the_other() -> Answer<()> {
    let room = Room::open(SIZES)?;
    for _ in 0..1000 {
        let mut env = room.attach()?;
        env.collect()?;
        let left = env.new_plain()?;
        assert_eq!(env.ref_type(left), Ok(1));
    }
    let mut env = room.attach()?;
    assert_eq!(env.collect()?.dropped, 1);
    Ok(())
}

#[test]
fn sizes_outside_are_refused() {
    let sizes = Sizes {
        threads: 65,
        ..SIZES
    };
    assert_eq!(Room::open(sizes).unwrap_err(), Fault::new(17, 0));
}

#[test]
fn an_env_and_a_room_may_go_to_another_thread() {
    fn crosses<T: Send>() {}
    crosses::<Env>();
    crosses::<Room>();
}

#[test]
fn a_region_has_levels_and_ends_with_the_last() -> Answer<()> {
    let room = Room::open(SIZES)?;
    let mut env = room.attach()?;
    let array = env.new_array::<i16>(3)?;
    let string = env.new_string(&[7, 8])?;
    let mut region = env.array_critical(array)?;
    assert_eq!(region.nest_string(string), Ok(1));
    region.set(0, 1, &[-5i16, i16::MIN])?;
    region.set_element(0, 0, -1i16)?;
    let mut read = [0i16; 3];
    region.get(0, 0, &mut read)?;
    assert_eq!(read, [-1, -5, i16::MIN]);
    assert_eq!(region.element::<i16>(0, 2), Ok(i16::MIN));
    assert_eq!(region.element::<u16>(1, 1), Ok(8));
    assert_eq!(region.set_element(1, 1, 9u16), Err(Fault::new(5, 0)));
    assert_eq!(region.element::<i32>(0, 0), Err(Fault::new(6, 0)));
    assert_eq!(region.element::<i16>(0, 3), Err(Fault::new(7, 0)));
    assert_eq!(region.length(1), Ok(2));
    assert_eq!(region.length(2), Err(Fault::new(2, 0)));
    let region = region.release()?.expect("one level is left");
    assert!(region.release()?.is_none());
    env.get(array, 0, &mut read)?;
    assert_eq!(read, [-1, -5, i16::MIN]);
    Ok(())
}

#[test]
fn a_region_that_is_dropped_lets_others_collect() -> Answer<()> {
    let room = Room::open(SIZES)?;
    let mut env = room.attach()?;
    let mut other = room.attach()?;
    let array = env.new_array::<bool>(2)?;
    let mut region = env.array_critical(array)?;
    region.nest_array(array)?;
    assert_eq!(other.collect().unwrap_err(), Fault::new(14, 1));
    drop(region);
    other.collect()?;
    env.length(array)?;
    Ok(())
}
