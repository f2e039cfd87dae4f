//! What is done in a critical region, beside what the model says of it.
use crate::model::{LevelPart, Model, Sort};
use luthrady::{Answer, Element, Env, Fault, Region};
use std::fmt::Debug;

/// An element that the bytes can say, and its sort.
pub trait Drawn: Element + Debug + PartialEq {
    const SORT: Sort;
    fn of(word: u64) -> Self;
    fn word(self) -> i64;
}

macro_rules! drawn {
    ($element:ty, $sort:expr) => {
        impl Drawn for $element {
            const SORT: Sort = $sort;

            fn of(word: u64) -> Self {
                word as Self
            }

            fn word(self) -> i64 {
                i64::from(self)
            }
        }
    };
}

drawn!(i8, Sort::Bytes);
drawn!(i32, Sort::Ints);
drawn!(i64, Sort::Longs);
drawn!(u16, Sort::Text);

/// An env, and another one if there is one, with its thread.
pub fn two(envs: &mut [Env], one: usize) -> (&mut Env, Option<(usize, &mut Env)>) {
    let (before, rest) = envs.split_at_mut(one);
    let (own, behind) = rest.split_first_mut().unwrap();
    let first = before.first_mut().map(|it| (0, it));
    (own, first.or(behind.first_mut().map(|it| (one + 1, it))))
}

/// What is done in a critical region.
pub enum Inside {
    NestArray(u64),
    NestString(u64),
    Length(u32),
    Read(u8, LevelPart),
    Write(u8, LevelPart, u64),
    /// Another thread collects.
    Collect,
    Release,
}

/// What is wanted, and what was found.
pub type Compared = (Answer<Vec<i64>>, Answer<Vec<i64>>);

/// A critical region, and the numbers of the objects that its levels are over.
pub struct Levels<'e> {
    pub region: Region<'e>,
    pub of: Vec<usize>,
}

impl Levels<'_> {
    fn nest(&mut self, thread: usize, model: &Model, word: u64, is_string: bool) -> Compared {
        let wanted = model.level(thread, word, is_string, self.of.len());
        let found = match is_string {
            true => self.region.nest_string(word),
            false => self.region.nest_array(word),
        };
        let level = self.of.len() as i64;
        self.of.extend(wanted.ok());
        (wanted.map(|_| vec![level]), found.map(|it| vec![it.into()]))
    }

    fn length(&mut self, model: &Model, level: u32) -> Compared {
        let wanted = model.level_length(&self.of, level);
        let found = self.region.length(level);
        (
            wanted.map(|it| vec![it as i64]),
            found.map(|it| vec![it.into()]),
        )
    }

    fn read<E: Drawn>(&mut self, model: &mut Model, at: LevelPart) -> Compared {
        let wanted = model.level_part(&self.of, at, E::SORT, false);
        let mut read: Vec<E> = vec![E::of(0x77); at.count];
        let found = match at.count {
            1 => self
                .region
                .element(at.level, at.start)
                .map(|it| read[0] = it),
            _ => self.region.get(at.level, at.start, &mut read),
        };
        if found.is_err() {
            assert!(read.iter().all(|it| *it == E::of(0x77)), "a refusal wrote");
        }
        (
            wanted.map(|it| it.to_vec()),
            found.map(|()| read.into_iter().map(E::word).collect()),
        )
    }

    fn write<E: Drawn>(&mut self, model: &mut Model, at: LevelPart, byte: u64) -> Compared {
        let written: Vec<E> = elements(at.count, byte);
        let words = written.iter().map(|it| it.word());
        let wanted = model
            .level_part(&self.of, at, E::SORT, true)
            .map(|part| part.iter_mut().zip(words).for_each(|(to, it)| *to = it));
        let found = match at.count {
            1 => self.region.set_element(at.level, at.start, written[0]),
            _ => self.region.set(at.level, at.start, &written),
        };
        (wanted.map(|()| vec![]), found.map(|()| vec![]))
    }
}

/// So many elements that a byte says.
pub fn elements<E: Drawn>(count: usize, byte: u64) -> Vec<E> {
    let word = |at: usize| byte.wrapping_mul(0x0101_0101_0101_0101 << at);
    (0..count).map(|at| E::of(word(at))).collect()
}

/// Does what was asked in a region, until it is released. Another thread that is attached can't collect meanwhile.
pub fn act(
    thread: usize,
    mut levels: Levels<'_>,
    model: &mut Model,
    mut other: Option<(bool, &mut Env)>,
    asked: Vec<Inside>,
    told: &mut Vec<Compared>,
) {
    for it in asked {
        let compared = match it {
            Inside::NestArray(word) => levels.nest(thread, model, word, false),
            Inside::NestString(word) => levels.nest(thread, model, word, true),
            Inside::Length(level) => levels.length(model, level),
            Inside::Read(0, at) => levels.read::<i8>(model, at),
            Inside::Read(1, at) => levels.read::<i32>(model, at),
            Inside::Read(2, at) => levels.read::<i64>(model, at),
            Inside::Read(_, at) => levels.read::<u16>(model, at),
            Inside::Write(0, at, byte) => levels.write::<i8>(model, at, byte),
            Inside::Write(1, at, byte) => levels.write::<i32>(model, at, byte),
            Inside::Write(2, at, byte) => levels.write::<i64>(model, at, byte),
            Inside::Write(_, at, byte) => levels.write::<u16>(model, at, byte),
            Inside::Collect => match &mut other {
                Some((true, env)) => (Err(Fault::new(14, 1)), env.collect().map(|_| vec![])),
                Some((false, env)) => (Err(Fault::new(21, 0)), env.collect().map(|_| vec![])),
                None => continue,
            },
            Inside::Release => {
                levels.of.pop();
                match levels.region.release().expect("a level stands") {
                    Some(region) => levels.region = region,
                    None => return assert!(levels.of.is_empty(), "the last level"),
                }
                assert!(!levels.of.is_empty(), "a level is left");
                continue;
            }
        };
        told.push(compared);
    }
}
