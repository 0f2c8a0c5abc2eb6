//! Makes runs up from a seed.

use crate::random::Random;
use crate::run::{Item, Load, Making, Pick, Run, Words};

const NAMES: [&str; 12] =
    ["a", "B", "7", "ny", "lon", "par", "Tok1", "osaka", "zurich", "geneva9", "kolkata0", "A1b2C3d4"];

/// What the picks of a run are.
#[derive(Clone, Copy, PartialEq)]
enum Profile {
    Balancer,
    Cache,
    Both,
}

pub fn run(random: &mut Random) -> Run {
    let profile = match random.below(100) {
        0..=79 => Profile::Balancer,
        80..=91 => Profile::Cache,
        _ => Profile::Both,
    };
    let paced = random.percent(30);
    let names = 1 + random.below(NAMES.len() as u64) as usize;
    let (mut feed, mut picks) = (Vec::new(), Vec::new());
    if profile != Profile::Cache {
        if random.percent(50) {
            for _ in 0..2 + random.below(8) {
                feed.push(Item::Insert(name(random, NAMES.len()), making(random, paced)));
            }
        }
        let most = if random.percent(10) { 60 } else { 16 };
        for _ in 0..random.below(most) {
            feed.push(item(random, paced, names));
        }
    }
    let (serial, ticket) = (first(random), first(random));
    let mut clock = Clock { at: *random.of(&[0, 1, 1_000_000_000]), back: random.percent(20), polled: false, sent: 0 };
    let mut calls = 0;
    let most = if random.percent(20) { 60 } else { 20 };
    for _ in 0..3 + random.below(most) {
        picks.push(pick(random, profile, paced, names, &mut clock, ticket, &mut calls));
    }
    let pushes = picks.iter().filter(|p| matches!(p, Pick::Push(..))).count();
    let inserts = feed.iter().filter(|i| matches!(i, Item::Insert(..))).count();
    Run {
        load: load(random),
        paced,
        words: words(random),
        budget: 1 + feed.len() as u32 + random.below(3) as u32 * 3000,
        places: 1 + (inserts + pushes) as u64,
        records: 1 + calls,
        serial,
        ticket,
        feed,
        picks,
    }
}

fn first(random: &mut Random) -> u64 {
    *random.of(&[0, 1, 1, 1, 7, 1 << 32, u64::MAX - 1000])
}

fn load(random: &mut Random) -> Load {
    let (default, period) = (duration(random), duration(random));
    match random.below(3) {
        0 => Load::Count,
        1 => Load::Halving { default, period },
        _ => Load::Squaring { default, period },
    }
}

/// A duration above zero.
fn duration(random: &mut Random) -> u64 {
    match random.below(8) {
        0 => 1,
        1..=3 => 1_000_000_000,
        4 => 1 + random.below(1000),
        5 => 1 + random.below(10_000_000_000),
        6 => *random.of(&[9_007_199_254_740_993, u64::MAX, 999_999_999, 1_000_000_001]),
        _ => 1 + (random.word() >> random.below(64)),
    }
}

fn words(random: &mut Random) -> Words {
    if random.percent(40) {
        return Words::Hash;
    }
    let n = if random.percent(5) { 0 } else { 1 + random.below(9) };
    let wide = random.percent(30);
    Words::List((0..n).map(|_| if wide { random.word() } else { random.below(12) }).collect())
}

/// One of the names, each letter in either case.
fn name(random: &mut Random, names: usize) -> String {
    let name = *random.of(&NAMES[..names]);
    if random.percent(60) {
        return name.to_string();
    }
    name.chars().map(|c| if random.percent(50) { c.to_ascii_uppercase() } else { c.to_ascii_lowercase() }).collect()
}

fn making(random: &mut Random, paced: bool) -> Making {
    if paced {
        return Making::Paced;
    }
    if random.percent(30) {
        return Making::Patterned("r".to_string());
    }
    let n = match random.below(20) {
        0 => 0,
        1 => 32,
        _ => 1 + random.below(8),
    };
    let failing = if random.percent(40) { 15 } else { 0 };
    let ready = *random.of(&[30, 60, 85]);
    let letter = |random: &mut Random| match random.below(100) {
        x if x < failing => 'f',
        _ if random.percent(ready) => 'r',
        _ => 'p',
    };
    Making::Patterned((0..n).map(|_| letter(random)).collect())
}

fn item(random: &mut Random, paced: bool, names: usize) -> Item {
    match random.below(100) {
        0..=55 => Item::Insert(name(random, names), making(random, paced)),
        56..=71 => Item::Remove(name(random, names)),
        72..=94 => Item::Pending,
        95..=96 => Item::End,
        _ => Item::Fault(random.below(1000) as u32),
    }
}

/// Instants that stand still, go on, and in some runs go back; whether the last pick was a poll; and about how many requests were sent.
struct Clock {
    at: u64,
    back: bool,
    polled: bool,
    sent: u64,
}

impl Clock {
    fn next(&mut self, random: &mut Random) -> u64 {
        self.at = match random.below(100) {
            0..=29 => self.at,
            30..=59 => self.at.saturating_add(random.below(1000)),
            60..=84 => self.at.saturating_add(random.below(2_000_000_000)),
            85..=94 if self.back => self.at.saturating_sub(random.below(3_000_000_000)),
            95 if self.back => *random.of(&[0, u64::MAX, 1 << 53]),
            96 => self.at.saturating_add(random.word() >> random.below(64)),
            _ => self.at.saturating_add(random.below(100_000_000)),
        };
        self.at
    }
}

fn request(random: &mut Random, paced: bool) -> u64 {
    if !paced {
        return random.below(3);
    }
    match random.below(20) {
        0 => u64::MAX,
        1..=4 => 0,
        5..=12 => random.below(1000),
        _ => random.below(1_500_000_000),
    }
}

fn pick(
    random: &mut Random,
    profile: Profile,
    paced: bool,
    names: usize,
    clock: &mut Clock,
    ticket: u64,
    calls: &mut u64,
) -> Pick {
    let at = clock.next(random);
    let cache = match profile {
        Profile::Balancer => false,
        Profile::Cache => random.percent(88),
        Profile::Both => random.percent(30),
    };
    if cache {
        return cache_pick(random, paced, names, at, calls);
    }
    let poll = if clock.polled { 20 } else { 60 };
    let roll = if profile == Profile::Cache { 99 } else { random.below(100) };
    let after_poll = clock.polled;
    clock.polled = roll < poll;
    match roll {
        _ if clock.polled => Pick::Poll(at),
        0..=79 => {
            *calls += 1;
            clock.sent += u64::from(after_poll);
            Pick::Call(at, request(random, paced))
        }
        _ => {
            let most = if profile == Profile::Balancer { clock.sent } else { *calls };
            Pick::Done(at, ticket.saturating_add(random.below(most + 1)))
        }
    }
}

fn cache_pick(random: &mut Random, paced: bool, names: usize, at: u64, calls: &mut u64) -> Pick {
    match random.below(100) {
        0..=29 => Pick::Push(at, name(random, names), making(random, paced)),
        30..=39 => Pick::Evict(name(random, names)),
        40..=64 => Pick::Pending(at),
        65..=74 => Pick::Check(at, random.below(8)),
        75..=79 => Pick::CheckKey(at, name(random, names)),
        80..=91 => {
            *calls += 1;
            Pick::Send(at, random.below(5), request(random, paced))
        }
        _ => {
            *calls += 1;
            Pick::SendKey(at, name(random, names), request(random, paced))
        }
    }
}
