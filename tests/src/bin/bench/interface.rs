//! The C interface and the plain player on the calls of the same records, in
//! one process.
//!
//! A list of calls is timed in short parts, and of each part the least time
//! counts, so that other work on the machine disturbs little.

use std::time::{Duration, Instant};

use gloamish_tests::call::*;
use gloamish_tests::capi::{request_of, Parts};
use gloamish_tests::record::{self, STEPS};
use gloamish_tests::{Lent, Player, Unit};

use crate::loads::Load;

/// Records timed together.
const PART: usize = 2000;
const TURNS: u32 = 9;

/// A record's numbers and, of a request, the request: each player gets its own.
#[derive(Clone, Copy)]
struct Item {
    numbers: [u32; 4],
    request: Option<Request>,
}

/// The records of a load, without its opening and its end.
fn items(load: &Load) -> Vec<Item> {
    let read = record::read(&load.bytes).numbers;
    let mut rest = &read[3..];
    let mut items = Vec::new();
    while let [kind, fields @ ..] = rest {
        let count = record::fields(*kind).count();
        let mut numbers = [*kind, 0, 0, 0];
        numbers[1..=count].copy_from_slice(&fields[..count]);
        let request = request_of(numbers);
        items.push(Item { numbers, request });
        rest = &fields[count..];
    }
    items
}

/// How steps that follow each other are asked for.
#[derive(Clone, Copy, PartialEq, Eq, Debug)]
pub enum By {
    SingleCalls,
    Runs,
}

/// The least time of each part of a list, and all answers in one number.
struct Times {
    least: Vec<Duration>,
    answers: u64,
}

impl Times {
    fn new(items: usize) -> Times {
        let least = vec![Duration::MAX; items.div_ceil(PART)];
        Times { least, answers: 0 }
    }

    /// Plays a list once more; each item mixes its answers in.
    fn turn(&mut self, items: &[Item], mut play: impl FnMut(Item, u64) -> u64) {
        self.answers = 0;
        for (part, least) in items.chunks(PART).zip(&mut self.least) {
            let start = Instant::now();
            for &item in part {
                self.answers = play(item, self.answers);
            }
            *least = start.elapsed().min(*least);
        }
    }

    fn seconds(&self) -> f64 {
        self.least.iter().sum::<Duration>().as_secs_f64()
    }
}

fn mix(answers: u64, answer: u64) -> u64 {
    answers.rotate_left(5) ^ answer
}

/// So many steps, by runs: each ends at the end of a cycle or with its budget,
/// and in a box that was opened does a step or more.
fn by_runs(steps: u32, answers: u64, mut run: impl FnMut(u32) -> u64) -> u64 {
    let (mut left, mut answers) = (steps, answers);
    while left > 0 {
        let ran = run(left);
        answers = mix(answers, ran);
        left -= (ran >> 8) as u32;
    }
    answers
}

fn through(parts: &mut Parts, by: By, item: Item, answers: u64) -> u64 {
    match (item.numbers, by) {
        ([STEPS, steps, ..], By::SingleCalls) => {
            (0..steps).fold(answers, |answers, _| mix(answers, parts.step().into()))
        }
        ([STEPS, steps, ..], By::Runs) => by_runs(steps, answers, |budget| parts.run(budget)),
        (numbers, _) => mix(answers, parts.request(numbers).into()),
    }
}

fn plain(player: &mut Player, by: By, item: Item, answers: u64) -> u64 {
    match (item.request, by) {
        (Some(request), _) => mix(answers, player.request(request).into()),
        (None, By::SingleCalls) => {
            let steps = item.numbers[1];
            (0..steps).fold(answers, |answers, _| mix(answers, player.step().into()))
        }
        (None, By::Runs) => by_runs(item.numbers[1], answers, |budget| {
            let ran = player.run(budget);
            u64::from(ran.steps) * 256 + u64::from(ran.answer)
        }),
    }
}

/// The seconds through the C interface and on the plain player, or nothing if
/// answers or final boxes differ.
pub fn times(load: &Load, by: By) -> Option<[f64; 2]> {
    let (m, h) = load.size;
    let items = items(load);
    let unit = Unit::lent(m, h);
    let (mut player, mut lent) = (Player::of(&unit), Lent::of(&unit));
    let (mut ours, mut theirs) = (Times::new(items.len()), Times::new(items.len()));
    for _ in 0..TURNS {
        player.open(m, h);
        theirs.turn(&items, |item, answers| {
            plain(&mut player, by, item, answers)
        });
        lent.open(m, h);
        let mut parts = lent.parts();
        ours.turn(&items, |item, answers| {
            through(&mut parts, by, item, answers)
        });
        if ours.answers != theirs.answers || !lent.same(&player.unit()) {
            return None;
        }
    }
    Some([ours.seconds(), theirs.seconds()])
}
