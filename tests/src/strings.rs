//! Random lists of a record's numbers, their byte strings, strings that were
//! damaged, and records of grown boxes.

use crate::call::{Call, Request};
use crate::capi::{numbers, request_of};
use crate::random::{self, Rng, Style};
use crate::record::{self, EDITION, STEPS};
use crate::unit::Unit;

/// The numbers at which another group, or another limit, begins.
const BORDERS: [u32; 12] = [
    0,
    8,
    12,
    16,
    128,
    256,
    8192,
    16_384,
    65_536,
    1 << 21,
    1 << 28,
    300,
];

/// Any number, often near a border.
pub fn word(rng: &mut Rng) -> u32 {
    match rng.below(4) {
        0 => rng.below(10),
        1 => rng
            .pick(&BORDERS)
            .wrapping_add(rng.below(3))
            .wrapping_sub(1),
        // As many bits as not.
        _ => (rng.bits() as u32) >> rng.below(32),
    }
}

/// Any number up to 65,535, often near a border.
pub fn half(rng: &mut Rng) -> u32 {
    match word(rng) {
        half @ 0..=65_535 => half,
        wide if rng.percent(50) => wide >> 16,
        wide => wide & 0xFFFF,
    }
}

/// The kind and fields of any record that reads well.
pub fn any_record(rng: &mut Rng, list: &mut Vec<u32>) {
    let kind = 1 + rng.below(STEPS);
    list.push(kind);
    for wide in record::fields(kind) {
        list.push(if wide { word(rng) } else { half(rng) });
    }
}

/// Any request at all.
pub fn any_request(rng: &mut Rng) -> Request {
    loop {
        let mut list = Vec::new();
        any_record(rng, &mut list);
        list.resize(4, 0);
        if let Some(request) = request_of([list[0], list[1], list[2], list[3]]) {
            return request;
        }
    }
}

/// A list with so many records that the writer takes.
pub fn list(rng: &mut Rng, records: u32) -> Vec<u32> {
    let mut list = vec![EDITION, half(rng), half(rng)];
    for _ in 0..records {
        any_record(rng, &mut list);
    }
    list
}

/// A number of records: mostly few, now and then many.
pub fn records(rng: &mut Rng) -> u32 {
    match rng.below(200) {
        0 => 100 + rng.below(900),
        1..=20 => rng.below(150),
        21..=50 => rng.below(3),
        _ => rng.below(20),
    }
}

/// A record that reads well.
pub fn string(rng: &mut Rng, records: u32) -> Vec<u8> {
    record::write(&list(rng, records)).expect("a list that the writer takes")
}

/// Ways to damage a string.
#[derive(Clone, Copy, PartialEq, Eq, Debug)]
pub enum Damage {
    /// A byte is another one.
    Changed,
    /// A bit of a byte is another one.
    Flipped,
    Dropped,
    Inserted,
    /// Two bytes change places.
    Swapped,
    Cut,
    /// Bytes are added behind the last.
    Added,
    /// A stretch stands there twice.
    Doubled,
    /// A number gets a group 00 at its end.
    Lengthened,
    /// A number has five bytes, the last above 0F; half the time it is the end.
    TooWide,
    /// A number is another one.
    Replaced,
    /// The last number, the count, is one more, one less or far off.
    Recounted,
}

impl Damage {
    pub const ALL: [Damage; 12] = [
        Damage::Changed,
        Damage::Flipped,
        Damage::Dropped,
        Damage::Inserted,
        Damage::Swapped,
        Damage::Cut,
        Damage::Added,
        Damage::Doubled,
        Damage::Lengthened,
        Damage::TooWide,
        Damage::Replaced,
        Damage::Recounted,
    ];

    /// Damages a string; nothing happens to one that is too short for it.
    pub fn make(self, rng: &mut Rng, string: &mut Vec<u8>) {
        let length = string.len() as u32;
        if length < 2 {
            string.push(byte(rng));
            return;
        }
        let at = rng.below(length) as usize;
        match self {
            Damage::Changed => string[at] = byte(rng),
            Damage::Flipped => {
                let bit = rng.pick(&[7, 7, 7, 6, 5, 4, 3, 2, 1, 0]);
                string[at] ^= 1 << bit;
            }
            Damage::Dropped => {
                string.remove(at);
            }
            Damage::Inserted => string.insert(at, byte(rng)),
            Damage::Swapped => {
                let other = match rng.below(2) {
                    0 => (at + 1) % string.len(),
                    _ => rng.below(length) as usize,
                };
                string.swap(at, other);
            }
            Damage::Cut => string.truncate(at),
            Damage::Added => {
                for _ in 0..1 + rng.below(4) {
                    string.push(byte(rng));
                }
            }
            Damage::Doubled => {
                let end = string.len().min(at + 1 + rng.below(12) as usize);
                let stretch = string[at..end].to_vec();
                string.splice(at..at, stretch);
            }
            Damage::Lengthened => {
                let (start, end) = number_at(string, at);
                let groups = end - start;
                if end <= string.len() {
                    string[end - 1] |= 0x80;
                    let more = rng.below(3).min(4u32.saturating_sub(groups as u32));
                    string.splice(end..end, vec![0x80; more as usize]);
                    string.insert(end + more as usize, 0);
                }
            }
            Damage::TooWide => {
                let (start, end) = number_at(string, at);
                let mut wide = [0; 5].map(|_| 0x80 | byte(rng));
                wide[4] = rng.pick(&[0x10, 0x1F, 0x7F, 0x80, 0x8F, 0xFF]);
                string.splice(start..end, wide);
                if rng.percent(50) {
                    string.truncate(start + 5);
                }
            }
            Damage::Replaced => {
                let (start, end) = number_at(string, at);
                string.splice(start..end, record::number(word(rng)));
            }
            Damage::Recounted => {
                let (start, end) = number_at(string, string.len() - 1);
                let count = match rng.below(4) {
                    0 => word(rng),
                    1 => length,
                    _ => record_count(string).wrapping_add(rng.pick(&[1, 2, u32::MAX])),
                };
                string.splice(start..end, record::number(count));
            }
        }
    }
}

/// A byte, often one that means something.
fn byte(rng: &mut Rng) -> u8 {
    match rng.below(3) {
        0 => rng.below(14) as u8,
        1 => rng.pick(&[0x0F, 0x10, 0x7F, 0x80, 0x81, 0x8F, 0x90, 0xFF]),
        _ => rng.below(256) as u8,
    }
}

/// Where the number that has this byte starts and ends.
fn number_at(string: &[u8], at: usize) -> (usize, usize) {
    let before = string[..at].iter().rposition(|byte| *byte < 0x80);
    let last = string[at..].iter().position(|byte| *byte < 0x80);
    let start = before.map_or(0, |before| before + 1);
    let end = last.map_or(string.len(), |last| at + last + 1);
    (start, end)
}

/// How many whole records a string has.
fn record_count(string: &[u8]) -> u32 {
    let numbers = record::read(string).numbers;
    let mut rest = numbers.get(3..).unwrap_or_default();
    let mut count = 0;
    while let [kind, fields @ ..] = rest {
        rest = &fields[record::fields(*kind).count()..];
        count += 1;
    }
    count
}

/// Calls as a record's numbers, and their answers. Steps that follow each other
/// are one record.
#[derive(Clone, Debug)]
pub struct Recorder {
    pub unit: Unit,
    list: Vec<u32>,
    steps: u32,
    /// The opening's answer, and that of each call.
    pub answers: Vec<u32>,
}

impl Recorder {
    pub fn new(m: u32, h: u32) -> Recorder {
        let mut unit = Unit::lent(m, h);
        let answers = vec![unit.open(m, h)];
        Recorder {
            unit,
            list: vec![EDITION, m, h],
            steps: 0,
            answers,
        }
    }

    pub fn request(&mut self, request: Request) {
        self.close_steps();
        let numbers = numbers(request);
        let fields = record::fields(numbers[0]).count();
        self.list.extend_from_slice(&numbers[..1 + fields]);
        self.answers.push(self.unit.request(request));
    }

    pub fn step(&mut self) {
        self.steps += 1;
        self.answers.push(self.unit.step());
    }

    /// The steps so far become a record.
    pub fn close_steps(&mut self) {
        if self.steps > 0 {
            self.list.extend([STEPS, self.steps]);
            self.steps = 0;
        }
    }

    /// A record of no steps.
    pub fn no_steps(&mut self) {
        self.close_steps();
        self.list.extend([STEPS, 0]);
    }

    pub fn bytes(&mut self) -> Vec<u8> {
        self.close_steps();
        record::write(&self.list).expect("a list that the writer takes")
    }
}

/// A record of random calls on a grown box, with so many requests and steps.
pub fn grown(rng: &mut Rng, (m, h): (u32, u32), calls: usize) -> Recorder {
    let mut recorder = Recorder::new(m, h);
    let mut style = Style::any(rng, m, h);
    let mut turn = 0;
    while recorder.answers.len() <= calls {
        turn += 1;
        if turn % 250 == 0 {
            style = Style::any(rng, m, h);
        }
        match random::call(rng, &recorder.unit, &style) {
            Call::Request(request) => recorder.request(request),
            Call::Step => recorder.step(),
            Call::Run(0) => recorder.no_steps(),
            Call::Run(budget) => {
                let held = recorder.unit.state.hold.held;
                let most = if held { 8 * m } else { m };
                for _ in 0..budget.min(most) {
                    recorder.step();
                }
            }
        }
        if rng.below(20) == 0 {
            recorder.close_steps();
        }
    }
    recorder
}
