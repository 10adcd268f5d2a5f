//! A second reader and writer of records (M-100), and what the two C functions
//! make of them.
//!
//! The reader is fed one byte at a time and knows no string. Two tables move
//! it: what a byte does to the number it stands in, and what the numbers of an
//! opening or a record are. The writer first looks the list over, part by
//! part, then takes from each number's bits how many groups it has, and lays
//! them all at once.

use crate::capi::NOT_UNDERSTOOD;
use crate::fault::RecordFault;

pub const CUT: u32 = 20;
pub const WRONG_FORM: u32 = 21;
pub const UNKNOWN: u32 = 22;
pub const TOO_LARGE: u32 = 23;
pub const AFTER_THE_END: u32 = 24;
pub const NO_ROOM: u32 = 25;

/// The writer's answer to a list that ends inside its opening or a record.
pub const INSIDE: u32 = NOT_UNDERSTOOD;

/// The only edition; the kind that ends a record, and that of steps.
pub const EDITION: u32 = 1;
pub const END: u32 = 0;
pub const STEPS: u32 = 11;

/// What a number stands for.
#[derive(Clone, Copy, PartialEq, Eq, Debug)]
enum Slot {
    Edition,
    Kind,
    /// M, H, a register, k, n or a tag.
    Half,
    /// SETD's value, or a number of steps.
    Word,
    /// How many records came before the end.
    Count,
}

use Slot::{Count, Edition, Half, Kind, Word};

const OPENING: &[Slot] = &[Edition, Half, Half];

/// What follows each kind.
const FIELDS: [&[Slot]; 12] = [
    &[Count],
    &[Half, Word],
    &[Half],
    &[Half, Half],
    &[Half, Half],
    &[Half, Half, Half],
    &[Half, Half, Half],
    &[Half, Half, Half],
    &[Half, Half],
    &[Half, Half],
    &[Half, Half, Half],
    &[Word],
];

/// How many numbers follow a kind, and which of them have 32 bits.
pub fn fields(kind: u32) -> impl Iterator<Item = bool> {
    let fields = FIELDS[kind as usize];
    fields.iter().map(|slot| *slot == Word)
}

/// What a byte does to its number: ends it, goes on with it, or breaks it.
#[derive(Clone, Copy, PartialEq, Eq, Debug)]
enum Turn {
    Ends,
    GoesOn,
    Breaks,
}

/// By how many bytes the number has before this one, and by this one: 00, 01
/// to 0F, 10 to 7F, 80 to FF.
const TURNS: [[Turn; 4]; 5] = {
    use Turn::{Breaks, Ends, GoesOn};
    [
        [Ends, Ends, Ends, GoesOn],
        [Breaks, Ends, Ends, GoesOn],
        [Breaks, Ends, Ends, GoesOn],
        [Breaks, Ends, Ends, GoesOn],
        [Breaks, Ends, Breaks, Breaks],
    ]
};

#[derive(Clone, Copy, PartialEq, Eq, Debug)]
enum Stage {
    Reading,
    Ended,
    Refused(u32),
    /// With a fault only: the count was wrong, and is refused if no byte follows.
    Miscounted,
}

/// Takes a record byte by byte.
#[derive(Clone, Debug)]
pub struct Reader {
    fault: RecordFault,
    stage: Stage,
    /// The bytes of the number under way.
    number: Vec<u8>,
    /// What it stands for, and what follows it in the same part.
    wanted: &'static [Slot],
    /// The numbers so far of the part under way: the opening or a record.
    part: Vec<u32>,
    /// How many records are whole; nothing until the opening is.
    records: Option<u64>,
}

impl Reader {
    pub fn new(fault: RecordFault) -> Reader {
        Reader {
            fault,
            stage: Stage::Reading,
            number: Vec::with_capacity(8),
            wanted: OPENING,
            part: Vec::with_capacity(4),
            records: None,
        }
    }

    fn has(&self, fault: RecordFault) -> bool {
        self.fault == fault
    }

    /// Takes a byte. A part that is whole with it is given: edition, M and H,
    /// or a kind and its fields.
    pub fn byte(&mut self, byte: u8) -> Option<&[u32]> {
        match self.stage {
            Stage::Reading => {}
            Stage::Refused(_) => return None,
            Stage::Ended if self.has(RecordFault::RestPassed) => return None,
            Stage::Ended | Stage::Miscounted => {
                self.stage = Stage::Refused(AFTER_THE_END);
                return None;
            }
        }
        if self.wanted.is_empty() {
            self.part.clear();
            self.wanted = &[Kind];
        }
        let turn = self.turn(byte);
        self.number.push(byte);
        let taken = match turn {
            Turn::Ends => self.end_number(),
            Turn::GoesOn if self.large_already() => Err(TOO_LARGE),
            Turn::GoesOn => Ok(false),
            Turn::Breaks if self.has(RecordFault::FormLast) => {
                self.judge(self.value()).and(Err(WRONG_FORM))
            }
            Turn::Breaks => Err(WRONG_FORM),
        };
        match taken {
            Ok(whole) => whole.then_some(&self.part),
            Err(answer) => {
                self.stage = Stage::Refused(answer);
                None
            }
        }
    }

    /// The answer, should the string end here.
    pub fn answer(&self) -> u32 {
        let between = self.wanted.is_empty();
        match self.stage {
            Stage::Reading if between && self.has(RecordFault::EndNotWanted) => 0,
            Stage::Reading => CUT,
            Stage::Ended => 0,
            Stage::Refused(answer) => answer,
            Stage::Miscounted => TOO_LARGE,
        }
    }

    /// True if no byte that follows makes a difference.
    pub fn refused(&self) -> bool {
        matches!(self.stage, Stage::Refused(_))
    }

    fn turn(&self, byte: u8) -> Turn {
        let before = self.number.len();
        let column = match byte {
            0x00 => 0,
            0x01..=0x0F => 1,
            0x10..=0x7F => 2,
            0x80..=0xFF => 3,
        };
        match (before, column) {
            (1..=4, 0) if self.has(RecordFault::LongFormTaken) => Turn::Ends,
            (4, 2) if self.has(RecordFault::FifthByteWraps) => Turn::Ends,
            (4, 3) if self.has(RecordFault::FifthByteWaits) => Turn::GoesOn,
            (5, _) => Turn::Breaks,
            _ => TURNS[before][column],
        }
    }

    /// What the bytes so far make.
    fn value(&self) -> u32 {
        let bytes = self.number.iter().rev();
        let value = bytes.fold(0u64, |value, byte| value * 128 + u64::from(byte % 128));
        // More than 32 bits come with a fault only.
        value as u32
    }

    fn large_already(&self) -> bool {
        let half = self.wanted[0] == Half;
        self.has(RecordFault::LargeBeforeCut) && half && self.value() > 65_535
    }

    /// Whether a number of the right form may stand where it does.
    fn judge(&self, value: u32) -> Result<(), u32> {
        use RecordFault::*;
        let (first, request) = match self.part[..] {
            [kind] => (true, (1..STEPS).contains(&kind)),
            _ => (false, false),
        };
        let most = match self.wanted[0] {
            Half if self.has(RegistersToSeven) && first && request => 7,
            Half if self.has(OpeningInRange) && self.records.is_none() => 8192,
            Half => 65_535,
            Word if self.has(WordsAreHalves) => 65_535,
            _ => u32::MAX,
        };
        let known = match self.wanted[0] {
            Edition => value == EDITION || self.has(AnyEdition),
            Kind => value <= if self.has(TwelveTaken) { 12 } else { STEPS },
            _ => true,
        };
        if !known {
            return Err(UNKNOWN);
        }
        if value > most {
            return Err(TOO_LARGE);
        }
        Ok(())
    }

    /// The number's last byte is there: true if its part is whole with it.
    fn end_number(&mut self) -> Result<bool, u32> {
        let mut value = self.value();
        if self.wanted[0] == Half && self.has(RecordFault::HalfWraps) {
            value %= 65_536;
        }
        self.judge(value)?;
        self.number.clear();
        self.part.push(value);
        if self.wanted[0] == Count {
            return self.end(u64::from(value));
        }
        self.wanted = match self.wanted[0] {
            Kind => FIELDS.get(value as usize).copied().unwrap_or_default(),
            _ => &self.wanted[1..],
        };
        let whole = self.wanted.is_empty();
        if whole {
            self.records = Some(self.records.map_or(0, |records| records + 1));
        }
        Ok(whole)
    }

    /// The count was read. The end is no record and isn't given.
    fn end(&mut self, count: u64) -> Result<bool, u32> {
        let right = self.records.unwrap_or(0) + u64::from(self.has(RecordFault::EndCounted));
        self.stage = Stage::Ended;
        if count != right && !self.has(RecordFault::AnyCount) {
            if !self.has(RecordFault::RestBeforeCount) {
                return Err(TOO_LARGE);
            }
            self.stage = Stage::Miscounted;
        }
        Ok(self.has(RecordFault::EndGiven))
    }
}

/// What was read of a string: edition, M and H, and the kind and fields of each
/// whole record, then the answer.
#[derive(Clone, PartialEq, Eq, Debug)]
pub struct Read {
    pub numbers: Vec<u32>,
    pub answer: u32,
}

pub fn read(bytes: &[u8]) -> Read {
    read_with(RecordFault::None, bytes)
}

pub fn read_with(fault: RecordFault, bytes: &[u8]) -> Read {
    let mut reader = Reader::new(fault);
    let mut numbers = Vec::new();
    for &byte in bytes {
        if let Some(part) = reader.byte(byte) {
            numbers.extend_from_slice(part);
        }
        if reader.refused() {
            break;
        }
    }
    let under_way = !reader.wanted.is_empty();
    if fault == RecordFault::PartGiven && under_way && reader.stage == Stage::Reading {
        numbers.extend_from_slice(&reader.part);
    }
    let answer = reader.answer();
    Read { numbers, answer }
}

/// What the reader's C function gives back, and what it leaves in the numbers.
pub fn read_call(fault: RecordFault, bytes: &[u8], numbers: &mut [u32]) -> u64 {
    if numbers.len() < bytes.len() {
        return NOT_UNDERSTOOD.into();
    }
    let read = read_with(fault, bytes);
    let count = read.numbers.len();
    numbers[..count].copy_from_slice(&read.numbers);
    count as u64 * 256 + u64::from(read.answer)
}

/// The record that a list stands for, or the answer 22 or 23, or that of a list
/// that ends inside.
pub fn write(list: &[u32]) -> Result<Vec<u8>, u32> {
    write_with(RecordFault::None, list).map_err(|(_, answer)| answer)
}

/// As `write`, with the place of the number that is refused.
fn write_with(fault: RecordFault, list: &[u32]) -> Result<Vec<u8>, (usize, u32)> {
    let records = look_over(fault, list)?;
    let end = [END, records];
    Ok(lay(fault, list.iter().chain(&end)))
}

/// The number of records of a list, or its first fault from the left: the place
/// and the answer. That the list ends inside a part is a fault behind its last
/// number.
fn look_over(fault: RecordFault, list: &[u32]) -> Result<u32, (usize, u32)> {
    let mut at = look_at(list, 0, OPENING)?;
    let mut records = 0u64;
    while at < list.len() {
        let fields = FIELDS.get(list[at] as usize);
        let taken = list[at] != END || fault == RecordFault::EndTaken;
        let fields = fields.filter(|_| taken).ok_or((at, UNKNOWN))?;
        at = look_at(list, at + 1, fields)?;
        records += 1;
    }
    u32::try_from(records).or(Err((at, TOO_LARGE)))
}

/// The place behind numbers that may stand there.
fn look_at(list: &[u32], start: usize, slots: &[Slot]) -> Result<usize, (usize, u32)> {
    for (at, slot) in (start..).zip(slots) {
        let number = *list.get(at).ok_or((at, INSIDE))?;
        if *slot == Edition && number != EDITION {
            return Err((at, UNKNOWN));
        }
        if *slot == Half && number >> 16 != 0 {
            return Err((at, TOO_LARGE));
        }
    }
    Ok(start + slots.len())
}

/// Numbers in groups of seven bits.
fn lay<'a>(fault: RecordFault, numbers: impl Iterator<Item = &'a u32>) -> Vec<u8> {
    let mut bytes = Vec::new();
    for &number in numbers {
        let bits = u32::BITS - number.leading_zeros();
        let groups = match fault {
            RecordFault::GroupTooMany => bits / 7 + 1,
            _ => bits.div_ceil(7).max(1),
        };
        let group = |at: u32| (u64::from(number) >> (7 * at) & 0x7F) << (8 * at);
        let all = (0..5).map(group).sum::<u64>();
        let but_the_last = (1u64 << (8 * (groups - 1))) - 1;
        let laid = all | 0x80_8080_8080 & but_the_last;
        bytes.extend_from_slice(&laid.to_le_bytes()[..groups as usize]);
    }
    bytes
}

/// A number's bytes.
pub fn number(number: u32) -> Vec<u8> {
    lay(RecordFault::None, [number].iter())
}

/// What the writer's C function gives back, and what it leaves in the bytes.
pub fn write_call(fault: RecordFault, list: &[u32], bytes: &mut [u8]) -> u64 {
    let mut found = write_with(fault, list);
    if let Err((at, answer)) = &mut found {
        let before = lay(fault, list[..*at].iter());
        if fault == RecordFault::RoomFirst && before.len() > bytes.len() {
            *answer = NO_ROOM;
        }
        if fault == RecordFault::InsideFirst && ends_inside(list) {
            *answer = INSIDE;
        }
    }
    let written = match found {
        Ok(written) => written,
        Err((_, answer)) if answer == INSIDE => return INSIDE.into(),
        Err((_, answer)) => return answer.into(),
    };
    let more = usize::from(fault == RecordFault::RoomForOneMore);
    if written.len() + more > bytes.len() {
        if fault == RecordFault::FilledUp {
            bytes.copy_from_slice(&written[..bytes.len()]);
        }
        return NO_ROOM.into();
    }
    bytes[..written.len()].copy_from_slice(&written);
    written.len() as u64 * 256
}

/// True if a list of known kinds ends inside a part, whatever its fields.
fn ends_inside(list: &[u32]) -> bool {
    let mut at = OPENING.len();
    while at < list.len() {
        match FIELDS.get(list[at] as usize) {
            Some(fields) => at += 1 + fields.len(),
            None => return false,
        }
    }
    at > list.len()
}
