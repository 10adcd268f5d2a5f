//! Two functions that read and write records beside the second program's: both
//! get the same strings, lists and rooms, and what is given back and every cell
//! of both lent parts are compared after each call.

use crate::capi::{Column, NOT_UNDERSTOOD};
use crate::fault::RecordFault;
use crate::random::Rng;
use crate::record::{self, AFTER_THE_END, CUT, NO_ROOM, TOO_LARGE, UNKNOWN, WRONG_FORM};
use crate::strings::{self, Damage};

/// A reader and a writer as the C interface has them.
pub trait Functions {
    fn read(&mut self, bytes: &mut Column<u8>, numbers: &mut Column<u32>) -> u64;
    fn write(&mut self, numbers: &mut Column<u32>, bytes: &mut Column<u8>) -> u64;
}

/// The second program in their place, with a fault.
pub struct Second(pub RecordFault);

impl Functions for Second {
    fn read(&mut self, bytes: &mut Column<u8>, numbers: &mut Column<u32>) -> u64 {
        record::read_call(self.0, bytes.cells(), numbers.cells_mut())
    }

    fn write(&mut self, numbers: &mut Column<u32>, bytes: &mut Column<u8>) -> u64 {
        record::write_call(self.0, numbers.cells(), bytes.cells_mut())
    }
}

/// What can be answered.
pub const ANSWERS: [u32; 8] = [
    0,
    CUT,
    WRONG_FORM,
    UNKNOWN,
    TOO_LARGE,
    AFTER_THE_END,
    NO_ROOM,
    NOT_UNDERSTOOD,
];

/// How many calls were compared, by answer.
#[derive(Clone, Debug, Default)]
pub struct Counts {
    pub reads: u64,
    pub writes: u64,
    /// Cells of outputs that were compared.
    pub cells: u64,
    /// The longest string read or written.
    pub longest: usize,
    /// By the place of the answer in `ANSWERS`: strings read, lists written.
    pub answers: [[u64; 8]; 2],
}

impl Counts {
    fn add(&mut self, call: usize, given: u64, cells: usize, length: usize) {
        let answer = match given {
            given if given == u64::from(NOT_UNDERSTOOD) => NOT_UNDERSTOOD,
            given => (given % 256) as u32,
        };
        let column = ANSWERS.iter().position(|known| *known == answer);
        let column = column.unwrap_or_else(|| panic!("answer {answer}"));
        self.answers[call][column] += 1;
        self.cells += cells as u64;
        self.longest = self.longest.max(length);
    }

    /// How many strings were read with this answer.
    pub fn read(&self, answer: u32) -> u64 {
        let column = ANSWERS.iter().position(|known| *known == answer);
        column.map_or(0, |column| self.answers[0][column])
    }

    /// How many lists were written with this answer.
    pub fn written(&self, answer: u32) -> u64 {
        let column = ANSWERS.iter().position(|known| *known == answer);
        column.map_or(0, |column| self.answers[1][column])
    }

    pub fn print(&self, name: &str) {
        let Counts {
            reads,
            writes,
            cells,
            longest,
            ..
        } = self;
        println!("{name}: {reads} strings read, {writes} lists written, {cells} cells of outputs compared, longest string {longest}");
        for (what, counts) in ["strings read", "lists written"].iter().zip(&self.answers) {
            let named = ANSWERS.iter().zip(counts).filter(|(_, count)| **count > 0);
            let named: Vec<String> = named.map(|(n, count)| format!("{n}: {count}")).collect();
            if !named.is_empty() {
                println!("{name}: {what} by answer {}", named.join(", "));
            }
        }
    }
}

/// The functions, and the second program with a fault if one is planted.
pub struct Beside<F> {
    functions: F,
    fault: RecordFault,
    bytes: Column<u8>,
    numbers: Column<u32>,
    /// What outputs hold before a call, and the second program's after it.
    old_bytes: Vec<u8>,
    old_numbers: Vec<u32>,
    second_bytes: Vec<u8>,
    second_numbers: Vec<u32>,
    pub counts: Counts,
}

impl<F: Functions> Beside<F> {
    pub fn new(functions: F, fault: RecordFault) -> Beside<F> {
        Beside {
            functions,
            fault,
            bytes: Column::of(&[]),
            numbers: Column::of(&[]),
            old_bytes: Vec::new(),
            old_numbers: Vec::new(),
            second_bytes: Vec::new(),
            second_numbers: Vec::new(),
            counts: Counts::default(),
        }
    }

    /// Reads a string with room for so many numbers.
    pub fn read(&mut self, string: &[u8], room: usize) -> Result<u64, String> {
        for at in self.old_numbers.len()..room {
            self.old_numbers
                .push((at as u32).wrapping_mul(0x9E37_79B9) | 1);
        }
        let old = &self.old_numbers[..room];
        self.bytes.take(string);
        self.numbers.take(old);
        let given = self.functions.read(&mut self.bytes, &mut self.numbers);
        self.second_numbers.clear();
        self.second_numbers.extend_from_slice(old);
        let expected = record::read_call(self.fault, string, &mut self.second_numbers);
        let right = self.numbers.same(&self.second_numbers);
        if given != expected || !right || !self.bytes.same(string) {
            let mut text = format!("{} read with room for {room}\n", hex(string));
            text += &told(given, expected);
            text += &differs("numbers", &self.numbers, &self.second_numbers);
            text += &differs("bytes", &self.bytes, string);
            return Err(text);
        }
        self.counts.reads += 1;
        self.counts.add(0, given, room, string.len());
        Ok(given)
    }

    /// Reads a string with as many numbers as bytes.
    pub fn read_all(&mut self, string: &[u8]) -> Result<u64, String> {
        self.read(string, string.len())
    }

    /// Writes a list with room for so many bytes.
    pub fn write(&mut self, list: &[u32], room: usize) -> Result<u64, String> {
        for at in self.old_bytes.len()..room {
            self.old_bytes.push((at as u8).wrapping_mul(0x9D) | 1);
        }
        let old = &self.old_bytes[..room];
        self.numbers.take(list);
        self.bytes.take(old);
        let given = self.functions.write(&mut self.numbers, &mut self.bytes);
        self.second_bytes.clear();
        self.second_bytes.extend_from_slice(old);
        let expected = record::write_call(self.fault, list, &mut self.second_bytes);
        let right = self.bytes.same(&self.second_bytes);
        if given != expected || !right || !self.numbers.same(list) {
            let mut text = format!("{} written with room for {room}\n", decimal(list));
            text += &told(given, expected);
            text += &differs("bytes", &self.bytes, &self.second_bytes);
            text += &differs("numbers", &self.numbers, list);
            return Err(text);
        }
        self.counts.writes += 1;
        self.counts.add(1, given, room, room);
        Ok(given)
    }
}

/// The bytes of a string, a long one in part.
pub fn hex(string: &[u8]) -> String {
    let shown = string.iter().take(60);
    let shown: Vec<String> = shown.map(|byte| format!("{byte:02X}")).collect();
    let more = if string.len() > 60 { " .." } else { "" };
    format!("{} bytes {}{more}", string.len(), shown.join(" "))
}

fn decimal(list: &[u32]) -> String {
    let shown = list.iter().take(40);
    let shown: Vec<String> = shown.map(|number| number.to_string()).collect();
    let more = if list.len() > 40 { " .." } else { "" };
    format!("{} numbers {}{more}", list.len(), shown.join(" "))
}

fn told(given: u64, expected: u64) -> String {
    let split = |all: u64| match all {
        all if all == u64::from(NOT_UNDERSTOOD) => all.to_string(),
        all => format!("{} of them, answer {}", all / 256, all % 256),
    };
    let (given, expected) = (split(given), split(expected));
    format!("gave {given}; second program {expected}\n")
}

fn differs<T: crate::capi::Cell>(name: &str, lent: &Column<T>, second: &[T]) -> String {
    if lent.same(second) {
        return String::new();
    }
    let pairs = lent.cells().iter().zip(second).enumerate();
    let mut found = pairs.filter(|(_, (lent, second))| lent != second);
    match found.next() {
        Some((at, (lent, second))) => {
            format!("{name}[{at}]: {lent:?}, second program {second:?}\n")
        }
        None => format!("written outside {name}\n"),
    }
}

// Strings and lists for both.

/// All strings over an alphabet that have a head and up to so many bytes more.
fn strings_after(
    head: &[u8],
    alphabet: &[u8],
    most: usize,
    mut each: impl FnMut(&[u8]) -> Result<(), String>,
) -> Result<(), String> {
    for length in 0..=most {
        let mut digits = vec![0; length];
        let mut string = [head, &vec![alphabet[0]; length]].concat();
        'strings: loop {
            each(&string)?;
            for (digit, byte) in digits.iter_mut().zip(&mut string[head.len()..]) {
                *digit = (*digit + 1) % alphabet.len();
                *byte = alphabet[*digit];
                if *digit > 0 {
                    continue 'strings;
                }
            }
            break;
        }
    }
    Ok(())
}

/// Every string of up to two bytes; every one of three that begins with the
/// right edition, and the others over 31 bytes; longer ones over few bytes after
/// heads that read well. Those that read well are written again.
pub fn short_strings<F: Functions>(beside: &mut Beside<F>) -> Result<(), String> {
    let mut each = |string: &[u8]| -> Result<(), String> {
        let given = beside.read_all(string)?;
        if given % 256 == 0 {
            let numbers = record::read(string).numbers;
            let written = beside.write(&numbers, string.len())?;
            if written != string.len() as u64 * 256 || beside.bytes.cells() != string {
                return Err(format!("{} isn't what is written", hex(string)));
            }
        }
        Ok(())
    };
    let all: Vec<u8> = (0..=255).collect();
    strings_after(&[], &all, 2, &mut each)?;
    strings_after(&[0x01], &all, 2, &mut each)?;
    let mut some: Vec<u8> = (0..=0x10).collect();
    some.extend([0x1F, 0x20, 0x7E, 0x7F, 0x80, 0x81, 0x83, 0x84]);
    some.extend([0x8B, 0x8C, 0x8F, 0x90, 0xFE, 0xFF]);
    strings_after(&[], &some, 3, &mut each)?;
    // M, and what follows it.
    let few = [0x00, 0x01, 0x03, 0x04, 0x10, 0x7F, 0x80, 0x83, 0x84, 0xFF];
    strings_after(&[0x01], &few, 5, &mut each)?;
    // Records and the end.
    let few = [
        0x00, 0x01, 0x02, 0x03, 0x05, 0x0B, 0x0C, 0x10, 0x7F, 0x80, 0x81, 0xFF,
    ];
    strings_after(&[0x01, 0x10, 0x04], &few, 5, &mut each)?;
    let few = [0x00, 0x01, 0x02, 0x0B, 0x80];
    strings_after(&[0x01, 0x10, 0x04], &few, 7, &mut each)?;
    // SETD's value, a number of steps, and the count.
    let few = [0x00, 0x01, 0x0F, 0x10, 0x7F, 0x80, 0x8F, 0xFF];
    strings_after(&[0x01, 0x10, 0x04, 0x01, 0x00], &few, 6, &mut each)?;
    strings_after(&[0x01, 0x10, 0x04, 0x0B], &few, 6, &mut each)?;
    strings_after(&[0x01, 0x10, 0x04, 0x02, 0x07, 0x00], &few, 5, &mut each)
}

/// How many calls `short_strings` makes of the reader.
pub fn short_string_count() -> u64 {
    let up_to = |alphabet: u64, most: u32| (0..=most).map(|n| alphabet.pow(n)).sum::<u64>();
    2 * up_to(256, 2)
        + up_to(31, 3)
        + up_to(10, 5)
        + up_to(12, 5)
        + up_to(5, 7)
        + 2 * up_to(8, 6)
        + up_to(8, 5)
}

/// Random lists that the writer takes, written and read again, with rooms of
/// every sort.
pub fn whole_strings<F: Functions>(
    beside: &mut Beside<F>,
    rng: &mut Rng,
    strings: u32,
    records: impl Fn(&mut Rng) -> u32,
) -> Result<(), String> {
    for _ in 0..strings {
        let records = records(rng);
        let list = strings::list(rng, records);
        let string = record::write(&list).map_err(|answer| answer.to_string())?;
        write_rooms(beside, rng, &list, string.len())?;
        let given = beside.read_all(&string)?;
        if given != list.len() as u64 * 256 {
            return Err(format!("{} doesn't read well", hex(&string)));
        }
        let more = 1 + rng.below(40) as usize;
        beside.read(&string, string.len() + more)?;
        let fewer = string.len() - 1 - rng.below(string.len() as u32 / 4) as usize;
        for room in [string.len() - 1, fewer, 0] {
            if beside.read(&string, room)? != u64::from(NOT_UNDERSTOOD) {
                return Err(format!("{} read with room for {room}", hex(&string)));
            }
        }
    }
    Ok(())
}

/// Writes a list that makes so many bytes with room for just those, for one
/// byte fewer, for none and for more.
fn write_rooms<F: Functions>(
    beside: &mut Beside<F>,
    rng: &mut Rng,
    list: &[u32],
    length: usize,
) -> Result<(), String> {
    let more = 2 + rng.below(40) as usize;
    let fewer = rng.below(length as u32) as usize;
    for room in [length, length + 1, length + more, length - 1, fewer, 0] {
        let given = beside.write(list, room)?;
        let right = match room < length {
            true => NO_ROOM.into(),
            false => length as u64 * 256,
        };
        if given != right {
            return Err(format!("{} written with room for {room}", decimal(list)));
        }
    }
    Ok(())
}

/// Random strings with one to three damages, until so many that were damaged
/// were read. Gives how many there were of each damage.
pub fn damaged_strings<F: Functions>(
    beside: &mut Beside<F>,
    rng: &mut Rng,
    strings: u64,
) -> Result<[u64; Damage::ALL.len()], String> {
    let mut counts = [0; Damage::ALL.len()];
    let mut read = 0;
    while read < strings {
        let records = strings::records(rng);
        let whole = strings::string(rng, records);
        for _ in 0..12 {
            let mut string = whole.clone();
            let mut made = [0; Damage::ALL.len()];
            for _ in 0..rng.pick(&[1, 1, 1, 2, 3]) {
                let which = rng.below(Damage::ALL.len() as u32) as usize;
                Damage::ALL[which].make(rng, &mut string);
                made[which] = 1;
            }
            if string == whole {
                continue;
            }
            let more = rng.pick(&[0, 0, 0, 1, 9]);
            beside.read(&string, string.len() + more)?;
            read += 1;
            for (count, made) in counts.iter_mut().zip(made) {
                *count += made;
            }
        }
    }
    Ok(counts)
}

/// Every prefix of random strings, whole and damaged; some also with one lent
/// number too few.
pub fn prefixes<F: Functions>(
    beside: &mut Beside<F>,
    rng: &mut Rng,
    strings: u32,
) -> Result<(), String> {
    for turn in 0..strings {
        let records = rng.below(60);
        let mut string = strings::string(rng, records);
        if turn % 2 == 1 {
            rng.pick(&Damage::ALL).make(rng, &mut string);
        }
        for length in 0..=string.len() {
            beside.read_all(&string[..length])?;
            if length % 8 == 7 {
                beside.read(&string[..length], length - 1)?;
            }
        }
    }
    Ok(())
}

/// Random lists with wrong kinds, fields too large, numbers missing or too
/// many, cut anywhere, several of these at once; with rooms of every sort.
pub fn spoilt_lists<F: Functions>(
    beside: &mut Beside<F>,
    rng: &mut Rng,
    lists: u32,
) -> Result<(), String> {
    for _ in 0..lists {
        let records = strings::records(rng);
        let mut list = strings::list(rng, records);
        for _ in 0..rng.pick(&[1, 1, 1, 2, 3]) {
            spoil(rng, &mut list);
        }
        let enough = 5 * list.len() + 10;
        match record::write(&list) {
            Ok(string) => write_rooms(beside, rng, &list, string.len())?,
            Err(_) => {
                let any = rng.below(enough as u32) as usize;
                for room in [enough, any, list.len(), 0] {
                    beside.write(&list, room)?;
                }
            }
        }
    }
    Ok(())
}

fn spoil(rng: &mut Rng, list: &mut Vec<u32>) {
    if list.is_empty() {
        return;
    }
    let at = rng.below(list.len() as u32) as usize;
    let starts = starts(list);
    match rng.below(9) {
        0 => list[at] = strings::word(rng),
        1 => list[at] = rng.pick(&[65_535, 65_536, 65_537, 1 << 31, u32::MAX]),
        2 | 3 if !starts.is_empty() => {
            let kind = rng.pick(&[0, 12, 13, 127, 128, 256, 257, 65_541, u32::MAX]);
            list[rng.pick(&starts)] = kind;
        }
        4 => list[0] = rng.pick(&[0, 2, 3, 128, 257, u32::MAX]),
        5 => drop(list.remove(at)),
        6 => list.insert(at, strings::word(rng)),
        7 if list.len() > 3 => {
            // In the last record.
            let most = starts.last().map_or(3, |start| list.len() - start);
            list.truncate(list.len() - rng.below(most as u32 + 1) as usize);
        }
        _ => list.truncate(at),
    }
}

/// Where the records of a list start, as far as their kinds are known.
fn starts(list: &[u32]) -> Vec<usize> {
    let mut starts = Vec::new();
    let mut at = 3;
    while at < list.len() && list[at] <= record::STEPS {
        starts.push(at);
        at += 1 + record::fields(list[at]).count();
    }
    starts
}

/// Random lists cut at every place.
pub fn cut_lists<F: Functions>(
    beside: &mut Beside<F>,
    rng: &mut Rng,
    lists: u32,
) -> Result<(), String> {
    for _ in 0..lists {
        let records = rng.below(40);
        let list = strings::list(rng, records);
        let ends: Vec<usize> = starts(&list).into_iter().chain([list.len()]).collect();
        for length in 0..=list.len() {
            let given = beside.write(&list[..length], 5 * length + 10)?;
            let whole = ends.contains(&length);
            if whole != (given != u64::from(NOT_UNDERSTOOD)) {
                return Err(format!("{} written", decimal(&list[..length])));
            }
            beside.write(&list[..length], 0)?;
        }
    }
    Ok(())
}
