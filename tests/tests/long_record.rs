//! The program `play` on a record of a hundred million bytes, made on the way:
//! the right lines come, in the memory that a record of ten bytes takes.

use std::fs;
use std::io::{self, Read, Write};
use std::iter;
use std::process::{ChildStdin, ChildStdout, Command, Stdio};
use std::sync::mpsc::{self, Sender};
use std::thread;
use std::time::{Duration, Instant};

use gloamish_tests::playback::{play, program, text};
use gloamish_tests::record::number;

/// The longest that the program may take for one record.
const PATIENCE: Duration = Duration::from_secs(100);

/// How long the lines before the last byte are waited for. That they come
/// before it is not asked for.
const MOMENT: Duration = Duration::from_secs(1);

/// What the program may take for the long record and not for ten bytes, in KiB.
const MORE: u64 = 64;

/// The records of a turn, and the lines that each prints, worked out by hand.
/// Before a turn and after it the box, opened 16, 4, has no tuple and is at
/// rest, and handle 1 is the first free one.
const TURN: [(&[u8], &[u32]); 14] = [
    // GETM 0, 2, 7 and a cycle, as in document 02's example.
    (&[5, 0, 2, 7], &[0]),
    (&[11, 4], &[30, 30, 30, 31]),
    // SETD 0, 4,294,967,295: no register names the tuple any more.
    (&[1, 0, 0xFF, 0xFF, 0xFF, 0xFF, 0x0F], &[0]),
    // GETM 1, 13, 65,535: top is 3, and 3 + 14 is above 16. It waits.
    (&[5, 1, 13, 0xFF, 0xFF, 0x03], &[7]),
    (&[1, 0, 0xFF, 0xFF, 0xFF, 0xFF, 0x0F], &[6]),
    // Rest; on to the sweep; the tuple freed, from index 0, since live is 0;
    // its three words zeroed; at its end top is 0, and 0 + 14 is at most 16.
    (&[11, 7], &[30, 30, 30, 30, 30, 30, 32]),
    // NIL 1, and a cycle as before, with fourteen words and nothing that waits.
    (&[2, 1], &[0]),
    (
        &[11, 18],
        &[
            30, 30, 30, 30, 30, 30, 30, 30, 30, 30, 30, 30, 30, 30, 30, 30, 30, 31,
        ],
    ),
    // NIL 7; ADVANCE 7 by 20,000 and by 45,535, to 65,535; by 1, no further.
    (&[2, 7], &[0]),
    (&[4, 7, 0xA0, 0x9C, 0x01], &[0]),
    (&[4, 7, 0xDF, 0xE3, 0x02], &[0]),
    (&[4, 7, 1], &[4]),
    // NIL 65,535; no steps.
    (&[2, 0xFF, 0xFF, 0x03], &[1]),
    (&[11, 0], &[]),
];

/// How many turns are written at once, and how often that is done. A turn has
/// 53 bytes, so that pieces of 65,536 bytes end at every place of it.
const TURNS: usize = 1000;
const BLOCKS: usize = 1887;

/// Bytes of a record, and the lines that they print.
struct Part {
    bytes: Vec<u8>,
    text: Vec<u8>,
}

impl Part {
    fn new(bytes: &[u8], lines: &[u32]) -> Part {
        Part {
            bytes: bytes.to_vec(),
            text: text(lines).into_bytes(),
        }
    }

    /// Turns, without an opening or an end.
    fn block() -> Part {
        let bytes = TURN.map(|(bytes, _)| bytes).concat();
        let lines = TURN.map(|(_, lines)| lines).concat();
        Part::new(&bytes.repeat(TURNS), &lines.repeat(TURNS))
    }

    /// The end after so many records.
    fn end(count: usize, lines: &[u32]) -> Part {
        let count = number(count.try_into().unwrap());
        Part::new(&[&[0], &count[..]].concat(), lines)
    }
}

/// A start, a block some times over, and an end.
struct Record {
    start: Part,
    block: Part,
    blocks: usize,
    end: Part,
}

impl Record {
    /// Opened 16, 4.
    fn of_turns(blocks: usize, end: Part) -> Record {
        Record {
            start: Part::new(&[1, 16, 4], &[0]),
            block: Part::block(),
            blocks,
            end,
        }
    }

    /// MOVE 1, 0 and two cycles of an empty box.
    fn of_ten_bytes() -> Record {
        Record {
            start: Part::new(&[1, 16, 4, 3, 1, 0, 11, 4], &[0, 0, 30, 31, 30, 31]),
            block: Part::new(&[], &[]),
            blocks: 0,
            end: Part::end(2, &[]),
        }
    }

    /// The start and the blocks.
    fn parts(&self) -> impl Iterator<Item = &Part> {
        iter::once(&self.start).chain(iter::repeat_n(&self.block, self.blocks))
    }

    /// The end without its last byte, and that byte.
    fn end(&self) -> (&[u8], &[u8]) {
        self.end.bytes.split_at(self.end.bytes.len() - 1)
    }
}

/// Writes a record but for its last byte; how many bytes that were.
fn feed(mut stdin: ChildStdin, record: &Record) -> io::Result<(ChildStdin, u64)> {
    let mut written = 0;
    let parts = record.parts().map(|part| &part.bytes[..]);
    for bytes in parts.chain([record.end().0]) {
        stdin.write_all(bytes)?;
        written += bytes.len() as u64;
    }
    stdin.flush()?;
    Ok((stdin, written))
}

/// Writes the last byte and closes the input; how many bytes were written.
fn finish((mut stdin, written): (ChildStdin, u64), record: &Record) -> io::Result<u64> {
    stdin.write_all(record.end().1)?;
    stdin.flush()?;
    Ok(written + 1)
}

/// What the program prints, as far as it was read.
struct Printed {
    stdout: ChildStdout,
    given: Vec<u8>,
    lines: u64,
}

impl Printed {
    /// Reads so many bytes, or what there is up to the end.
    fn read(&mut self, length: usize) {
        self.given.clear();
        let mut next = self.stdout.by_ref().take(length as u64);
        next.read_to_end(&mut self.given).unwrap();
    }

    /// The next lines must be these.
    fn comes(&mut self, text: &[u8]) -> Result<(), String> {
        self.read(text.len());
        if self.given != text {
            return Err(self.difference(text));
        }
        self.lines += lines(&self.given);
        Ok(())
    }

    /// There must be no more.
    fn ends(&mut self) -> Result<(), String> {
        self.read(100);
        match &self.given[..] {
            [] => Ok(()),
            _ => Err(self.difference(&[])),
        }
    }

    fn difference(&self, text: &[u8]) -> String {
        let pairs = self.given.iter().zip(text);
        let same = pairs.take_while(|(a, b)| a == b).count();
        // Where the line begins that differs.
        let before = text[..same].iter().rposition(|byte| *byte == b'\n');
        let start = before.map_or(0, |at| at + 1);
        let line = |text: &[u8]| match text[start..].split(|byte| *byte == b'\n').next() {
            Some([]) | None => "none".to_string(),
            Some(line) => String::from_utf8_lossy(line).into_owned(),
        };
        let number = self.lines + lines(&text[..start]) + 1;
        let (given, right) = (line(&self.given), line(text));
        format!("line {number}: {given}, must be {right}")
    }
}

fn lines(text: &[u8]) -> u64 {
    text.iter().filter(|byte| **byte == b'\n').count() as u64
}

/// Holds every line against the record's; how many they are. Tells when all
/// those before the end have come.
fn check(stdout: ChildStdout, record: &Record, before: Sender<()>) -> Result<u64, String> {
    let mut printed = Printed {
        stdout,
        given: Vec::new(),
        lines: 0,
    };
    for part in record.parts() {
        printed.comes(&part.text)?;
    }
    before.send(()).unwrap();
    printed.comes(&record.end.text)?;
    printed.ends()?;
    Ok(printed.lines)
}

/// The most that a process had up to now, in KiB.
#[derive(Clone, Copy, Debug)]
struct Peak {
    /// In memory, the parts of libraries that are there among it.
    resident: u64,
    /// Of addresses.
    mapped: u64,
}

impl Peak {
    fn of(process: u32) -> Result<Peak, String> {
        let path = format!("/proc/{process}/status");
        let status = fs::read_to_string(&path);
        let status = status.map_err(|error| format!("{path} can't be read: {error}"))?;
        let field = |name: &str| {
            let value = status.lines().find_map(|line| line.strip_prefix(name));
            let value = value.and_then(|value| value.trim().strip_suffix(" kB"));
            let value = value.and_then(|value| value.parse().ok());
            value.ok_or(format!("{path} has no {name}"))
        };
        Ok(Peak {
            resident: field("VmHWM:")?,
            mapped: field("VmPeak:")?,
        })
    }

    fn max(self, other: Peak) -> Peak {
        Peak {
            resident: self.resident.max(other.resident),
            mapped: self.mapped.max(other.mapped),
        }
    }
}

/// What a run took and gave.
struct Ran {
    bytes: u64,
    lines: u64,
    /// Before the last byte.
    peak: Peak,
}

/// Plays a record; every line must be right.
fn run(record: &Record) -> Ran {
    let mut command = Command::new(program());
    command.stdin(Stdio::piped()).stdout(Stdio::piped());
    let mut child = command.spawn().unwrap();
    let (stdin, stdout) = (child.stdin.take().unwrap(), child.stdout.take().unwrap());
    let (feeder, fed) = mpsc::channel();
    let (middle, before) = mpsc::channel();
    let (checker, checked) = mpsc::channel();
    thread::scope(|scope| {
        scope.spawn(move || feeder.send(feed(stdin, record)).unwrap());
        scope.spawn(move || checker.send(check(stdout, record, middle)).unwrap());
        let ended = fed.recv_timeout(PATIENCE).and_then(|fed| {
            // The peak is taken even if they don't come.
            let _ = before.recv_timeout(MOMENT);
            let peak = Peak::of(child.id());
            let bytes = fed.and_then(|fed| finish(fed, record));
            let lines = checked.recv_timeout(PATIENCE)?;
            Ok((bytes, lines, peak))
        });
        let Ok((bytes, lines, peak)) = ended else {
            child.kill().unwrap();
            panic!("no end");
        };
        // A wrong line closes the output, and so may make all else go wrong.
        let lines = lines.unwrap_or_else(|told| panic!("{told}"));
        let peak = peak.unwrap_or_else(|told| panic!("{told}"));
        let bytes = bytes.expect("a program that reads to the end");
        let status = child.wait().unwrap();
        assert!(status.code().is_some(), "{status}");
        Ran { bytes, lines, peak }
    })
}

/// The second player prints the same lines for a block.
fn second_player_agrees() {
    let end = Part::end(TURN.len() * TURNS, &[]);
    let record = Record::of_turns(1, end);
    let parts: Vec<&Part> = record.parts().chain([&record.end]).collect();
    let bytes: Vec<u8> = parts.iter().flat_map(|part| part.bytes.clone()).collect();
    let right: Vec<u8> = parts.iter().flat_map(|part| part.text.clone()).collect();
    assert!(text(&play(&bytes)).into_bytes() == right);
}

/// The peak with a record of ten bytes. How much of the C library is in memory
/// differs from run to run, so it is the largest of many runs.
fn peak_of_ten_bytes() -> Peak {
    let record = Record::of_ten_bytes();
    let peaks = (0..100).map(|_| {
        let ran = run(&record);
        assert_eq!((ran.bytes, ran.lines), (10, 6));
        ran.peak
    });
    peaks.reduce(Peak::max).unwrap()
}

#[test]
fn a_hundred_megabytes_in_the_memory_of_ten_bytes() {
    second_player_agrees();
    let ten = peak_of_ten_bytes();
    println!("ten bytes: {ten:?}");
    let records = TURN.len() * TURNS * BLOCKS;
    assert_eq!(records, 26_418_000);
    // The count is right, or wrong by one: then 23 is the last line.
    let ends = [
        (Part::end(records, &[]), 73_593_001),
        (Part::end(records + 1, &[23]), 73_593_002),
    ];
    for (end, lines) in ends {
        let start = Instant::now();
        let ran = run(&Record::of_turns(BLOCKS, end));
        let Ran { bytes, peak, .. } = ran;
        let time = start.elapsed();
        println!("{bytes} bytes, {} lines: {peak:?}, {time:?}", ran.lines);
        assert_eq!((bytes, ran.lines), (100_011_008, lines));
        assert!(peak.resident <= ten.resident + MORE);
        assert!(peak.mapped <= ten.mapped + MORE);
    }
}
