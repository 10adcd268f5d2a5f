//! A second player of records (M-100): the second reader feeds the second
//! program, which gives the numbers that are printed, one a line. And where the
//! program `play` is, which is held against it.

use std::path::{Path, PathBuf};

use crate::call::*;
use crate::capi::request_of;
use crate::fault::RecordFault;
use crate::record::{self, Reader, STEPS};
use crate::unit::Unit;

/// A record being played.
pub struct Playback {
    fault: RecordFault,
    reader: Reader,
    /// The box, once an opening answered 0.
    unit: Option<Unit>,
    /// What was printed so far.
    pub answers: Vec<u32>,
}

impl Playback {
    pub fn new(fault: RecordFault) -> Playback {
        Playback {
            fault,
            reader: Reader::new(fault),
            unit: None,
            answers: Vec::new(),
        }
    }

    pub fn byte(&mut self, byte: u8) {
        match self.reader.byte(byte) {
            None => {}
            Some(&[_, m, h]) if self.unit.is_none() && self.answers.is_empty() => {
                let mut unit = Unit::lent(m, h);
                let answer = unit.open(m, h);
                self.answers.push(answer);
                if answer == DONE || self.fault == RecordFault::PlaysAfterTen {
                    self.unit = Some(unit);
                }
            }
            Some(record) => {
                let mut numbers = [0; 4];
                numbers[..record.len()].copy_from_slice(record);
                self.play(numbers);
            }
        }
    }

    fn play(&mut self, numbers: [u32; 4]) {
        let Some(unit) = &mut self.unit else {
            return;
        };
        if let [STEPS, steps, ..] = numbers {
            for _ in 0..steps {
                let answer = unit.step();
                self.answers.push(answer);
                if answer != GOING && self.fault == RecordFault::StepsStop {
                    break;
                }
            }
        } else if let Some(request) = request_of(numbers) {
            self.answers.push(unit.request(request));
        }
    }

    /// All that is printed, should the string end here.
    pub fn end(mut self) -> Vec<u32> {
        use RecordFault::*;
        let answer = self.reader.answer();
        let ten = self.answers.first() == Some(&NOT_OPENED);
        match self.fault {
            TenEndsAll if ten => return self.answers,
            AllOrNothing if answer != 0 => self.answers.clear(),
            OpeningLate if self.answers.len() == 1 && answer != 0 => self.answers.clear(),
            EndPrinted if answer == 0 => self.answers.push(0),
            _ => {}
        }
        if answer != 0 {
            self.answers.push(answer);
        }
        self.answers
    }
}

/// The numbers that playing a string prints.
pub fn play(bytes: &[u8]) -> Vec<u32> {
    play_with(RecordFault::None, bytes)
}

pub fn play_with(fault: RecordFault, bytes: &[u8]) -> Vec<u32> {
    let mut playback = Playback::new(fault);
    for &byte in bytes {
        playback.byte(byte);
    }
    playback.end()
}

/// Numbers in decimal, one a line.
pub fn text(answers: &[u32]) -> String {
    let line = |answer: u32| format!("{answer}\n");
    // What is printed is below 100.
    let short: Vec<String> = (0..100).map(line).collect();
    let mut text = String::with_capacity(3 * answers.len());
    for &answer in answers {
        match short.get(answer as usize) {
            Some(line) => text += line,
            None => text += &line(answer),
        }
    }
    text
}

/// How many lines playing a string prints, at most.
pub fn most_lines(bytes: &[u8]) -> u64 {
    let numbers = record::read(bytes).numbers;
    let (&[_, m, h], mut rest) = numbers.split_first_chunk().unwrap_or((&[0; 3], &[]));
    if Unit::lent(m, h).open(m, h) == NOT_OPENED {
        rest = &[];
    }
    let mut lines = 2;
    while let [kind, fields @ ..] = rest {
        lines += match *kind {
            STEPS => u64::from(fields[0]),
            _ => 1,
        };
        rest = &fields[record::fields(*kind).count()..];
    }
    lines
}

/// The program `play`.
pub fn program() -> PathBuf {
    let path = Path::new(env!("CARGO_MANIFEST_DIR")).join("../target/bin/play");
    assert!(
        path.exists(),
        "target/bin/play is missing: `tools/build`, in the root of the repository, builds it"
    );
    path
}
