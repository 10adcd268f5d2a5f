//! Records to play, grown on the second program.

use gloamish_tests::call::*;
use gloamish_tests::random::{self, Rng, Style};
use gloamish_tests::record;
use gloamish_tests::strings::Recorder;

/// The largest box.
pub const LARGEST: (u32, u32) = (8192, 1024);

/// A record, and what playing it answers.
pub struct Load {
    pub name: String,
    pub size: (u32, u32),
    pub bytes: Vec<u8>,
    /// The opening's answer, and that of each request and single step.
    pub answers: Vec<u32>,
    pub steps: usize,
}

impl Load {
    /// The same record with an M of 0: the opening answers 10, and what follows
    /// is only read.
    pub fn only_read(&self) -> Vec<u8> {
        let mut numbers = record::read(&self.bytes).numbers;
        numbers[1] = 0;
        record::write(&numbers).expect("a list that the writer takes")
    }
}

/// A record that is grown until it has so many steps; one without steps, until
/// it has so many requests.
struct Growing {
    recorder: Recorder,
    rng: Rng,
    steps: usize,
    requests: usize,
    wanted: usize,
}

impl Growing {
    fn new(seed: u64, (m, h): (u32, u32), wanted: usize) -> Growing {
        Growing {
            recorder: Recorder::new(m, h),
            rng: Rng::new(seed),
            steps: 0,
            requests: 0,
            wanted,
        }
    }

    fn request(&mut self, request: Request) -> u32 {
        self.requests += 1;
        self.recorder.request(request);
        self.recorder.answers[self.recorder.answers.len() - 1]
    }

    fn steps(&mut self, count: u32) {
        for _ in 0..count {
            self.steps += 1;
            self.recorder.step();
        }
    }

    fn held(&self) -> bool {
        self.recorder.unit.state.hold.held
    }

    fn full(&self) -> bool {
        let grown = match self.steps {
            0 => self.requests,
            steps => steps,
        };
        grown >= self.wanted
    }

    fn load(mut self, name: &str) -> Load {
        let state = &self.recorder.unit.state;
        let size = (state.m, state.h);
        Load {
            name: name.to_string(),
            size,
            bytes: self.recorder.bytes(),
            answers: self.recorder.answers,
            steps: self.steps,
        }
    }
}

/// Requests of every kind on tuples below so many words, with so many steps
/// after each.
pub fn mixed(name: &str, size: (u32, u32), words: u32, steps: u32, wanted: usize) -> Load {
    let mut growing = Growing::new(41 + u64::from(words), size, wanted);
    let style = Style {
        steps: 0,
        runs: 0,
        getms: 20,
        drops: 5,
        words,
        registers: 8,
        // Never held, so that requests and steps stay mixed.
        careful: 100,
        hides: 0,
    };
    while !growing.full() {
        if growing.held() {
            growing.steps(1);
            continue;
        }
        let request = random::request(&mut growing.rng, &growing.recorder.unit, &style);
        growing.request(request);
        growing.steps(steps);
    }
    growing.load(name)
}

/// A queue of small tuples, each pointing to the next: new ones are added at
/// its end, and once it is long as many are dropped at its start.
pub fn chains(name: &str, size: (u32, u32), steps: u32, wanted: usize) -> Load {
    let mut growing = Growing::new(0, size, wanted);
    // Two thirds of the words, or of the entries, are the queue's.
    let longest = (size.0 / 7).min(size.1 - 1) * 2 / 3;
    let (first, last, new) = (0, 1, 2);
    let cell = |r| Request::Getm { r, n: 6, tag: 3 };
    growing.request(cell(first));
    growing.request(Request::Move { r: last, s: first });
    let mut length = 1;
    while !growing.full() {
        let answer = growing.request(cell(new));
        while growing.held() {
            growing.steps(1);
        }
        if answer == DONE || growing.recorder.unit.state.registers[2].pointer {
            let (r, s) = (new, last);
            growing.request(Request::Store { r, s, k: 0 });
            growing.request(Request::Move { r: last, s: new });
            growing.request(Request::Setd { r: new, v: 0 });
            length += 1;
        }
        growing.steps(steps);
        if length > longest {
            let (r, s) = (first, first);
            growing.request(Request::Load { r, s, k: 0 });
            length -= 1;
        }
    }
    growing.load(name)
}

/// Requests that are refused at once: nothing but the cost of a call.
pub fn refused(name: &str, wanted: usize) -> Load {
    let mut growing = Growing::new(0, LARGEST, wanted);
    while !growing.full() {
        growing.request(Request::Nil { r: 8 });
    }
    growing.load(name)
}

/// Steps of a box that is not open: each is refused at its first test.
pub fn not_open(name: &str, wanted: usize) -> Load {
    let mut growing = Growing::new(0, (0, 0), wanted);
    while !growing.full() {
        growing.steps(100);
        growing.recorder.close_steps();
    }
    growing.load(name)
}

/// Document 02's three loads, and one of requests alone.
pub fn all(wanted: usize) -> [Load; 4] {
    [
        mixed("small tuples", LARGEST, 5, 3, wanted),
        mixed("large tuples", LARGEST, 900, 12, wanted),
        chains("long chains", LARGEST, 40, wanted),
        mixed("requests only", LARGEST, 5, 0, wanted),
    ]
}
