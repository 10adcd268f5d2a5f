//! Long random lists of calls on grown boxes, held against the history
//! machine after every call, and calls on arbitrary and damaged states.

use gloamish_tests::call::*;
use gloamish_tests::random::{self, Grower, Rng, Style};
use gloamish_tests::{Checker, Fault, Unit};

#[derive(Default)]
struct Totals {
    calls: u64,
    answers: Vec<u64>,
    met_copy: u64,
    met_moved: u64,
    cycles: u64,
}

impl Totals {
    fn add(&mut self, checker: &Checker) {
        self.calls += checker.calls;
        self.answers.resize(checker.answers.len(), 0);
        for (total, count) in self.answers.iter_mut().zip(checker.answers) {
            *total += count;
        }
        self.met_copy += checker.met_copy;
        self.met_moved += checker.met_moved;
        self.cycles += checker.cycles;
    }

    fn print(&self, name: &str) {
        println!(
            "{name}: {} calls, {} cycles ended, word in the copy register {} times, at its new place {} times",
            self.calls, self.cycles, self.met_copy, self.met_moved
        );
        for (answer, count) in self.answers.iter().enumerate() {
            if *count > 0 {
                println!("{name}: answer {answer}: {count}");
            }
        }
    }

    fn all_came(&self) {
        for answer in (0..=8).chain([11]).chain(30..=33) {
            assert!(self.answers[answer] > 0, "answer {answer} never came");
        }
        assert_eq!(self.answers[9], 0);
        assert!(self.met_copy > 0 && self.met_moved > 0);
    }
}

/// One list on one box.
fn list(rng: &mut Rng, m: u32, h: u32, calls: u32, totals: &mut Totals) {
    let mut checker = Checker::open(m, h, Fault::None).unwrap();
    let mut style = Style::any(rng, m, h);
    for at in 0..calls {
        if at % 250 == 249 {
            style = Style::any(rng, m, h);
        }
        let call = random::call(rng, &checker.unit, &style);
        if let Err(what) = checker.call(call) {
            panic!("box {m}, {h}: {what}");
        }
    }
    totals.add(&checker);
}

#[test]
fn small_boxes() {
    let seed = 20_240_601;
    println!("small boxes: seed {seed}");
    let mut rng = Rng::new(seed);
    let mut totals = Totals::default();
    // The smallest box first.
    list(&mut rng, 16, 2, 2000, &mut totals);
    while totals.calls < 8_000_000 {
        let (m, h) = random::small_box(&mut rng);
        list(&mut rng, m, h, 2000, &mut totals);
    }
    totals.print("small boxes");
    totals.all_came();
}

/// Fewer calls, but with the full check after each of them too.
#[test]
fn large_boxes() {
    let seed = 77;
    println!("large boxes: seed {seed}");
    let mut rng = Rng::new(seed);
    let mut totals = Totals::default();
    list(&mut rng, 8192, 1024, 4000, &mut totals);
    while totals.calls < 300_000 {
        let (m, h) = random::large_box(&mut rng);
        list(&mut rng, m, h, 2000, &mut totals);
    }
    totals.print("large boxes");
    totals.all_came();
}

/// What came of calls on any states.
struct Seen {
    answers: [u64; 34],
    /// Single steps in each phase that answered 9, and that didn't.
    phases: [[u64; 2]; 9],
    /// LOAD, STORE, SIZE, TAG and GETM that answered 9, and that were done.
    kinds: [[u64; 2]; 5],
}

/// A call on any state: never a panic, and refusals leave all as found.
fn try_state(rng: &mut Rng, unit: &Unit, seen: &mut Seen) {
    let answers = &mut seen.answers;
    let mut after = unit.clone();
    let answer = match rng.below(20) {
        0 => {
            let m = rng.pick(&[unit.state.m, unit.words.len() as u32, 16, 8193]);
            let h = rng.pick(&[unit.state.h, unit.links.len() as u32, 4, 1025]);
            let answer = after.open(m, h);
            assert!(answer == DONE || answer == NOT_OPENED);
            if answer == DONE {
                assert_eq!((after.state.m, after.state.h), (m, h));
            }
            answer
        }
        1 | 2 => {
            // Lists bent into rings can keep the collector busy for ever, so
            // budgets are small.
            let budget = rng.below(60);
            let ran = after.run(budget);
            let mut single = unit.clone();
            for _ in 0..ran.steps {
                assert_ne!(single.step(), DAMAGED);
            }
            assert_eq!(after, single);
            match ran.answer {
                DAMAGED => assert_eq!(single.step(), DAMAGED),
                SPENT => assert_eq!(ran.steps, budget),
                answer => assert!(answer == DONE || answer == FAILED),
            }
            answers[ran.answer as usize] += 1;
            return;
        }
        3..=12 => {
            let answer = after.step();
            if unit.sound() {
                let going = usize::from(answer != DAMAGED);
                seen.phases[unit.state.phase as usize][going] += 1;
            }
            answer
        }
        _ => {
            let request = random::any_request(rng, unit);
            let answer = after.request(request);
            let kind = match request {
                Request::Load { .. } => 0,
                Request::Store { .. } => 1,
                Request::Size { .. } => 2,
                Request::Tag { .. } => 3,
                Request::Getm { .. } => 4,
                _ => 5,
            };
            if kind < 5 && unit.sound() && matches!(answer, DONE | DAMAGED) {
                seen.kinds[kind][usize::from(answer == DONE)] += 1;
            }
            answer
        }
    };
    answers[answer as usize] += 1;
    match answer {
        1..=6 | DAMAGED | NOT_OPENED => assert_eq!(&after, unit),
        HELD => {
            assert_ne!(after.state.hold, unit.state.hold);
            after.state.hold = unit.state.hold;
            assert_eq!(&after, unit);
        }
        _ => {}
    }
    if !unit.sound() {
        assert!(matches!(answer, DAMAGED | NOT_OPENED | DONE));
    }
}

#[test]
fn arbitrary_states() {
    let seed = 4;
    println!("arbitrary states: seed {seed}");
    let mut rng = Rng::new(seed);
    let mut seen = Seen::new();
    for _ in 0..600_000 {
        let unit = random::arbitrary(&mut rng);
        try_state(&mut rng, &unit, &mut seen);
    }
    seen.print("arbitrary states");
}

#[test]
fn damaged_states() {
    let seed = 5;
    println!("damaged states: seed {seed}");
    let mut rng = Rng::new(seed);
    let mut seen = Seen::new();
    let mut grower = Grower::new(&mut rng);
    for _ in 0..600_000 {
        let unit = random::damaged(&mut rng, &mut grower);
        try_state(&mut rng, &unit, &mut seen);
    }
    seen.print("damaged states");
}

impl Seen {
    fn new() -> Seen {
        Seen {
            answers: [0; 34],
            phases: [[0; 2]; 9],
            kinds: [[0; 2]; 5],
        }
    }

    /// Prints the counts. Every answer there is must have come, and 9 both
    /// given and not given by each rule, or the states are too tame.
    fn print(&self, name: &str) {
        for (answer, count) in self.answers.iter().enumerate() {
            if *count > 0 {
                println!("{name}: answer {answer}: {count}");
            }
        }
        for answer in (0..=11).chain(30..=33) {
            assert!(self.answers[answer] > 0, "{name}: no answer {answer}");
        }
        for (phase, [nine, not]) in self.phases.iter().enumerate() {
            println!("{name}: phase {phase}: 9 {nine} times, otherwise {not}");
            // The Rest step looks at nothing and never answers 9.
            assert_eq!(*nine > 0, phase > 0);
            assert!(*not > 0);
        }
        let kinds = ["LOAD", "STORE", "SIZE", "TAG", "GETM"];
        for (kind, [nine, done]) in kinds.iter().zip(self.kinds) {
            println!("{name}: {kind}: 9 {nine} times, done {done}");
            assert!(nine > 0 && done > 0);
        }
    }
}
