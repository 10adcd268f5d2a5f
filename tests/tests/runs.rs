//! Runs of every kind through the C interface against the second program: the
//! answer, the number of steps and every cell of all lent parts.

use gloamish_tests::call::*;
use gloamish_tests::compare::{run_column, Ask, Pair, RUN_ANSWERS};
use gloamish_tests::random::{self, Grower, Rng, Style};
use gloamish_tests::{Fault, Lent, Unit};

/// How the budget of a run is chosen.
#[derive(Clone, Copy, PartialEq, Eq, Debug)]
enum Budget {
    Zero,
    One,
    Small,
    /// One step fewer than the run takes to stop.
    TooFew,
    /// As many steps as it takes.
    Enough,
    /// More than it takes.
    Large,
    /// 4,294,967,295 on a box that stops.
    Most,
    /// Some, on a box that doesn't stop soon.
    Endless,
}

const BUDGETS: [Budget; 8] = [
    Budget::Zero,
    Budget::One,
    Budget::Small,
    Budget::TooFew,
    Budget::Enough,
    Budget::Large,
    Budget::Most,
    Budget::Endless,
];

/// The least budget with which a run stops by itself, if that is at most the
/// limit. Found by single steps of the second program.
fn needed(unit: &Unit, limit: u32) -> Option<u32> {
    if !unit.sound() {
        return Some(0);
    }
    let mut unit = unit.clone();
    (1..=limit).find(|_| !matches!(unit.step(), GOING | STILL_HELD))
}

/// A kind of budget and a budget of that kind.
fn budget(rng: &mut Rng, unit: &Unit, limit: u32) -> (Budget, u32) {
    let kind = rng.pick(&BUDGETS[..7]);
    match kind {
        Budget::Zero => return (kind, 0),
        Budget::One => return (kind, 1),
        Budget::Small => return (kind, 2 + rng.below(19)),
        _ => {}
    }
    match needed(unit, limit) {
        None => (Budget::Endless, rng.below(limit)),
        // Nothing is too few where sizes, lengths or phase are wrong.
        Some(0) if kind == Budget::TooFew => (Budget::Zero, 0),
        Some(needed) => match kind {
            Budget::TooFew => (kind, needed - 1),
            Budget::Enough => (kind, needed),
            Budget::Large => (kind, needed + 1 + rng.below(1_000_000)),
            _ => (kind, u32::MAX),
        },
    }
}

/// The box and the library's, with how many runs gave each answer.
struct Runs {
    pair: Pair<Lent>,
    /// Does some of the runs again, by single steps.
    by_steps: Pair<Lent>,
    /// By the kind of budget: 0, 8, 9 and 11.
    kinds: [[u64; 4]; BUDGETS.len()],
    steps: u64,
    /// Runs done again.
    again: u64,
}

impl Runs {
    fn new(name: &str, seed: u64) -> Runs {
        println!("{name}: seed {seed}");
        Runs {
            pair: Pair::new(Unit::lent(16, 2), Fault::None),
            by_steps: Pair::new(Unit::lent(16, 2), Fault::None),
            kinds: [[0; 4]; BUDGETS.len()],
            steps: 0,
            again: 0,
        }
    }

    /// A run with a budget of any kind.
    fn run(&mut self, rng: &mut Rng, limit: u32) -> Result<(), String> {
        let (kind, budget) = budget(rng, &self.pair.unit, limit);
        let sound = self.pair.unit.sound();
        let copy = rng.percent(10).then(|| self.pair.unit.clone());
        let gave = self.pair.ask(Ask::Run(budget))?;
        let (steps, answer) = (gave / 256, (gave % 256) as u32);
        self.steps += steps;
        self.kinds[kind as usize][run_column(answer)] += 1;
        let spent = match kind {
            Budget::Zero => sound,
            Budget::TooFew | Budget::Endless => true,
            Budget::Enough | Budget::Large | Budget::Most => false,
            Budget::One | Budget::Small => answer == SPENT,
        };
        if spent != (answer == SPENT) || spent && steps != u64::from(budget) {
            return Err(format!("{kind:?} {budget}: {answer} after {steps}"));
        }
        if let Some(copy) = copy {
            self.again += 1;
            self.by_steps.take(&copy);
            let mut last = GOING;
            for _ in 0..steps {
                last = self.by_steps.ask(Ask::Step)? as u32;
            }
            if self.by_steps.machine != self.pair.machine {
                let told = self.by_steps.machine.differences(&self.pair.machine);
                return Err(format!("{kind:?} {budget}: by steps {told:?}"));
            }
            let stopped = match last {
                ENDED | GRANTED => DONE,
                FAILED => FAILED,
                _ => answer,
            };
            if stopped != answer {
                return Err(format!("{kind:?} {budget}: {answer}, last step {last}"));
            }
        }
        Ok(())
    }

    fn print(&self, name: &str) {
        self.pair.counts.print(name);
        println!(
            "{name}: {} steps in runs, {} runs done again by {} steps compared",
            self.steps, self.again, self.by_steps.counts.calls
        );
        for kind in BUDGETS {
            let counts = self.kinds[kind as usize];
            println!("{name}: budget {kind:?}, runs by answer {RUN_ANSWERS:?}: {counts:?}");
        }
    }

    fn count(&self, kind: Budget, answer: u32) -> u64 {
        self.kinds[kind as usize][run_column(answer)]
    }
}

/// Lists of so many calls on boxes grown from an opening, with runs among
/// them: so many in a hundred, by turns.
fn grown(
    name: &str,
    seed: u64,
    calls: u64,
    each: u64,
    size: fn(&mut Rng) -> (u32, u32),
    parts: &[u32],
) -> Runs {
    let mut rng = Rng::new(seed);
    let mut runs = Runs::new(name, seed);
    while runs.pair.counts.calls < calls {
        let (m, h) = size(&mut rng);
        runs.pair.take(&Unit::lent(m, h));
        let mut list = || -> Result<(), String> {
            runs.pair.ask(Ask::Open(m, h))?;
            let until = runs.pair.counts.calls + each;
            while runs.pair.counts.calls < until {
                let style = Style::any(&mut rng, m, h);
                let part = rng.pick(parts);
                for _ in 0..250 {
                    if rng.percent(part) {
                        // A held request is answered after at most 16 M + 4.
                        runs.run(&mut rng, 16 * m + 4)?;
                    } else {
                        let call = random::call(&mut rng, &runs.pair.unit, &style);
                        runs.pair.call(&mut rng, call)?;
                    }
                }
            }
            Ok(())
        };
        if let Err(what) = list() {
            let at = runs.pair.counts.calls;
            panic!("{name}, seed {seed}, box {m}, {h}, call {at}: {what}");
        }
    }
    runs.print(name);
    runs
}

/// What runs on grown boxes must have shown.
fn every_kind(runs: &Runs) {
    let counts = &runs.pair.counts;
    counts.grown();
    for held in counts.runs {
        let [done, _, nine, spent] = held;
        assert!(done > 0 && nine == 0 && spent > 0);
    }
    assert_eq!(counts.runs[0][run_column(FAILED)], 0);
    assert!(counts.runs[1][run_column(FAILED)] > 0);
    for kind in [Budget::Enough, Budget::Large, Budget::Most] {
        assert!(runs.count(kind, DONE) > 0 && runs.count(kind, FAILED) > 0);
    }
    for kind in [Budget::Zero, Budget::One, Budget::Small, Budget::TooFew] {
        assert!(runs.count(kind, SPENT) > 0);
    }
    assert!(runs.count(Budget::One, DONE) > 0);
    assert_eq!(runs.kinds[Budget::Endless as usize], [0; 4]);
    assert!(runs.again > 0);
}

#[test]
fn small_boxes() {
    let name = "runs on small boxes";
    let runs = grown(
        name,
        401,
        1_000_000,
        2000,
        random::small_box,
        &[5, 20, 40, 70],
    );
    every_kind(&runs);
}

#[test]
fn large_boxes() {
    let name = "runs on large boxes";
    let runs = grown(name, 402, 300_000, 10_000, random::large_box, &[1, 5, 20]);
    every_kind(&runs);
}

/// Runs alone, each on another state.
fn states(name: &str, seed: u64, count: u64, mut unit: impl FnMut(&mut Rng) -> Unit) -> Runs {
    let mut rng = Rng::new(seed);
    let mut runs = Runs::new(name, seed);
    while runs.pair.counts.calls < count {
        let unit = unit(&mut rng);
        runs.pair.take(&unit);
        let at = runs.pair.counts.calls;
        // Lists bent into rings can keep the collector busy for ever.
        if let Err(what) = runs.run(&mut rng, 1000) {
            panic!("{name}, seed {seed}, state {at}: {what}{unit:?}");
        }
    }
    runs.print(name);
    runs
}

/// On states with something wrong every budget met 9, at its first step or
/// later, and runs that stop with 0 and 8 came too.
fn every_answer(runs: &Runs) {
    for kind in [Budget::Enough, Budget::Large, Budget::Most] {
        for answer in [DONE, FAILED, DAMAGED] {
            assert!(runs.count(kind, answer) > 0, "{kind:?} {answer}");
        }
    }
    for kind in [Budget::Zero, Budget::One, Budget::Small] {
        assert!(runs.count(kind, DAMAGED) > 0 && runs.count(kind, SPENT) > 0);
    }
    assert!(runs.count(Budget::Endless, SPENT) > 0);
}

#[test]
fn damaged_states() {
    let mut grower = Grower::new(&mut Rng::new(403));
    let runs = states("runs on damaged states", 403, 300_000, |rng| {
        random::damaged(rng, &mut grower)
    });
    every_answer(&runs);
}

#[test]
fn arbitrary_states() {
    every_answer(&states(
        "runs on arbitrary states",
        404,
        300_000,
        random::arbitrary,
    ));
}

/// Sizes, lengths or phase are wrong in nearly all: 9 with any budget.
#[test]
fn uneven_columns() {
    let runs = states("runs on uneven columns", 405, 100_000, random::uneven);
    for kind in &BUDGETS[..7] {
        if *kind != Budget::TooFew {
            assert!(runs.count(*kind, DAMAGED) > 1000);
        }
    }
}
