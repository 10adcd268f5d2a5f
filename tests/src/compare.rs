//! Another machine beside the second program: both get the same calls, and
//! the answer and every cell of all lent parts are compared after each of
//! them, refused ones included.

use crate::call::*;
use crate::capi::{self, Lent};
use crate::fault::Fault;
use crate::player::Player;
use crate::random::{self, Grower, Rng, Style};
use crate::unit::{State, Unit};

/// A call, openings too.
#[derive(Clone, Copy, PartialEq, Eq, Debug)]
pub enum Ask {
    Open(u32, u32),
    Request(Request),
    /// A request by the number of its kind and its fields, which may be none.
    Numbers([u32; 4]),
    Step,
    Run(u32),
}

impl Ask {
    /// The request it is, if it is one.
    fn request(self) -> Option<Request> {
        match self {
            Ask::Request(request) => Some(request),
            Ask::Numbers(numbers) => capi::request_of(numbers),
            _ => None,
        }
    }

    /// True if this answer says that the call was refused, and so changes
    /// nothing. A run is refused if it did no step and answers 9.
    pub fn refused(self, answer: u64) -> bool {
        const NONE: u32 = capi::NOT_UNDERSTOOD;
        match self {
            Ask::Run(_) => answer == u64::from(DAMAGED),
            Ask::Step => answer == u64::from(DAMAGED),
            Ask::Open(..) => answer == u64::from(NOT_OPENED),
            Ask::Request(_) | Ask::Numbers(_) => {
                matches!(answer as u32, NO_REGISTER..=BUSY | DAMAGED | NONE)
            }
        }
    }
}

/// A machine that can be held against the second program.
pub trait Machine {
    fn of(unit: &Unit) -> Self;

    /// Takes over a box, in the buffers at hand.
    fn take(&mut self, unit: &Unit);

    /// The answer; for a run the steps times 256, and the answer.
    fn ask(&mut self, ask: Ask) -> u64;

    fn same(&self, unit: &Unit) -> bool;

    /// The cells that aren't as in the second program's box, by name.
    fn differences(&self, unit: &Unit) -> Vec<String>;
}

impl Machine for Lent {
    fn of(unit: &Unit) -> Lent {
        Lent::of(unit)
    }

    fn take(&mut self, unit: &Unit) {
        Lent::take(self, unit);
    }

    fn ask(&mut self, ask: Ask) -> u64 {
        match ask {
            Ask::Open(m, h) => self.open(m, h).into(),
            Ask::Request(request) => self.request(capi::numbers(request)).into(),
            Ask::Numbers(numbers) => self.request(numbers).into(),
            Ask::Step => self.step().into(),
            Ask::Run(budget) => self.run(budget),
        }
    }

    fn same(&self, unit: &Unit) -> bool {
        Lent::same(self, unit)
    }

    fn differences(&self, unit: &Unit) -> Vec<String> {
        Lent::differences(self, &Lent::of(unit))
    }
}

impl Machine for Player {
    fn of(unit: &Unit) -> Player {
        Player::of(unit)
    }

    fn take(&mut self, unit: &Unit) {
        *self = Player::of(unit);
    }

    fn ask(&mut self, ask: Ask) -> u64 {
        match ask {
            Ask::Open(m, h) => self.open(m, h).into(),
            Ask::Request(_) | Ask::Numbers(_) => {
                let done = ask.request().map(|request| self.request(request));
                done.unwrap_or(capi::NOT_UNDERSTOOD).into()
            }
            Ask::Step => self.step().into(),
            Ask::Run(budget) => {
                let ran = self.run(budget);
                u64::from(ran.steps) * 256 + u64::from(ran.answer)
            }
        }
    }

    fn same(&self, unit: &Unit) -> bool {
        self.state == unit.state
            && self.words == unit.words
            && self.flags == unit.pointers
            && self.addresses == unit.addresses
            && self.sizes == unit.sizes
            && self.links == unit.links
            && self.marks == unit.marks
            && self.deeps == unit.deeps
    }

    fn differences(&self, unit: &Unit) -> Vec<String> {
        Lent::of(&self.unit()).differences(&Lent::of(unit))
    }
}

/// What the second program answers, with a fault if one is planted.
pub fn second(unit: &mut Unit, fault: Fault, ask: Ask) -> u64 {
    match ask {
        Ask::Open(m, h) => unit.open(m, h).into(),
        Ask::Request(_) | Ask::Numbers(_) => {
            let done = ask
                .request()
                .map(|request| unit.request_with(fault, request));
            done.unwrap_or(capi::NOT_UNDERSTOOD).into()
        }
        Ask::Step => unit.step_with(fault).into(),
        Ask::Run(budget) => {
            let ran = unit.run_with(fault, budget);
            u64::from(ran.steps) * 256 + u64::from(ran.answer)
        }
    }
}

/// What a run can answer.
pub const RUN_ANSWERS: [u32; 4] = [DONE, FAILED, DAMAGED, SPENT];

/// Where an answer of a run stands among them.
pub fn run_column(answer: u32) -> usize {
    let column = RUN_ANSWERS.iter().position(|known| *known == answer);
    column.unwrap_or_else(|| panic!("a run answered {answer}"))
}

/// How often each answer came, and where.
#[derive(Clone, Debug)]
pub struct Counts {
    /// Calls after which the answer and all lent parts were compared.
    pub calls: u64,
    /// Those of them that were refused.
    pub refused: u64,
    pub answers: [u64; 34],
    /// Requests by numbers that ask for none.
    pub not_understood: u64,
    /// Steps in each phase that answered 9, and that didn't.
    pub phases: [[u64; 2]; 9],
    /// Requests of each kind that were done, and that weren't.
    pub kinds: [[u64; 2]; 10],
    /// Runs with nothing held and while held that answered 0, 8, 9 and 11.
    pub runs: [[u64; 4]; 2],
    /// Ends of a cycle that answered 9 only for the register of the hold.
    pub bad_holds: u64,
}

impl Default for Counts {
    fn default() -> Counts {
        Counts {
            calls: 0,
            refused: 0,
            answers: [0; 34],
            not_understood: 0,
            phases: [[0; 2]; 9],
            kinds: [[0; 2]; 10],
            runs: [[0; 4]; 2],
            bad_holds: 0,
        }
    }
}

impl Counts {
    fn add(&mut self, before: &State, sound: bool, ask: Ask, answer: u64) {
        self.calls += 1;
        self.refused += u64::from(ask.refused(answer));
        let answer = match ask {
            Ask::Run(_) => answer % 256,
            _ => answer,
        };
        if answer == u64::from(capi::NOT_UNDERSTOOD) {
            self.not_understood += 1;
            return;
        }
        self.answers[answer as usize] += 1;
        match ask {
            Ask::Step if sound => {
                let nine = answer == u64::from(DAMAGED);
                self.phases[before.phase as usize][usize::from(!nine)] += 1;
            }
            Ask::Request(_) | Ask::Numbers(_) if sound => {
                let numbers = ask.request().map(capi::numbers);
                let kind = numbers.unwrap_or_default()[0] as usize - 1;
                self.kinds[kind][usize::from(answer != 0)] += 1;
            }
            Ask::Run(_) => {
                self.runs[usize::from(before.hold.held)][run_column(answer as u32)] += 1;
            }
            _ => {}
        }
    }

    pub fn print(&self, name: &str) {
        let list = |counts: &[u64]| {
            let named = counts.iter().enumerate().filter(|(_, count)| **count > 0);
            let named: Vec<String> = named.map(|(at, count)| format!("{at}: {count}")).collect();
            named.join(", ")
        };
        println!(
            "{name}: {} calls compared, {} of them refused",
            self.calls, self.refused
        );
        println!("{name}: answers {}", list(&self.answers));
        if self.not_understood > 0 {
            println!("{name}: not understood {}", self.not_understood);
        }
        let phases: Vec<String> = self.phases.iter().map(|c| format!("{c:?}")).collect();
        println!("{name}: steps by phase [9, others] {}", phases.join(" "));
        let kinds: Vec<String> = self.kinds.iter().map(|c| format!("{c:?}")).collect();
        println!(
            "{name}: requests by kind [done, not done] {}",
            kinds.join(" ")
        );
        println!(
            "{name}: runs by answer {RUN_ANSWERS:?}: nothing held {:?}, held {:?}",
            self.runs[0], self.runs[1]
        );
        if self.bad_holds > 0 {
            println!("{name}: bad register in a hold {} times", self.bad_holds);
        }
    }

    /// Every answer of a grown box must have come, and 9 must not.
    pub fn grown(&self) {
        for answer in (0..=8).chain([11]).chain(30..=33) {
            assert!(self.answers[answer] > 0, "answer {answer} never came");
        }
        assert_eq!(self.answers[9], 0);
    }

    /// Every answer must have come, 9 both given and not given in each phase,
    /// and each kind both done and not.
    pub fn any(&self) {
        for answer in (0..=11).chain(30..=33) {
            assert!(self.answers[answer] > 0, "answer {answer} never came");
        }
        for (phase, [nine, not]) in self.phases.iter().enumerate() {
            // The Rest step looks at nothing and never answers 9.
            assert_eq!(*nine > 0, phase > 0, "phase {phase}");
            assert!(*not > 0, "phase {phase}");
        }
        for (kind, [done, not]) in self.kinds.iter().enumerate() {
            assert!(*done > 0 && *not > 0, "kind {}", kind + 1);
        }
        assert!(self.bad_holds > 0);
    }
}

/// The second program's box and the other machine's.
pub struct Pair<M> {
    pub unit: Unit,
    pub machine: M,
    pub fault: Fault,
    pub counts: Counts,
}

impl<M: Machine> Pair<M> {
    /// Both with the same box.
    pub fn new(unit: Unit, fault: Fault) -> Pair<M> {
        Pair {
            machine: M::of(&unit),
            unit,
            fault,
            counts: Counts::default(),
        }
    }

    /// Both with another box, in the buffers at hand.
    pub fn take(&mut self, unit: &Unit) {
        self.unit.copy_from(unit);
        self.machine.take(unit);
    }

    /// One call for both; a difference is told in a few lines. A refused call
    /// is also compared with the box before it, which it must leave as it was.
    pub fn ask(&mut self, ask: Ask) -> Result<u64, String> {
        let (before, sound) = (self.unit.state, self.unit.sound());
        let answer = self.machine.ask(ask);
        if ask.refused(answer) && !self.machine.same(&self.unit) {
            let differences = self.machine.differences(&self.unit);
            return Err(tell(&before, ask, "refused", answer, &differences));
        }
        let expected = second(&mut self.unit, self.fault, ask);
        if answer != expected || !self.machine.same(&self.unit) {
            let differences = self.machine.differences(&self.unit);
            let what = format!("second program {expected}");
            return Err(tell(&before, ask, &what, answer, &differences));
        }
        self.counts.add(&before, sound, ask, answer);
        Ok(answer)
    }

    /// A call of a list. A run is done as single steps half the time.
    pub fn call(&mut self, rng: &mut Rng, call: Call) -> Result<(), String> {
        match call {
            Call::Request(request) => self.ask(Ask::Request(request)).map(drop),
            Call::Step => self.ask(Ask::Step).map(drop),
            Call::Run(budget) if rng.percent(50) => {
                // A planted fault may keep the collector from ever stopping.
                let budget = match self.fault {
                    Fault::None => budget,
                    _ => budget.min(20 * self.unit.state.m),
                };
                self.ask(Ask::Run(budget)).map(drop)
            }
            Call::Run(budget) => {
                // Mostly a small part of a cycle, so that requests come in
                // between; while one is held they would only be refused.
                let State { m, top, hold, .. } = self.unit.state;
                let most = match rng.below(400) {
                    0 => 8 * m,
                    _ if hold.held => 300,
                    // No room on a large box: get on with the cycle.
                    _ if m > 100 && top > m - m / 8 => 400,
                    _ if m > 100 => 50,
                    _ => 20,
                };
                for _ in 0..budget.min(most) {
                    let answer = self.ask(Ask::Step)? as u32;
                    if matches!(answer, ENDED | GRANTED | FAILED | DAMAGED) {
                        break;
                    }
                }
                Ok(())
            }
        }
    }
}

/// The call, its answer and what is to be said of it, the state before, and
/// the cells that differ.
fn tell(before: &State, ask: Ask, what: &str, answer: u64, differences: &[String]) -> String {
    let mut text = format!("{ask:?}: answer {answer}, {what}\n");
    text += &format!("before: {}\n", capi::named(before));
    for difference in differences.iter().take(12) {
        text += &format!("{difference}\n");
    }
    if differences.len() > 12 {
        text += &format!("and {} others\n", differences.len() - 12);
    }
    text
}

/// A list of calls on a box that both open; ends after so many calls.
pub fn list<M: Machine>(
    rng: &mut Rng,
    (m, h): (u32, u32),
    calls: u64,
    pair: &mut Pair<M>,
) -> Result<(), String> {
    let context = |what: String| format!("box {m}, {h}: {what}");
    // Opened over whatever the numbers were.
    let mut unit = Unit::lent(m, h);
    unit.words.fill(5);
    unit.links.fill(7);
    unit.marks.fill(true);
    pair.take(&unit);
    let until = pair.counts.calls + calls;
    pair.ask(Ask::Open(m, h)).map_err(context)?;
    let mut style = Style::any(rng, m, h);
    let mut at = 0;
    while pair.counts.calls < until {
        at += 1;
        if at % 250 == 0 {
            style = Style::any(rng, m, h);
            // On a large box a held request waits for thousands of steps.
            if m > 100 && rng.percent(75) {
                style.careful = 100;
            }
        }
        let mut call = random::call(rng, &pair.unit, &style);
        if let Call::Request(Request::Getm { n, .. }) = &mut call {
            // One GETM of all the room would leave a large box full for long.
            if m > 100 && u32::from(*n) > style.words && rng.percent(85) {
                *n = rng.below(style.words) as u16;
            }
        }
        pair.call(rng, call).map_err(context)?;
    }
    Ok(())
}

/// A call on a state as it is.
pub fn any_ask(rng: &mut Rng, unit: &Unit) -> Ask {
    match rng.below(20) {
        0 => {
            let m = rng.pick(&[unit.state.m, unit.words.len() as u32, 16, 8193]);
            let h = rng.pick(&[unit.state.h, unit.links.len() as u32, 4, 1025]);
            Ask::Open(m, h)
        }
        // Lists bent into rings can keep the collector busy for ever, so
        // budgets are small.
        1 | 2 => Ask::Run(rng.below(60)),
        3..=11 => Ask::Step,
        _ => Ask::Request(random::any_request(rng, unit)),
    }
}

/// A call that most boxes refuse.
pub fn bad_ask(rng: &mut Rng, unit: &Unit) -> Ask {
    let State { m, h, .. } = unit.state;
    let (r, s, t) = (rng.below(8), rng.below(8), rng.below(8));
    let wrong = rng.pick(&[8, 9, 255, 256, 65_535]);
    let kind = 1 + rng.below(10);
    match rng.below(12) {
        // Sizes out of range, or other than the lengths.
        0 => Ask::Open(
            rng.pick(&[0, 15, 8193, u32::MAX, m.wrapping_add(1), m / 2]),
            h,
        ),
        1 => Ask::Open(
            m,
            rng.pick(&[0, 1, 1025, u32::MAX, h.wrapping_add(1), h / 2]),
        ),
        // No such register.
        2 => Ask::Numbers([kind, wrong, s, t]),
        3 => match rng.below(2) {
            0 => Ask::Numbers([rng.pick(&[3, 6, 7, 8, 9, 10]), r, wrong, t]),
            _ => Ask::Numbers([10, r, s, wrong]),
        },
        // No such kind, and a field above 65,535.
        4 => Ask::Numbers([rng.pick(&[0, 11, kind + 256, u32::MAX]), r, s, t]),
        5 => Ask::Numbers([kind, r + 65_536 * (1 + rng.below(65_535)), s, t]),
        // More words than memory has.
        6 => Ask::Numbers([5, r, m.saturating_add(rng.below(3)).min(65_535), t]),
        // Far outside a tuple, and past the largest offset.
        7 => Ask::Numbers([rng.pick(&[6, 7]), r, s, 65_535 - rng.below(3)]),
        8 => Ask::Numbers([4, r, 65_535 - rng.below(3), 0]),
        _ => any_ask(rng, unit),
    }
}

/// Which states: arbitrary ones, columns of uneven lengths, damaged boxes.
#[derive(Clone, Copy, PartialEq, Eq, Debug)]
pub enum States {
    Arbitrary,
    Uneven,
    Damaged,
}

/// Many states with one call each. `change` may change a state before both
/// get it.
pub fn states<M: Machine>(
    rng: &mut Rng,
    which: States,
    calls: u64,
    mut change: impl FnMut(&mut Rng, &mut Unit),
) -> Result<Counts, String> {
    let mut grower = Grower::new(rng);
    let mut pair: Pair<M> = Pair::new(Unit::lent(16, 4), Fault::None);
    while pair.counts.calls < calls {
        let mut before = match which {
            States::Arbitrary => random::arbitrary(rng),
            States::Uneven => random::uneven(rng),
            States::Damaged => random::damaged(rng, &mut grower),
        };
        change(rng, &mut before);
        pair.take(&before);
        let ask = any_ask(rng, &before);
        let at = pair.counts.calls;
        let answer = pair
            .ask(ask)
            .map_err(|what| format!("state {at}: {what}{before:?}"))?;
        let hold = before.state.hold;
        if ask == Ask::Step && answer == u64::from(DAMAGED) && hold.held && hold.register > 7 {
            let mut good = before;
            good.state.hold.register = 0;
            pair.counts.bad_holds += u64::from(good.step() == GRANTED);
        }
    }
    Ok(pair.counts)
}
