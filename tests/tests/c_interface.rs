//! The C interface against the second program: the answer and every cell of
//! all lent parts after every call, refused ones included.

use gloamish_tests::call::*;
use gloamish_tests::capi::{decode, encode, GUARDS, HOLD, NUMBERS, SWITCHES};
use gloamish_tests::compare::{self, Ask, Counts, Pair, States};
use gloamish_tests::random::{self, Grower, Rng};
use gloamish_tests::{Fault, Lent, State, Unit};

/// Lists on boxes, until there were so many calls.
fn lists(
    name: &str,
    seed: u64,
    calls: u64,
    mut size: impl FnMut(&mut Rng) -> (u32, u32, u64),
) -> Counts {
    println!("{name}: seed {seed}");
    let mut rng = Rng::new(seed);
    let mut pair: Pair<Lent> = Pair::new(Unit::lent(16, 2), Fault::None);
    while pair.counts.calls < calls {
        let (m, h, calls) = size(&mut rng);
        if let Err(what) = compare::list(&mut rng, (m, h), calls, &mut pair) {
            let at = pair.counts.calls;
            panic!("{name}, seed {seed}, call {at}: {what}");
        }
    }
    pair.counts.print(name);
    pair.counts
}

#[test]
fn small_boxes() {
    let mut first = true;
    let counts = lists("small boxes", 301, 1_000_000, |rng| {
        let (m, h) = match std::mem::take(&mut first) {
            true => (16, 2),
            false => random::small_box(rng),
        };
        (m, h, 2000)
    });
    counts.grown();
}

#[test]
fn large_boxes() {
    let mut first = true;
    let counts = lists("large boxes", 302, 1_000_000, |rng| {
        let (m, h) = match std::mem::take(&mut first) {
            true => (8192, 1024),
            false => random::large_box(rng),
        };
        (m, h, 25_000)
    });
    counts.grown();
}

/// Long lists, each on one box.
#[test]
fn long_runs() {
    for (seed, m, h) in [(303, 48, 8), (304, 600, 60), (305, 8192, 1024)] {
        let name = format!("long run on {m}, {h}");
        let counts = lists(&name, seed, 400_000, |_| (m, h, 400_000));
        let [done, nine] = [counts.answers[0], counts.answers[9]];
        let cycles = counts.answers[31] + counts.answers[32];
        assert!(done > 10_000 && cycles > 10 && nine == 0);
    }
}

/// Many states with one call each.
fn states(which: States, seed: u64, calls: u64) -> Counts {
    println!("{which:?} states: seed {seed}");
    let mut rng = Rng::new(seed);
    let counts = compare::states::<Lent>(&mut rng, which, calls, |rng, unit| {
        if rng.below(8) == 0 {
            unit.state = wild(rng, &unit.state);
        }
    });
    let counts = counts.unwrap_or_else(|what| panic!("{which:?}, seed {seed}: {what}"));
    counts.print(&format!("{which:?} states"));
    counts
}

/// Any numbers at all in some places of a state, but for M and H.
fn wild(rng: &mut Rng, state: &State) -> State {
    let mut arrays = encode(state);
    let chance = rng.pick(&[5, 20, 60]);
    let any = |rng: &mut Rng| match rng.below(3) {
        0 => rng.bits() as u32,
        _ => random::number(rng, state.m, state.h),
    };
    for number in &mut arrays.numbers[2..] {
        if rng.percent(chance) {
            *number = any(rng);
        }
    }
    for switch in &mut arrays.switches {
        if rng.percent(chance) {
            *switch = rng.percent(50);
        }
    }
    for half in &mut arrays.hold {
        if rng.percent(chance) {
            *half = any(rng) as u16;
        }
    }
    decode(&arrays)
}

#[test]
fn arbitrary_states() {
    states(States::Arbitrary, 306, 700_000).any();
}

#[test]
fn damaged_states() {
    states(States::Damaged, 307, 600_000).any();
}

/// Columns of different lengths: 9 and 10 for nearly all of them.
#[test]
fn uneven_columns() {
    let counts = states(States::Uneven, 308, 200_000);
    assert!(counts.answers[9] > 100_000 && counts.answers[10] > 1000);
}

/// Boxes of every sort: grown, damaged and arbitrary ones, and columns of
/// uneven lengths.
struct Boxes {
    grower: Grower,
    at: u32,
}

impl Boxes {
    fn new(rng: &mut Rng) -> Boxes {
        let grower = Grower::new(rng);
        Boxes { grower, at: 0 }
    }

    fn next(&mut self, rng: &mut Rng) -> Unit {
        self.at += 1;
        match self.at % 4 {
            0 => random::uneven(rng),
            1 => self.grower.grow(rng).clone(),
            2 => random::damaged(rng, &mut self.grower),
            _ => random::arbitrary(rng),
        }
    }
}

/// Calls that are refused nearly always, on boxes of every sort, until a
/// million of them were. All lent parts are compared with the second program
/// and with what they were before.
#[test]
fn a_million_refused_calls() {
    let seed = 309;
    println!("refused calls: seed {seed}");
    let mut rng = Rng::new(seed);
    let mut boxes = Boxes::new(&mut rng);
    let mut pair: Pair<Lent> = Pair::new(Unit::lent(16, 2), Fault::None);
    // Openings, requests, steps and runs.
    let mut refused = [0; 4];
    while pair.counts.refused < 1_000_000 {
        let unit = boxes.next(&mut rng);
        pair.take(&unit);
        for _ in 0..8 {
            let ask = compare::bad_ask(&mut rng, &pair.unit);
            let at = pair.counts.calls;
            let answer = pair.ask(ask);
            let answer =
                answer.unwrap_or_else(|what| panic!("seed {seed}, call {at}: {what}{unit:?}"));
            let call = match ask {
                Ask::Open(..) => 0,
                Ask::Request(_) | Ask::Numbers(_) => 1,
                Ask::Step => 2,
                Ask::Run(_) => 3,
            };
            refused[call] += u64::from(ask.refused(answer));
        }
    }
    let counts = &pair.counts;
    counts.print("refused calls");
    println!("refused calls: openings, requests, steps and runs {refused:?}");
    assert_eq!(counts.refused, refused.iter().sum());
    assert!(refused.iter().all(|count| *count > 10_000));
    for answer in (1..=6).chain([9, 10]) {
        assert!(counts.answers[answer] > 1000, "answer {answer}");
    }
    assert!(counts.not_understood > 100_000);
}

/// Requests by their numbers, each on a box as it is.
struct Numbered {
    pair: Pair<Lent>,
    boxes: Boxes,
    unit: Unit,
    rng: Rng,
}

impl Numbered {
    fn new(seed: u64) -> Numbered {
        println!("requests by numbers: seed {seed}");
        let mut rng = Rng::new(seed);
        let boxes = Boxes::new(&mut rng);
        let unit = Unit::lent(16, 2);
        let pair = Pair::new(unit.clone(), Fault::None);
        Numbered {
            pair,
            boxes,
            unit,
            rng,
        }
    }

    fn next_box(&mut self) {
        self.unit = self.boxes.next(&mut self.rng);
    }

    #[track_caller]
    fn ask(&mut self, numbers: [u32; 4]) -> u32 {
        self.pair.take(&self.unit);
        let answer = self.pair.ask(Ask::Numbers(numbers));
        answer.unwrap_or_else(|what| panic!("{what}{:?}", self.unit)) as u32
    }

    /// The numbers ask for nothing; `ask` sees that nothing is changed.
    #[track_caller]
    fn not_understood(&mut self, numbers: [u32; 4]) {
        assert_eq!(self.ask(numbers), u32::MAX, "{numbers:?}");
    }

    fn print(&self, name: &str) {
        self.pair.counts.print(name);
    }
}

#[test]
fn an_unknown_kind() {
    let mut numbered = Numbered::new(311);
    let mut kinds = vec![0, 11, 12, 13, 16, 255, 256, u32::MAX, u32::MAX - 9];
    kinds.extend((1..=10).flat_map(|kind| [kind + 256, kind + 65_536, kind + (1 << 31)]));
    for _ in 0..300 {
        numbered.next_box();
        for &kind in &kinds {
            let [a, b, c] = [0; 3].map(|_| numbered.rng.below(8));
            numbered.not_understood([kind, a, b, c]);
        }
    }
    numbered.print("an unknown kind");
}

/// Which of a, b and c are 16-bit fields of a kind.
fn halves(kind: u32) -> &'static [usize] {
    match kind {
        1 | 2 => &[1],
        3 | 4 | 8 | 9 => &[1, 2],
        _ => &[1, 2, 3],
    }
}

#[test]
fn a_field_above_16_bits() {
    let mut numbered = Numbered::new(313);
    for _ in 0..300 {
        numbered.next_box();
        for kind in 1..=10 {
            for &at in halves(kind) {
                for high in [1, 2, 32_768, 65_535] {
                    let rng = &mut numbered.rng;
                    let mut numbers = [kind, rng.below(9), rng.below(9), rng.below(9)];
                    numbers[at] = high * 65_536 + rng.pick(&[0, 1, 7, 65_535]);
                    numbered.not_understood(numbers);
                }
            }
        }
    }
    numbered.print("a field above 16 bits");
}

/// What stands in a field that the kind doesn't have makes no difference, and
/// the value of SETD has 32 bits.
#[test]
fn a_field_that_the_kind_lacks() {
    let mut numbered = Numbered::new(315);
    for _ in 0..300 {
        numbered.next_box();
        for kind in [1, 2, 3, 4, 8, 9] {
            let rng = &mut numbered.rng;
            let value = rng.bits() as u32;
            let numbers = match kind {
                1 => [1, rng.below(8), value, 0],
                2 => [2, rng.below(8), 0, 0],
                _ => [kind, rng.below(8), rng.below(8), 0],
            };
            let mut others = numbers;
            others[3] = rng.pick(&[1, 65_536, u32::MAX]);
            if kind == 2 {
                others[2] = rng.pick(&[1, 65_536, u32::MAX]);
            }
            let answer = numbered.ask(numbers);
            assert_ne!(answer, u32::MAX);
            let lent = numbered.pair.machine.clone();
            assert_eq!(numbered.ask(others), answer, "{others:?}");
            assert!(numbered.pair.machine.differences(&lent).is_empty());
            if kind == 1 && answer == DONE {
                let r = numbers[1] as usize;
                assert_eq!(lent.numbers.cells()[14 + r], value);
            }
        }
    }
    numbered.print("a field that the kind lacks");
}

/// A state in its arrays and back.
#[test]
fn arrays_and_back() {
    let mut rng = Rng::new(318);
    for _ in 0..10_000 {
        let state = random::arbitrary(&mut rng).state;
        assert_eq!(decode(&encode(&state)), state);
        let state = wild(&mut rng, &state);
        assert_eq!(decode(&encode(&state)), state);
    }
}

// The comparison itself.

/// With a fault planted in the second program the lists must differ, and the
/// text must be short.
#[test]
fn planted_faults_are_noticed() {
    for fault in Fault::ALL {
        let seed = 319;
        let mut rng = Rng::new(seed);
        let mut pair: Pair<Lent> = Pair::new(Unit::lent(16, 2), fault);
        let told = (0..1000).find_map(|_| {
            let size = random::small_box(&mut rng);
            compare::list(&mut rng, size, 2000, &mut pair).err()
        });
        let told = told.unwrap_or_else(|| panic!("{fault:?} was not noticed"));
        let calls = pair.counts.calls;
        let lines = told.lines().count();
        assert!((2..=16).contains(&lines), "{told}");
        let first = told.lines().next().unwrap();
        println!("{fault:?}: seed {seed}, noticed after {calls} calls: {first}");
    }
}

/// Each single number changed is noticed and named, and so is one outside.
#[test]
fn planted_numbers_are_noticed() {
    let mut rng = Rng::new(320);
    let unit = random::damaged(&mut rng, &mut Grower::new(&mut Rng::new(321)));
    let lent = Lent::of(&unit);
    assert!(lent.same(&unit) && lent.differences(&lent).is_empty());
    let mut noticed = 0;
    let mut check = |other: &Lent| {
        assert!(!other.same(&unit));
        assert_eq!(other.differences(&lent).len(), 1);
        noticed += 1;
    };
    macro_rules! plant {
        ($($column:ident),*) => {
            $(for at in 0..lent.$column.clone().whole_mut().len() {
                let mut other = lent.clone();
                other.$column.whole_mut()[at] ^= 1;
                check(&other);
            }
            let mut other = lent.clone();
            let shorter = lent.$column.cells()[1..].to_vec();
            other.$column.take(&shorter);
            check(&other);)*
        };
    }
    plant!(numbers, switches, hold, words, flags, addresses, sizes, links, marks, deeps);
    println!("planted numbers: {noticed} noticed");
    let (m, h) = (unit.words.len(), unit.links.len());
    let cells = NUMBERS + SWITCHES + HOLD + 2 * m + 5 * h;
    // Around each of the ten parts, and each of them shorter.
    assert_eq!(noticed, cells + 10 * (2 * GUARDS + 1));
}
