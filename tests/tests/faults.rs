//! Faults switched on one at a time: the claims must catch each of them, and
//! with no fault the same lists must pass.

use gloamish_tests::call::{Call, Request};
use gloamish_tests::random::{self, Rng, Style};
use gloamish_tests::{Checker, Fault, Unit};

const SEED: u64 = 31;
const LISTS: u32 = 1000;
const CALLS: u32 = 2000;

/// Random lists on small boxes until a claim fails: which one, and after how
/// many calls in all. The list that shows a fault must pass without it.
fn caught(fault: Fault) -> Option<(String, u64)> {
    let mut rng = Rng::new(SEED);
    let mut calls = 0;
    for _ in 0..LISTS {
        let (m, h) = random::small_box(&mut rng);
        let mut style = Style::any(&mut rng, m, h);
        let mut checker = Checker::open(m, h, fault).unwrap();
        let mut list = Vec::new();
        for at in 0..CALLS {
            if at % 250 == 249 {
                style = Style::any(&mut rng, m, h);
            }
            let mut call = random::call(&mut rng, &checker.unit, &style);
            if let Call::Run(budget) = call {
                // A fault may keep the collector from ever stopping.
                call = Call::Run(budget.min(20 * m));
            }
            list.push(call);
            if let Err(what) = checker.call(call) {
                if fault != Fault::None {
                    let mut good = Checker::open(m, h, Fault::None).unwrap();
                    for call in list {
                        good.call(call).unwrap();
                    }
                }
                return Some((what, calls + checker.calls));
            }
        }
        calls += checker.calls;
    }
    None
}

/// The fault must be caught, and the claim be one of those it breaks.
fn must_catch(fault: Fault, claims: &[&str]) {
    let Some((what, calls)) = caught(fault) else {
        panic!("{fault:?} was not caught");
    };
    println!("{fault:?}: seed {SEED}, caught after {calls} calls: {what}");
    let claim = what.split(':').next().unwrap();
    assert!(claims.contains(&claim), "{fault:?} caught by {claim:?}");
}

macro_rules! faults {
    ($($name:ident: $fault:ident, $claims:expr;)*) => {
        $(#[test]
        fn $name() {
            must_catch(Fault::$fault, &$claims);
        })*

        #[test]
        fn every_fault_has_its_test() {
            let tested = [$(Fault::$fault),*];
            for fault in Fault::ALL {
                let elsewhere = fault == Fault::NewNotLive;
                assert!(tested.contains(&fault) || elsewhere, "{fault:?}");
            }
        }
    };
}

const AGREEMENT: &str = "agreement";
const NINE: &str = "no answer 9";
const DEAD: &str = "dead tuples gone";
const ZERO: &str = "zero above top";
const TOP: &str = "top in Rest";
const FIT: &str = "8 exactly when it doesn't fit";
const STAY: &str = "reachable tuples stay";

/// What may be seen first when a reachable tuple is freed: the tuple itself,
/// its contents, a bad handle met later, or a hold granted that shouldn't be.
const LOST: [&str; 5] = [STAY, AGREEMENT, NINE, ZERO, FIT];
/// Stale words are above top, or in a tuple granted there by the same step.
const STALE: [&str; 2] = [ZERO, AGREEMENT];
/// As LOST, or dead tuples kept by a mark that was left.
const MARKED: [&str; 6] = [STAY, AGREEMENT, NINE, ZERO, FIT, DEAD];

faults! {
    last_stays_marked: LastStaysMarked, MARKED;
    marked_in_rest: MarkedInRest, MARKED;
    roots_only_at_start: RootsOnlyAtStart, LOST;
    counted_per_register: CountedPerRegister, [ZERO, AGREEMENT, NINE];
    empty_heap_swept: EmptyHeapSwept, [NINE];
    load_skips_copy: LoadSkipsCopy, [AGREEMENT];
    load_skips_moved: LoadSkipsMoved, [AGREEMENT];
    store_skips_copy: StoreSkipsCopy, [AGREEMENT];
    tag_skips_move: TagSkipsMove, [AGREEMENT];
    store_no_shade: StoreNoShade, LOST;
    store_no_shade_in_add: StoreNoShadeInAdd, LOST;
    store_shades_in_rest: StoreShadesInRest, MARKED;
    store_not_deep: StoreNotDeep, LOST;
    data_clears_deep: DataClearsDeep, LOST;
    deep_not_listed: DeepNotListed, LOST;
    rest_lost: RestLost, LOST;
    last_word_not_scanned: LastWordNotScanned, LOST;
    zero_late: ZeroLate, STALE;
    never_cleared: NeverCleared, STALE;
    new_not_marked: NewNotMarked, LOST;
    hold_fails_early: HoldFailsEarly, [FIT];
    hold_never_fails: HoldNeverFails, ["a hold is answered in time"];
    handle_lost: HandleLost, [DEAD, TOP];
    address_kept: AddressKept, [AGREEMENT];
    refusal_writes: RefusalWrites, ["refused leaves all"];
    run_counts_more: RunCountsMore, ["a run is its single steps"];
}

#[test]
fn no_fault_passes_the_same_lists() {
    assert_eq!(caught(Fault::None), None);
    println!("no fault: seed {SEED}, {} calls pass", LISTS * CALLS);
}

/// Too small a live only makes the sweep clear more words than it must, so no
/// claim on a whole list sees this fault. The single rule does.
#[test]
fn new_not_live_breaks_its_rule() {
    let live = |fault| {
        let mut unit = Unit::lent(16, 4);
        assert_eq!(unit.open(16, 4), 0);
        assert_eq!(unit.step_with(fault), 30);
        let getm = Request::Getm { r: 0, n: 2, tag: 0 };
        assert_eq!(unit.request_with(fault, getm), 0);
        unit.state.live
    };
    assert_eq!(live(Fault::None), 3);
    assert_ne!(live(Fault::NewNotLive), 3);
    println!("NewNotLive: caught by the rule for a tuple made outside Rest");
}

// The five slips once more, each on the shortest list that shows it.

struct Short(Vec<Call>);

impl Short {
    fn ask(mut self, request: Request) -> Short {
        self.0.push(Call::Request(request));
        self
    }

    fn getm(self, r: u16, n: u16) -> Short {
        self.ask(Request::Getm { r, n, tag: 10 + r })
    }

    fn store(self, r: u16, s: u16) -> Short {
        self.ask(Request::Store { r, s, k: 0 })
    }

    fn load(self, r: u16, s: u16) -> Short {
        self.ask(Request::Load { r, s, k: 0 })
    }

    fn clear(self, r: u16) -> Short {
        self.ask(Request::Setd { r, v: 0 })
    }

    fn cycle(mut self) -> Short {
        self.0.push(Call::Run(u32::MAX));
        self
    }

    fn steps(mut self, steps: usize) -> Short {
        self.0.extend(std::iter::repeat_n(Call::Step, steps));
        self
    }

    /// Passes with no fault; with the fault the claim fails at the last call.
    fn shows(self, fault: Fault, claim: &str) {
        let mut good = Checker::open(16, 4, Fault::None).unwrap();
        let mut bad = Checker::open(16, 4, fault).unwrap();
        let last = self.0.len() - 1;
        for (at, &call) in self.0.iter().enumerate() {
            good.call(call).unwrap();
            let checked = bad.call(call);
            if at < last {
                assert!(checked.is_ok(), "{fault:?}: {checked:?}");
            } else {
                let what = checked.unwrap_err();
                println!("{fault:?}: short list: {what}");
                assert!(what.starts_with(claim), "{fault:?}: {what}");
            }
        }
    }
}

/// Tuple 2 holds the only pointer to tuple 1, which lies first.
fn held_by_a_tuple() -> Short {
    Short(Vec::new()).getm(1, 1).getm(0, 1).store(1, 0).clear(1)
}

#[test]
fn short_last_stays_marked() {
    // The first cycle leaves the last tuple marked, so the second doesn't
    // scan it and frees what it holds.
    held_by_a_tuple()
        .cycle()
        .cycle()
        .shows(Fault::LastStaysMarked, STAY);
}

#[test]
fn short_marked_in_rest() {
    // Tuple 1 went through a cycle; tuple 2 is new and holds it.
    Short(Vec::new())
        .getm(1, 1)
        .cycle()
        .getm(0, 1)
        .store(1, 0)
        .clear(1)
        .cycle()
        .shows(Fault::MarkedInRest, STAY);
}

#[test]
fn short_roots_only_at_start() {
    // Marking has started; the tuple's only pointer goes to a register.
    held_by_a_tuple()
        .steps(1)
        .load(2, 0)
        .clear(3)
        .store(3, 0)
        .cycle()
        .shows(Fault::RootsOnlyAtStart, STAY);
}

#[test]
fn short_counted_per_register() {
    // A dead tuple first, then one that two registers name.
    Short(Vec::new())
        .getm(1, 0)
        .getm(0, 1)
        .ask(Request::Setd { r: 2, v: 9 })
        .store(2, 0)
        .ask(Request::Move { r: 1, s: 0 })
        .cycle()
        .shows(Fault::CountedPerRegister, ZERO);
}

#[test]
fn short_empty_heap_swept() {
    Short(Vec::new())
        .steps(3)
        .shows(Fault::EmptyHeapSwept, NINE);
}
