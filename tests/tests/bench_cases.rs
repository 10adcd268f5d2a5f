//! The bench cases. Each is driven through the checker, so every claim is
//! checked after every call of it too.

use gloamish_tests::call::{Call, Request};
use gloamish_tests::{Checker, Fault, Unit, Word};

struct Bench(Checker);

fn opened() -> Bench {
    Bench(Checker::open(16, 4, Fault::None).unwrap())
}

impl Bench {
    #[track_caller]
    fn ask(&mut self, request: Request, answer: u32) {
        assert_eq!(self.0.call(Call::Request(request)), Ok(answer));
    }

    #[track_caller]
    fn getm(&mut self, r: u16, n: u16, tag: u16, answer: u32) {
        self.ask(Request::Getm { r, n, tag }, answer);
    }

    #[track_caller]
    fn setd(&mut self, r: u16, v: u32) {
        self.ask(Request::Setd { r, v }, 0);
    }

    #[track_caller]
    fn store(&mut self, r: u16, s: u16, k: u16) {
        self.ask(Request::Store { r, s, k }, 0);
    }

    /// A number of steps that all go on.
    #[track_caller]
    fn going(&mut self, steps: u32) {
        for step in 1..=steps {
            assert_eq!(self.0.call(Call::Step), Ok(30), "step {step}");
        }
    }

    /// A cycle from its Rest step that ends at that step.
    #[track_caller]
    fn cycle(&mut self, steps: u32, answer: u32) {
        assert_eq!(self.unit().state.phase, 0);
        self.going(steps - 1);
        assert_eq!(self.0.call(Call::Step), Ok(answer));
        assert_eq!(self.unit().state.phase, 0);
    }

    /// A run, and the number of steps it reports, seen on a copy.
    #[track_caller]
    fn run(&mut self, budget: u32, answer: u32, steps: u32) {
        let ran = self.unit().clone().run(budget);
        assert_eq!((ran.answer, ran.steps), (answer, steps));
        assert_eq!(self.0.call(Call::Run(budget)), Ok(answer));
    }

    fn unit(&self) -> &Unit {
        &self.0.unit
    }

    fn register(&self, r: usize) -> Word {
        self.unit().state.registers[r]
    }

    /// P1, as the cases after it take it.
    fn p1() -> Bench {
        let mut bench = opened();
        bench.getm(0, 2, 7, 0);
        bench
    }

    fn p2() -> Bench {
        let mut bench = Bench::p1();
        bench.getm(1, 1, 0, 0);
        bench
    }

    /// P3 up to its cycle.
    fn p3_filled() -> Bench {
        let mut bench = Bench::p2();
        bench.store(1, 0, 0);
        bench.setd(1, 0);
        bench
    }

    fn p5_filled() -> Bench {
        let mut bench = Bench::p2();
        bench.setd(2, 0xABCD);
        bench.store(2, 1, 0);
        bench.setd(0, 0);
        bench
    }
}

#[test]
fn p1_first_tuple() {
    let bench = Bench::p1();
    assert_eq!(bench.register(0), Word::pointer(1, 0));
    assert_eq!(bench.unit().words[0], 0x0001_0007);
    assert!(!bench.unit().pointers[0]);
    assert_eq!(bench.unit().state.top, 3);
}

#[test]
fn p2_second_tuple() {
    let bench = Bench::p2();
    assert_eq!(bench.register(1), Word::pointer(2, 0));
    assert_eq!(bench.unit().state.top, 5);
}

#[test]
fn p3_nothing_moved() {
    let mut bench = Bench::p3_filled();
    let before = bench.unit().clone();
    bench.cycle(10, 31);
    let after = bench.unit();
    assert_eq!(after.words, before.words);
    assert_eq!(after.pointers, before.pointers);
    assert_eq!(after.addresses, before.addresses);
    assert_eq!(after.state.top, before.state.top);
}

#[test]
fn p4_all_freed() {
    let mut bench = Bench::p3_filled();
    bench.cycle(10, 31);
    bench.setd(0, 0);
    bench.cycle(11, 31);
    assert_eq!(bench.unit().state.top, 0);
    assert_eq!(bench.unit().free_list(), Some(vec![2, 1, 3]));
}

#[test]
fn p5_second_tuple_moved() {
    let mut bench = Bench::p5_filled();
    bench.cycle(14, 31);
    let unit = bench.unit();
    assert_eq!(unit.state.top, 2);
    let mut words = [0; 16];
    words[0] = 0x0002_0000;
    words[1] = 0xABCD;
    assert_eq!(unit.words, words);
    assert_eq!(unit.pointers, [false; 16]);
}

#[test]
fn p6_load_in_the_move() {
    let mut bench = Bench::p5_filled();
    bench.going(12);
    bench.ask(Request::Load { r: 3, s: 1, k: 0 }, 0);
    assert_eq!(bench.register(3), Word::data(0xABCD));
}

#[test]
fn p7_store_in_the_move() {
    let mut bench = Bench::p5_filled();
    bench.going(12);
    bench.setd(2, 5);
    bench.store(2, 1, 0);
    bench.going(1);
    assert_eq!(bench.0.call(Call::Step), Ok(31));
    assert_eq!(bench.unit().words[1], 5);
    assert!(!bench.unit().pointers[1]);
}

#[test]
fn p8_empty_heap() {
    let mut bench = opened();
    bench.cycle(2, 31);
}

#[test]
fn p9_fits_exactly() {
    let mut bench = Bench::p2();
    bench.getm(2, 10, 0, 0);
    assert_eq!(bench.unit().state.top, 16);
}

#[test]
fn p10_held_then_failed() {
    // By steps and by a run.
    let mut bench = Bench::p2();
    bench.getm(2, 11, 0, 7);
    let answer = loop {
        match bench.0.call(Call::Step).unwrap() {
            30 | 33 => {}
            answer => break answer,
        }
    };
    assert_eq!(answer, 8);
    assert!(!bench.unit().state.hold.held);
    let mut bench = Bench::p2();
    bench.getm(2, 11, 0, 7);
    assert_eq!(bench.0.call(Call::Run(u32::MAX)), Ok(8));
    assert!(!bench.unit().state.hold.held);
}

#[test]
fn p11_too_big_at_once() {
    let mut bench = Bench::p2();
    let before = bench.unit().clone();
    bench.getm(2, 16, 0, 5);
    assert_eq!(bench.unit(), &before);
}

#[test]
fn p12_last_word_and_past_it() {
    let mut bench = Bench::p1();
    // Something else in register 1 first, so that 0 is seen to arrive.
    bench.setd(1, 77);
    bench.ask(Request::Load { r: 1, s: 0, k: 1 }, 0);
    assert_eq!(bench.register(1), Word::data(0));
    bench.ask(Request::Load { r: 1, s: 0, k: 2 }, 3);
}

#[test]
fn budget_9() {
    Bench::p3_filled().run(9, 11, 9);
}

#[test]
fn budget_10() {
    Bench::p3_filled().run(10, 0, 10);
}

#[test]
fn budget_0() {
    let mut bench = Bench::p3_filled();
    let before = bench.unit().clone();
    bench.run(0, 11, 0);
    assert_eq!(bench.unit(), &before);
}

#[test]
fn advance_by_1() {
    let mut bench = Bench::p1();
    bench.ask(Request::Advance { r: 0, n: 65_534 }, 0);
    assert_eq!(bench.register(0), Word::pointer(1, 65_534));
    bench.ask(Request::Advance { r: 0, n: 1 }, 0);
    assert_eq!(bench.register(0), Word::pointer(1, 65_535));
}

#[test]
fn advance_by_2() {
    let mut bench = Bench::p1();
    bench.ask(Request::Advance { r: 0, n: 65_534 }, 0);
    bench.ask(Request::Advance { r: 0, n: 2 }, 4);
    assert_eq!(bench.register(0), Word::pointer(1, 65_534));
}
