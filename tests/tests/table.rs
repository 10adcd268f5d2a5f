//! The table of answers and the single rules, by hand: when each number is
//! given, in which order, and on damaged states exactly when 9 is.

use gloamish_tests::call::Request;
use gloamish_tests::{Hold, State, Unit, Word};

fn opened() -> Unit {
    let mut unit = Unit::lent(16, 4);
    assert_eq!(unit.open(16, 4), 0);
    unit
}

/// Two tuples: handle 1 of 2 words at 0, handle 2 of 1 word at 3, top 5.
fn filled() -> Unit {
    let mut unit = opened();
    let first = Request::Getm { r: 0, n: 2, tag: 7 };
    let second = Request::Getm { r: 1, n: 1, tag: 9 };
    assert_eq!(unit.request(first), 0);
    assert_eq!(unit.request(second), 0);
    unit
}

fn filled_in(phase: u32, change: impl FnOnce(&mut Unit)) -> Unit {
    let mut unit = filled();
    unit.state.phase = phase;
    change(&mut unit);
    unit
}

/// The answer of a step; 9 must leave all as found.
#[track_caller]
fn step(unit: &mut Unit) -> u32 {
    let before = unit.clone();
    let answer = unit.step();
    if answer == 9 {
        assert_eq!(*unit, before);
    }
    answer
}

#[track_caller]
fn ask(unit: &mut Unit, request: Request) -> u32 {
    let before = unit.clone();
    let answer = unit.request(request);
    if (1..=6).contains(&answer) || answer == 9 {
        assert_eq!(*unit, before);
    }
    answer
}

#[test]
fn opening_clears_everything() {
    let mut unit = filled();
    unit.pointers[15] = true;
    unit.words[14] = 3;
    unit.marks = vec![true; 4];
    unit.deeps = vec![true; 4];
    unit.sizes[0] = 5;
    unit.links = vec![9; 4];
    unit.state = State {
        m: 99,
        h: 98,
        registers: [Word::pointer(3, 3); 8],
        top: 1,
        free: 2,
        phase: 300,
        live: 4,
        current: 5,
        next: 6,
        src: 7,
        dest: 8,
        tuple: 9,
        size: 10,
        index: 11,
        copy: Word::pointer(1, 1),
        hold: Hold {
            held: true,
            begun: true,
            register: 1,
            size: 2,
            tag: 3,
        },
    };
    assert_eq!(unit.open(16, 4), 0);
    assert_eq!(unit.words, [0; 16]);
    assert_eq!(unit.pointers, [false; 16]);
    assert_eq!(unit.addresses, [0; 4]);
    assert_eq!(unit.sizes, [0; 4]);
    assert_eq!(unit.links, [0, 2, 3, 0]);
    assert_eq!(unit.marks, [false; 4]);
    assert_eq!(unit.deeps, [false; 4]);
    let state = State {
        m: 16,
        h: 4,
        free: 1,
        ..State::default()
    };
    assert_eq!(unit.state, state);
}

#[test]
fn opening_refused() {
    for (m, h) in [(15, 4), (8193, 4), (16, 1), (16, 1025)] {
        let mut unit = Unit::lent(m, h);
        unit.state.top = 5;
        let before = unit.clone();
        assert_eq!(unit.open(m, h), 10);
        assert_eq!(unit, before);
    }
    for (m, h) in [(16, 2), (8192, 1024)] {
        assert_eq!(Unit::lent(m, h).open(m, h), 0);
    }
    for column in 0..7 {
        let mut unit = filled();
        shorten(&mut unit, column);
        let before = unit.clone();
        assert_eq!(unit.open(16, 4), 10);
        assert_eq!(unit, before);
    }
}

fn shorten(unit: &mut Unit, column: u32) {
    match column {
        0 => drop(unit.words.pop()),
        1 => drop(unit.pointers.pop()),
        2 => drop(unit.addresses.pop()),
        3 => drop(unit.sizes.pop()),
        4 => drop(unit.links.pop()),
        5 => drop(unit.marks.pop()),
        _ => drop(unit.deeps.pop()),
    }
}

#[test]
fn sizes_lengths_and_phase_come_first() {
    let mut bad = vec![
        filled_in(9, |_| {}),
        filled_in(u32::MAX, |_| {}),
        filled_in(0, |unit| unit.state.m = 17),
        filled_in(0, |unit| unit.state.h = 3),
    ];
    for column in 0..7 {
        bad.push(filled_in(0, |unit| shorten(unit, column)));
    }
    for mut unit in bad {
        assert_eq!(step(&mut unit), 9);
        // Before 1 and before 6.
        unit.state.hold.held = true;
        assert_eq!(ask(&mut unit, Request::Nil { r: 8 }), 9);
        let before = unit.clone();
        for budget in [0, 1, u32::MAX] {
            let ran = unit.run(budget);
            assert_eq!((ran.answer, ran.steps), (9, 0));
        }
        assert_eq!(unit, before);
    }
}

#[test]
fn order_of_refusals() {
    let mut unit = filled();
    unit.state.hold.held = true;
    let big = |r| Request::Getm { r, n: 16, tag: 0 };
    assert_eq!(ask(&mut unit, big(8)), 1);
    assert_eq!(ask(&mut unit, big(7)), 6);
    unit.state.hold.held = false;
    assert_eq!(ask(&mut unit, big(7)), 5);
    assert_eq!(ask(&mut unit, Request::Load { r: 0, s: 2, k: 9 }), 2);
    assert_eq!(ask(&mut unit, Request::Store { r: 0, s: 2, k: 9 }), 2);
    assert_eq!(ask(&mut unit, Request::Size { r: 0, s: 2 }), 2);
    assert_eq!(ask(&mut unit, Request::Tag { r: 0, s: 2 }), 2);
    assert_eq!(ask(&mut unit, Request::Advance { r: 2, n: 65_535 }), 2);
    // Each register a kind names counts, and no other.
    assert_eq!(ask(&mut unit, Request::Move { r: 0, s: 8 }), 1);
    assert_eq!(ask(&mut unit, Request::Same { r: 0, s: 0, t: 8 }), 1);
    assert_eq!(ask(&mut unit, Request::Same { r: 0, s: 8, t: 0 }), 1);
    // 7 comes before 9: no room, and a bad head of the free list.
    unit.state.free = 4;
    let before = unit.clone();
    let more = Request::Getm {
        r: 2,
        n: 11,
        tag: 5,
    };
    assert_eq!(ask(&mut unit, more), 7);
    unit.state.hold = before.state.hold;
    assert_eq!(unit, before);
    let less = Request::Getm {
        r: 2,
        n: 10,
        tag: 5,
    };
    assert_eq!(ask(&mut unit, less), 9);
}

#[test]
fn nil_has_no_words() {
    let mut unit = opened();
    assert_eq!(ask(&mut unit, Request::Nil { r: 0 }), 0);
    assert_eq!(ask(&mut unit, Request::Advance { r: 0, n: 3 }), 0);
    assert_eq!(unit.state.registers[0], Word::pointer(0, 3));
    assert_eq!(ask(&mut unit, Request::Load { r: 1, s: 0, k: 0 }), 3);
    assert_eq!(ask(&mut unit, Request::Store { r: 1, s: 0, k: 0 }), 3);
    unit.state.registers[1] = Word::data(5);
    assert_eq!(ask(&mut unit, Request::Size { r: 1, s: 0 }), 0);
    assert_eq!(unit.state.registers[1], Word::data(0));
    unit.state.registers[1] = Word::data(5);
    assert_eq!(ask(&mut unit, Request::Tag { r: 1, s: 0 }), 0);
    assert_eq!(unit.state.registers[1], Word::data(0));
}

#[test]
fn same_looks_at_word_and_flag() {
    let mut unit = filled();
    unit.state.registers[2] = Word::data(0x0001_0000);
    for (s, t, same) in [(0, 0, 1), (0, 1, 0), (0, 2, 0), (3, 4, 1)] {
        assert_eq!(ask(&mut unit, Request::Same { r: 7, s, t }), 0);
        assert_eq!(unit.state.registers[7], Word::data(same));
    }
}

#[test]
fn a_looked_up_handle_is_in_the_directory() {
    let mut unit = filled();
    unit.state.registers[0] = Word::pointer(4, 0);
    unit.state.registers[2] = Word::pointer(3, 0);
    assert_eq!(
        ask(
            &mut unit,
            Request::Load {
                r: 7,
                s: 0,
                k: 65_535
            }
        ),
        9
    );
    assert_eq!(ask(&mut unit, Request::Store { r: 7, s: 0, k: 0 }), 9);
    assert_eq!(ask(&mut unit, Request::Size { r: 7, s: 0 }), 9);
    assert_eq!(ask(&mut unit, Request::Tag { r: 7, s: 0 }), 9);
    assert_eq!(ask(&mut unit, Request::Size { r: 7, s: 2 }), 0);
    // Moving, advancing and comparing look nothing up.
    assert_eq!(ask(&mut unit, Request::Move { r: 7, s: 0 }), 0);
    assert_eq!(ask(&mut unit, Request::Advance { r: 7, n: 1 }), 0);
    // STORE looks its target up only where it shades.
    for phase in 0..9 {
        unit.state.phase = phase;
        let answer = ask(&mut unit.clone(), Request::Store { r: 0, s: 1, k: 0 });
        assert_eq!(answer, if (1..=3).contains(&phase) { 9 } else { 0 });
    }
}

#[test]
fn a_touched_address_is_below_m() {
    let mut unit = filled();
    unit.addresses[2] = 14;
    assert_eq!(ask(&mut unit, Request::Load { r: 7, s: 1, k: 0 }), 0);
    unit.addresses[2] = 15;
    assert_eq!(ask(&mut unit, Request::Load { r: 7, s: 1, k: 0 }), 9);
    assert_eq!(ask(&mut unit, Request::Store { r: 7, s: 1, k: 0 }), 9);
    assert_eq!(ask(&mut unit, Request::Tag { r: 7, s: 1 }), 0);
    unit.addresses[2] = u32::MAX;
    assert_eq!(ask(&mut unit, Request::Tag { r: 7, s: 1 }), 9);
    // 3 comes before 9.
    assert_eq!(ask(&mut unit, Request::Load { r: 7, s: 1, k: 1 }), 3);
}

#[test]
fn getm_outside_rest_counts() {
    let getm = Request::Getm { r: 2, n: 3, tag: 1 };
    for phase in 1..9 {
        let mut unit = filled_in(phase, |unit| unit.state.live = 12);
        unit.deeps[3] = true;
        assert_eq!(ask(&mut unit, getm), 0);
        assert_eq!(unit.state.live, 16);
        assert!(unit.marks[3] && !unit.deeps[3]);
        assert_eq!((unit.addresses[3], unit.sizes[3]), (5, 3));
        assert_eq!(unit.words[5], 0x0003_0001);
        assert_eq!(unit.state.top, 9);
        let mut unit = filled_in(phase, |unit| unit.state.live = 13);
        assert_eq!(ask(&mut unit, getm), 9);
    }
    let mut unit = filled_in(0, |unit| unit.state.live = 13);
    unit.marks[3] = true;
    assert_eq!(ask(&mut unit, getm), 0);
    assert_eq!(unit.state.live, 13);
    assert!(!unit.marks[3]);
}

#[test]
fn mark_next_looks_up_to_the_one_found() {
    // A bad register before the one found counts, one after it doesn't.
    let mut unit = filled_in(1, |unit| unit.state.registers[2] = Word::pointer(9, 0));
    assert_eq!(step(&mut unit), 30);
    assert_eq!(step(&mut unit), 30);
    assert!(unit.marks[1] && unit.marks[2]);
    assert_eq!(unit.state.live, 5);
    assert_eq!(step(&mut unit), 9);
    // The next list's head is looked up; its address and size are copied.
    let mut unit = filled_in(1, |unit| unit.state.next = 4);
    assert_eq!(step(&mut unit), 9);
    let mut unit = filled_in(1, |unit| {
        unit.state.next = 3;
        unit.addresses[3] = 99;
        unit.sizes[3] = u32::MAX;
        unit.links[3] = 77;
    });
    assert_eq!(step(&mut unit), 30);
    let state = unit.state;
    assert_eq!((state.src, state.size, state.index), (99, u32::MAX, 1));
    assert_eq!((state.current, state.next, state.phase), (77, 0, 2));
    assert_eq!(step(&mut unit), 9);
}

#[test]
fn shade_forms_a_total() {
    for (live, size, answer) in [(14, 1, 30), (15, 1, 9), (0, 15, 30), (0, u32::MAX, 9)] {
        let mut unit = filled_in(3, |unit| {
            unit.state.tuple = 2;
            unit.state.live = live;
            unit.sizes[2] = size;
        });
        assert_eq!(step(&mut unit), answer);
    }
    // Marked already: nothing is formed.
    let mut unit = filled_in(3, |unit| {
        unit.state.tuple = 2;
        unit.state.live = u32::MAX;
        unit.marks[2] = true;
    });
    assert_eq!(step(&mut unit), 30);
    for tuple in [0, 4, u32::MAX] {
        let mut unit = filled_in(3, |unit| unit.state.tuple = tuple);
        assert_eq!(step(&mut unit), 9);
    }
}

#[test]
fn mark_scan_touches_its_word() {
    for (src, answer) in [(14, 30), (15, 9), (u32::MAX, 9)] {
        let mut unit = filled_in(2, |unit| {
            unit.state.src = src;
            unit.state.index = 1;
            unit.state.size = 1;
        });
        assert_eq!(step(&mut unit), answer);
    }
    // Past the size no address is formed.
    for (current, answer) in [(0, 30), (1, 30), (4, 9)] {
        let mut unit = filled_in(2, |unit| {
            unit.state.src = u32::MAX;
            unit.state.index = u32::MAX;
            unit.state.size = 1;
            unit.state.current = current;
        });
        assert_eq!(step(&mut unit), answer);
    }
}

#[test]
fn sweep_scan_forms_after_in_every_case() {
    // (marked, src, dest): in place, to be moved, dead.
    for (mark, src, dest) in [(true, 14, 14), (true, 14, 0), (false, 14, 0)] {
        for (size, answer) in [(1, true), (2, false), (u32::MAX, false)] {
            let mut unit = filled_in(4, |unit| {
                unit.state.src = src;
                unit.state.dest = dest;
                unit.state.tuple = 2;
                unit.state.top = 16;
                unit.sizes[2] = size;
                unit.marks[2] = mark;
            });
            assert_eq!(step(&mut unit) != 9, answer, "{mark} {src} {dest} {size}");
        }
    }
    for tuple in [0, 4] {
        let mut unit = filled_in(4, |unit| unit.state.tuple = tuple);
        assert_eq!(step(&mut unit), 9);
    }
    // after is M, but not top: the handle there can't be read.
    let mut unit = filled_in(4, |unit| {
        unit.state.src = 14;
        unit.state.dest = 14;
        unit.state.tuple = 2;
        unit.marks[2] = true;
    });
    assert_eq!(step(&mut unit), 9);
}

#[test]
fn sweep_scan_finds_where_to_zero() {
    for (src, live, phase, index) in [(0, 1, 8, 1), (0, 0, 8, 0), (3, 1, 8, 0), (0, 2, 8, 2)] {
        let mut unit = filled_in(4, |unit| {
            unit.state.src = src;
            unit.state.live = live;
            unit.state.tuple = 1;
        });
        assert_eq!(step(&mut unit), 30);
        assert_eq!((unit.state.phase, unit.state.index), (phase, index));
        assert_eq!(unit.free_list(), Some(vec![1, 3]));
    }
    let mut unit = filled_in(4, |unit| {
        unit.state.live = 3;
        unit.state.tuple = 1;
    });
    assert_eq!(step(&mut unit), 30);
    let state = unit.state;
    assert_eq!((state.phase, state.src, state.tuple), (4, 3, 2));
}

#[test]
fn sweep_read_at_the_end_forms_both() {
    let place = |src, dest, tuple| {
        filled_in(5, |unit| {
            unit.state.src = src;
            unit.state.dest = dest;
            unit.state.tuple = tuple;
            unit.state.size = 1;
            unit.state.index = 2;
            unit.state.top = 16;
        })
    };
    assert_eq!(step(&mut place(14, 0, 2)), 31);
    assert_eq!(step(&mut place(15, 0, 2)), 9);
    assert_eq!(step(&mut place(14, 14, 2)), 31);
    assert_eq!(step(&mut place(14, 15, 2)), 9);
    assert_eq!(step(&mut place(14, 0, 0)), 9);
    assert_eq!(step(&mut place(14, 0, 4)), 9);
    // While words are copied neither is formed, nor the handle looked up.
    let mut unit = place(14, u32::MAX, 0);
    unit.state.size = u32::MAX;
    unit.state.index = 1;
    assert_eq!(step(&mut unit), 30);
    unit.state.index = 2;
    unit.state.phase = 5;
    assert_eq!(step(&mut unit), 9);
}

#[test]
fn sweep_clear_write_and_zero_touch() {
    for (address, answer) in [(14, 30), (15, 9), (u32::MAX, 9)] {
        for phase in [6, 7, 8] {
            let mut unit = filled_in(phase, |unit| {
                unit.state.src = if phase == 7 { u32::MAX } else { address };
                unit.state.dest = if phase == 7 { address } else { u32::MAX };
                unit.state.tuple = u32::MAX;
                unit.state.index = 1;
                unit.state.size = 1;
            });
            assert_eq!(step(&mut unit), answer, "phase {phase}");
        }
    }
    // The end of zeroing forms after, and copies dest as it is.
    for (src, answer) in [(14, 31), (15, 9)] {
        let mut unit = filled_in(8, |unit| {
            unit.state.src = src;
            unit.state.dest = u32::MAX;
            unit.state.index = 2;
            unit.state.size = 1;
            unit.state.top = 16;
        });
        assert_eq!(step(&mut unit), answer);
        if answer == 31 {
            assert_eq!(unit.state.top, u32::MAX);
        }
    }
}

/// The last step of a cycle on an empty heap with something held.
fn ending(change: impl FnOnce(&mut State)) -> Unit {
    let mut unit = opened();
    unit.state.phase = 1;
    unit.state.live = 5;
    unit.state.hold = Hold {
        held: true,
        begun: true,
        register: 3,
        size: 15,
        tag: 2,
    };
    change(&mut unit.state);
    unit
}

#[test]
fn the_hold_at_the_end_of_a_cycle() {
    let mut unit = ending(|_| {});
    assert_eq!(step(&mut unit), 32);
    let state = unit.state;
    assert!(!state.hold.held && !unit.marks[1]);
    assert_eq!((state.phase, state.live, state.top), (0, 0, 16));
    assert_eq!(state.registers[3], Word::pointer(1, 0));
    let mut unit = ending(|state| state.hold.register = 8);
    assert_eq!(step(&mut unit), 9);
    let mut unit = ending(|state| state.free = 4);
    assert_eq!(step(&mut unit), 9);
    // Not granted, so neither its register nor the free list matters.
    for free in [0, 1, 4] {
        let mut unit = ending(|state| {
            state.free = free;
            state.hold.register = 8;
            state.hold.size = if free == 0 { 1 } else { 16 };
        });
        assert_eq!(step(&mut unit), 8);
        assert!(!unit.state.hold.held);
    }
    let mut unit = ending(|state| {
        state.hold.begun = false;
        state.hold.size = 65_535;
    });
    assert_eq!(step(&mut unit), 33);
    assert!(unit.state.hold.held && !unit.state.hold.begun);
    assert_eq!((unit.state.phase, unit.state.live), (0, 0));
    assert_eq!(step(&mut unit), 30);
    assert!(unit.state.hold.begun);
    assert_eq!(step(&mut unit), 8);
}

#[test]
fn a_run_stops_before_a_step_with_9() {
    let mut unit = filled();
    // Marking passes two tuples, then meets the bad handle.
    unit.state.registers[2] = Word::pointer(9, 0);
    let mut single = unit.clone();
    for _ in 0..3 {
        assert_eq!(step(&mut single), 30);
    }
    let ran = unit.run(100);
    assert_eq!((ran.answer, ran.steps), (9, 3));
    assert_eq!(unit, single);
    let ran = unit.run(0);
    assert_eq!((ran.answer, ran.steps), (11, 0));
}

#[test]
fn a_hold_put_on_in_a_cycle_outlives_it() {
    let mut unit = filled();
    assert_eq!(step(&mut unit), 30);
    let getm = Request::Getm {
        r: 2,
        n: 11,
        tag: 0,
    };
    assert_eq!(ask(&mut unit, getm), 7);
    let answers: Vec<u32> = (0..100)
        .map(|_| step(&mut unit))
        .filter(|&answer| answer != 30)
        .take(2)
        .collect();
    assert_eq!(answers, [33, 8]);
}

#[test]
fn words_of_the_tuple_being_moved() {
    // Phase, index, and where words 0 and 1 of the tuple are found.
    for (phase, index, tag, first) in [
        (5, 0, 9, 40),
        (5, 1, 20, 40),
        (5, 2, 20, 21),
        (6, 0, 30, 40),
        (6, 1, 20, 30),
        (7, 0, 30, 40),
        (7, 1, 20, 30),
        (4, 1, 9, 40),
        (8, 1, 9, 40),
    ] {
        let mut unit = filled_in(phase, |unit| {
            unit.words[4] = 40;
            unit.words[10] = 20;
            unit.words[11] = 21;
            unit.state.dest = 10;
            unit.state.index = index;
            unit.state.copy = Word::data(30);
            unit.state.tuple = 2;
        });
        assert_eq!(ask(&mut unit, Request::Tag { r: 6, s: 1 }), 0);
        assert_eq!(ask(&mut unit, Request::Load { r: 7, s: 1, k: 0 }), 0);
        let registers = unit.state.registers;
        assert_eq!(registers[6], Word::data(tag), "phase {phase}, {index}");
        assert_eq!(registers[7], Word::data(first), "phase {phase}, {index}");
    }
}
