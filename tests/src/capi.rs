//! The C interface of the memory unit (static library capi), behind a safe
//! wrapper: the lent parts as the library sees them, one method per function.

use std::fmt::Debug;
use std::marker::PhantomData;

use crate::call::Request;
use crate::unit::{Hold, State, Unit, Word};

/// How long the three arrays of a state are.
pub const NUMBERS: usize = 22;
pub const SWITCHES: usize = 11;
pub const HOLD: usize = 3;

/// The answer to an unknown kind or a 16-bit field above 65,535.
pub const NOT_UNDERSTOOD: u32 = u32::MAX;

const NUMBER_NAMES: [&str; NUMBERS] = [
    "M",
    "H",
    "top",
    "free",
    "phase",
    "live",
    "current",
    "next",
    "src",
    "dest",
    "tuple",
    "size",
    "index",
    "copy",
    "register 0",
    "register 1",
    "register 2",
    "register 3",
    "register 4",
    "register 5",
    "register 6",
    "register 7",
];

const SWITCH_NAMES: [&str; SWITCHES] = [
    "flag of register 0",
    "flag of register 1",
    "flag of register 2",
    "flag of register 3",
    "flag of register 4",
    "flag of register 5",
    "flag of register 6",
    "flag of register 7",
    "flag of copy",
    "held",
    "begun",
];

const HOLD_NAMES: [&str; HOLD] = ["hold register", "hold size", "hold tag"];

/// Declares functions whose last arguments are the state's three arrays, each
/// a plain pointer, and the columns, each a pointer and a length.
macro_rules! functions {
    ($($name:ident($($first:ident: $type:ty),*) -> $answer:ty;)*) => {
        extern "C" {
            $(fn $name(
                $($first: $type,)*
                numbers: *mut [u32; NUMBERS],
                switches: *mut [u8; SWITCHES],
                hold: *mut [u16; HOLD],
                words: *mut u32,
                words_length: usize,
                flags: *mut u8,
                flags_length: usize,
                addresses: *mut u32,
                addresses_length: usize,
                sizes: *mut u32,
                sizes_length: usize,
                links: *mut u32,
                links_length: usize,
                marks: *mut u8,
                marks_length: usize,
                deeps: *mut u8,
                deeps_length: usize,
            ) -> $answer;)*
        }
    };
}

functions! {
    gloamish_open(m: u32, h: u32) -> u32;
    gloamish_request(kind: u32, a: u32, b: u32, c: u32) -> u32;
    gloamish_step() -> u32;
    gloamish_run(budget: u32) -> u64;
}

/// Calls a function with the arrays and the columns that are lent.
macro_rules! lend {
    ($parts:expr, $function:ident($($first:expr),*)) => {
        // The pointers are to the parts' own buffers, with their lengths, and
        // nothing else refers to them while they are lent. Flags are 0 or 1.
        unsafe {
            $function(
                $($first,)*
                $parts.numbers,
                $parts.switches,
                $parts.hold,
                $parts.words.0,
                $parts.words.1,
                $parts.flags.0,
                $parts.flags.1,
                $parts.addresses.0,
                $parts.addresses.1,
                $parts.sizes.0,
                $parts.sizes.1,
                $parts.links.0,
                $parts.links.1,
                $parts.marks.0,
                $parts.marks.1,
                $parts.deeps.0,
                $parts.deeps.1,
            )
        }
    };
}

/// A number a lent part is made of.
pub trait Cell: Copy + PartialEq + Debug {
    /// What guard cells hold.
    const GUARD: Self;
}

impl Cell for u32 {
    const GUARD: u32 = 0xA5C3_7E19;
}

impl Cell for u16 {
    const GUARD: u16 = 0xA5C3;
}

impl Cell for u8 {
    const GUARD: u8 = 0xA5;
}

/// Guard cells before and after a lent part.
pub const GUARDS: usize = 8;

/// A lent array or column, with guard cells around it that must stay as they are.
#[derive(Clone, PartialEq, Eq, Debug)]
pub struct Column<T>(Vec<T>);

impl<T: Cell> Column<T> {
    pub fn of(cells: &[T]) -> Column<T> {
        let mut column = Column(Vec::with_capacity(cells.len() + 2 * GUARDS));
        column.take(cells);
        column
    }

    /// Takes other cells, in the same buffer if they fit.
    pub fn take(&mut self, cells: &[T]) {
        self.0.clear();
        self.0.extend([T::GUARD; GUARDS]);
        self.0.extend_from_slice(cells);
        self.0.extend([T::GUARD; GUARDS]);
    }

    pub fn len(&self) -> usize {
        self.0.len() - 2 * GUARDS
    }

    pub fn is_empty(&self) -> bool {
        self.len() == 0
    }

    pub fn cells(&self) -> &[T] {
        &self.0[GUARDS..self.0.len() - GUARDS]
    }

    pub fn cells_mut(&mut self) -> &mut [T] {
        let end = self.0.len() - GUARDS;
        &mut self.0[GUARDS..end]
    }

    /// All cells, the guards too.
    pub fn whole_mut(&mut self) -> &mut [T] {
        &mut self.0
    }

    fn pointer(&mut self) -> *mut T {
        self.0.as_mut_ptr().wrapping_add(GUARDS)
    }

    /// The cells as the library takes a column.
    pub fn slice(&mut self) -> (*mut T, usize) {
        (self.pointer(), self.len())
    }

    /// The cells as an array, which must be so long.
    fn array<const N: usize>(&mut self) -> *mut [T; N] {
        assert_eq!(self.len(), N);
        self.pointer().cast()
    }

    fn guarded(&self) -> bool {
        let (start, end) = (&self.0[..GUARDS], &self.0[self.0.len() - GUARDS..]);
        start == [T::GUARD; GUARDS] && end == [T::GUARD; GUARDS]
    }

    /// True if these are the cells, and the guard cells are as they were.
    pub fn same(&self, cells: &[T]) -> bool {
        self.guarded() && self.cells() == cells
    }
}

/// Everything a function of the library is lent.
#[derive(Clone, PartialEq, Eq, Debug)]
pub struct Lent {
    pub numbers: Column<u32>,
    pub switches: Column<u8>,
    pub hold: Column<u16>,
    pub words: Column<u32>,
    pub flags: Column<u8>,
    pub addresses: Column<u32>,
    pub sizes: Column<u32>,
    pub links: Column<u32>,
    pub marks: Column<u8>,
    pub deeps: Column<u8>,
}

/// The pointers and lengths of lent parts.
pub struct Parts<'a> {
    numbers: *mut [u32; NUMBERS],
    switches: *mut [u8; SWITCHES],
    hold: *mut [u16; HOLD],
    words: (*mut u32, usize),
    flags: (*mut u8, usize),
    addresses: (*mut u32, usize),
    sizes: (*mut u32, usize),
    links: (*mut u32, usize),
    marks: (*mut u8, usize),
    deeps: (*mut u8, usize),
    lent: PhantomData<&'a mut Lent>,
}

impl Parts<'_> {
    /// A request by the number of its kind and its fields.
    pub fn request(&mut self, [kind, a, b, c]: [u32; 4]) -> u32 {
        lend!(self, gloamish_request(kind, a, b, c))
    }

    pub fn step(&mut self) -> u32 {
        lend!(self, gloamish_step())
    }

    /// Steps times 256, and the answer.
    pub fn run(&mut self, budget: u32) -> u64 {
        lend!(self, gloamish_run(budget))
    }
}

impl Lent {
    /// The same box as the second program's.
    pub fn of(unit: &Unit) -> Lent {
        let arrays = encode(&unit.state);
        Lent {
            numbers: Column::of(&arrays.numbers),
            switches: Column::of(bytes(&arrays.switches)),
            hold: Column::of(&arrays.hold),
            words: Column::of(&unit.words),
            flags: Column::of(bytes(&unit.pointers)),
            addresses: Column::of(&unit.addresses),
            sizes: Column::of(&unit.sizes),
            links: Column::of(&unit.links),
            marks: Column::of(bytes(&unit.marks)),
            deeps: Column::of(bytes(&unit.deeps)),
        }
    }

    /// As `of`, in the buffers at hand.
    pub fn take(&mut self, unit: &Unit) {
        let arrays = encode(&unit.state);
        self.numbers.take(&arrays.numbers);
        self.switches.take(bytes(&arrays.switches));
        self.hold.take(&arrays.hold);
        self.words.take(&unit.words);
        self.flags.take(bytes(&unit.pointers));
        self.addresses.take(&unit.addresses);
        self.sizes.take(&unit.sizes);
        self.links.take(&unit.links);
        self.marks.take(bytes(&unit.marks));
        self.deeps.take(bytes(&unit.deeps));
    }

    /// The parts as a caller in C has them: pointers and lengths.
    pub fn parts(&mut self) -> Parts<'_> {
        Parts {
            numbers: self.numbers.array(),
            switches: self.switches.array(),
            hold: self.hold.array(),
            words: self.words.slice(),
            flags: self.flags.slice(),
            addresses: self.addresses.slice(),
            sizes: self.sizes.slice(),
            links: self.links.slice(),
            marks: self.marks.slice(),
            deeps: self.deeps.slice(),
            lent: PhantomData,
        }
    }

    pub fn open(&mut self, m: u32, h: u32) -> u32 {
        let parts = self.parts();
        lend!(parts, gloamish_open(m, h))
    }

    pub fn request(&mut self, numbers: [u32; 4]) -> u32 {
        self.parts().request(numbers)
    }

    pub fn step(&mut self) -> u32 {
        self.parts().step()
    }

    pub fn run(&mut self, budget: u32) -> u64 {
        self.parts().run(budget)
    }

    /// True if every cell of every part is the same as in the second
    /// program's box, and the guard cells are as they were.
    pub fn same(&self, unit: &Unit) -> bool {
        let arrays = encode(&unit.state);
        self.numbers.same(&arrays.numbers)
            && self.switches.same(bytes(&arrays.switches))
            && self.hold.same(&arrays.hold)
            && self.words.same(&unit.words)
            && self.flags.same(bytes(&unit.pointers))
            && self.addresses.same(&unit.addresses)
            && self.sizes.same(&unit.sizes)
            && self.links.same(&unit.links)
            && self.marks.same(bytes(&unit.marks))
            && self.deeps.same(bytes(&unit.deeps))
    }

    /// The cells that differ from those of other parts, by name.
    pub fn differences(&self, other: &Lent) -> Vec<String> {
        let mut found = Vec::new();
        macro_rules! parts {
            ($($part:ident: $names:expr,)*) => {
                $(let part = stringify!($part);
                compare(&mut found, part, $names, &self.$part, &other.$part);)*
            };
        }
        parts! {
            numbers: &NUMBER_NAMES,
            switches: &SWITCH_NAMES,
            hold: &HOLD_NAMES,
            words: &[],
            flags: &[],
            addresses: &[],
            sizes: &[],
            links: &[],
            marks: &[],
            deeps: &[],
        }
        found
    }
}

/// Adds the cells of two parts that differ.
fn compare<T: Cell>(
    found: &mut Vec<String>,
    part: &str,
    names: &[&str],
    library: &Column<T>,
    second: &Column<T>,
) {
    if library.len() != second.len() {
        let (library, second) = (library.len(), second.len());
        found.push(format!(
            "length of {part}: {library}, second program {second}"
        ));
        return;
    }
    let pairs = library.cells().iter().zip(second.cells());
    for (at, (library, second)) in pairs.enumerate() {
        if library != second {
            let name = match names.get(at) {
                Some(name) => name.to_string(),
                None => format!("{part}[{at}]"),
            };
            found.push(format!("{name}: {library:?}, second program {second:?}"));
        }
    }
    if !library.guarded() || !second.guarded() {
        found.push(format!("written outside {part}"));
    }
}

/// Flags as the bytes they are.
pub fn bytes(flags: &[bool]) -> &[u8] {
    // A bool is one byte, 0 or 1.
    unsafe { std::slice::from_raw_parts(flags.as_ptr().cast(), flags.len()) }
}

/// A state as the three arrays in which it is lent.
#[derive(Clone, Copy, PartialEq, Eq, Debug)]
pub struct Arrays {
    pub numbers: [u32; NUMBERS],
    pub switches: [bool; SWITCHES],
    pub hold: [u16; HOLD],
}

pub fn encode(state: &State) -> Arrays {
    let mut numbers = [0; NUMBERS];
    let mut switches = [false; SWITCHES];
    numbers[0] = state.m;
    numbers[1] = state.h;
    numbers[2] = state.top;
    numbers[3] = state.free;
    numbers[4] = state.phase;
    numbers[5] = state.live;
    numbers[6] = state.current;
    numbers[7] = state.next;
    numbers[8] = state.src;
    numbers[9] = state.dest;
    numbers[10] = state.tuple;
    numbers[11] = state.size;
    numbers[12] = state.index;
    numbers[13] = state.copy.bits;
    for (r, word) in state.registers.iter().enumerate() {
        numbers[14 + r] = word.bits;
        switches[r] = word.pointer;
    }
    switches[8] = state.copy.pointer;
    switches[9] = state.hold.held;
    switches[10] = state.hold.begun;
    Arrays {
        numbers,
        switches,
        hold: [state.hold.register, state.hold.size, state.hold.tag],
    }
}

/// The state that three arrays stand for.
pub fn decode(arrays: &Arrays) -> State {
    let Arrays {
        numbers,
        switches,
        hold,
    } = arrays;
    let word = |bits: usize, flag: usize| Word {
        bits: numbers[bits],
        pointer: switches[flag],
    };
    State {
        m: numbers[0],
        h: numbers[1],
        registers: std::array::from_fn(|r| word(14 + r, r)),
        top: numbers[2],
        free: numbers[3],
        phase: numbers[4],
        live: numbers[5],
        current: numbers[6],
        next: numbers[7],
        src: numbers[8],
        dest: numbers[9],
        tuple: numbers[10],
        size: numbers[11],
        index: numbers[12],
        copy: word(13, 8),
        hold: Hold {
            held: switches[9],
            begun: switches[10],
            register: hold[0],
            size: hold[1],
            tag: hold[2],
        },
    }
}

/// The cells of a state that aren't 0, by name.
pub fn named(state: &State) -> String {
    let Arrays {
        numbers,
        switches,
        hold,
    } = encode(state);
    let cells = numbers.into_iter();
    let cells = cells.chain(switches.map(u32::from));
    let cells = cells.chain(hold.map(u32::from));
    let names = NUMBER_NAMES.iter().chain(&SWITCH_NAMES).chain(&HOLD_NAMES);
    let named: Vec<String> = names
        .zip(cells)
        .filter(|(_, cell)| *cell != 0)
        .map(|(name, cell)| format!("{name} {cell}"))
        .collect();
    named.join(", ")
}

/// A request as the number of its kind and its fields; fields that the kind
/// doesn't have are 0.
pub fn numbers(request: Request) -> [u32; 4] {
    let wide = u32::from;
    match request {
        Request::Setd { r, v } => [1, wide(r), v, 0],
        Request::Nil { r } => [2, wide(r), 0, 0],
        Request::Move { r, s } => [3, wide(r), wide(s), 0],
        Request::Advance { r, n } => [4, wide(r), wide(n), 0],
        Request::Getm { r, n, tag } => [5, wide(r), wide(n), wide(tag)],
        Request::Load { r, s, k } => [6, wide(r), wide(s), wide(k)],
        Request::Store { r, s, k } => [7, wide(r), wide(s), wide(k)],
        Request::Size { r, s } => [8, wide(r), wide(s), 0],
        Request::Tag { r, s } => [9, wide(r), wide(s), 0],
        Request::Same { r, s, t } => [10, wide(r), wide(s), wide(t)],
    }
}

/// The request that numbers ask for: nothing for an unknown kind, or where a
/// 16-bit field is above 65,535.
pub fn request_of([kind, a, b, c]: [u32; 4]) -> Option<Request> {
    let half = |field: u32| u16::try_from(field).ok();
    Some(match kind {
        1 => Request::Setd { r: half(a)?, v: b },
        2 => Request::Nil { r: half(a)? },
        3 => {
            let (r, s) = (half(a)?, half(b)?);
            Request::Move { r, s }
        }
        4 => {
            let (r, n) = (half(a)?, half(b)?);
            Request::Advance { r, n }
        }
        5 => {
            let (r, n, tag) = (half(a)?, half(b)?, half(c)?);
            Request::Getm { r, n, tag }
        }
        6 => {
            let (r, s, k) = (half(a)?, half(b)?, half(c)?);
            Request::Load { r, s, k }
        }
        7 => {
            let (r, s, k) = (half(a)?, half(b)?, half(c)?);
            Request::Store { r, s, k }
        }
        8 => {
            let (r, s) = (half(a)?, half(b)?);
            Request::Size { r, s }
        }
        9 => {
            let (r, s) = (half(a)?, half(b)?);
            Request::Tag { r, s }
        }
        10 => {
            let (r, s, t) = (half(a)?, half(b)?, half(c)?);
            Request::Same { r, s, t }
        }
        _ => return None,
    })
}
