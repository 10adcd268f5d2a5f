//! Random calls for grown boxes, and arbitrary or damaged states.

use crate::call::{Call, Request};
use crate::unit::{Hold, State, Unit, Word};

/// A small deterministic generator (xorshift with a multiplied result).
#[derive(Clone, Debug)]
pub struct Rng(u64);

impl Rng {
    pub fn new(seed: u64) -> Rng {
        // The state must not be 0; nearby seeds are spread apart.
        let mut rng = Rng(seed.wrapping_mul(0x9E37_79B9_7F4A_7C15) ^ 0x1234_5678_9ABC_DEF1);
        if rng.0 == 0 {
            rng.0 = 1;
        }
        for _ in 0..4 {
            rng.bits();
        }
        rng
    }

    pub fn bits(&mut self) -> u64 {
        self.0 ^= self.0 >> 12;
        self.0 ^= self.0 << 25;
        self.0 ^= self.0 >> 27;
        self.0.wrapping_mul(0x2545_F491_4F6C_DD1D)
    }

    /// A number below the limit, which must not be 0.
    pub fn below(&mut self, limit: u32) -> u32 {
        (((self.bits() >> 32) * u64::from(limit)) >> 32) as u32
    }

    /// True that many times in a hundred.
    pub fn percent(&mut self, chance: u32) -> bool {
        self.below(100) < chance
    }

    pub fn pick<T: Copy>(&mut self, of: &[T]) -> T {
        of[self.below(of.len() as u32) as usize]
    }
}

/// How a list of calls behaves: chances in a hundred, and sizes.
#[derive(Clone, Copy, Debug)]
pub struct Style {
    pub steps: u32,
    pub runs: u32,
    /// Of the requests, how many are GETM.
    pub getms: u32,
    /// Of the requests, how many overwrite a register with data or nil.
    pub drops: u32,
    /// Words asked for are mostly below this.
    pub words: u32,
    /// Registers used are mostly below this.
    pub registers: u32,
    /// How often a GETM with no room gives way to dropping a pointer, so that
    /// sweeps with something to move also happen with nothing held.
    pub careful: u32,
    /// How often a request while marking tries to hide a pointer.
    pub hides: u32,
}

impl Style {
    pub fn any(rng: &mut Rng, m: u32, h: u32) -> Style {
        // Small tuples run out of handles first, larger ones out of words.
        let even = m / h;
        // A cycle of a large box takes thousands of steps, so runs must help.
        let runs = if m > 100 {
            rng.pick(&[4, 10, 20])
        } else {
            rng.pick(&[0, 1, 1, 4])
        };
        Style {
            steps: rng.pick(&[10, 30, 40, 50, 70]),
            runs,
            getms: rng.pick(&[5, 10, 20, 35]),
            drops: rng.pick(&[2, 5, 10, 20]),
            words: rng.pick(&[2, 4, even, even, even + 3, m / 4]).max(1),
            registers: rng.pick(&[2, 3, 4, 8, 8]),
            careful: rng.pick(&[0, 60, 90, 98, 98]),
            hides: rng.pick(&[0, 20, 50, 80]),
        }
    }
}

fn any_register(rng: &mut Rng, style: &Style) -> u16 {
    if rng.below(150) == 0 {
        rng.pick(&[8, 9, 255, 65_535])
    } else if rng.percent(90) {
        rng.below(style.registers) as u16
    } else {
        rng.below(8) as u16
    }
}

/// A register that the test likes, if there is one.
fn search(rng: &mut Rng, unit: &Unit, likes: impl Fn(Word) -> bool) -> Option<u16> {
    let start = rng.below(8) as u16;
    (0..8)
        .map(|turn| (start + turn) % 8)
        .find(|&r| likes(unit.state.registers[usize::from(r)]))
}

/// Mostly a register with a non-nil pointer.
fn pointing_register(rng: &mut Rng, unit: &Unit, style: &Style) -> u16 {
    if rng.percent(95) {
        let found = search(rng, unit, |word| word.pointer && word.handle() != 0);
        if let Some(r) = found {
            return r;
        }
    }
    any_register(rng, style)
}

/// Mostly a register whose pointer has words of a tuple after it.
fn tuple_register(rng: &mut Rng, unit: &Unit, style: &Style) -> u16 {
    if rng.percent(95) {
        let found = search(rng, unit, |word| {
            let size = unit.sizes.get(word.handle() as usize);
            word.pointer && word.handle() != 0 && size.is_some_and(|&size| word.offset() < size)
        });
        if let Some(r) = found {
            return r;
        }
    }
    pointing_register(rng, unit, style)
}

/// Mostly a register that has data, so that pointers stay.
fn idle_register(rng: &mut Rng, unit: &Unit, style: &Style) -> u16 {
    if rng.percent(70) {
        let found = search(rng, unit, |word| !word.pointer);
        if let Some(r) = found {
            return r;
        }
    }
    any_register(rng, style)
}

/// A register that points to the tuple being moved.
fn moving_register(unit: &Unit) -> Option<u16> {
    let state = &unit.state;
    if !(5..=7).contains(&state.phase) {
        return None;
    }
    (0..8).find(|&r| {
        let word = state.registers[usize::from(r)];
        word.pointer && word.handle() == state.tuple
    })
}

/// A tuple register and a slot, near the word being moved if it can be.
fn slot(rng: &mut Rng, unit: &Unit, style: &Style) -> (u16, u16) {
    if let Some(s) = moving_register(unit) {
        if rng.percent(75) {
            let offset = unit.state.registers[usize::from(s)].offset();
            let index = unit.state.index.wrapping_add(rng.below(3));
            let k = index.wrapping_sub(2).wrapping_sub(offset);
            return (s, k.min(65_535) as u16);
        }
    }
    let s = tuple_register(rng, unit, style);
    let word = unit.state.registers[usize::from(s) % 8];
    let size = match unit.sizes.get(word.handle() as usize) {
        Some(&size) if word.pointer => size.min(65_535),
        _ => 0,
    };
    let inside = size.saturating_sub(word.offset());
    // Often a slot with a pointer in it, so that pointers travel.
    if inside > 0 && rng.percent(60) {
        let address = unit.addresses[word.handle() as usize];
        let first = address as usize + word.offset() as usize + 1;
        let start = rng.below(inside);
        let found = (0..inside.min(16))
            .map(|turn| (start + turn) % inside)
            .find(|&k| unit.pointers.get(first + k as usize) == Some(&true));
        if let Some(k) = found {
            return (s, k as u16);
        }
    }
    let k = match rng.below(40) {
        0 => inside,
        1 => rng.pick(&[inside + 1, 65_535, 65_535 - inside]),
        _ => rng.below(inside.max(1)),
    };
    (s, k as u16)
}

/// While marking goes on: takes pointers out of tuples not scanned yet and
/// out of registers not looked at yet, and leaves them in other places.
fn hide(rng: &mut Rng, unit: &Unit, style: &Style) -> Option<Request> {
    if !(1..=3).contains(&unit.state.phase) {
        return None;
    }
    let tuple_of = |r: u16| unit.state.registers[usize::from(r)].handle();
    let s = tuple_register(rng, unit, style) % 8;
    if rng.percent(50) {
        // A register whose tuple is unmarked: store it, or drop it.
        let r = search(rng, unit, |word| {
            let mark = unit.marks.get(word.handle() as usize);
            word.pointer && word.handle() != 0 && mark == Some(&false)
        })?;
        return Some(if rng.percent(50) {
            Request::Store { r, s, k: 0 }
        } else {
            Request::Setd { r, v: 0 }
        });
    }
    // A slot with a pointer: load it, or write over it once loaded.
    let word = unit.state.registers[usize::from(s)];
    let size = *unit.sizes.get(word.handle() as usize)?;
    let address = *unit.addresses.get(word.handle() as usize)?;
    let k = (word.offset()..size.min(16)).find(|&place| {
        let at = address as usize + place as usize + 1;
        unit.pointers.get(at) == Some(&true)
    })?;
    let held = unit.words.get(address as usize + k as usize + 1)? >> 16;
    let k = (k - word.offset()) as u16;
    let loaded = (0..8).any(|r| r != s && tuple_of(r) == held);
    let idle = search(rng, unit, |word| !word.pointer)?;
    Some(if loaded {
        Request::Store { r: idle, s, k }
    } else {
        Request::Load { r: idle, s, k }
    })
}

fn asked_words(rng: &mut Rng, unit: &Unit, style: &Style) -> u16 {
    let State { m, top, .. } = unit.state;
    let room = m.saturating_sub(top);
    let n = match rng.below(60) {
        0 => m - 1,
        1 => rng.pick(&[m, m + 1, 65_535]),
        2..=4 => room.saturating_sub(1),
        5 | 6 => room,
        7 | 8 => rng.below(m),
        _ => rng.below(style.words),
    };
    n.min(65_535) as u16
}

/// A request that suits the box as it is, or is refused now and then.
pub fn request(rng: &mut Rng, unit: &Unit, style: &Style) -> Request {
    if rng.percent(style.hides) {
        if let Some(request) = hide(rng, unit, style) {
            return request;
        }
    }
    let r = any_register(rng, style);
    let kind = rng.below(100);
    // With few pointers left most requests would only be refused.
    let pointers = unit.state.registers.iter().filter(|word| word.pointer);
    let getms = match pointers.count() {
        0 => 80,
        1 | 2 => style.getms + 20,
        _ => style.getms,
    };
    if kind < getms {
        let n = asked_words(rng, unit, style);
        let State { m, top, free, .. } = unit.state;
        let room = free != 0 && top.saturating_add(u32::from(n)) < m;
        if !room && rng.percent(style.careful) {
            let r = pointing_register(rng, unit, style);
            return Request::Setd { r, v: 0 };
        }
        let tag = rng.pick(&[0, 1, 7, 65_535, 4660]);
        return Request::Getm { r, n, tag };
    }
    if kind < getms + style.drops {
        let v = rng.pick(&[0, 1, 0x0001_0000, 0x0002_0001, u32::MAX, 0xABCD]);
        return if rng.percent(75) {
            Request::Setd { r, v }
        } else {
            Request::Nil { r }
        };
    }
    let from = if rng.percent(75) {
        pointing_register(rng, unit, style)
    } else {
        any_register(rng, style)
    };
    let idle = idle_register(rng, unit, style);
    match rng.below(100) {
        0..=9 => Request::Move { r, s: from },
        10..=14 => Request::Advance {
            r: from,
            n: match rng.below(40) {
                0 => 65_535,
                1 => 65_534,
                _ => rng.pick(&[0, 1, 1, 1, 2]),
            },
        },
        15..=42 => {
            let (s, k) = slot(rng, unit, style);
            Request::Load { r: idle, s, k }
        }
        43..=82 => {
            let (s, k) = slot(rng, unit, style);
            Request::Store { r: from, s, k }
        }
        83..=86 => Request::Size { r: idle, s: from },
        87..=93 => {
            let s = moving_register(unit).unwrap_or(from);
            Request::Tag { r: idle, s }
        }
        _ => Request::Same {
            r: idle,
            s: from,
            t: any_register(rng, style),
        },
    }
}

/// The next call of a list on a grown box.
pub fn call(rng: &mut Rng, unit: &Unit, style: &Style) -> Call {
    // While something is held only the collector gets on.
    let (steps, runs) = if unit.state.hold.held {
        (93 - style.runs, style.runs)
    } else if moving_register(unit).is_some() {
        // The tuple of a register is being moved: a good time to ask.
        (style.steps.min(40), style.runs.min(1))
    } else {
        (style.steps, style.runs)
    };
    let chance = rng.below(100);
    if chance < runs {
        let m = unit.state.m;
        return Call::Run(match rng.below(8) {
            0 => 0,
            1 | 2 => rng.below(10),
            3 | 4 => rng.below(100),
            5 => rng.below(8 * m),
            6 => rng.below(40 * m),
            _ => rng.pick(&[u32::MAX, u32::MAX - 1, 1 << 31]),
        });
    }
    if chance < runs + steps {
        return Call::Step;
    }
    Call::Request(request(rng, unit, style))
}

/// A box grown by random calls, for as many samples as wanted.
pub struct Grower {
    unit: Unit,
    style: Style,
    left: u32,
}

impl Grower {
    pub fn new(rng: &mut Rng) -> Grower {
        let mut unit = Unit::lent(16, 4);
        unit.open(16, 4);
        let style = Style::any(rng, 16, 4);
        let left = 0;
        Grower { unit, style, left }
    }

    /// A few calls on, or a new box from time to time.
    pub fn grow(&mut self, rng: &mut Rng) -> &Unit {
        if self.left == 0 {
            let (m, h) = small_box(rng);
            self.unit = Unit::lent(m, h);
            self.unit.open(m, h);
            self.style = Style::any(rng, m, h);
            self.left = 200;
        }
        self.left -= 1;
        for _ in 0..1 + rng.below(8) {
            match call(rng, &self.unit, &self.style) {
                Call::Request(request) => {
                    self.unit.request(request);
                }
                Call::Step => {
                    self.unit.step();
                }
                Call::Run(budget) => {
                    self.unit.run(budget);
                }
            }
        }
        &self.unit
    }
}

/// M and H of a small box.
pub fn small_box(rng: &mut Rng) -> (u32, u32) {
    (
        rng.pick(&[16, 16, 17, 18, 20, 24, 32, 48, 64]),
        rng.pick(&[2, 3, 3, 4, 4, 5, 6, 8, 12, 20]),
    )
}

/// M and H of a large box.
pub fn large_box(rng: &mut Rng) -> (u32, u32) {
    (
        rng.pick(&[200, 512, 1000, 2048, 4097, 8191, 8192]),
        rng.pick(&[16, 40, 100, 255, 512, 1023, 1024]),
    )
}

/// A number near one of the limits that matter.
pub fn number(rng: &mut Rng, m: u32, h: u32) -> u32 {
    let near = match rng.below(12) {
        0..=4 => return rng.below(m.max(1)),
        5 => 0,
        6 | 7 => m,
        8 | 9 => h,
        10 => 65_535,
        _ => u32::MAX,
    };
    near.wrapping_add(rng.below(5)).wrapping_sub(2)
}

fn handle(rng: &mut Rng, m: u32, h: u32) -> u32 {
    match rng.below(8) {
        0 => number(rng, m, h),
        1 => h,
        2 => 0,
        _ => rng.below(h.max(1)),
    }
}

fn word(rng: &mut Rng, m: u32, h: u32) -> Word {
    let low = match rng.below(4) {
        0 => rng.pick(&[65_535, 65_534, 100, 4660]),
        _ => rng.below(4),
    };
    match rng.below(10) {
        0 | 1 => Word::data(number(rng, m, h)),
        2 => Word::data(handle(rng, m, h) << 16 | low),
        _ => Word::pointer(handle(rng, m, h), low),
    }
}

fn flag(rng: &mut Rng) -> bool {
    rng.percent(50)
}

fn hold(rng: &mut Rng, m: u32) -> Hold {
    Hold {
        held: rng.percent(35),
        begun: flag(rng),
        register: rng.pick(&[0, 1, 3, 7, 8, 9, 65_535]),
        size: match rng.below(6) {
            0 => m.saturating_sub(1).min(65_535) as u16,
            1 => m.min(65_535) as u16,
            2 => 65_535,
            _ => rng.below(4) as u16,
        },
        tag: rng.pick(&[0, 7, 65_535]),
    }
}

/// A state with nothing right about it but, mostly, its sizes and phase.
pub fn arbitrary(rng: &mut Rng) -> Unit {
    let (m, h) = match rng.below(2000) {
        0 => (8192, 1024),
        1 => (8192, 2),
        2 => (16, 1024),
        3 => (8193, 1024),
        4 => (8192, 1025),
        5..=15 => (15, 4),
        16..=25 => (16, 1),
        26..=30 => (0, 4),
        31..=35 => (16, 0),
        36..=40 => (1, 1),
        _ => (rng.pick(&[16, 16, 17, 20]), rng.pick(&[2, 3, 4, 6])),
    };
    let mut unit = Unit::lent(m, h);
    for at in 0..unit.words.len() {
        let word = word(rng, m, h);
        unit.words[at] = word.bits;
        unit.pointers[at] = word.pointer;
    }
    for entry in 0..unit.links.len() {
        unit.addresses[entry] = number(rng, m, h);
        unit.sizes[entry] = match rng.below(3) {
            0 => number(rng, m, h),
            _ => rng.below(5),
        };
        unit.links[entry] = handle(rng, m, h);
        unit.marks[entry] = flag(rng);
        unit.deeps[entry] = flag(rng);
    }
    unit.state = any_state(rng, m, h);
    if rng.below(40) == 0 {
        unit.state.phase = rng.pick(&[9, 10, 255, 256, u32::MAX]);
    }
    if rng.below(60) == 0 {
        unit.state.m = any_size(rng, m, &[15, 16, 17, 8192, 8193, u32::MAX]);
    }
    if rng.below(60) == 0 {
        unit.state.h = any_size(rng, h, &[1, 2, 3, 1024, 1025, u32::MAX]);
    }
    if rng.below(40) == 0 {
        change_length(rng, &mut unit);
    }
    unit
}

fn any_size(rng: &mut Rng, size: u32, others: &[u32]) -> u32 {
    match rng.below(3) {
        0 => size.wrapping_add(1),
        1 => size.wrapping_sub(1),
        _ => rng.pick(others),
    }
}

fn any_state(rng: &mut Rng, m: u32, h: u32) -> State {
    let mut registers = [Word::default(); 8];
    for register in &mut registers {
        *register = word(rng, m, h);
    }
    let src = number(rng, m, h);
    let size = match rng.below(3) {
        0 => number(rng, m, h),
        _ => rng.below(5),
    };
    // Often a register points to the tuple at hand, good handle or not.
    let tuple = handle(rng, m, h);
    if rng.percent(40) {
        registers[rng.below(8) as usize] = Word::pointer(tuple, rng.below(3));
    }
    State {
        m,
        h,
        registers,
        // Often just after the tuple, so that ends of cycles are reached.
        top: match rng.below(3) {
            0 => src.wrapping_add(size).wrapping_add(1),
            _ => number(rng, m, h),
        },
        free: handle(rng, m, h),
        phase: rng.below(9),
        live: number(rng, m, h),
        current: handle(rng, m, h),
        next: match rng.below(2) {
            0 => 0,
            _ => handle(rng, m, h),
        },
        src,
        dest: match rng.below(3) {
            0 => src,
            _ => number(rng, m, h),
        },
        tuple,
        size,
        index: match rng.below(4) {
            0 => number(rng, m, h),
            1 => size.wrapping_add(1),
            _ => rng.below(6),
        },
        copy: word(rng, m, h),
        hold: hold(rng, m),
    }
}

fn change_length(rng: &mut Rng, unit: &mut Unit) {
    fn change<T: Copy>(rng: &mut Rng, column: &mut Vec<T>, like: T) {
        match rng.below(4) {
            0 => column.clear(),
            1 => column.push(like),
            _ => {
                column.pop();
            }
        }
    }
    match rng.below(7) {
        0 => change(rng, &mut unit.words, 0),
        1 => change(rng, &mut unit.pointers, true),
        2 => change(rng, &mut unit.addresses, 0),
        3 => change(rng, &mut unit.sizes, 0),
        4 => change(rng, &mut unit.links, 0),
        5 => change(rng, &mut unit.marks, false),
        _ => change(rng, &mut unit.deeps, false),
    }
}

/// An arbitrary state whose columns have lengths of their own, each near M
/// and H, near one another, or 0.
pub fn uneven(rng: &mut Rng) -> Unit {
    fn length<T: Copy>(rng: &mut Rng, column: &mut Vec<T>, stated: u32, like: T) {
        let length = match rng.below(8) {
            0 => rng.below(40),
            1 => 0,
            2 => stated.wrapping_add(1).min(100),
            3 => stated.wrapping_sub(1).min(100),
            _ => return,
        };
        column.resize(length as usize, like);
    }
    let mut unit = arbitrary(rng);
    let State { m, h, .. } = unit.state;
    let word = word(rng, m, h);
    length(rng, &mut unit.words, m, word.bits);
    length(rng, &mut unit.pointers, m, word.pointer);
    let n = number(rng, m, h);
    length(rng, &mut unit.addresses, h, n);
    length(rng, &mut unit.sizes, h, n);
    length(rng, &mut unit.links, h, n);
    length(rng, &mut unit.marks, h, word.pointer);
    length(rng, &mut unit.deeps, h, !word.pointer);
    unit
}

/// A grown box with one or two fields damaged.
pub fn damaged(rng: &mut Rng, grower: &mut Grower) -> Unit {
    let mut unit = grower.grow(rng).clone();
    for _ in 0..1 + rng.below(2) {
        damage(rng, &mut unit);
    }
    unit
}

/// Damages one field of a box.
pub fn damage(rng: &mut Rng, unit: &mut Unit) {
    let State { m, h, .. } = unit.state;
    let n = number(rng, m, h);
    let entry = handle(rng, m, h) as usize % unit.links.len().max(1);
    let at = rng.below(m.max(1)) as usize;
    let state = &mut unit.state;
    match rng.below(30) {
        0 => state.top = n,
        1 | 2 => state.free = handle(rng, m, h),
        3 => state.phase = rng.below(10),
        4 => state.live = n,
        5 => state.current = handle(rng, m, h),
        6 => state.next = handle(rng, m, h),
        7 => state.src = n,
        8 => state.dest = n,
        9 | 10 => state.tuple = handle(rng, m, h),
        11 => state.size = n,
        12 => state.index = n,
        13 => state.copy = word(rng, m, h),
        14 | 15 => state.hold = hold(rng, m),
        16 | 17 => state.registers[rng.below(8) as usize] = word(rng, m, h),
        18..=20 => {
            let word = word(rng, m, h);
            if let Some(bits) = unit.words.get_mut(at) {
                *bits = word.bits;
            }
            if let Some(pointer) = unit.pointers.get_mut(at) {
                *pointer = word.pointer;
            }
        }
        21 | 22 => set(&mut unit.addresses, entry, n),
        23 | 24 => set(&mut unit.sizes, entry, n),
        25 | 26 => set(&mut unit.links, entry, handle(rng, m, h)),
        27 => set(&mut unit.marks, entry, flag(rng)),
        28 => set(&mut unit.deeps, entry, flag(rng)),
        _ => match rng.below(8) {
            0 => state.m = any_size(rng, m, &[0, 16, 8192, u32::MAX]),
            1 => state.h = any_size(rng, h, &[0, 2, 1024, u32::MAX]),
            2 => state.phase = rng.pick(&[9, 255, 256, u32::MAX]),
            3 => change_length(rng, unit),
            _ => state.hold.held = !state.hold.held,
        },
    }
}

fn set<T>(column: &mut [T], entry: usize, value: T) {
    if let Some(place) = column.get_mut(entry) {
        *place = value;
    }
}

/// Any request, its registers mostly in range.
pub fn any_request(rng: &mut Rng, unit: &Unit) -> Request {
    fn register(rng: &mut Rng) -> u16 {
        match rng.below(60) {
            0 => rng.pick(&[8, 9, 256, 65_535]),
            _ => rng.below(8) as u16,
        }
    }
    fn small(rng: &mut Rng, m: u32) -> u16 {
        match rng.below(8) {
            0 => rng.pick(&[65_535, 65_534]),
            1 => m.wrapping_add(rng.below(4)).wrapping_sub(2).min(65_535) as u16,
            _ => rng.below(4) as u16,
        }
    }
    let m = unit.state.m;
    let (r, mut s, t) = (register(rng), register(rng), register(rng));
    if let Some(moving) = moving_register(unit) {
        if rng.percent(50) {
            s = moving;
        }
    }
    let (n, k) = (small(rng, m), small(rng, m));
    match rng.below(20) {
        0 => Request::Setd {
            r,
            v: number(rng, m, unit.state.h),
        },
        1 => Request::Nil { r },
        2 => Request::Move { r, s },
        3 => Request::Advance { r, n },
        4..=7 => Request::Getm { r, n, tag: k },
        8..=10 => Request::Load { r, s, k },
        11..=14 => Request::Store { r, s, k },
        15 => Request::Size { r, s },
        16..=18 => Request::Tag { r, s },
        _ => Request::Same { r, s, t },
    }
}
