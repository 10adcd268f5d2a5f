//! A plain player of the same calls: arrays, a state in a struct, and the
//! checks of the document. A rule tests all it will touch before it writes.
//! The benchmark holds the C interface's time against it.

use crate::call::*;
use crate::unit::{Hold, Ran, State, Unit, Word};

#[derive(Clone, PartialEq, Eq, Debug, Default)]
pub struct Player {
    pub words: Vec<u32>,
    pub flags: Vec<bool>,
    pub addresses: Vec<u32>,
    pub sizes: Vec<u32>,
    pub links: Vec<u32>,
    pub marks: Vec<bool>,
    pub deeps: Vec<bool>,
    pub state: State,
}

/// Where a word of a tuple is.
enum Place {
    Copy,
    At(usize),
}

/// A refusal, by its number.
type Refused = u32;

impl Player {
    /// The same box as the second program's.
    pub fn of(unit: &Unit) -> Player {
        Player {
            words: unit.words.clone(),
            flags: unit.pointers.clone(),
            addresses: unit.addresses.clone(),
            sizes: unit.sizes.clone(),
            links: unit.links.clone(),
            marks: unit.marks.clone(),
            deeps: unit.deeps.clone(),
            state: unit.state,
        }
    }

    /// The same box for the second program.
    pub fn unit(&self) -> Unit {
        Unit {
            words: self.words.clone(),
            pointers: self.flags.clone(),
            addresses: self.addresses.clone(),
            sizes: self.sizes.clone(),
            links: self.links.clone(),
            marks: self.marks.clone(),
            deeps: self.deeps.clone(),
            state: self.state,
        }
    }

    fn measures(&self, m: u32, h: u32) -> bool {
        let (words, entries) = (m as usize, h as usize);
        (16..=8192).contains(&m)
            && (2..=1024).contains(&h)
            && self.words.len() == words
            && self.flags.len() == words
            && self.addresses.len() == entries
            && self.sizes.len() == entries
            && self.links.len() == entries
            && self.marks.len() == entries
            && self.deeps.len() == entries
    }

    fn sound(&self) -> bool {
        self.measures(self.state.m, self.state.h) && self.state.phase <= 8
    }

    pub fn open(&mut self, m: u32, h: u32) -> u32 {
        if !self.measures(m, h) {
            return NOT_OPENED;
        }
        self.words.fill(0);
        self.flags.fill(false);
        self.addresses.fill(0);
        self.sizes.fill(0);
        self.marks.fill(false);
        self.deeps.fill(false);
        for (link, next) in self.links.iter_mut().zip(1..) {
            *link = next;
        }
        self.links[0] = 0;
        self.links[h as usize - 1] = 0;
        self.state = State {
            m,
            h,
            free: 1,
            ..State::default()
        };
        DONE
    }

    pub fn request(&mut self, request: Request) -> u32 {
        if !self.sound() {
            return DAMAGED;
        }
        self.ask(request)
    }

    /// A request of a sound box. Every call leaves a sound box sound, so that
    /// one who opened it and lends it to nobody need not test it again.
    pub fn ask(&mut self, request: Request) -> u32 {
        if request.names_no_register() {
            return NO_REGISTER;
        }
        if self.state.hold.held {
            return BUSY;
        }
        let done = match request {
            Request::Setd { r, v } => Ok((r, Word::data(v))),
            Request::Nil { r } => Ok((r, Word::pointer(0, 0))),
            Request::Move { r, s } => Ok((r, self.register(s))),
            Request::Advance { r, n } => self.advance(r, n).map(|word| (r, word)),
            Request::Load { r, s, k } => self.load(s, k).map(|word| (r, word)),
            Request::Size { r, s } => self.size(s).map(|word| (r, word)),
            Request::Tag { r, s } => self.tag(s).map(|word| (r, word)),
            Request::Same { r, s, t } => {
                let same = self.register(s) == self.register(t);
                Ok((r, Word::data(u32::from(same))))
            }
            Request::Getm { r, n, tag } => return self.getm(r, n, tag),
            Request::Store { r, s, k } => return self.store(r, s, k),
        };
        match done {
            Ok((r, word)) => {
                self.state.registers[usize::from(r)] = word;
                DONE
            }
            Err(answer) => answer,
        }
    }

    pub fn step(&mut self) -> u32 {
        if !self.sound() {
            return DAMAGED;
        }
        self.rule()
    }

    /// A step of a sound box.
    pub fn rule(&mut self) -> u32 {
        match self.state.phase {
            0 => self.rest(),
            1 => self.mark_next(),
            2 => self.mark_scan(),
            3 => self.mark_add(),
            4 => self.sweep_scan(),
            5 => self.sweep_read(),
            6 => self.sweep_clear(),
            7 => self.sweep_write(),
            _ => self.sweep_zero(),
        }
    }

    pub fn run(&mut self, budget: u32) -> Ran {
        let mut steps = 0;
        if !self.sound() {
            let answer = DAMAGED;
            return Ran { answer, steps };
        }
        while steps < budget {
            let answer = match self.rule() {
                DAMAGED => {
                    return Ran {
                        answer: DAMAGED,
                        steps,
                    }
                }
                ENDED | GRANTED => DONE,
                FAILED => FAILED,
                _ => {
                    steps += 1;
                    continue;
                }
            };
            steps += 1;
            return Ran { answer, steps };
        }
        let answer = SPENT;
        Ran { answer, steps }
    }

    // Checked access.

    fn register(&self, r: u16) -> Word {
        self.state.registers[usize::from(r)]
    }

    fn listed(&self, handle: u32) -> bool {
        handle != 0 && handle < self.state.h
    }

    /// base + index, if it is below M.
    fn address(&self, base: u32, index: u32) -> Option<usize> {
        let sum = u64::from(base) + u64::from(index);
        (sum < u64::from(self.state.m)).then_some(sum as usize)
    }

    /// base + size + 1, if it is at most M.
    fn past(&self, base: u32, size: u32) -> Option<u32> {
        let sum = u64::from(base) + u64::from(size) + 1;
        (sum <= u64::from(self.state.m)).then_some(sum as u32)
    }

    fn read(&self, at: usize) -> Word {
        Word {
            bits: self.words[at],
            pointer: self.flags[at],
        }
    }

    fn write(&mut self, at: usize, word: Word) {
        self.words[at] = word.bits;
        self.flags[at] = word.pointer;
    }

    // Requests.

    fn pointer(&self, r: u16) -> Result<Word, Refused> {
        let word = self.register(r);
        if word.pointer {
            Ok(word)
        } else {
            Err(NO_POINTER)
        }
    }

    fn advance(&self, r: u16, n: u16) -> Result<Word, Refused> {
        let word = self.pointer(r)?;
        let offset = word.offset() + u32::from(n);
        if offset > 65_535 {
            return Err(OFFSET_FULL);
        }
        Ok(Word::pointer(word.handle(), offset))
    }

    /// The handle in s, the index of word k, and where that word is.
    fn target(&self, s: u16, k: u16) -> Result<(usize, Place), Refused> {
        let word = self.pointer(s)?;
        let handle = word.handle();
        if handle == 0 {
            return Err(OUTSIDE);
        }
        if handle >= self.state.h {
            return Err(DAMAGED);
        }
        let slot = word.offset() + u32::from(k);
        if slot >= self.sizes[handle as usize] {
            return Err(OUTSIDE);
        }
        let place = self.place(handle, slot + 1)?;
        Ok((handle as usize, place))
    }

    /// Where a word of a tuple in the directory is.
    fn place(&self, handle: u32, index: u32) -> Result<Place, Refused> {
        let state = &self.state;
        let mut base = self.addresses[handle as usize];
        if handle == state.tuple && (5..=7).contains(&state.phase) {
            if index == state.index && state.phase != 5 {
                return Ok(Place::Copy);
            }
            if index < state.index {
                base = state.dest;
            }
        }
        let at = self.address(base, index).ok_or(DAMAGED)?;
        Ok(Place::At(at))
    }

    fn look(&self, place: Place) -> Word {
        match place {
            Place::Copy => self.state.copy,
            Place::At(at) => self.read(at),
        }
    }

    fn load(&self, s: u16, k: u16) -> Result<Word, Refused> {
        let (_, place) = self.target(s, k)?;
        Ok(self.look(place))
    }

    fn size(&self, s: u16) -> Result<Word, Refused> {
        match self.pointer(s)?.handle() {
            0 => Ok(Word::data(0)),
            handle if handle < self.state.h => Ok(Word::data(self.sizes[handle as usize])),
            _ => Err(DAMAGED),
        }
    }

    fn tag(&self, s: u16) -> Result<Word, Refused> {
        match self.pointer(s)?.handle() {
            0 => Ok(Word::data(0)),
            handle if handle < self.state.h => {
                let word = self.look(self.place(handle, 0)?);
                Ok(Word::data(word.bits & 0xFFFF))
            }
            _ => Err(DAMAGED),
        }
    }

    fn store(&mut self, r: u16, s: u16, k: u16) -> u32 {
        let (tuple, place) = match self.target(s, k) {
            Ok(found) => found,
            Err(answer) => return answer,
        };
        let word = self.register(r);
        if word.pointer && word.handle() != 0 {
            if (1..=3).contains(&self.state.phase) && !self.shade(word.handle()) {
                return DAMAGED;
            }
            self.deeps[tuple] = true;
        }
        match place {
            Place::Copy => self.state.copy = word,
            Place::At(at) => self.write(at, word),
        }
        DONE
    }

    fn getm(&mut self, r: u16, n: u16, tag: u16) -> u32 {
        if u32::from(n) >= self.state.m {
            return TOO_BIG;
        }
        if !self.fits(self.state.top, n) {
            self.state.hold = Hold {
                held: true,
                begun: false,
                register: r,
                size: n,
                tag,
            };
            return HELD;
        }
        if self.state.free >= self.state.h {
            return DAMAGED;
        }
        let rest = self.state.phase == 0;
        if !rest {
            match self.past(self.state.live, u32::from(n)) {
                Some(live) => self.state.live = live,
                None => return DAMAGED,
            }
        }
        self.make(r, n, tag, !rest);
        DONE
    }

    fn fits(&self, top: u32, n: u16) -> bool {
        self.state.free != 0 && self.address(top, u32::from(n)).is_some()
    }

    /// Makes a tuple that fits.
    fn make(&mut self, r: u16, n: u16, tag: u16, mark: bool) {
        let State { free, top, .. } = self.state;
        let entry = free as usize;
        self.write(top as usize, Word::data(free << 16 | u32::from(tag)));
        self.addresses[entry] = top;
        self.sizes[entry] = u32::from(n);
        self.marks[entry] = mark;
        self.deeps[entry] = false;
        self.state.free = self.links[entry];
        self.state.top = top + u32::from(n) + 1;
        self.state.registers[usize::from(r)] = Word::pointer(free, 0);
    }

    // The collector.

    /// Shades a tuple, or does nothing and says so.
    fn shade(&mut self, handle: u32) -> bool {
        if !self.listed(handle) {
            return false;
        }
        let entry = handle as usize;
        if self.marks[entry] {
            return true;
        }
        let Some(live) = self.past(self.state.live, self.sizes[entry]) else {
            return false;
        };
        self.marks[entry] = true;
        self.state.live = live;
        if self.deeps[entry] {
            self.links[entry] = self.state.next;
            self.state.next = handle;
        }
        true
    }

    fn go(&mut self, phase: u32) -> u32 {
        self.state.phase = phase;
        GOING
    }

    fn rest(&mut self) -> u32 {
        let state = &mut self.state;
        state.live = 0;
        state.current = 0;
        state.next = 0;
        if state.hold.held {
            state.hold.begun = true;
        }
        self.go(1)
    }

    fn mark_next(&mut self) -> u32 {
        let head = self.state.next;
        if head != 0 {
            if head >= self.state.h {
                return DAMAGED;
            }
            self.state.next = 0;
            self.take(head);
            return self.go(2);
        }
        for r in 0..8 {
            let word = self.state.registers[r];
            let handle = word.handle();
            if !word.pointer || handle == 0 {
                continue;
            }
            if handle >= self.state.h {
                return DAMAGED;
            }
            if !self.marks[handle as usize] {
                return if self.shade(handle) { GOING } else { DAMAGED };
            }
        }
        if self.state.top == 0 {
            return match self.ending(0) {
                DAMAGED => DAMAGED,
                answer => self.end(answer),
            };
        }
        self.state.src = 0;
        self.state.dest = 0;
        self.state.tuple = self.words[0] >> 16;
        self.go(4)
    }

    /// Takes a tuple to scan; the rest of its list becomes current.
    fn take(&mut self, head: u32) {
        let entry = head as usize;
        self.state.src = self.addresses[entry];
        self.state.size = self.sizes[entry];
        self.state.index = 1;
        self.state.current = self.links[entry];
    }

    fn mark_scan(&mut self) -> u32 {
        let State {
            src,
            size,
            index,
            current,
            ..
        } = self.state;
        if index <= size {
            let Some(at) = self.address(src, index) else {
                return DAMAGED;
            };
            self.state.index = index + 1;
            let word = self.read(at);
            if word.pointer && word.handle() != 0 {
                self.state.tuple = word.handle();
                return self.go(3);
            }
            return GOING;
        }
        if current == 0 {
            return self.go(1);
        }
        if current >= self.state.h {
            return DAMAGED;
        }
        self.take(current);
        GOING
    }

    fn mark_add(&mut self) -> u32 {
        if !self.shade(self.state.tuple) {
            return DAMAGED;
        }
        self.go(2)
    }

    fn sweep_scan(&mut self) -> u32 {
        let State {
            src,
            dest,
            tuple,
            live,
            top,
            free,
            ..
        } = self.state;
        if !self.listed(tuple) {
            return DAMAGED;
        }
        let entry = tuple as usize;
        let size = self.sizes[entry];
        let Some(after) = self.past(src, size) else {
            return DAMAGED;
        };
        if self.marks[entry] {
            if src != dest {
                self.marks[entry] = false;
                self.state.size = size;
                self.state.index = 0;
                return self.go(5);
            }
            if after == top {
                let answer = self.ending(top);
                if answer == DAMAGED {
                    return DAMAGED;
                }
                self.marks[entry] = false;
                self.state.size = size;
                return self.end(answer);
            }
            if after >= self.state.m {
                return DAMAGED;
            }
            self.marks[entry] = false;
            self.state.size = size;
            self.state.dest = after;
            return self.go_on(after);
        }
        let goes_on = src + size < live;
        if goes_on && after >= self.state.m {
            return DAMAGED;
        }
        self.links[entry] = free;
        self.state.free = tuple;
        self.state.size = size;
        if goes_on {
            return self.go_on(after);
        }
        self.state.index = live.saturating_sub(src);
        self.go(8)
    }

    /// Goes on with the tuple at `after`, which is below M.
    fn go_on(&mut self, after: u32) -> u32 {
        self.state.src = after;
        self.state.tuple = self.words[after as usize] >> 16;
        self.go(4)
    }

    fn sweep_read(&mut self) -> u32 {
        let State {
            src,
            dest,
            tuple,
            size,
            index,
            live,
            top,
            ..
        } = self.state;
        if index <= size {
            let Some(at) = self.address(src, index) else {
                return DAMAGED;
            };
            self.state.copy = self.read(at);
            return self.go(if src + index < live { 7 } else { 6 });
        }
        if !self.listed(tuple) {
            return DAMAGED;
        }
        let (Some(room), Some(after)) = (self.past(dest, size), self.past(src, size)) else {
            return DAMAGED;
        };
        if after == top {
            let answer = self.ending(room);
            if answer == DAMAGED {
                return DAMAGED;
            }
            self.addresses[tuple as usize] = dest;
            self.state.dest = room;
            self.state.top = room;
            return self.end(answer);
        }
        if after >= self.state.m {
            return DAMAGED;
        }
        self.addresses[tuple as usize] = dest;
        self.state.dest = room;
        self.go_on(after)
    }

    fn sweep_clear(&mut self) -> u32 {
        let State { src, index, .. } = self.state;
        let Some(at) = self.address(src, index) else {
            return DAMAGED;
        };
        self.write(at, Word::data(0));
        self.go(7)
    }

    fn sweep_write(&mut self) -> u32 {
        let State {
            dest, index, copy, ..
        } = self.state;
        let Some(at) = self.address(dest, index) else {
            return DAMAGED;
        };
        self.write(at, copy);
        self.state.index = index + 1;
        self.go(5)
    }

    fn sweep_zero(&mut self) -> u32 {
        let State {
            src,
            dest,
            size,
            index,
            top,
            ..
        } = self.state;
        if index <= size {
            let Some(at) = self.address(src, index) else {
                return DAMAGED;
            };
            self.write(at, Word::data(0));
            self.state.index = index + 1;
            return GOING;
        }
        let Some(after) = self.past(src, size) else {
            return DAMAGED;
        };
        if after == top {
            let answer = self.ending(dest);
            if answer == DAMAGED {
                return DAMAGED;
            }
            self.state.top = dest;
            return self.end(answer);
        }
        if after >= self.state.m {
            return DAMAGED;
        }
        self.go_on(after)
    }

    /// What the end of a cycle that leaves this top would answer.
    fn ending(&self, top: u32) -> u32 {
        let Hold {
            held,
            begun,
            register,
            size,
            ..
        } = self.state.hold;
        if !held {
            ENDED
        } else if self.fits(top, size) {
            let bad = register > 7 || self.state.free >= self.state.h;
            if bad {
                DAMAGED
            } else {
                GRANTED
            }
        } else if begun {
            FAILED
        } else {
            STILL_HELD
        }
    }

    /// The end of a cycle, with the answer decided.
    fn end(&mut self, answer: u32) -> u32 {
        self.state.live = 0;
        self.state.phase = 0;
        if answer == GRANTED {
            let hold = self.state.hold;
            self.make(hold.register, hold.size, hold.tag, false);
        }
        if answer == GRANTED || answer == FAILED {
            self.state.hold.held = false;
        }
        answer
    }
}
