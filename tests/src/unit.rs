//! The second program: the box with its memory, directory, registers and
//! collector, for any state at all, damaged ones too.
//!
//! Rules are written in the order of the document and write as they go. A
//! journal keeps what each write replaced, so a rule that turns out to answer
//! 9 half way through is taken back whole.

use crate::call::*;
use crate::fault::Fault;

/// 32 bits and a flag: pointer or data.
#[derive(Clone, Copy, PartialEq, Eq, Debug, Default)]
pub struct Word {
    pub bits: u32,
    pub pointer: bool,
}

impl Word {
    pub fn data(bits: u32) -> Word {
        Word {
            bits,
            pointer: false,
        }
    }

    pub fn pointer(handle: u32, offset: u32) -> Word {
        Word {
            bits: handle << 16 | offset & 0xFFFF,
            pointer: true,
        }
    }

    pub fn handle(self) -> u32 {
        self.bits >> 16
    }

    pub fn offset(self) -> u32 {
        self.bits & 0xFFFF
    }
}

/// A GETM that waits for room.
#[derive(Clone, Copy, PartialEq, Eq, Debug, Default)]
pub struct Hold {
    pub held: bool,
    pub begun: bool,
    pub register: u16,
    pub size: u16,
    pub tag: u16,
}

/// Everything but the lent columns.
#[derive(Clone, Copy, PartialEq, Eq, Debug, Default)]
pub struct State {
    pub m: u32,
    pub h: u32,
    pub registers: [Word; 8],
    pub top: u32,
    /// Head of the free list.
    pub free: u32,
    pub phase: u32,
    pub live: u32,
    pub current: u32,
    pub next: u32,
    pub src: u32,
    pub dest: u32,
    pub tuple: u32,
    pub size: u32,
    pub index: u32,
    pub copy: Word,
    pub hold: Hold,
}

/// The box: seven lent columns and the state.
#[derive(Clone, PartialEq, Eq, Debug, Default)]
pub struct Unit {
    pub words: Vec<u32>,
    pub pointers: Vec<bool>,
    pub addresses: Vec<u32>,
    pub sizes: Vec<u32>,
    pub links: Vec<u32>,
    pub marks: Vec<bool>,
    pub deeps: Vec<bool>,
    pub state: State,
}

/// What a run gives back.
#[derive(Clone, Copy, PartialEq, Eq, Debug)]
pub struct Ran {
    pub answer: u32,
    pub steps: u32,
}

impl Unit {
    /// Columns of the right lengths, not opened.
    pub fn lent(m: u32, h: u32) -> Unit {
        let (words, entries) = (m as usize, h as usize);
        Unit {
            words: vec![0; words],
            pointers: vec![false; words],
            addresses: vec![0; entries],
            sizes: vec![0; entries],
            links: vec![0; entries],
            marks: vec![false; entries],
            deeps: vec![false; entries],
            state: State::default(),
        }
    }

    /// True if M and H are in range and are the lengths of the columns.
    pub fn measures(&self, m: u32, h: u32) -> bool {
        let words = [self.words.len(), self.pointers.len()];
        let entries = [
            self.addresses.len(),
            self.sizes.len(),
            self.links.len(),
            self.marks.len(),
            self.deeps.len(),
        ];
        (16..=8192).contains(&m)
            && (2..=1024).contains(&h)
            && words.iter().all(|&l| l == m as usize)
            && entries.iter().all(|&l| l == h as usize)
    }

    /// The checks that come before all others in requests, steps and runs.
    pub fn sound(&self) -> bool {
        self.measures(self.state.m, self.state.h) && self.state.phase <= 8
    }

    /// Opens the box, whatever it was before.
    pub fn open(&mut self, m: u32, h: u32) -> u32 {
        if !self.measures(m, h) {
            return NOT_OPENED;
        }
        *self = Unit::lent(m, h);
        for handle in 1..h - 1 {
            self.links[handle as usize] = handle + 1;
        }
        self.state.m = m;
        self.state.h = h;
        self.state.free = 1;
        DONE
    }

    pub fn request(&mut self, request: Request) -> u32 {
        self.request_with(Fault::None, request)
    }

    pub fn step(&mut self) -> u32 {
        self.step_with(Fault::None)
    }

    pub fn run(&mut self, budget: u32) -> Ran {
        self.run_with(Fault::None, budget)
    }

    pub fn request_with(&mut self, fault: Fault, request: Request) -> u32 {
        if !self.sound() {
            return DAMAGED;
        }
        self.attempt(fault, |rules| rules.request(request))
    }

    pub fn step_with(&mut self, fault: Fault) -> u32 {
        if !self.sound() {
            return DAMAGED;
        }
        self.attempt(fault, |rules| rules.step())
    }

    pub fn run_with(&mut self, fault: Fault, budget: u32) -> Ran {
        let mut steps = 0;
        if !self.sound() {
            let answer = DAMAGED;
            return Ran { answer, steps };
        }
        let answer = loop {
            if steps == budget {
                break SPENT;
            }
            let answer = self.attempt(fault, |rules| rules.step());
            if answer == DAMAGED {
                break DAMAGED;
            }
            steps += 1;
            match answer {
                ENDED | GRANTED => break DONE,
                FAILED => break FAILED,
                _ => {}
            }
        };
        if fault == Fault::RunCountsMore && answer == DONE {
            steps = steps.saturating_add(1);
        }
        Ran { answer, steps }
    }

    /// Copies another box into this one without new buffers.
    pub fn copy_from(&mut self, other: &Unit) {
        self.words.clone_from(&other.words);
        self.pointers.clone_from(&other.pointers);
        self.addresses.clone_from(&other.addresses);
        self.sizes.clone_from(&other.sizes);
        self.links.clone_from(&other.links);
        self.marks.clone_from(&other.marks);
        self.deeps.clone_from(&other.deeps);
        self.state = other.state;
    }

    /// The free list in order, or nothing if it is broken.
    pub fn free_list(&self) -> Option<Vec<u32>> {
        let mut list = Vec::new();
        let mut handle = self.state.free;
        while handle != 0 {
            if list.len() >= self.links.len() {
                return None;
            }
            list.push(handle);
            handle = *self.links.get(handle as usize)?;
        }
        Some(list)
    }

    /// Does a rule whole or not at all.
    fn attempt(&mut self, fault: Fault, rule: impl FnOnce(&mut Rules) -> Result<u32, u32>) -> u32 {
        let before = self.state;
        let mut rules = Rules {
            unit: self,
            fault,
            journal: Vec::new(),
        };
        match rule(&mut rules) {
            Ok(answer) => answer,
            Err(answer) => {
                rules.take_back();
                self.state = before;
                answer
            }
        }
    }
}

/// What a write to a column replaced.
enum Was {
    Word(usize, Word),
    Address(usize, u32),
    Size(usize, u32),
    Link(usize, u32),
    Mark(usize, bool),
    Deep(usize, bool),
}

/// Where a word of a tuple is.
enum Place {
    Copy,
    At(usize),
}

/// One rule at work on a box whose sizes, lengths and phase are right.
struct Rules<'a> {
    unit: &'a mut Unit,
    fault: Fault,
    journal: Vec<Was>,
}

impl Rules<'_> {
    // Checked access.

    /// Looks up a handle.
    fn entry(&self, handle: u32) -> Result<usize, u32> {
        if (1..self.unit.state.h).contains(&handle) {
            Ok(handle as usize)
        } else {
            Err(DAMAGED)
        }
    }

    /// An address that is touched: below M.
    fn touch(&self, base: u32, index: u32) -> Result<usize, u32> {
        let address = u64::from(base) + u64::from(index);
        if address < u64::from(self.unit.state.m) {
            Ok(address as usize)
        } else {
            Err(DAMAGED)
        }
    }

    /// base + size + 1 as an address or total: at most M.
    fn past(&self, base: u32, size: u32) -> Result<u32, u32> {
        let sum = u64::from(base) + u64::from(size) + 1;
        if sum <= u64::from(self.unit.state.m) {
            Ok(sum as u32)
        } else {
            Err(DAMAGED)
        }
    }

    fn read(&self, at: usize) -> Word {
        Word {
            bits: self.unit.words[at],
            pointer: self.unit.pointers[at],
        }
    }

    fn write(&mut self, at: usize, word: Word) {
        self.journal.push(Was::Word(at, self.read(at)));
        self.unit.words[at] = word.bits;
        self.unit.pointers[at] = word.pointer;
    }

    fn set_address(&mut self, entry: usize, address: u32) {
        let was = std::mem::replace(&mut self.unit.addresses[entry], address);
        self.journal.push(Was::Address(entry, was));
    }

    fn set_size(&mut self, entry: usize, size: u32) {
        let was = std::mem::replace(&mut self.unit.sizes[entry], size);
        self.journal.push(Was::Size(entry, was));
    }

    fn set_link(&mut self, entry: usize, link: u32) {
        let was = std::mem::replace(&mut self.unit.links[entry], link);
        self.journal.push(Was::Link(entry, was));
    }

    fn set_mark(&mut self, entry: usize, mark: bool) {
        let was = std::mem::replace(&mut self.unit.marks[entry], mark);
        self.journal.push(Was::Mark(entry, was));
    }

    fn set_deep(&mut self, entry: usize, deep: bool) {
        let was = std::mem::replace(&mut self.unit.deeps[entry], deep);
        self.journal.push(Was::Deep(entry, was));
    }

    /// Takes the column writes back, last one first.
    fn take_back(&mut self) {
        while let Some(was) = self.journal.pop() {
            match was {
                Was::Word(at, word) => {
                    self.unit.words[at] = word.bits;
                    self.unit.pointers[at] = word.pointer;
                }
                Was::Address(entry, address) => self.unit.addresses[entry] = address,
                Was::Size(entry, size) => self.unit.sizes[entry] = size,
                Was::Link(entry, link) => self.unit.links[entry] = link,
                Was::Mark(entry, mark) => self.unit.marks[entry] = mark,
                Was::Deep(entry, deep) => self.unit.deeps[entry] = deep,
            }
        }
    }

    fn state(&mut self) -> &mut State {
        &mut self.unit.state
    }

    fn register(&self, r: u16) -> Word {
        self.unit.state.registers[usize::from(r)]
    }

    fn set_register(&mut self, r: u16, word: Word) {
        self.unit.state.registers[usize::from(r)] = word;
    }

    fn has(&self, fault: Fault) -> bool {
        self.fault == fault
    }

    // Requests.

    fn request(&mut self, request: Request) -> Result<u32, u32> {
        if request.names_no_register() {
            return Err(NO_REGISTER);
        }
        if self.unit.state.hold.held {
            return Err(BUSY);
        }
        match request {
            Request::Setd { r, v } => self.set_register(r, Word::data(v)),
            Request::Nil { r } => self.set_register(r, Word::pointer(0, 0)),
            Request::Move { r, s } => self.set_register(r, self.register(s)),
            Request::Advance { r, n } => self.advance(r, n)?,
            Request::Getm { r, n, tag } => return self.getm(r, n, tag),
            Request::Load { r, s, k } => {
                let done = self.load(r, s, k);
                if done == Err(OUTSIDE) && self.has(Fault::RefusalWrites) {
                    // The fault: refused, but not taken back.
                    self.set_register(r, Word::data(0));
                    return Ok(OUTSIDE);
                }
                done?;
            }
            Request::Store { r, s, k } => self.store(r, s, k)?,
            Request::Size { r, s } => self.size(r, s)?,
            Request::Tag { r, s } => self.tag(r, s)?,
            Request::Same { r, s, t } => {
                let same = self.register(s) == self.register(t);
                self.set_register(r, Word::data(u32::from(same)));
            }
        }
        Ok(DONE)
    }

    /// A register that must have a pointer.
    fn pointer(&self, r: u16) -> Result<Word, u32> {
        let word = self.register(r);
        if word.pointer {
            Ok(word)
        } else {
            Err(NO_POINTER)
        }
    }

    fn advance(&mut self, r: u16, n: u16) -> Result<(), u32> {
        let word = self.pointer(r)?;
        let offset = word.offset() + u32::from(n);
        if offset > 65_535 {
            return Err(OFFSET_FULL);
        }
        self.set_register(r, Word::pointer(word.handle(), offset));
        Ok(())
    }

    fn getm(&mut self, r: u16, n: u16, tag: u16) -> Result<u32, u32> {
        if u32::from(n) + 1 > self.unit.state.m {
            return Err(TOO_BIG);
        }
        if !self.fits(n) {
            self.state().hold = Hold {
                held: true,
                begun: false,
                register: r,
                size: n,
                tag,
            };
            return Ok(HELD);
        }
        self.make(r, n, tag)?;
        Ok(DONE)
    }

    /// True if there is a free handle, and room above top.
    fn fits(&self, n: u16) -> bool {
        let state = &self.unit.state;
        state.free != 0 && u64::from(state.top) + u64::from(n) < u64::from(state.m)
    }

    /// Makes a tuple that fits.
    fn make(&mut self, r: u16, n: u16, tag: u16) -> Result<(), u32> {
        let n = u32::from(n);
        let handle = self.unit.state.free;
        let entry = self.entry(handle)?;
        let top = self.unit.state.top;
        let at = self.touch(top, 0)?;
        let rest = self.unit.state.phase == 0;
        self.state().free = self.unit.links[entry];
        self.write(at, Word::data(handle << 16 | u32::from(tag)));
        self.set_address(entry, top);
        self.set_size(entry, n);
        self.set_deep(entry, false);
        let marked = if rest {
            self.has(Fault::MarkedInRest)
        } else {
            !self.has(Fault::NewNotMarked)
        };
        self.set_mark(entry, marked);
        if !rest && !self.has(Fault::NewNotLive) {
            self.state().live = self.past(self.unit.state.live, n)?;
        }
        self.state().top = self.past(top, n)?;
        self.set_register(r, Word::pointer(handle, 0));
        Ok(())
    }

    /// The handle a LOAD or STORE means, and the word's index in the tuple.
    fn target(&self, s: u16, k: u16) -> Result<(u32, u32), u32> {
        let word = self.pointer(s)?;
        if word.handle() == 0 {
            return Err(OUTSIDE);
        }
        let entry = self.entry(word.handle())?;
        let slot = word.offset() + u32::from(k);
        if slot >= self.unit.sizes[entry] {
            return Err(OUTSIDE);
        }
        Ok((word.handle(), slot + 1))
    }

    /// Where word `index` of a tuple is. The entry is looked up only if the
    /// word is at the entry's address.
    fn place(&self, handle: u32, index: u32) -> Result<Place, u32> {
        self.entry(handle)?;
        let state = &self.unit.state;
        if handle == state.tuple {
            if matches!(state.phase, 6 | 7) && index == state.index {
                return Ok(Place::Copy);
            }
            if matches!(state.phase, 5..=7) && index < state.index {
                return Ok(Place::At(self.touch(state.dest, index)?));
            }
        }
        self.old_place(handle, index)
    }

    fn old_place(&self, handle: u32, index: u32) -> Result<Place, u32> {
        let entry = self.entry(handle)?;
        let at = self.touch(self.unit.addresses[entry], index)?;
        Ok(Place::At(at))
    }

    fn look(&self, place: Place) -> Word {
        match place {
            Place::Copy => self.unit.state.copy,
            Place::At(at) => self.read(at),
        }
    }

    fn load(&mut self, r: u16, s: u16, k: u16) -> Result<(), u32> {
        let (handle, index) = self.target(s, k)?;
        let mut place = self.place(handle, index)?;
        let moved = index < self.unit.state.index;
        match place {
            Place::Copy if self.has(Fault::LoadSkipsCopy) => {
                place = self.old_place(handle, index)?;
            }
            Place::At(_) if self.has(Fault::LoadSkipsMoved) && moved => {
                place = self.old_place(handle, index)?;
            }
            _ => {}
        }
        self.set_register(r, self.look(place));
        Ok(())
    }

    fn store(&mut self, r: u16, s: u16, k: u16) -> Result<(), u32> {
        let (handle, index) = self.target(s, k)?;
        let mut place = self.place(handle, index)?;
        if matches!(place, Place::Copy) && self.has(Fault::StoreSkipsCopy) {
            place = self.old_place(handle, index)?;
        }
        let word = self.register(r);
        if word.pointer && word.handle() != 0 {
            let shades = match self.unit.state.phase {
                0 => self.has(Fault::StoreShadesInRest),
                1 | 2 => !self.has(Fault::StoreNoShade),
                3 => !self.has(Fault::StoreNoShade) && !self.has(Fault::StoreNoShadeInAdd),
                _ => false,
            };
            if shades {
                self.shade(word.handle())?;
            }
            if !self.has(Fault::StoreNotDeep) {
                self.set_deep(self.entry(handle)?, true);
            }
        } else if self.has(Fault::DataClearsDeep) {
            self.set_deep(self.entry(handle)?, false);
        }
        match place {
            Place::Copy => self.state().copy = word,
            Place::At(at) => self.write(at, word),
        }
        Ok(())
    }

    fn size(&mut self, r: u16, s: u16) -> Result<(), u32> {
        let handle = self.pointer(s)?.handle();
        let size = if handle == 0 {
            0
        } else {
            self.unit.sizes[self.entry(handle)?]
        };
        self.set_register(r, Word::data(size));
        Ok(())
    }

    fn tag(&mut self, r: u16, s: u16) -> Result<(), u32> {
        let handle = self.pointer(s)?.handle();
        let tag = if handle == 0 {
            0
        } else if self.has(Fault::TagSkipsMove) {
            self.look(self.old_place(handle, 0)?).bits & 0xFFFF
        } else {
            self.look(self.place(handle, 0)?).bits & 0xFFFF
        };
        self.set_register(r, Word::data(tag));
        Ok(())
    }

    // The collector.

    fn step(&mut self) -> Result<u32, u32> {
        match self.unit.state.phase {
            0 => self.rest(),
            1 => self.mark_next(),
            2 => self.mark_scan(),
            3 => self.mark_add(),
            4 => self.sweep_scan(),
            5 => self.sweep_read(),
            6 => self.sweep_clear(),
            7 => self.sweep_write(),
            8 => self.sweep_zero(),
            _ => Err(DAMAGED),
        }
    }

    fn go(&mut self, phase: u32) -> Result<u32, u32> {
        self.state().phase = phase;
        Ok(GOING)
    }

    fn rest(&mut self) -> Result<u32, u32> {
        let state = self.state();
        state.live = 0;
        state.current = 0;
        state.next = 0;
        if state.hold.held {
            state.hold.begun = true;
        }
        if self.has(Fault::RootsOnlyAtStart) {
            for word in self.unit.state.registers {
                if word.pointer && word.handle() != 0 {
                    self.shade(word.handle())?;
                }
            }
        }
        self.go(1)
    }

    fn mark_next(&mut self) -> Result<u32, u32> {
        let head = self.unit.state.next;
        if head != 0 {
            let rest = self.take(head)?;
            let lost = self.has(Fault::RestLost);
            self.state().current = if lost { 0 } else { rest };
            self.state().next = 0;
            return self.go(2);
        }
        if !self.has(Fault::RootsOnlyAtStart) {
            for word in self.unit.state.registers {
                if !word.pointer || word.handle() == 0 {
                    continue;
                }
                let entry = self.entry(word.handle())?;
                if !self.unit.marks[entry] {
                    self.shade(word.handle())?;
                    if self.has(Fault::CountedPerRegister) {
                        self.count_again(word.handle())?;
                    }
                    return Ok(GOING);
                }
            }
        }
        if self.unit.state.top == 0 && !self.has(Fault::EmptyHeapSwept) {
            return self.end();
        }
        self.state().src = 0;
        self.state().dest = 0;
        self.state().tuple = self.read(self.touch(0, 0)?).handle();
        self.go(4)
    }

    /// The fault: live grows for each further register that names the tuple.
    fn count_again(&mut self, handle: u32) -> Result<(), u32> {
        let size = self.unit.sizes[self.entry(handle)?];
        let named = |word: &&Word| word.pointer && word.handle() == handle;
        let count = self.unit.state.registers.iter().filter(named).count();
        for _ in 1..count {
            self.state().live = self.past(self.unit.state.live, size)?;
        }
        Ok(())
    }

    /// Takes a tuple to scan and gives the rest of its list.
    fn take(&mut self, head: u32) -> Result<u32, u32> {
        let entry = self.entry(head)?;
        self.state().src = self.unit.addresses[entry];
        self.state().size = self.unit.sizes[entry];
        self.state().index = 1;
        Ok(self.unit.links[entry])
    }

    fn mark_scan(&mut self) -> Result<u32, u32> {
        let State {
            src,
            size,
            index,
            current,
            ..
        } = self.unit.state;
        let last_out = self.has(Fault::LastWordNotScanned) && index == size;
        if index <= size && !last_out {
            let word = self.read(self.touch(src, index)?);
            self.state().index = index + 1;
            if word.pointer && word.handle() != 0 {
                self.state().tuple = word.handle();
                return self.go(3);
            }
            return Ok(GOING);
        }
        if current == 0 {
            return self.go(1);
        }
        self.state().current = self.take(current)?;
        Ok(GOING)
    }

    fn mark_add(&mut self) -> Result<u32, u32> {
        self.shade(self.unit.state.tuple)?;
        self.go(2)
    }

    fn shade(&mut self, handle: u32) -> Result<(), u32> {
        let entry = self.entry(handle)?;
        if self.unit.marks[entry] {
            return Ok(());
        }
        self.set_mark(entry, true);
        self.state().live = self.past(self.unit.state.live, self.unit.sizes[entry])?;
        if self.unit.deeps[entry] && !self.has(Fault::DeepNotListed) {
            self.set_link(entry, self.unit.state.next);
            self.state().next = handle;
        }
        Ok(())
    }

    fn sweep_scan(&mut self) -> Result<u32, u32> {
        let State {
            src,
            dest,
            tuple,
            live,
            top,
            free,
            ..
        } = self.unit.state;
        let entry = self.entry(tuple)?;
        let size = self.unit.sizes[entry];
        self.state().size = size;
        let after = self.past(src, size)?;
        if self.unit.marks[entry] {
            let ends = src == dest && after == top;
            if !(ends && self.has(Fault::LastStaysMarked)) {
                self.set_mark(entry, false);
            }
            if ends {
                return self.end();
            }
            if src != dest {
                self.state().index = 0;
                return self.go(5);
            }
            self.state().dest = after;
            return self.go_on(after);
        }
        if !self.has(Fault::HandleLost) {
            self.set_link(entry, free);
            self.state().free = tuple;
        }
        // src + size is below after, which is at most M.
        if src + size < live {
            return self.go_on(after);
        }
        let mut index = live.saturating_sub(src);
        if self.has(Fault::ZeroLate) {
            index = index.saturating_add(1);
        }
        self.state().index = index;
        self.go(8)
    }

    /// Goes on with the tuple at `after`.
    fn go_on(&mut self, after: u32) -> Result<u32, u32> {
        self.state().tuple = self.read(self.touch(after, 0)?).handle();
        self.state().src = after;
        self.go(4)
    }

    fn sweep_read(&mut self) -> Result<u32, u32> {
        let State {
            src,
            dest,
            tuple,
            size,
            index,
            live,
            top,
            ..
        } = self.unit.state;
        if index <= size {
            let at = self.touch(src, index)?;
            self.state().copy = self.read(at);
            let kept = src + index < live || self.has(Fault::NeverCleared);
            return self.go(if kept { 7 } else { 6 });
        }
        let entry = self.entry(tuple)?;
        if !self.has(Fault::AddressKept) {
            self.set_address(entry, dest);
        }
        self.state().dest = self.past(dest, size)?;
        let after = self.past(src, size)?;
        if after == top {
            self.state().top = self.unit.state.dest;
            return self.end();
        }
        self.go_on(after)
    }

    fn sweep_clear(&mut self) -> Result<u32, u32> {
        let State { src, index, .. } = self.unit.state;
        self.write(self.touch(src, index)?, Word::data(0));
        self.go(7)
    }

    fn sweep_write(&mut self) -> Result<u32, u32> {
        let State {
            dest, index, copy, ..
        } = self.unit.state;
        self.write(self.touch(dest, index)?, copy);
        // index is below M, since the address was.
        self.state().index = index + 1;
        self.go(5)
    }

    fn sweep_zero(&mut self) -> Result<u32, u32> {
        let State {
            src,
            dest,
            size,
            index,
            top,
            ..
        } = self.unit.state;
        if index <= size {
            self.write(self.touch(src, index)?, Word::data(0));
            self.state().index = index + 1;
            return Ok(GOING);
        }
        let after = self.past(src, size)?;
        if after == top {
            self.state().top = dest;
            return self.end();
        }
        self.go_on(after)
    }

    /// The end of a cycle, and the held request tried again.
    fn end(&mut self) -> Result<u32, u32> {
        self.state().live = 0;
        self.state().phase = 0;
        let hold = self.unit.state.hold;
        if !hold.held {
            return Ok(ENDED);
        }
        if self.fits(hold.size) {
            if hold.register > 7 {
                return Err(DAMAGED);
            }
            self.make(hold.register, hold.size, hold.tag)?;
            self.drop_hold();
            return Ok(GRANTED);
        }
        let begun = hold.begun || self.has(Fault::HoldFailsEarly);
        if begun && !self.has(Fault::HoldNeverFails) {
            self.drop_hold();
            return Ok(FAILED);
        }
        Ok(STILL_HELD)
    }

    /// Nothing is held after this; the other fields of the hold aren't named
    /// by any rule here and keep their values.
    fn drop_hold(&mut self) {
        self.state().hold.held = false;
    }
}
