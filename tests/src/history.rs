//! The history machine: registers, tuples that never vanish, and a hold. It
//! is fed each call and its answer, and never sees the box.

use crate::call::*;

/// Data, or a tuple's number and an offset. Number 0 is nil.
#[derive(Clone, Copy, PartialEq, Eq, Debug)]
pub enum Item {
    Data(u32),
    Pointer(usize, u16),
}

#[derive(Clone, PartialEq, Eq, Debug)]
pub struct Tuple {
    pub tag: u16,
    pub words: Vec<Item>,
}

#[derive(Clone, Copy, PartialEq, Eq, Debug)]
pub struct Asked {
    pub r: u16,
    pub n: u16,
    pub tag: u16,
}

#[derive(Clone, PartialEq, Eq, Debug)]
pub struct History {
    pub registers: [Item; 8],
    /// Tuple number t is at place t - 1.
    pub tuples: Vec<Tuple>,
    pub hold: Option<Asked>,
}

impl Default for History {
    fn default() -> History {
        History {
            registers: [Item::Data(0); 8],
            tuples: Vec::new(),
            hold: None,
        }
    }
}

impl History {
    /// Takes in one call and its answer.
    pub fn feed(&mut self, call: &Call, answer: u32) {
        match (call, answer) {
            (Call::Request(request), DONE) => {
                // What can't be done here changes nothing.
                let _ = self.carry_out(request);
            }
            (&Call::Request(Request::Getm { r, n, tag }), HELD) => {
                self.hold = Some(Asked { r, n, tag });
            }
            (Call::Step, GRANTED) | (Call::Run(_), DONE) => {
                if let Some(asked) = self.hold.take() {
                    let _ = self.make(asked);
                }
            }
            (Call::Step | Call::Run(_), FAILED) => self.hold = None,
            _ => {}
        }
    }

    pub fn tuple(&self, number: usize) -> Option<&Tuple> {
        self.tuples.get(number.checked_sub(1)?)
    }

    fn get(&self, r: u16) -> Option<Item> {
        self.registers.get(usize::from(r)).copied()
    }

    fn set(&mut self, r: u16, item: Item) -> Option<()> {
        *self.registers.get_mut(usize::from(r))? = item;
        Some(())
    }

    fn make(&mut self, asked: Asked) -> Option<()> {
        self.set(asked.r, Item::Pointer(self.tuples.len() + 1, 0))?;
        self.tuples.push(Tuple {
            tag: asked.tag,
            words: vec![Item::Data(0); usize::from(asked.n)],
        });
        Some(())
    }

    /// The tuple's number and the word's place that LOAD or STORE means.
    fn slot(&self, s: u16, k: u16) -> Option<(usize, usize)> {
        match self.get(s)? {
            Item::Pointer(number, offset) => {
                let place = usize::from(offset) + usize::from(k);
                let tuple = self.tuple(number)?;
                (place < tuple.words.len()).then_some((number, place))
            }
            Item::Data(_) => None,
        }
    }

    fn carry_out(&mut self, request: &Request) -> Option<()> {
        match *request {
            Request::Setd { r, v } => self.set(r, Item::Data(v)),
            Request::Nil { r } => self.set(r, Item::Pointer(0, 0)),
            Request::Move { r, s } => self.set(r, self.get(s)?),
            Request::Advance { r, n } => match self.get(r)? {
                Item::Pointer(number, offset) => {
                    self.set(r, Item::Pointer(number, offset.checked_add(n)?))
                }
                Item::Data(_) => None,
            },
            Request::Getm { r, n, tag } => self.make(Asked { r, n, tag }),
            Request::Load { r, s, k } => {
                let (number, place) = self.slot(s, k)?;
                self.set(r, self.tuple(number)?.words[place])
            }
            Request::Store { r, s, k } => {
                let (number, place) = self.slot(s, k)?;
                let item = self.get(r)?;
                self.tuples[number - 1].words[place] = item;
                Some(())
            }
            Request::Size { r, s } => match self.get(s)? {
                Item::Pointer(0, _) => self.set(r, Item::Data(0)),
                Item::Pointer(number, _) => {
                    let size = self.tuple(number)?.words.len() as u32;
                    self.set(r, Item::Data(size))
                }
                Item::Data(_) => None,
            },
            Request::Tag { r, s } => match self.get(s)? {
                Item::Pointer(0, _) => self.set(r, Item::Data(0)),
                Item::Pointer(number, _) => {
                    let tag = u32::from(self.tuple(number)?.tag);
                    self.set(r, Item::Data(tag))
                }
                Item::Data(_) => None,
            },
            Request::Same { r, s, t } => {
                let same = self.get(s)? == self.get(t)?;
                self.set(r, Item::Data(u32::from(same)))
            }
        }
    }

    /// Numbers of the tuples reachable from the registers.
    pub fn reachable(&self) -> Vec<usize> {
        let mut seen = vec![false; self.tuples.len() + 1];
        seen[0] = true;
        let mut found = Vec::new();
        let mut note = |item: &Item, found: &mut Vec<usize>| {
            if let Item::Pointer(number, _) = *item {
                if !seen[number] {
                    seen[number] = true;
                    found.push(number);
                }
            }
        };
        for item in &self.registers {
            note(item, &mut found);
        }
        let mut done = 0;
        while done < found.len() {
            for item in &self.tuples[found[done] - 1].words {
                note(item, &mut found);
            }
            done += 1;
        }
        found
    }

    /// The refusal from 1 to 6 that the table asks for, if any, in a box of
    /// M words that agrees with this machine.
    pub fn refusal(&self, request: &Request, m: u32) -> Option<u32> {
        if request.names_no_register() {
            return Some(NO_REGISTER);
        }
        if self.hold.is_some() {
            return Some(BUSY);
        }
        let wants = match *request {
            Request::Getm { n, .. } => {
                return (u32::from(n) + 1 > m).then_some(TOO_BIG);
            }
            Request::Advance { r, .. } => r,
            Request::Load { s, .. }
            | Request::Store { s, .. }
            | Request::Size { s, .. }
            | Request::Tag { s, .. } => s,
            _ => return None,
        };
        let Some(Item::Pointer(_, offset)) = self.get(wants) else {
            return Some(NO_POINTER);
        };
        match *request {
            Request::Advance { n, .. } => offset.checked_add(n).is_none().then_some(OFFSET_FULL),
            Request::Load { s, k, .. } | Request::Store { s, k, .. } => {
                self.slot(s, k).is_none().then_some(OUTSIDE)
            }
            _ => None,
        }
    }
}
