//! The calls a box takes, and the numbers it answers with.

/// The ten kinds of request. `r`, `s`, `t` are register numbers.
#[derive(Clone, Copy, PartialEq, Eq, Debug)]
pub enum Request {
    Setd { r: u16, v: u32 },
    Nil { r: u16 },
    Move { r: u16, s: u16 },
    Advance { r: u16, n: u16 },
    Getm { r: u16, n: u16, tag: u16 },
    Load { r: u16, s: u16, k: u16 },
    Store { r: u16, s: u16, k: u16 },
    Size { r: u16, s: u16 },
    Tag { r: u16, s: u16 },
    Same { r: u16, s: u16, t: u16 },
}

impl Request {
    /// True if one of the registers named is above 7.
    pub fn names_no_register(&self) -> bool {
        let highest = match *self {
            Request::Setd { r, .. }
            | Request::Nil { r }
            | Request::Advance { r, .. }
            | Request::Getm { r, .. } => r,
            Request::Move { r, s }
            | Request::Load { r, s, .. }
            | Request::Store { r, s, .. }
            | Request::Size { r, s }
            | Request::Tag { r, s } => r.max(s),
            Request::Same { r, s, t } => r.max(s).max(t),
        };
        highest > 7
    }
}

/// One call of a list after the opening.
#[derive(Clone, Copy, PartialEq, Eq, Debug)]
pub enum Call {
    Request(Request),
    Step,
    Run(u32),
}

pub const DONE: u32 = 0;
pub const NO_REGISTER: u32 = 1;
pub const NO_POINTER: u32 = 2;
pub const OUTSIDE: u32 = 3;
pub const OFFSET_FULL: u32 = 4;
pub const TOO_BIG: u32 = 5;
pub const BUSY: u32 = 6;
pub const HELD: u32 = 7;
pub const FAILED: u32 = 8;
pub const DAMAGED: u32 = 9;
pub const NOT_OPENED: u32 = 10;
pub const SPENT: u32 = 11;
pub const GOING: u32 = 30;
pub const ENDED: u32 = 31;
pub const GRANTED: u32 = 32;
pub const STILL_HELD: u32 = 33;
