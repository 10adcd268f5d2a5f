//! An independent second program for the SURE memory unit and for records of
//! its runs, and the checks that hold a list of calls against the history
//! machine.

pub mod call;
pub mod capi;
pub mod checker;
pub mod compare;
pub mod compare_record;
pub mod examples;
pub mod fault;
pub mod history;
pub mod plain;
pub mod playback;
pub mod player;
pub mod random;
pub mod record;
pub mod strings;
pub mod unit;

pub use call::{Call, Request};
pub use capi::Lent;
pub use checker::Checker;
pub use fault::{Fault, RecordFault};
pub use history::History;
pub use player::Player;
pub use unit::{Hold, Ran, State, Unit, Word};
