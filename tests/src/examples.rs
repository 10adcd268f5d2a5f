//! The records in examples/, and the lines that playing each of them prints.
//! The lines were worked out by hand from document 01's rules.

use std::path::{Path, PathBuf};

use crate::record::{self, EDITION, STEPS};

pub struct Example {
    pub name: &'static str,
    /// The record's numbers.
    pub list: Vec<u32>,
    pub lines: Vec<u32>,
}

impl Example {
    pub fn bytes(&self) -> Vec<u8> {
        record::write(&self.list).expect("a list that the writer takes")
    }

    /// The files of the record and of its lines.
    pub fn paths(&self) -> (PathBuf, PathBuf) {
        let folder = Path::new(env!("CARGO_MANIFEST_DIR")).join("../examples");
        let file = |ending| folder.join(format!("{}.{ending}", self.name));
        (file("record"), file("lines"))
    }
}

/// A box opened 16, 4, and records with the lines that each prints.
fn example(name: &'static str, records: &[(&[u32], &[u32])]) -> Example {
    let (mut list, mut lines) = (vec![EDITION, 16, 4], vec![0]);
    for (numbers, answers) in records {
        list.extend_from_slice(numbers);
        lines.extend_from_slice(answers);
    }
    Example { name, list, lines }
}

const SETD: u32 = 1;
const NIL: u32 = 2;
const MOVE: u32 = 3;
const ADVANCE: u32 = 4;
const GETM: u32 = 5;
const LOAD: u32 = 6;
const STORE: u32 = 7;
const SIZE: u32 = 8;
const TAG: u32 = 9;
const SAME: u32 = 10;

pub fn all() -> [Example; 4] {
    [p1(), kinds(), refused(), granted()]
}

/// Document 02's own: P1 and ten steps.
pub fn p1() -> Example {
    // A cycle: Rest; tuple 1 shaded; no more, so on to the sweep; the tuple
    // stays and ends at top. Two cycles, and two steps of a third.
    let steps = [30, 30, 30, 31, 30, 30, 30, 31, 30, 30];
    example("p1", &[(&[GETM, 0, 2, 7], &[0]), (&[STEPS, 10], &steps)])
}

/// Each kind done once, a cycle, and refusals 1 to 5.
pub fn kinds() -> Example {
    example(
        "kinds",
        &[
            (&[SETD, 0, 300], &[0]),
            (&[GETM, 1, 2, 7], &[0]),
            (&[STORE, 0, 1, 0], &[0]),
            (&[LOAD, 2, 1, 0], &[0]),
            (&[ADVANCE, 1, 1], &[0]),
            (&[SIZE, 3, 1], &[0]),
            (&[TAG, 4, 1], &[0]),
            (&[SAME, 5, 0, 2], &[0]),
            (&[MOVE, 6, 1], &[0]),
            (&[NIL, 7], &[0]),
            // As in the first example; register 6 names the same tuple.
            (&[STEPS, 4], &[30, 30, 30, 31]),
            (&[STEPS, 0], &[]),
            (&[NIL, 8], &[1]),
            (&[SAME, 0, 0, 65_535], &[1]),
            (&[SIZE, 3, 0], &[2]),
            // Offset 1 and k 1: the tuple has 2 words.
            (&[LOAD, 2, 1, 1], &[3]),
            (&[ADVANCE, 1, 65_535], &[4]),
            (&[GETM, 0, 16, 0], &[5]),
        ],
    )
}

/// A request that waits and is refused: P10, asked for while a cycle is under
/// way.
pub fn refused() -> Example {
    example(
        "refused",
        &[
            (&[GETM, 0, 2, 7], &[0]),
            (&[GETM, 1, 1, 0], &[0]),
            (&[STEPS, 1], &[30]),
            // Top is 5, and 5 + 12 is above 16.
            (&[GETM, 2, 11, 0], &[7]),
            (&[SETD, 3, 1], &[6]),
            // Both tuples shaded; on to the sweep; both stay. The second ends
            // the cycle, which began before the request was held.
            (&[STEPS, 5], &[30, 30, 30, 30, 33]),
            (&[NIL, 0], &[6]),
            // Rest and the same once more.
            (&[STEPS, 6], &[30, 30, 30, 30, 30, 8]),
            (&[SETD, 3, 1], &[0]),
        ],
    )
}

/// A request that waits and is granted, after P5's cycle with a move.
pub fn granted() -> Example {
    // Rest; tuple 2 shaded, live 2; on to the sweep; tuple 1 freed, from index
    // 2; its word 2 zeroed; on to tuple 2, at 3; it is to be moved to 0; read,
    // clear, write, twice; at its end top is 2, and 2 + 12 is at most 16.
    let steps = [30, 30, 30, 30, 30, 30, 30, 30, 30, 30, 30, 30, 30, 32];
    example(
        "granted",
        &[
            (&[GETM, 0, 2, 7], &[0]),
            (&[GETM, 1, 1, 0], &[0]),
            (&[SETD, 0, 0], &[0]),
            (&[GETM, 2, 11, 9], &[7]),
            (&[STEPS, 14], &steps),
            (&[LOAD, 3, 2, 10], &[0]),
            (&[LOAD, 3, 2, 11], &[3]),
        ],
    )
}
