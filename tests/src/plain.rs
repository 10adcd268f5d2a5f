//! A record played on plain arrays: the plain player on the requests and steps
//! of a record, each answer a line. The benchmark holds the time of the program
//! `play` against it.

use std::io::{self, Write};
use std::slice::Iter;

use crate::call::{Request, DONE};
use crate::player::Player;
use crate::record::{AFTER_THE_END, CUT, EDITION, TOO_LARGE, UNKNOWN, WRONG_FORM};
use crate::unit::Unit;

/// Each answer as text, and how many of the bytes it has.
const LINES: [([u8; 4], usize); 100] = {
    let mut lines = [([0; 4], 0); 100];
    let mut answer = 0;
    while answer < 100 {
        let (tens, ones) = (b'0' + answer as u8 / 10, b'0' + answer as u8 % 10);
        lines[answer] = match answer {
            0..10 => ([ones, b'\n', 0, 0], 2),
            _ => ([tens, ones, b'\n', 0], 3),
        };
        answer += 1;
    }
    lines
};

/// Lines that are given on whenever a buffer is full.
struct Lines<W> {
    out: W,
    buffer: Box<[u8; 65_536]>,
    length: usize,
}

impl<W: Write> Lines<W> {
    fn new(out: W) -> Lines<W> {
        Lines {
            out,
            buffer: Box::new([0; 65_536]),
            length: 0,
        }
    }

    #[inline]
    fn line(&mut self, answer: u32) -> io::Result<()> {
        if self.length > self.buffer.len() - 4 {
            self.flush()?;
        }
        let (text, length) = LINES[answer as usize];
        self.buffer[self.length..self.length + 4].copy_from_slice(&text);
        self.length += length;
        Ok(())
    }

    #[cold]
    fn flush(&mut self) -> io::Result<()> {
        self.out.write_all(&self.buffer[..self.length])?;
        self.length = 0;
        self.out.flush()
    }
}

/// What is left of a record. A number that can't be taken is refused by its
/// answer.
struct Rest<'a>(Iter<'a, u8>);

impl Rest<'_> {
    #[inline]
    fn byte(&mut self) -> Result<u8, u32> {
        self.0.next().copied().ok_or(CUT)
    }

    #[inline]
    fn number(&mut self) -> Result<u32, u32> {
        match self.byte()? {
            first @ 0..0x80 => Ok(first.into()),
            first => self.further_groups(first),
        }
    }

    fn further_groups(&mut self, first: u8) -> Result<u32, u32> {
        let mut value = u32::from(first & 0x7F);
        for shift in [7, 14, 21, 28] {
            let byte = self.byte()?;
            if byte == 0 || shift == 28 && byte > 0x0F {
                return Err(WRONG_FORM);
            }
            value |= u32::from(byte & 0x7F) << shift;
            if byte < 0x80 {
                break;
            }
        }
        Ok(value)
    }

    #[inline]
    fn half(&mut self) -> Result<u16, u32> {
        self.number()?.try_into().or(Err(TOO_LARGE))
    }
}

/// A record: a kind and its fields.
enum Record {
    Request(Request),
    Steps(u32),
    End(u32),
}

#[inline]
fn record(rest: &mut Rest) -> Result<Record, u32> {
    let request = match rest.number()? {
        0 => return Ok(Record::End(rest.number()?)),
        11 => return Ok(Record::Steps(rest.number()?)),
        1 => Request::Setd {
            r: rest.half()?,
            v: rest.number()?,
        },
        2 => Request::Nil { r: rest.half()? },
        3 => Request::Move {
            r: rest.half()?,
            s: rest.half()?,
        },
        4 => Request::Advance {
            r: rest.half()?,
            n: rest.half()?,
        },
        5 => Request::Getm {
            r: rest.half()?,
            n: rest.half()?,
            tag: rest.half()?,
        },
        6 => Request::Load {
            r: rest.half()?,
            s: rest.half()?,
            k: rest.half()?,
        },
        7 => Request::Store {
            r: rest.half()?,
            s: rest.half()?,
            k: rest.half()?,
        },
        8 => Request::Size {
            r: rest.half()?,
            s: rest.half()?,
        },
        9 => Request::Tag {
            r: rest.half()?,
            s: rest.half()?,
        },
        10 => Request::Same {
            r: rest.half()?,
            s: rest.half()?,
            t: rest.half()?,
        },
        _ => return Err(UNKNOWN),
    };
    Ok(Record::Request(request))
}

/// Edition, M and H.
fn opening(rest: &mut Rest) -> Result<(u32, u32), u32> {
    if rest.number()? != EDITION {
        return Err(UNKNOWN);
    }
    Ok((rest.half()?.into(), rest.half()?.into()))
}

/// Prints answers, and nothing else.
pub fn print(answers: &[u32], out: impl Write) -> io::Result<()> {
    let mut lines = Lines::new(out);
    for &answer in answers {
        lines.line(answer)?;
    }
    lines.flush()
}

/// Plays a record: each answer goes to a line, and a refusal is the last one.
pub fn play(string: &[u8], out: impl Write) -> io::Result<()> {
    let mut lines = Lines::new(out);
    let mut rest = Rest(string.iter());
    let (m, h) = match opening(&mut rest) {
        Ok(sizes) => sizes,
        Err(refusal) => {
            lines.line(refusal)?;
            return lines.flush();
        }
    };
    let mut player = Player::of(&Unit::lent(m, h));
    let answer = player.open(m, h);
    lines.line(answer)?;
    let opened = answer == DONE;
    let mut count = 0u64;
    let refusal = loop {
        match record(&mut rest) {
            Err(refusal) => break refusal,
            Ok(Record::End(number)) => {
                break match u64::from(number) == count {
                    false => TOO_LARGE,
                    true if rest.0.as_slice().is_empty() => DONE,
                    true => AFTER_THE_END,
                }
            }
            // After a 10 the rest is only read.
            Ok(_) if !opened => {}
            Ok(Record::Request(request)) => lines.line(player.ask(request))?,
            Ok(Record::Steps(steps)) => {
                for _ in 0..steps {
                    lines.line(player.rule())?;
                }
            }
        }
        count += 1;
    };
    if refusal != DONE {
        lines.line(refusal)?;
    }
    lines.flush()
}
