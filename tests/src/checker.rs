//! Drives a box through a list of calls and checks the claims on the whole
//! list after every call.

use crate::call::*;
use crate::fault::Fault;
use crate::history::{History, Item};
use crate::unit::{Hold, State, Unit, Word};

/// A cycle under way.
struct Cycle {
    steps: u64,
    top: u32,
    /// No request was carried out in it so far.
    quiet: bool,
    /// Tuples unreachable as it started.
    dead: Vec<usize>,
}

/// A hold not answered yet.
struct Waiting {
    steps: u64,
    /// The tuples reachable as it was put on hold and the one asked for fit.
    fits: bool,
}

pub struct Checker {
    pub unit: Unit,
    pub history: History,
    pub calls: u64,
    /// How often each answer came.
    pub answers: [u64; 34],
    /// How often a LOAD, STORE or TAG carried out found its word in the copy
    /// register, and at its new place.
    pub met_copy: u64,
    pub met_moved: u64,
    /// Cycles ended.
    pub cycles: u64,
    fault: Fault,
    /// The handle of tuple number t is at place t - 1.
    handles: Vec<u32>,
    /// Numbers of the tuples not gone, oldest first.
    present: Vec<usize>,
    cycle: Option<Cycle>,
    waiting: Option<Waiting>,
    /// The box before the call; a run is replayed on it.
    before: Unit,
}

/// Fails with the claim's name unless the condition holds.
fn claim(holds: bool, name: &str, what: impl FnOnce() -> String) -> Result<(), String> {
    if holds {
        Ok(())
    } else {
        Err(format!("{name}: {}", what()))
    }
}

impl Checker {
    /// Opens a box with its own buffers and starts a list.
    pub fn open(m: u32, h: u32, fault: Fault) -> Result<Checker, String> {
        let mut unit = Unit::lent(m, h);
        let answer = unit.open(m, h);
        claim(answer == DONE, "opening", || format!("answered {answer}"))?;
        let checker = Checker {
            before: unit.clone(),
            unit,
            history: History::default(),
            calls: 0,
            answers: [0; 34],
            met_copy: 0,
            met_moved: 0,
            cycles: 0,
            fault,
            handles: Vec::new(),
            present: Vec::new(),
            cycle: None,
            waiting: None,
        };
        checker.check_state()?;
        Ok(checker)
    }

    /// Makes one call, checks every claim, and gives the call's answer.
    pub fn call(&mut self, call: Call) -> Result<u32, String> {
        self.calls += 1;
        self.before.copy_from(&self.unit);
        let checked = match call {
            Call::Request(request) => self.call_request(request),
            Call::Step => self.call_step(),
            Call::Run(budget) => self.call_run(budget),
        };
        checked.map_err(|what| format!("{what} (call {}, {call:?})", self.calls))
    }

    fn count(&mut self, answer: u32) -> Result<(), String> {
        if let Some(count) = self.answers.get_mut(answer as usize) {
            *count += 1;
        }
        claim(answer != DAMAGED, "no answer 9", || "answered 9".into())
    }

    fn call_request(&mut self, request: Request) -> Result<u32, String> {
        let refusal = self.history.refusal(&request, self.unit.state.m);
        let meets = self.meets(&request);
        let answer = self.unit.request_with(self.fault, request);
        self.count(answer)?;
        let room = match request {
            Request::Getm { n, .. } => {
                let State { m, top, free, .. } = self.before.state;
                free != 0 && u64::from(top) + u64::from(n) < u64::from(m)
            }
            _ => true,
        };
        let wanted = match (refusal, answer) {
            (Some(refusal), _) => answer == refusal,
            (None, DONE) => room,
            (None, HELD) => !room,
            _ => false,
        };
        claim(wanted, "refusals", || {
            format!("answered {answer}, history says {refusal:?}, room {room}")
        })?;
        match answer {
            DONE => {
                match meets {
                    Some(true) => self.met_copy += 1,
                    Some(false) => self.met_moved += 1,
                    None => {}
                }
                if let Some(cycle) = &mut self.cycle {
                    cycle.quiet = false;
                }
            }
            HELD => self.put_on_hold(request)?,
            _ => claim(self.unit == self.before, "refused leaves all", || {
                format!("answer {answer} changed something")
            })?,
        }
        self.feed(&Call::Request(request), answer)?;
        self.update_present(false)?;
        self.check_state()?;
        Ok(answer)
    }

    /// For a LOAD, STORE or TAG on the tuple being moved: is the word in the
    /// copy register (true) or at its new place (false)? For counts only.
    fn meets(&self, request: &Request) -> Option<bool> {
        let state = &self.unit.state;
        let (s, k) = match *request {
            Request::Load { s, k, .. } | Request::Store { s, k, .. } => (s, Some(k)),
            Request::Tag { s, .. } => (s, None),
            _ => return None,
        };
        let word = state.registers.get(usize::from(s))?;
        let moving = matches!(state.phase, 5..=7) && word.pointer && word.handle() == state.tuple;
        let index = k.map_or(0, |k| word.offset() + u32::from(k) + 1);
        if moving && index == state.index && state.phase != 5 {
            Some(true)
        } else if moving && index < state.index {
            Some(false)
        } else {
            None
        }
    }

    fn put_on_hold(&mut self, request: Request) -> Result<(), String> {
        let Request::Getm { r, n, tag } = request else {
            return Err("held changes only the hold: not a GETM".into());
        };
        self.before.state.hold = Hold {
            held: true,
            begun: false,
            register: r,
            size: n,
            tag,
        };
        claim(
            self.unit == self.before,
            "held changes only the hold",
            || "something else changed".into(),
        )?;
        let reachable = self.history.reachable();
        let words: u64 = reachable
            .iter()
            .map(|&t| self.history.tuples[t - 1].words.len() as u64 + 1)
            .sum();
        let State { m, h, .. } = self.unit.state;
        let fits =
            words + u64::from(n) < u64::from(m) && (reachable.len() as u64) + 1 < u64::from(h);
        self.waiting = Some(Waiting { steps: 0, fits });
        Ok(())
    }

    fn call_step(&mut self) -> Result<u32, String> {
        self.note_start(self.before.state.phase, self.before.state.top);
        let answer = self.unit.step_with(self.fault);
        self.count(answer)?;
        let made = self.feed(&Call::Step, answer)?;
        self.log_step(answer, made, false)?;
        self.update_present(false)?;
        self.check_state()?;
        Ok(answer)
    }

    fn call_run(&mut self, budget: u32) -> Result<u32, String> {
        let ran = self.unit.run_with(self.fault, budget);
        self.count(ran.answer)?;
        let name = "a run is its single steps";
        claim(ran.steps <= budget, name, || "more than the budget".into())?;
        let mut last = GOING;
        let mut fed = false;
        for at in 1..=ran.steps {
            self.note_start(self.before.state.phase, self.before.state.top);
            last = self.before.step_with(self.fault);
            let goes_on = matches!(last, GOING | STILL_HELD);
            claim(goes_on || at == ran.steps, name, || {
                format!("went on after {last}")
            })?;
            claim(last != DAMAGED, name, || "a step answers 9".into())?;
            let mut made = false;
            if at == ran.steps {
                made = self.feed(&Call::Run(budget), ran.answer)?;
                fed = true;
            }
            self.log_step(last, made, true)?;
        }
        if !fed {
            self.feed(&Call::Run(budget), ran.answer)?;
        }
        let fitting = match ran.answer {
            DONE => matches!(last, ENDED | GRANTED),
            FAILED => last == FAILED,
            SPENT => matches!(last, GOING | STILL_HELD) && ran.steps == budget,
            _ => false,
        };
        claim(fitting, name, || {
            format!("answered {} after a step with {last}", ran.answer)
        })?;
        claim(self.unit == self.before, name, || {
            format!("{} steps lead elsewhere", ran.steps)
        })?;
        self.update_present(false)?;
        self.check_state()?;
        Ok(ran.answer)
    }

    /// Feeds the history machine and notes the handle of a tuple it made.
    fn feed(&mut self, call: &Call, answer: u32) -> Result<bool, String> {
        let asked = match *call {
            Call::Request(Request::Getm { r, .. }) => Some(r),
            Call::Request(_) => None,
            _ => self.history.hold.map(|asked| asked.r),
        };
        self.history.feed(call, answer);
        if self.history.tuples.len() == self.handles.len() {
            return Ok(false);
        }
        let word = asked
            .and_then(|r| self.unit.state.registers.get(usize::from(r)))
            .copied()
            .unwrap_or_default();
        claim(word.pointer, "agreement", || {
            "no pointer to a new tuple".into()
        })?;
        let handle = word.handle();
        // The tuples that had this handle before are gone.
        let handles = &self.handles;
        self.present.retain(|&t| handles[t - 1] != handle);
        self.handles.push(handle);
        self.present.push(self.handles.len());
        Ok(true)
    }

    /// Leaves out the tuples whose handles are in the free list now.
    fn update_present(&mut self, replay: bool) -> Result<(), String> {
        let unit = if replay { &self.before } else { &self.unit };
        let Some(list) = unit.free_list() else {
            return Err("free list: broken".into());
        };
        let mut free = vec![false; unit.links.len()];
        for handle in list {
            claim(!free[handle as usize], "free list", || {
                format!("handle {handle} twice")
            })?;
            free[handle as usize] = true;
        }
        let handles = &self.handles;
        self.present
            .retain(|&t| !free.get(handles[t - 1] as usize).is_some_and(|&is| is));
        Ok(())
    }

    /// A cycle starts at its Rest step.
    fn note_start(&mut self, phase: u32, top: u32) {
        if phase != 0 {
            return;
        }
        let mut reached = vec![false; self.handles.len() + 1];
        for t in self.history.reachable() {
            reached[t] = true;
        }
        let dead = self.present.iter().copied().filter(|&t| !reached[t]);
        self.cycle = Some(Cycle {
            steps: 0,
            top,
            quiet: true,
            dead: dead.collect(),
        });
    }

    /// Takes a single step's answer into the log. The box after the step is
    /// `before` if a run is replayed, otherwise `unit`.
    fn log_step(&mut self, answer: u32, made: bool, replay: bool) -> Result<(), String> {
        let m = u64::from(self.unit.state.m);
        if let Some(cycle) = &mut self.cycle {
            cycle.steps += 1;
        }
        if let Some(waiting) = &mut self.waiting {
            waiting.steps += 1;
            claim(
                waiting.steps <= 16 * m + 4,
                "a hold is answered in time",
                || format!("{} steps", waiting.steps),
            )?;
        }
        if answer == GOING {
            return Ok(());
        }
        claim(
            matches!(answer, ENDED | GRANTED | STILL_HELD | FAILED),
            "answers of a step",
            || format!("answered {answer}"),
        )?;
        claim(
            (answer == ENDED) == self.waiting.is_none(),
            "answers of a step",
            || format!("answered {answer}, hold {:?}", self.history.hold),
        )?;
        self.cycles += 1;
        let name = "8 exactly when it doesn't fit";
        if let Some(waiting) = &self.waiting {
            match answer {
                GRANTED => claim(waiting.fits && made, name, || "granted".into())?,
                FAILED => claim(!waiting.fits, name, || "it would fit".into())?,
                _ => {}
            }
            if answer != STILL_HELD {
                self.waiting = None;
            }
        }
        self.update_present(replay)?;
        let Some(cycle) = self.cycle.take() else {
            return Err("cycles: ended but not started".into());
        };
        for t in &cycle.dead {
            claim(!self.present.contains(t), "dead tuples gone", || {
                format!("tuple {t} stays")
            })?;
        }
        claim(
            !cycle.quiet || cycle.steps <= 8 * u64::from(cycle.top) + 2,
            "steps of a cycle",
            || format!("{} steps from top {}", cycle.steps, cycle.top),
        )?;
        let after = if replay { &self.before } else { &self.unit };
        claim(after.state.phase == 0, "cycles", || {
            "not in Rest at the end".into()
        })
    }

    /// The claims about the state after a call.
    fn check_state(&self) -> Result<(), String> {
        self.check_present()?;
        self.check_registers()?;
        self.check_tuples()?;
        let state = &self.unit.state;
        if state.phase == 0 {
            let words: usize = self
                .present
                .iter()
                .map(|&t| self.history.tuples[t - 1].words.len() + 1)
                .sum();
            claim(words == state.top as usize, "top in Rest", || {
                format!("{} for {words} words", state.top)
            })?;
        }
        let top = state.top as usize;
        claim(top <= self.unit.words.len(), "zero above top", || {
            format!("top {top}")
        })?;
        let clear = self.unit.words[top..].iter().all(|&bits| bits == 0)
            && !self.unit.pointers[top..].contains(&true);
        claim(clear, "zero above top", || {
            format!("stale words at or above {top}")
        })
    }

    /// What the box must have for a word of the history machine.
    fn like(&self, item: Item) -> Word {
        match item {
            Item::Data(bits) => Word::data(bits),
            Item::Pointer(0, offset) => Word::pointer(0, u32::from(offset)),
            Item::Pointer(t, offset) => Word::pointer(self.handles[t - 1], u32::from(offset)),
        }
    }

    /// A reachable tuple whose handle is free would share it with a later
    /// tuple; this catches it before.
    fn check_present(&self) -> Result<(), String> {
        let mut present = vec![false; self.handles.len() + 1];
        for &t in &self.present {
            present[t] = true;
        }
        for t in self.history.reachable() {
            claim(present[t], "reachable tuples stay", || {
                format!("tuple {t} is gone")
            })?;
        }
        Ok(())
    }

    fn check_registers(&self) -> Result<(), String> {
        for r in 0..8 {
            let wanted = self.like(self.history.registers[r]);
            let found = self.unit.state.registers[r];
            claim(found == wanted, "agreement", || {
                format!("register {r} has {found:x?}, not {wanted:x?}")
            })?;
        }
        Ok(())
    }

    fn check_tuples(&self) -> Result<(), String> {
        let name = "agreement";
        let mut taken = vec![false; self.unit.links.len()];
        for t in self.history.reachable() {
            let tuple = &self.history.tuples[t - 1];
            let handle = self.handles[t - 1] as usize;
            claim(handle != 0 && handle < taken.len(), name, || {
                format!("tuple {t} has handle {handle}")
            })?;
            claim(!taken[handle], name, || {
                format!("handle {handle} of tuple {t} is another's")
            })?;
            taken[handle] = true;
            let size = self.unit.sizes[handle] as usize;
            claim(size == tuple.words.len(), name, || {
                format!("tuple {t} has size {size}")
            })?;
            let tag = self.find(handle, 0)?.offset();
            claim(tag == u32::from(tuple.tag), name, || {
                format!("tuple {t} has tag {tag}, not {}", tuple.tag)
            })?;
            for (k, &item) in tuple.words.iter().enumerate() {
                let wanted = self.like(item);
                let found = self.find(handle, k + 1)?;
                claim(found == wanted, name, || {
                    format!("word {k} of tuple {t} is {found:x?}, not {wanted:x?}")
                })?;
            }
        }
        Ok(())
    }

    /// The word at an index of a tuple, found where the document says. It is
    /// written out here again, so that a slip in the box can't hide itself.
    fn find(&self, handle: usize, index: usize) -> Result<Word, String> {
        let state = &self.unit.state;
        let moved = handle == state.tuple as usize && (5..=7).contains(&state.phase);
        let far = state.index as usize;
        if moved && state.phase > 5 && index == far {
            return Ok(state.copy);
        }
        let base = if moved && index < far {
            state.dest
        } else {
            self.unit.addresses[handle]
        };
        let at = base as usize + index;
        match (self.unit.words.get(at), self.unit.pointers.get(at)) {
            (Some(&bits), Some(&pointer)) => Ok(Word { bits, pointer }),
            _ => Err(format!("agreement: handle {handle} at address {at}")),
        }
    }
}
