#!/usr/bin/env python3
"""Demand 1 shuts out machines that answer or leave something wrong.

Each wrong machine is made, one at a time, in the definitions of a copy of crates/rules. Over the copy it is proved that demand 1 is
false: from `Demand1` of one box a contradiction follows, by computing. So no proof of demand 1 can be found there, whatever its lemmas.
Without the edits each of these proofs is refused.

    tests/wrong_machines.py            the control and every machine: two minutes
    tests/wrong_machines.py 3 4        these alone

Only definitions are looked at, and no code.
"""
from slips import fail, one_line, try_all


class Machine:
    """A wrong machine, its edits of crates/rules/specs, the box that shows it, what is seen in words, and the contradiction: a term of
    type ⊥, where x is demand 1 of that box. A helper is a function that the term cites."""

    def __init__(self, number, title, edits, box, seen, contradiction, helper=""):
        self.number, self.title, self.edits = number, title, edits
        self.box, self.seen, self.contradiction, self.helper = box, seen, contradiction, helper


# the opened box is right: what a machine that refuses everything can't say
RIGHT = """
right_{n} : Right box_{n}
unfolding {opens}
right_{n} =
    record {{
      right_sizes = record {{
        words_in_range = (omega arith, omega arith);
        entries_in_range = (omega arith, omega arith);
        lengths = record {{ words = refl; flags = refl; addresses = refl; sizes = refl; links = refl; marks = refl; deeps = refl }};
      }};
      right_phase = omega arith;
    }}
"""

# in Rest the box just opened gives neither 9 nor 31: why its first row does not hold there, and the others
IN_REST = """
none_{{n}} : StepGives box_{{n}} {given} → ⊥
unfolding {{opens}}
none_{{n}} (holds n e) = {first}
none_{{n}} (passed r (holds l e)) = l
none_{{n}} (passed r (passed l (holds n e))) = omega arith
none_{{n}} (passed r (passed l (passed n z))) = n (λ y. y)
"""

MACHINES = [
    Machine(
        "1",
        "every request and step is refused with 9",
        [("Box.antt", "&& leb b.collector.phase last_phase", "&& leb 9 last_phase")],
        "opened 16 4",
        "e, exactly when: a step of the box just opened answers 9, and nothing is wrong there",
        "none_{n} ((x.step_exactly 9).0 refl)",
        RIGHT + IN_REST.format(given=9, first="n right_{n}"),
    ),
    Machine(
        "2",
        "a step in Rest stands still and says that the cycle has ended",
        [("Collector.antt", "rest b = going (note_begun (with_live 0 (with_current 0 (with_next 0 (with_phase 1 b)))))", "rest b = reply b 31")],
        "opened 16 4",
        "e, exactly when: a step of the box just opened answers 31, and its phase ends no cycle",
        "none_{n} ((x.step_exactly 31).0 refl)",
        IN_REST.format(given=31, first="omega arith"),
    ),
    Machine(
        "3",
        "while one is held, a request with a register above 7 answers 6 and not 1",
        [
            (
                "Request.antt",
                "(cond (registers_right q) (cond b.hold.held (reply b 6) (carry_out q b)) (reply b 1))",
                "(cond b.hold.held (reply b 6) (cond (registers_right q) (carry_out q b) (reply b 1)))",
            )
        ],
        "with_held true (opened 16 4)",
        "e, exactly when: SETD 8,0 answers 6, and the row of 1 stands before it",
        "none_{n} ((x.request_exactly (Setd 8 0) 6).0 refl)",
        """
none_{n} : RequestGives (Setd 8 0) box_{n} 6 → ⊥
unfolding {opens}
none_{n} (holds n e) = omega arith
none_{n} (passed r (holds w e)) = omega arith
none_{n} (passed r (passed w z)) = w (omega arith)
""",
    ),
    Machine(
        "4",
        "a held request is dropped with 8 where 33 is due",
        [("Collector.antt", "(reply (unheld b) 8) (reply b 33)", "(reply (unheld b) 8) (reply b 8)")],
        "with_hold (record { held = true; begun = false; register = 0; size = 16; tag = 0 }) (with_phase 1 (opened 16 4))",
        "d, dropped: no cycle has begun under the hold, and a step answers 8",
        "let e : ◌≡◌ {{A = ℕ}} 8 33 = (x.dropped refl).still_held in omega arith",
    ),
    Machine(
        "5",
        "a step that is refused goes to another phase",
        [("Collector.antt", "(going (to_phase 2 (shade b.collector.tuple b))) (reply b 9)", "(going (to_phase 2 (shade b.collector.tuple b))) (reply (to_phase 2 b) 9)")],
        "with_phase 3 (opened 16 4)",
        "b, refused: a step in phase 3 that finds tuple 0 answers 9, and leaves phase 2",
        "let e : ◌≡◌ {{A = ℕ}} 2 3 = ap (λ (c : Box). c.collector.phase) (x.step_refused refl) in omega arith",
    ),
    Machine(
        "6",
        "a request put on hold forgets its tag",
        [("Request.antt", "(with_hold_size n (with_hold_tag tag b))", "(with_hold_size n (with_hold_tag 0 b))")],
        "with_free 0 (opened 16 4)",
        "c, held: GETM 0,1,7 is put on hold with tag 0",
        "let e : ◌≡◌ {{A = ℕ}} 0 7 = ap (λ (c : Box). c.hold.tag) (x.held 0 1 7 refl) in omega arith",
    ),
    Machine(
        "7",
        "a run counts the step that answers 9",
        [("Run.antt", "refuses ↦ ran b 9 0", "refuses ↦ ran b 9 1")],
        "with_phase 3 (opened 16 4)",
        "f, a run's steps: a run with budget 1 counts a step that answers 9",
        "(x.run_steps 1).never_nine 0 (omega arith) refl",
    ),
    Machine(
        "8",
        "a run takes one step more than its budget",
        [("Run.antt", "(run_on budget b) (ran b 9 0)", "(run_on (suc budget) b) (ran b 9 0)")],
        "opened 16 4",
        "f, a run's steps: a run with budget 0 takes 1",
        "let e : 1 ≤ 0 = (x.run_steps 0).within_budget in omega arith",
    ),
]


def refutations(copy, machines):
    """In place of the proofs: that demand 1 is false, by the box of each of these machines."""
    uses, names = copy.definitions(("rules", "Rattle.rules.specs"))
    opens = " ".join(names)
    lines = [
        "use Prim.Native.Nat.{ℕ, ◌≤◌}",
        "use mathlib.Core.Bool.{true, false}",
        "use mathlib.Core.Path.{◌≡◌, refl, ap}",
        "use native.Mathlib.Omega.{arith}",
        f"use {copy.kinds()}.{{Setd}}",
        "use Rattle.rules.specs.Parts.{Box, with_free, with_phase, with_hold, with_held}",
        *uses,
        "use Rattle.rules.specs.Answers.{holds, passed, Right, RequestGives, StepGives}",
        "use Rattle.rules.specs.Demand1.{Demand1}",
    ]
    for m in machines:
        lines += [
            "",
            f"abbrev box_{m.number} : Box",
            f"box_{m.number} = {m.box}",
            m.helper.format(n=m.number, opens=opens),
            f"pub refuted_{m.number} : ¬ ((b : Box) → Demand1 b)",
            f"unfolding {opens}",
            f"refuted_{m.number} claim =",
            f"    let x : Demand1 box_{m.number} = claim box_{m.number} in",
            f"    {m.contradiction.format(n=m.number)}",
        ]
    copy.in_place_of_proofs("\n".join(lines) + "\n")


def definitions_stand(copy, edits):
    """The definitions with these edits, without the bench cases."""
    copy.edit(edits)
    copy.leave_out(copy.rules, "Cases")
    proved, errors = copy.check("rules")
    if not proved:
        fail(f"these are no definitions: {errors[:1]}")


def control(copy):
    definitions_stand(copy, [])
    refutations(copy, MACHINES)
    _, errors = copy.check("history")
    refused = {e[2] for e in errors}
    stood = [m.number for m in MACHINES if f"refuted_{m.number}" not in refused]
    print("no edit: " + (f"NOT REFUSED: {' '.join(stood)}" if stood else "none of the boxes gives a contradiction"), flush=True)
    return not stood


def try_machine(copy, m):
    definitions_stand(copy, m.edits)
    print(f"\nmachine {m.number}: {m.title}")
    for name, old, new in m.edits:
        print(f"  specs/{name}: {one_line(old)}\n    becomes {one_line(new)}")
    refutations(copy, [m])
    false, errors = copy.check("history")
    print(f"  {m.box}\n    {m.seen}" if false else f"    NO CONTRADICTION: {errors[:1]}")
    print(f"  demand 1: {'proved to be false' if false else 'NOT proved to be false'}", flush=True)
    return false


if __name__ == "__main__":
    try_all("machine", MACHINES, control, try_machine)
