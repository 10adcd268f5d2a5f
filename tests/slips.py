#!/usr/bin/env python3
"""Demand 3 shuts out the five "slips that look right" of document 01, and one more.

Each slip is made, one at a time, in the definitions of a copy of crates/rules. Over the copy three things are checked:
whether the twelve bench cases (`every_case`) still hold; that the proof of demand 3 is refused, and at which lemmas, without
those that only rest on refused ones; and that demand 3 itself is false there, so that no proof of it can be found: from the
claim and one short list of calls a contradiction is proved. Without a slip demand 3 is proved and each of these lists is refused.

In the copy the laws of the rules that the proof cites stand among its own files, so that a slip is seen at the lemma where it
is first refused. specs/Played.antt is left out: like the bench cases, it is what the definitions compute.

    tests/slips.py            the control and every slip: five minutes
    tests/slips.py 3 4a       these alone

Only definitions and proofs about them are looked at, and no code.
"""
import os
import re
import shutil
import subprocess
import sys
import tempfile

ROOT = os.path.dirname(os.path.dirname(os.path.abspath(__file__)))


class Slip:
    """A slip, its edits of crates/rules/specs (file, old text, new text), calls that show it on a box opened 16, 4, what is
    seen then in words, and the contradiction: a term of type ⊥, where x is demand 3 of the world that the calls leave."""

    def __init__(self, number, title, edits, calls, seen, contradiction):
        self.number, self.title, self.edits = number, title, edits
        self.calls, self.seen, self.contradiction = calls, seen, contradiction


# register 3 of the box is a pointer, and of the history machine data
POINTER_FOR_DATA = "true≢false (x.agreement.registers_agree 3 (omega arith)).0"
# word 2 of memory is not data 0, and top is 2
STALE_WORD = "let e : ◌≡◌ {A = ℕ} 131072 0 = ap (λ (w : Word). w.bits) (x.zero_above_top 2 (omega arith)) in omega arith"

SLIPS = [
    Slip(
        "1",
        "an in-place sweep ends without unmarking the last tuple",
        [("Collector.antt", "(end_cycle found (set_mark b.collector.tuple false b))", "(end_cycle found b)")],
        ["ask (Getm 1 1 0)", "ask (Getm 0 1 0)", "ask (Store 1 0 0)", "ask (Nil 1)", "run_for 99", "run_for 99"]
        + ["ask (Load 2 0 0)", "ask (Load 3 2 0)"],
        "part 1, agreement: the second tuple names the first. In the second cycle it is still marked and not scanned, and the "
        "first is freed; LOAD from the first gives a pointer, and data 0 on the history machine",
        POINTER_FOR_DATA,
    ),
    Slip(
        "2",
        "tuples made in Rest are marked",
        [("Request.antt", "(set_mark h (collecting b) (set_deep h false b))", "(set_mark h true (set_deep h false b))")],
        ["ask (Getm 1 1 0)", "run_for 99", "ask (Getm 0 1 0)", "ask (Store 1 0 0)", "ask (Nil 1)", "run_for 99"]
        + ["ask (Load 2 0 0)", "ask (Load 3 2 0)"],
        "part 1, agreement: the second tuple, made in Rest, names the first. It is marked already and not scanned, and the first "
        "is freed; LOAD from the first gives a pointer, and data 0 on the history machine",
        POINTER_FOR_DATA,
    ),
    Slip(
        "3",
        "registers are looked at only when marking starts: all of them before the first scan, and none after it",
        [
            ("Collector.antt", "(with_next 0 (with_phase 1 b))", "(with_next 0 (with_index 0 (with_phase 1 b)))"),
            (
                "Collector.antt",
                "mark_root nothing b = end_marking b",
                "mark_root nothing b =\n"
                "    cond (eqb b.collector.next 0) (end_marking b)\n"
                "    (cond (is_entry b.collector.next b) (going (scan b.collector.next (with_next 0 b)))\n"
                "    (reply b 9))",
            ),
            (
                "Collector.antt",
                "mark_next b = cond (eqb b.collector.next 0) (mark_root (look_from register_count b) b) (scan_next b)",
                "mark_next b = mark_root (cond (eqb b.collector.index 0) (look_from register_count b) nothing) b",
            ),
        ],
        ["ask (Getm 0 1 0)", "ask (Getm 1 1 7)", "ask (Store 1 0 0)", "ask (Nil 1)", "single_step", "single_step", "single_step"]
        + ["ask (Load 1 0 0)", "ask (Nil 2)", "ask (Store 2 0 0)", "run_for 99", "ask (Tag 3 1)"],
        "part 1, agreement: while the first tuple is scanned the pointer to the second is loaded and its only slot overwritten. "
        "The second is freed under register 1; TAG gives 0, and 7 on the history machine",
        "let e : ◌≡◌ {A = ℕ} 0 7 = (x.agreement.registers_agree 3 (omega arith)).1 in omega arith",
    ),
    Slip(
        "4a",
        "a tuple is counted once for each register that names it",
        [
            (
                "Collector.antt",
                "unfoldable pub mark_root : Found → Box → Reply\n",
                "-- size + 1 for each of the first n registers that name h\n"
                "abbrev pub counted : ℕ → ℕ → Box → ℕ\n"
                "counted zero h b = 0\n"
                "counted (suc n) h b =\n"
                "    cond (names_tuple (register n b) && eqb (handle_of (register n b)) h) (size_of h b + 1) 0 + counted n h b\n"
                "\n"
                "unfoldable pub mark_root : Found → Box → Reply\n",
            ),
            (
                "Collector.antt",
                "mark_root (unmarked h) b = cond (can_shade h b) (going (shade h b)) (reply b 9)",
                "mark_root (unmarked h) b =\n"
                "    cond (can_shade h b)\n"
                "    (going (with_live (b.collector.live + counted register_count h b) (shade h b)))\n"
                "    (reply b 9)",
            ),
        ],
        ["ask (Getm 0 1 0)", "ask (Getm 1 1 0)", "ask (Nil 0)", "ask (Move 2 1)", "run_for 99"],
        "part 6, zero above top: live is 4 and not 2, so that the words that the second tuple is moved from are not cleared; its "
        "control word stays at 2, which is top",
        STALE_WORD,
    ),
    Slip(
        "4b",
        "the same, where a marked tuple is shaded once more",
        [("Place.antt", "shade h b = cond (marked h b) b (cond", "shade h b = cond (marked h b) (mark_live h b) (cond")],
        ["ask (Getm 0 1 0)", "ask (Getm 1 1 0)", "ask (Nil 0)", "single_step", "single_step", "ask (Store 1 1 0)", "run_for 99"],
        "part 6, zero above top: a STORE shades the marked second tuple again, live is 4 and not 2, and its control word stays at "
        "2, which is top",
        STALE_WORD,
    ),
    Slip(
        "5",
        "word 0 of an empty heap is read",
        [
            (
                "Collector.antt",
                "end_marking b = cond (eqb b.top 0) (end_cycle b b) (going (begin_sweep b))",
                "end_marking b = going (begin_sweep b)",
            )
        ],
        ["single_step", "single_step", "single_step"],
        "part 2, never 9: the handle found there is 0, and the third step answers 9",
        "x.never_nine.0 refl",
    ),
    Slip(
        "6",
        "a collector that never ends its cycle on an empty heap",
        [
            (
                "Collector.antt",
                "end_marking b = cond (eqb b.top 0) (end_cycle b b) (going (begin_sweep b))",
                "end_marking b = cond (eqb b.top 0) (going b) (going (begin_sweep b))",
            )
        ],
        ["single_step", "single_step"],
        "part 7, cycles bounded: top is 0, and the cycle under way has taken 2 steps and not fewer than 2",
        "let e : 2 < 2 = x.cycle_under_way_bounded refl in omega arith",
    ),
]


def fail(text):
    print("slips: " + text)
    sys.exit(1)


def read(path):
    with open(path, encoding="utf-8") as f:
        return f.read()


def write(path, text):
    with open(path, "w", encoding="utf-8") as f:
        f.write(text)


def one_line(text):
    return " ".join(text.split())


# ---- the copy

# the laws of the rules that the proof of demand 3 cites (crates/rules/proofs)
LAWS = ("Sizes", "View")
# how paths read once they stand among the proofs of history
AMONG_HISTORY = ("Rattle.rules.proofs.", "Rattle.history.proofs.")

# what rests on the proof of demand 3 alone, so that an error here says that `demand3` is not proved
REACHED = """use Rattle.history.specs.Demand3.{Demand3Claim}
use Rattle.history.proofs.Theorem.{demand3}

pub reached : Demand3Claim
reached = demand3
"""


class Copy:
    """A repository of the crates rules and history, with the laws of the rules among the proofs of history."""

    def __init__(self, where):
        self.where = where
        self.rules = os.path.join(where, "crates", "rules")
        self.history = os.path.join(where, "crates", "history")
        shutil.copytree(os.path.join(ROOT, "crates", "rules", "src"), os.path.join(self.rules, "src"))
        for part in ("src", "specs"):
            shutil.copytree(os.path.join(ROOT, "crates", "history", part), os.path.join(self.history, part))
        write(os.path.join(where, "crates.txt"), "rules:\nhistory: rules\n")
        self.leave_out(self.history, "Played")
        self.edit([])
        self.proofs_of_demand3()

    def edit(self, edits):
        """The definitions with these edits, and with no other."""
        specs = os.path.join(self.rules, "specs")
        shutil.rmtree(specs, ignore_errors=True)
        shutil.copytree(os.path.join(ROOT, "crates", "rules", "specs"), specs)
        for name, old, new in edits:
            text = read(os.path.join(specs, name))
            if text.count(old) != 1:
                fail(f"this text must stand once in specs/{name}, and stands there {text.count(old)} times: {old}")
            write(os.path.join(specs, name), text.replace(old, new))

    def refused_cases(self):
        """The bench cases that don't hold: `every_case` gives way to one lemma for each case."""
        path = os.path.join(self.rules, "specs", "Cases.antt")
        text = read(path)
        opens = re.search(r"^pub every_case .*\n(unfolding .*\n)", text, re.M)
        parts = [text[: opens.start()], "abbrev case_holds : ℕ → List Case → Bool\n", "case_holds n [] = true\n"]
        parts += ["case_holds zero (c ∷ cs) = holds c\n", "case_holds (suc n) (c ∷ cs) = case_holds n cs\n"]
        for at in range(12):
            parts.append(f"\nP{at + 1} : case_holds {at} table ≡ true\n{opens.group(1)}P{at + 1} = refl\n")
        write(path, "".join(parts))
        return [name for _, _, name, _ in self.check("rules")[1]]

    def leave_out(self, crate, name):
        specs = os.path.join(crate, "specs")
        write(os.path.join(specs, "Lib.antt"), read(os.path.join(specs, "Lib.antt")).replace(f"pub mod {name}\n", ""))
        os.remove(os.path.join(specs, name + ".antt"))

    def proofs_of_demand3(self):
        """The proofs of history, and the laws of the rules among them."""
        proofs = os.path.join(self.history, "proofs")
        laws = os.path.join(ROOT, "crates", "rules", "proofs")
        shutil.rmtree(proofs, ignore_errors=True)
        shutil.copytree(os.path.join(ROOT, "crates", "history", "proofs"), proofs)
        for name in LAWS:
            shutil.copy(os.path.join(laws, name + ".antt"), proofs)
            if os.path.isdir(os.path.join(laws, name)):
                shutil.copytree(os.path.join(laws, name), os.path.join(proofs, name))
        lib = os.path.join(proofs, "Lib.antt")
        write(lib, read(lib) + "".join(f"pub mod {name}\n" for name in (*LAWS, "Reached")))
        write(os.path.join(proofs, "Reached.antt"), REACHED)
        for folder, _, names in os.walk(proofs):
            for name in names:
                path = os.path.join(folder, name)
                write(path, read(path).replace(*AMONG_HISTORY))

    def refutations(self, slips):
        """In place of the proofs: that demand 3 is false, by the calls of each of these slips."""
        self.in_place_of_proofs(self.refuted(slips))

    def definitions(self, *crates):
        """The definitions of these crates, each with the path of its specs, that a refutation computes: what uses them, and their names."""
        uses, names = [], []
        for crate, path in crates:
            for name in ("Limits", "Box", "Place", "Request", "Collector", "Run", "Open", "Machine", "Calls"):
                file = os.path.join(self.where, "crates", crate, "specs", name + ".antt")
                if os.path.exists(file):
                    found = re.findall(r"^unfoldable pub (\S+)", read(file), re.M)
                    names += found
                    uses.append(f"use {path}.{name}.{{{', '.join(found)}}}")
        return uses, names

    def kinds(self):
        """The path of the ten kinds of request."""
        text = read(os.path.join(self.rules, "specs", "Request.antt"))
        return "Rattle.rules.specs." + re.search(r"declared\.\w+\.Request\.TheVariants", text).group(0)

    def in_place_of_proofs(self, text):
        """One file of refutations in place of the proofs of history."""
        proofs = os.path.join(self.history, "proofs")
        shutil.rmtree(proofs)
        os.makedirs(proofs)
        write(os.path.join(proofs, "Lib.antt"), "pub mod Refuted\n")
        write(os.path.join(proofs, "Refuted.antt"), text)

    def refuted(self, slips):
        uses, opens = self.definitions(("rules", "Rattle.rules.specs"), ("history", "Rattle.history.specs"))
        lines = [
            "use Prim.Native.Nat.{ℕ, ◌<◌}",
            "use mathlib.Core.Bool.{true, false, true≢false}",
            "use mathlib.Core.List.{List, [], ◌∷◌}",
            "use mathlib.Core.Path.{◌≡◌, refl, ap}",
            "use native.Mathlib.Omega.{arith}",
            f"use {self.kinds()}.{{Nil, Move, Getm, Load, Store, Tag}}",
            "use Rattle.rules.specs.Parts.{Word}",
            *uses,
            "use Rattle.history.specs.Machine.{Call, ask, single_step, run_for}",
            "use Rattle.history.specs.Calls.{start}",
            "use Rattle.history.specs.Demand3.{Demand3, Demand3Claim}",
        ]
        for s in slips:
            widths = "tt"
            for call in reversed(s.calls):
                fields = len(re.findall(r"\d+", call))
                proof = ", ".join(["omega arith"] * fields) or "tt"
                widths = f"({f'({proof})' if fields > 1 else proof}, {widths})"
            lines += [
                "",
                f"abbrev calls_{s.number} : List Call",
                f"calls_{s.number} = {' ∷ '.join(s.calls)} ∷ []",
                "",
                f"pub refuted_{s.number} : ¬ Demand3Claim",
                f"unfolding {' '.join(opens)}",
                f"refuted_{s.number} claim =",
                f"    let x : Demand3 16 4 (play calls_{s.number} (start (opened 16 4))) = claim 16 4 (opened 16 4) refl calls_{s.number} {widths} in",
                f"    {s.contradiction}",
            ]
        return "\n".join(lines) + "\n"

    # ---- the prover

    def check(self, crate):
        """Whether the crate is proved, and its errors: file, line, the name in front of the message, the message."""
        done = subprocess.run(["rt", "check"], cwd=os.path.join(self.where, "crates", crate), capture_output=True, text=True)
        if done.returncode not in (0, 1):
            fail(f"rt check of {crate} ended with {done.returncode}:\n{done.stdout[-1500:]}{done.stderr[-1500:]}")
        errors = re.findall(r"^(\S+\.antt):(\d+):\d+: error: (?:`([^`]*)`: )?(.*)", done.stdout + done.stderr, re.M)
        if (done.returncode == 0) != (not errors):
            fail(f"rt check of {crate} ended with {done.returncode} and {len(errors)} errors:\n{done.stdout[-1500:]}{done.stderr[-1500:]}")
        return done.returncode == 0, [(os.path.normpath(os.path.join(crate, f)), int(n), name, text) for f, n, name, text in errors]

    def lemma_at(self, name, line):
        """The top-level name that a line belongs to, and the comment above it."""
        lines = read(os.path.join(self.where, "crates", name)).split("\n")
        for at in range(line - 1, -1, -1):
            named = re.match(r"(?:pub |abbrev |unfoldable )*([^\s:{(-][^\s:{(]*)(?: \{.*?\})? : ", lines[at])
            if named:
                said = []
                while at > 0 and lines[at - 1].startswith("-- ") and not lines[at - 1].startswith("-- ----"):
                    at -= 1
                    said.insert(0, lines[at][3:])
                return named.group(1), " ".join(said)
        return "?", ""


def stands_in(name):
    """The crate and file that a file of the copy is taken from."""
    return re.sub(rf"^history/proofs/({'|'.join(LAWS)})\b", r"rules/proofs/\1", name)


def resting(error):
    """How many proofs this error says are not checked because they rest on one that is refused; 0 for an error of its own."""
    told = re.match(r"(\d+) declarations? that depends? on ", error[3])
    return int(told.group(1)) if told else 0


def show_refused(copy, errors):
    own = [e for e in errors if not resting(e)]
    shown = []
    for name, line, _, _ in own:
        lemma, said = copy.lemma_at(name, line)
        if (name, lemma) not in shown:
            shown.append((name, lemma))
            print(f"    {stands_in(name)}: `{lemma}`{': ' + said if said else ''}")
    print(f"    and {sum(resting(e) for e in errors) - 1} proofs that rest on {'this' if len(shown) == 1 else 'these'}, up to `demand3`")


def control(copy):
    cases, _ = copy.check("rules")
    proved = cases and copy.check("history")[0]
    print(f"no slip: the twelve bench cases {'hold' if cases else 'are REFUSED'}, demand 3 is {'proved' if proved else 'NOT PROVED'}", flush=True)
    copy.refutations(SLIPS)
    _, errors = copy.check("history")
    refused = {e[2] for e in errors}
    copy.proofs_of_demand3()
    stood = [s.number for s in SLIPS if f"refuted_{s.number}" not in refused]
    print("no slip: " + (f"NOT REFUSED: the calls of {' '.join(stood)}" if stood else "the calls that show the slips contradict nothing"), flush=True)
    return proved and not stood


def try_slip(copy, slip):
    copy.edit(slip.edits)
    print(f"\nslip {slip.number}: {slip.title}")
    for name, old, new in slip.edits:
        if new.endswith(old):
            print(f"  specs/{name}: new: {one_line(new[:-len(old)])}")
        else:
            print(f"  specs/{name}: {one_line(old)}\n    becomes {one_line(new)}")

    cases, errors = copy.check("rules")
    others = [e for e in errors if not e[0].endswith("specs/Cases.antt")]
    if others:
        fail(f"slip {slip.number} is no definition: {others[0]}")
    print(f"  the twelve bench cases: {'all hold' if cases else '`every_case` is refused, for ' + ', '.join(copy.refused_cases())}")
    if not cases:
        copy.leave_out(copy.rules, "Cases")
        if not copy.check("rules")[0]:
            fail(f"slip {slip.number}: the definitions without the bench cases are refused")

    copy.proofs_of_demand3()
    proved, errors = copy.check("history")
    reached = any(e[0] == "history/proofs/Reached.antt" for e in errors)
    if proved:
        print("  the proof of demand 3: NOT REFUSED")
    else:
        print(f"  the proof of demand 3: refused{'' if reached else ', and `demand3` is NOT REACHED'}, first at")
        show_refused(copy, errors)

    copy.refutations([slip])
    false, errors = copy.check("history")
    copy.proofs_of_demand3()
    print(f"  {', '.join(re.sub(r'[()]|^ask ', '', c) for c in slip.calls)}")
    print(f"    {slip.seen}" if false else f"    NO CONTRADICTION: {errors[:1]}")
    print(f"  demand 3: {'proved to be false' if false else 'NOT proved to be false'}", flush=True)
    return not proved and reached and false


def try_all(word, things, control, try_one):
    """The control and all of these things, or those that the command line names; ends the program with what came of it."""
    known = ["control"] + [thing.number for thing in things]
    wanted = sys.argv[1:] or known
    for number in wanted:
        if number not in known:
            fail(f"there is no {word} {number}; there are {' '.join(known)}")
    where = tempfile.mkdtemp(prefix=word + "s-")
    try:
        copy = Copy(where)
        right = "control" not in wanted or control(copy)
        for thing in things:
            if thing.number in wanted:
                right = try_one(copy, thing) and right
    finally:
        shutil.rmtree(where, ignore_errors=True)
    print(f"\n{word}s: " + ("all as it should be" if right else "NOT as it should be"))
    sys.exit(0 if right else 1)


if __name__ == "__main__":
    try_all("slip", SLIPS, control, try_slip)
