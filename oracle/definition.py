#!/usr/bin/env python3
"""Compares the definition itself (crates/definition) with recorded answers of the Rust, by computation in the prover.

Each schedule becomes a statement: the definition, run on these events from a fresh start, gives these answers, freed tokens and
accesses, and every few records these words of the state. `rt` proves each by computing it, or names the one that is wrong.
A schedule is followed up to its first refusal: refusals are ours, not the Rust's.

    ./definition.py [FILE] [--every K]     FILE: recorded/answers.txt, or what `oracle stream` printed; state after each K records (100)
"""
import argparse
import pathlib
import re
import shutil
import subprocess
import sys
import tempfile

HERE = pathlib.Path(__file__).resolve().parent
CRATES = HERE.parent / "crates"
N, M = 32, 128
CALLS = {2: "Acquire", 3: "Release", 4: "Pin", 5: "Unpin", 6: "Repin", 8: "Flush"}
MODULES = "Base Links Bags Tables Flow Rule List Queue Internal Codec Step Calls Ranges Public".split()
SLOT, NODE, STRIDE, ITEMS = 16, 4112, 128, 8

# What the definition shows of a run, in the numbers of the recorded answers. A free slot or node shows its free bit alone.
SHOWS = """
data Ev : Type 0 where
  st : Bool → ℕ → Ev
  rg : Ev
  cl : ℕ → Call → Ev
  look : Ev

coded : Answer → List ℕ → List ℕ → List ℕ
coded (Answer.More k) f a = 0 ∷ 0 ∷ f ++ a
coded (Answer.Done v k) f a = 1 ∷ v ∷ f ++ a
coded (Answer.Refused r) f a = 2 ∷ r ∷ f ++ a

five : Access → List ℕ
five a = Rule.kind_number a.kind ∷ Rule.word_number a.word ∷ Rule.word_index a.word ∷ a.read ∷ a.stored ∷ []

nowhere : List ℕ
nowhere = 0 ∷ 0 ∷ 0 ∷ 0 ∷ 0 ∷ []

slots : ℕ → Tables.Tables → List ℕ
slots zero t = []
slots (suc i) t = slots i t ++ Base.branch (t.slot_free i) (0 ∷ [])
  (1 ∷ t.shared.word i ∷ t.shared.entry_next i ∷ (t.own i).counts.guards ∷ (t.own i).counts.handles ∷ (t.own i).counts.pins
  ∷ (t.own i).held ∷ Base.listed (t.own i).held (t.held i))

nodes : ℕ → Tables.Tables → List ℕ
nodes zero t = []
nodes (suc n) t = nodes n t ++ Base.branch (t.node_free n) (0 ∷ [])
  (1 ∷ t.shared.node_next n ∷ (t.bag n).epoch ∷ (t.bag n).len ∷ Base.listed (t.bag n).len (t.bag n).deferreds)

state : Tables.Tables → List ℕ
state t = t.shared.global_epoch ∷ t.shared.list_head ∷ t.shared.queue_head ∷ t.shared.queue_tail ∷ slots 32 t ++ nodes 128 t

go : List Ev → Tables.Tables → List (List ℕ)
go [] t = []
go (st m p ∷ l) t = let o : Step.Out = Step.take_marked m 128 p t in coded o.answer o.freed (five (Step.access_at m 128 p t)) ∷ go l o.tables
go (rg ∷ l) t = let o : Step.Out = Public.enrolled (Base.least 32 t.slot_free) t in coded o.answer o.freed nowhere ∷ go l o.tables
go (cl p c ∷ l) t = let o : Step.Out = Step.follow p (Calls.opens 32 c (Public.the p t)) t in coded o.answer o.freed nowhere ∷ go l o.tables
go (look ∷ l) t = state t ∷ go l t
"""


def schedules(lines):
    """The schedules of a recorded file: a name and its records, each a list of numbers."""
    found, name = [], ""
    for line in lines:
        if line.startswith("#"):
            name = line[1:].strip()
        elif line.strip() == "=":
            found.append((name, []))
        elif line.startswith("="):
            sys.exit(f"only schedules of {N} participants and {M} nodes are compared, not `{line.strip()}`")
        elif line.strip():
            found[-1][1].append([int(x) for x in line.split()])
    return found


def changed(cells, pairs):
    """The cells after the changes of one record: a slot or node that is given back is forgotten."""
    for cell, value in zip(pairs[0::2], pairs[1::2]):
        cells[cell] = value
        if cell >= SLOT and (cell - SLOT) % STRIDE == 0 and value == 0:
            for k in range(1, STRIDE):
                cells.pop(cell + k, None)


def state(cells):
    """The state in the order of `state` above."""
    out = [cells.get(k, 0) for k in range(4)]
    for base, count, fields in ((SLOT, N, 6), (NODE, M, 3)):
        for i in range(count):
            at = base + STRIDE * i
            if cells.get(at, 0) == 0:
                out.append(0)
                continue
            row = [cells.get(at + 1 + k, 0) for k in range(fields)]
            out += [1] + row + [cells.get(at + ITEMS + k, 0) for k in range(row[-1])]
    return out


def spelled(numbers):
    return "(" + " ∷ ".join([str(x) for x in numbers] + ["[]"]) + ")"


def event(action, participant, token):
    if action in (0, 9):
        return f"st {'true' if action == 9 else 'false'} {participant}"
    if action == 1:
        return "rg"
    return f"cl {participant} " + (f"(Call.Defer {token})" if action == 7 else f"Call.{CALLS[action]}")


def statement(number, records, every, totals, unfold):
    """One schedule as a statement of the definition, up to its first refusal."""
    events, expected, cells = [], [], {2: 2, 3: 2, NODE: 1}
    for record in records:
        action, participant, token, answer, value, freed = record[:6]
        if answer == 2:
            break
        rest = record[6 + freed:]
        events.append(event(action, participant, token))
        expected.append(spelled([answer, value] + record[6:6 + freed] + rest[:5]))
        changed(cells, rest[6:])
        totals["records"] += 1
        totals["accesses"] += rest[0] != 0
        totals["marked"] += action == 9
        if len(events) % every == 0 or record is records[-1]:
            words = state(cells)
            events.append("look")
            expected.append(spelled(words))
            totals["words"] += len(words)
    return (f"ev{number} : List Ev\nev{number} = " + "\n  ∷ ".join(events + ["[]"])
            + f"\n\nex{number} : List (List ℕ)\nex{number} = " + "\n  ∷ ".join(expected + ["[]"])
            + f"\n\nok{number} : go ev{number} (Ranges.fresh {N} {M}) ≡ ex{number}\nunfolding go coded five nowhere slots nodes state"
            + f" ev{number} ex{number} {unfold}\nok{number} = refl\n")


def unfolded():
    """Every definition by name, so that the statements compute."""
    names = ["Epoch." + x for x in re.findall(r"^unfoldable pub (\S+)", (CRATES / "epoch/specs/Epoch.antt").read_text(), re.M)]
    for module in MODULES:
        text = (CRATES / f"definition/specs/{module}.antt").read_text()
        names += [f"{module}.{x}" for x in re.findall(r"^\s*unfoldable pub (\S+)", text, re.M)]
    return " ".join(names)


def prove(text):
    """Checks the statements beside a copy of the two crates, outside the repository."""
    with tempfile.TemporaryDirectory() as work:
        root = pathlib.Path(work)
        for crate in ("epoch", "definition"):
            shutil.copytree(CRATES / crate, root / "crates" / crate, ignore=shutil.ignore_patterns("out"))
        (root / "crates.txt").write_text("epoch:\ndefinition: epoch\n")
        (root / "crates/definition/proofs/Recorded.antt").write_text(text)
        with open(root / "crates/definition/proofs/Lib.antt", "a") as lib:
            lib.write("pub mod Recorded\n")
        return subprocess.run(["rt", "check"], cwd=root / "crates/definition", capture_output=True, text=True)


def main():
    options = argparse.ArgumentParser(description=__doc__, formatter_class=argparse.RawDescriptionHelpFormatter)
    options.add_argument("file", nargs="?", default=str(HERE / "recorded/answers.txt"))
    options.add_argument("--every", type=int, default=100)
    given = options.parse_args()
    totals, unfold = {"records": 0, "accesses": 0, "marked": 0, "words": 0}, unfolded()
    found = schedules(open(given.file).read().split("\n"))
    uses = ["Rattle.std.specs.Prelude.{◌≡◌, refl, Bool, true, false, List, [], ◌∷◌, ◌++◌, ℕ, zero, suc}",
            "Rattle.definition.specs.Types.{Call, Answer, Access}", "Rattle.epoch.specs.Epoch"]
    uses += [f"Rattle.definition.specs.{module}" for module in MODULES]
    body = [statement(k, records, given.every, totals, unfold) for k, (_, records) in enumerate(found)]
    ran = prove("\n".join("use " + u for u in uses) + SHOWS + "\n" + "\n".join(body))
    wrong = sorted({int(k) for k in re.findall(r"error: `ok(\d+)`", ran.stdout + ran.stderr)})
    for k in wrong:
        print(f"schedule {k}: the definition differs: {found[k][0]}")
    if ran.returncode != 0 and not wrong:
        print(ran.stdout[-3000:], ran.stderr[-3000:])
    print(f"{len(found)} schedules, {totals['records']} records, {totals['accesses']} accesses, {totals['marked']} of them in marked steps, {totals['words']} state words:",
          "the definition gives them all" if ran.returncode == 0 else "NOT the same")
    return 0 if ran.returncode == 0 else 1


if __name__ == "__main__":
    sys.exit(main())
