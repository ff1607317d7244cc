#!/usr/bin/env python3
"""Turns files of recorded calls into the lines that the program trial_tests reads, and the lines that it has to write.

Usage: python3 tests/calls_to_lines.py CALLS.json tests/limits.json crates/trial_tests/stdin crates/trial_tests/stdout

What is expected is taken from the recorded answers alone. Names of codes, tallies, trials and slips become numbers, counted
from 0 inside each sequence; the k-th accepted opening makes trial k and slip k. The steps about codes go first in their sequence, since
trials borrow the tables of the codes. crates/trial_tests/src/main.rt has the format of a line.

A call that trial_tests does not play yet is left out where the record says that it changed nothing; at the first that changed its trial, the
sequence is cut. Sequences that then have no call of a trial are left out. What was taken and what was left out is said on standard error.
To play a further call, add it to TRIAL_CALLS below, with the words of its line.
"""
import json
import sys

MAKINGS = ("product", "listed", "turned")
TRIAL_STATE = ("erased", "shelved", "flipped", "odd", "closed")


class Names:
    """The numbers of the names of one sequence."""

    def __init__(self):
        self.numbers = {kind: {} for kind in ("code", "tally", "trial", "slip")}

    def add(self, kind, name):
        named = self.numbers[kind]
        if name in named:
            raise ValueError(f"{kind} {name} is made twice")
        named[name] = len(named)

    def of(self, step, kind):
        return self.numbers[kind][step[kind]]


def rows(table):
    return [len(table)] + [n for row in table for n in [len(row)] + row]


def product(names, step):
    return ["product", step["r"], step["n"]] + [n for one in step["ones"] for n in one]


def listed(names, step):
    return ["listed", len(step["sides"])] + step["sides"] + rows(step["checks"]) + rows(step["generators"])


def turned(names, step):
    return ["turned", names.numbers["code"][step["of"]]]


def ask(names, step):
    return [step["what"], names.of(step, "code")] + step["args"]


def tally(names, step):
    return ["tally"]


def opening(names, step):
    lost, odd = step["lost"], step["odd_checks"]
    return ["open", names.of(step, "code"), names.of(step, "tally"), len(lost)] + lost + [len(odd)] + odd


def peel(names, step):
    return ["peel", names.of(step, "trial"), names.of(step, "slip"), step["check"]]


def prune(names, step):
    generators = step["generators"]
    return ["prune", names.of(step, "trial"), names.of(step, "slip"), step["qubit"], len(generators)] + generators


def scratch(step):
    used = step["scratch"]["nonzero"]
    return [step["scratch"]["len"], len(used)] + [n for one in used for n in one]


def solve(names, step):
    return ["solve", names.of(step, "trial"), names.of(step, "slip"), step["qubit"]] + scratch(step)


def run(names, step):
    return ["run", names.of(step, "trial"), names.of(step, "slip"), step["switches"]] + scratch(step)


def sweep(names, step):
    return ["sweep", names.of(step, "trial"), names.of(step, "slip")]


def settle(names, step):
    return ["settle", names.of(step, "trial"), names.of(step, "slip")]


def copy_out(names, step):
    return ["copy_out", names.of(step, "trial"), step["buffer"]["len"], step["buffer"]["fill"]]


def close(names, step):
    return ["close", names.of(step, "trial"), names.of(step, "slip"), names.of(step, "tally")]


def churn(names, step):
    return ["churn", names.of(step, "code"), names.of(step, "tally"), step["times"]]


CODE_CALLS = {"product": product, "listed": listed, "turned": turned, "ask": ask}
TRIAL_CALLS = {
    "open": opening,
    "peel": peel,
    "prune": prune,
    "solve": solve,
    "run": run,
    "sweep": sweep,
    "settle": settle,
    "copy_out": copy_out,
    "close": close,
    "churn": churn,
}
CALLS = {**CODE_CALLS, "tally": tally, **TRIAL_CALLS}


def words(values):
    return " ".join(str(value) for value in values)


def answer_of(step):
    if "refused" in step["answer"]:
        return f"refused {step['answer']['refused']}"
    value = step["answer"]["ok"]
    if step["call"] == "ask":
        return "none" if value is None else str(value)
    if value is None:
        return "ok"
    return words(["ok"] + (value if isinstance(value, list) else [value]))


def expected(step):
    """The line that has to come: the answer, then all that the record says of what stands afterwards."""
    parts = [answer_of(step)]
    if step["call"] == "copy_out":
        parts.append(words(["bytes"] + step["buffer_after"]))
    if step["call"] in ("solve", "run"):
        # They are afterwards as they were.
        parts.append(words(["scratch"] + [n for one in step["scratch"]["nonzero"] for n in one]))
    if "after" in step:
        after = step["after"]
        parts.append(words(["counts"] + after["counts"]))
        parts.append("void yes" if after["void"] else "void no")
        parts += [words([kind] + after[kind]) for kind in TRIAL_STATE]
        parts.append(words(["shelf", len(after["shelf"])] + entries(after["shelf"])))
    if "tally_after" in step:
        parts.append(words(["tally"] + step["tally_after"]))
    return " | ".join(parts)


def entries(shelf):
    """The entries, the newest first; the record has it last."""
    return [word for check, qubits in reversed(shelf) for word in ["check", check, "with"] + qubits]


def played(steps):
    """The steps that are played, and how many were passed over; the rest is cut off."""
    taken, passed, state = [], 0, {}
    for step in steps:
        if step["call"] in CALLS:
            taken.append(step)
        elif "after" in step and state.get(step["trial"]) == step["after"]:
            passed += 1
        else:
            break
        if step["call"] == "open" and "ok" in step["answer"]:
            state[step["trial"]] = opened_state(step)
        elif "after" in step:
            state[step["trial"]] = step["after"]
    return taken, passed


def opened_state(step):
    """Only to see whether a call that is passed over changed anything; no expected line is made of it."""
    empty = {kind: [] for kind in TRIAL_STATE + ("shelf",)}
    return {**empty, "counts": [0, 0, 0], "void": False, "erased": step["lost"], "odd": step["odd_checks"]}


def lines_of(steps):
    names, given, wanted = Names(), [], []
    for step in sorted(steps, key=lambda step: step["call"] not in CODE_CALLS):
        given.append(words(CALLS[step["call"]](names, step)))
        wanted.append(expected(step))
        if "refused" in step["answer"]:
            continue
        if step["call"] in MAKINGS:
            names.add("code", step["code"])
        elif step["call"] == "tally":
            names.add("tally", step["tally"])
        elif step["call"] == "open":
            names.add("trial", step["trial"])
            names.add("slip", step["slip"])
    return given, wanted


def main(records, stdin, stdout):
    sequences = []
    for record in records:
        with open(record) as file:
            sequences += json.load(file)["sequences"]
    given, wanted, whole, cut, out, over, off = [], [], 0, 0, 0, 0, 0
    for sequence in sequences:
        steps, passed = played(sequence["steps"])
        if not any(step["call"] in TRIAL_CALLS for step in steps):
            out += 1
            continue
        rest = len(sequence["steps"]) - len(steps) - passed
        whole, cut = (whole + 1, cut) if rest + passed == 0 else (whole, cut + 1)
        over, off = over + passed, off + rest
        heading = "# " + sequence["name"]
        asked, answers = lines_of(steps)
        given += [heading] + asked
        wanted += [heading] + answers
    for path, lines in ((stdin, given), (stdout, wanted)):
        with open(path, "w") as file:
            file.write("\n".join(lines) + "\n")
    print(f"{whole + cut} sequences, {len(given) - whole - cut} steps; {whole} whole", file=sys.stderr)
    print(f"{cut} in part: {over} steps passed over, {off} cut off; {out} sequences left out", file=sys.stderr)


if __name__ == "__main__":
    main(sys.argv[1:-2], *sys.argv[-2:])
