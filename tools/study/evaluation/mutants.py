"""Small changes of the definition: does the history that is named for each notice it?"""
import collections
import dataclasses
import time

import tool

from . import equations, shrink
from .checker import Failure


@dataclasses.dataclass(frozen=True)
class Change:
    # the line of the list that it begins at
    line: int
    file: str
    old: str
    new: str
    # MIX SEED EVENTS [ROOM] of the history that notices it, or why none can
    history: str = ""
    reason: str = ""


def read(path):
    """Blocks `FILE`, `- old`, `+ new` and `@ history` or `= reason`, with an empty line between; # starts a remark."""
    signs = {"-": "old", "+": "new", "@": "history", "=": "reason"}
    at = 1
    for block in tool.read(path).split("\n\n"):
        lines = [(at + n, line) for n, line in enumerate(block.split("\n")) if line and not line.startswith("#")]
        at += block.count("\n") + 2
        if lines:
            (begin, file), *rest = lines
            try:
                change = Change(begin, file, **{signs[line[0]]: line[2:] for _, line in rest})
            except (KeyError, TypeError):
                tool.fail(f"{path}:{begin}: no change of the definition: {tool.shown(block)}")
            yield change


def target(change, checker):
    """The file that a change fits, which has its old text once; None where there is no such file."""
    counts = [(path, tool.read(path).count(change.old)) for path in checker.files(change.file)]
    found = [path for path, count in counts for _ in range(count)]
    return found[0] if len(found) == 1 else None


def fitting(path, checker):
    """The changes of a list, each of which must fit the definition once."""
    changes = list(read(path))
    wrong = [change for change in changes if target(change, checker) is None]
    for change in wrong:
        print(f"{path}:{change.line}: not once in {change.file}: {change.old}")
    if wrong:
        tool.fail(f"{path}: {len(wrong)} of {len(changes)} changes do not fit the definition")
    return changes


def named(words, oracle):
    """The history of MIX SEED EVENTS [ROOM]."""
    try:
        mix, seed, events, *room = words.split()
        (history,) = oracle.generate(["--mix", mix, "--seed", seed, "--events", events])
        return dataclasses.replace(history, room=int(room[0])) if room else history
    except ValueError:
        tool.fail(f"no history is named by '{words}': MIX SEED EVENTS [ROOM]")


def noticed(change, oracle, checker):
    """Whether the checker refuses an equation of the changed definition, and of which event first."""
    history = named(change.history, oracle)
    text = equations.history_text("h0", history, oracle.answers(history))
    try:
        first = shrink.first_refused(checker.evaluate(text))
    except Failure as failure:
        said = str(failure)
        return "no definition", said[said.find("error") :][:300]
    return ("noticed", f"event {first[0]}") if first else ("not noticed", "")


def tried(change, oracle, checker):
    """The verdict on a change, which is undone again."""
    if change.reason:
        return "explained", change.reason
    path = target(change, checker)
    whole = tool.read(path)
    path.write_text(whole.replace(change.old, change.new), encoding="utf-8")
    verdict = noticed(change, oracle, checker)
    path.write_text(whole, encoding="utf-8")
    return verdict


def run(path, oracle, checker):
    counts = collections.Counter()
    for number, change in enumerate(fitting(path, checker), 1):
        began = time.monotonic()
        verdict, remark = tried(change, oracle, checker)
        counts[verdict] += 1
        print(f"{number} {change.file}: {change.new}", flush=True)
        print(f"    {verdict}: {change.history} {remark} ({time.monotonic() - began:.0f} s)", flush=True)
    print(f"{sum(counts.values())} changes: {dict(counts)}")
    return set(counts) <= {"noticed", "explained"}
