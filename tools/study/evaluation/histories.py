"""Histories: the run program's input, and the answers of the Rust to it in the trace form."""
import dataclasses

import records
import tool

ROOM = 8192
COUNTERS = (0, 0, 0, 0)


@dataclasses.dataclass(frozen=True)
class History:
    name: str
    me: int
    settings: tuple
    events: tuple
    draws: tuple
    room: int = ROOM
    # next_request, next_join, passes_alone, passes_short
    counters: tuple = COUNTERS

    def input(self):
        return records.whole(self.me, self.settings, self.events, self.draws)


@dataclasses.dataclass(frozen=True)
class Answer:
    code: int
    used: int
    output: bytes
    # the state line's fields by name, each as it is printed
    state: dict


def read_input(name, data, room=ROOM, counters=COUNTERS):
    """The history of an input, None where the run program answers it by `= 3 0` alone."""
    found = records.parts(data)
    if found is None:
        return None
    me, settings, events, draws = found
    return History(name, me, tuple(settings), tuple(events), draws, room, counters)


def read_counters(text):
    counters = tuple(map(int, text.split(",")))
    if len(counters) != len(COUNTERS):
        raise ValueError(text)
    return counters


def read_stored(text, where):
    """Each history of a text in the oracle's stored form, None for one whose input is malformed."""
    for block in text.split("\n\n"):
        head = {}
        for line in block.strip().splitlines():
            word, _, rest = line.partition(" ")
            if word not in ("history", "room", "counters", "input"):
                break
            head[word] = rest
        if head:
            try:
                counters = read_counters(head["counters"]) if "counters" in head else COUNTERS
                history = read_input(head["history"], bytes.fromhex(head["input"]), int(head.get("room", ROOM)), counters)
            except (KeyError, ValueError):
                tool.fail(f"{where}: no stored history: {tool.shown(block)}")
            yield history


class Oracle:
    """The Rust, as the oracle's program runs it."""

    def __init__(self, program):
        self.program = program

    def run(self, words, data=b""):
        return tool.run([self.program, *words], input=data).decode(errors="replace")

    def generate(self, words):
        found = list(read_stored(self.run(["generate", *words]), self.program))
        if not found:
            tool.fail(f"{self.program} makes no history of {' '.join(words)}")
        return found

    def answers(self, history):
        """An answer for each event, or None where `new` is answered by code 1."""
        counters = ",".join(map(str, history.counters))
        text = self.run(["trace", "--room", str(history.room), "--counters", counters], history.input())
        if text == "= 1 0\n":
            return None
        answers, output, end = [], "", ()
        for line in text.splitlines():
            try:
                if line.startswith("= "):
                    end = map(int, line[2:].split())
                elif line.startswith("state "):
                    state = dict(word.split("=", 1) for word in line.split()[1:])
                    answers.append(Answer(*end, bytes.fromhex(output), state))
                    output = ""
                else:
                    output += line
            except (TypeError, ValueError):
                tool.fail(f"{self.program} does not answer in the trace form: {tool.shown(line)}")
        if len(answers) != len(history.events):
            tool.fail(f"{self.program} answers {len(answers)} of {len(history.events)} events")
        return answers
