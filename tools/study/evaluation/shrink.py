"""The smallest history that still shows a difference."""
import dataclasses

from . import equations

# Candidates are evaluated together, at most so many events at a time.
TOGETHER = 400


def first_refused(refused):
    """The first differing event of each history; -1 for `new`."""
    first = {}
    for number, rest in refused:
        place = int(rest[1:]) if rest[0] == "e" else -1
        first[number] = min(place, first.get(number, place))
    return first


def groups(histories, most):
    """Runs of histories with at most so many events in each, or a single longer one."""
    group, events = [], 0
    for history in histories:
        if group and events + len(history.events) > most:
            yield group
            group, events = [], 0
        group.append(history)
        events += len(history.events)
    if group:
        yield group


def showing(candidates, oracle, checker):
    """The first candidate that shows a difference, without the events after it; None if none does."""
    for group in groups(candidates, TOGETHER):
        texts = [equations.history_text(f"h{n}", history, oracle.answers(history)) for n, history in enumerate(group)]
        first = first_refused(checker.evaluate("".join(texts)))
        if first:
            number = min(first)
            history = group[number]
            return dataclasses.replace(history, events=history.events[: first[number] + 1])
    return None


def without_events(history, stretch):
    for place in range(0, len(history.events), stretch):
        events = history.events[:place] + history.events[place + stretch :]
        yield dataclasses.replace(history, events=events)


def smallest(history, place, oracle, checker):
    """Drops stretches of events, from half of them down to one, while a difference stays; then unused draws."""
    history = dataclasses.replace(history, events=history.events[: place + 1])
    stretch = len(history.events) // 2
    while stretch > 0:
        smaller = showing(without_events(history, stretch), oracle, checker)
        if smaller is None:
            stretch //= 2
        else:
            history = smaller
            stretch = min(stretch, len(history.events))
    used = sum(answer.used for answer in oracle.answers(history) or [])
    fewer = dataclasses.replace(history, draws=history.draws[:used])
    return showing([fewer], oracle, checker) or history


def differing_parts(history, oracle, checker):
    """Which parts of the last event's answer differ."""
    answers = oracle.answers(history)
    if not answers:
        return ["new"]
    text, parts = equations.fields_text("h0", history, answers, len(answers) - 1)
    refused = checker.evaluate(text)
    return [parts[int(rest[1:])] for _, rest in refused if rest[0] == "f"]
