"""The stored sample of before 02's S-8 (oracle/sample/old.txt, records and inputs in the old form) in the new form: events, inputs and answers, by the
conversion of records.py alone. What the Rust answered then is thus what it and the code must answer now."""
import records
import tool

FILE = tool.ROOT / "oracle" / "sample" / "old.txt"
# The end of a state's line since 02's S-14: no event of the old form is a pin.
PINLESS = " pins=[]"


def new_form(record):
    """A record of an answer, in hex; every one has a new form."""
    code, found = records.converted(bytes.fromhex(record), records.OLD, records.NEW)
    assert code == 0, record
    return found.hex()


def groups(trace):
    """The answers of a trace: its records, the line with the code, and the state."""
    held = []
    for line in trace:
        held.append(line)
        if line.startswith("state "):
            yield held[:-2], held[-2], held[-1]
            held = []
    assert not held, held


def events_and_answers(events, trace):
    """The events that have a new form, and the lines of their answers. The others are malformed and change nothing."""
    kept, lines = [], []
    for event, (answer, code, state) in zip(events, groups(trace), strict=True):
        refused, found = records.converted(event, records.OLD, records.NEW)
        if refused:
            assert not answer and code == f"= {refused} 0", (event.hex(), code)
            continue
        kept.append(found)
        lines += [*map(new_form, answer), code, state + PINLESS]
    return kept, lines


def block(text):
    """A stored history in the new form; None where its answers hang on the old form: it has a room of its own, or an input that is refused whole."""
    head, rest = text.split("\ninput ", 1)
    given, *trace = rest.splitlines()
    found = records.parts(bytes.fromhex(given), records.OLD)
    if "\nroom " in head or found is None:
        return None
    me, settings, events, draws = found
    kept, lines = events_and_answers(events, trace) if trace != ["= 1 0"] else ([], trace)
    head = head.replace("history ", "history old ", 1)
    given = records.whole(me, settings, kept, draws)
    return "\n".join([head, f"input {given.hex()}", *lines, "", ""])


def blocks():
    """Each stored history that has a new form."""
    return [found for found in map(block, tool.read(FILE).split("\n\n")[:-1]) if found]


def told():
    """What has a new form, in numbers."""
    old, new = tool.read(FILE), "".join(blocks())
    count = lambda text, start: sum(line.startswith(start) for line in text.splitlines())
    return (
        f"old sample: {count(new, 'history ')} of {count(old, 'history ')} histories and {count(new, '= ')} of {count(old, '= ')} codes have a new form"
    )
