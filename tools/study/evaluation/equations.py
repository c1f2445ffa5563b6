"""Equations between the definition's answers and the Rust's, as an antt module."""

SETTINGS = (
    "active_view_capacity",
    "passive_view_capacity",
    "active_random_walk_length",
    "passive_random_walk_length",
    "shuffle_random_walk_length",
    "shuffle_active_view_count",
    "shuffle_passive_view_count",
    "shuffle_interval",
    "neighbor_request_timeout",
)

USES = """\
use mathlib.Core.Path.{refl}
use Rattle.std.specs.Prelude.{ℕ, ◌≡◌, Bool, true, false, List, [], ◌∷◌, replicate, drop}
use Rattle.std.proofs.Math.Option.{none, some}
use Rattle.base_timing.specs.declared.Config.{Config}
use Rattle.spec_hyparview.specs.Station.{Station, automatic, requests_left, recovery}
use Rattle.spec_hyparview.specs.Setters.{set_next_request, set_next_join, set_passes_alone, set_passes_short}
use Rattle.spec_hyparview.specs.Handle.{Result, Made, zero_station, new}
use Rattle.spec_hyparview.specs.Traced.{traced}
"""


def numbers(items, end="[]"):
    return "".join(f"{item} ∷ " for item in items) + end


def hex_bytes(text):
    return numbers(bytes.fromhex(text))


def items(text):
    """The items of a list of the state line."""
    return [item for item in text[1:-1].split(",") if item]


def pairs(text, value=str):
    split = [item.split(":") for item in items(text)]
    return numbers(f"({peer}, {value(rest)})" for peer, rest in split)


def refill(text):
    return {"A": "automatic", "R": f"requests_left {text[1:]}", "V": "recovery"}[text[0]]


def state_fields(history, config, state):
    """The station's fields with their values, after a line of state."""
    own = state["me"]
    return {
        "me": history.me,
        "own_data": "none" if own == "-" else f"some ({hex_bytes(own[1:])})",
        "active": numbers(items(state["active"])),
        "passive": numbers(items(state["passive"])),
        "config": config,
        "scheduled": ("false", "true")[int(state["timers"])],
        "next_interval": state["interval"],
        "bootstrap": numbers(items(state["bootstrap"])),
        "passes_alone": state["alone"],
        "passes_short": state["short"],
        "recent": numbers(items(state["recent"])),
        "requests": pairs(state["requests"]),
        "next_request": state["next_request"],
        "joins": pairs(state["joins"]),
        "next_join": state["next_join"],
        "peer_data": pairs(state["data"], hex_bytes),
        "alive": numbers(items(state["alive"])),
        "refused": numbers(items(state["refused"])),
        "refill": refill(state["refill"]),
        "pins": numbers(items(state["pins"])),
    }


def record(fields):
    return "record { " + "; ".join(f"{name} = {value}" for name, value in fields.items()) + " }"


def abbreviation(name, kind, value):
    return f"\nabbrev {name} : {kind}\n{name} = {value}\n"


def equation(name, left, right):
    return f"\n{name} : {left} ≡ {right}\nunfolding traced\n{name} = refl\n"


def first_state(history, made):
    """What `new` hands back, with the counters that the history starts with."""
    setters = ("set_next_request", "set_next_join", "set_passes_alone", "set_passes_short")
    state = f"{made}.state"
    for setter, value in zip(setters, history.counters):
        if value:
            state = f"{setter} {value} ({state})"
    return state


def beginning(name, history, code):
    """The settings, the draws, the equation for `new` and the first state."""
    config = record({setting: value for setting, value in zip(SETTINGS, history.settings)})
    made = f"(new {history.me} none {name}c)"
    return (
        abbreviation(f"{name}c", "Config", config)
        + abbreviation(f"{name}d", "List ℕ", numbers(history.draws))
        + equation(f"{name}new", f"{made}.code", str(code))
        + abbreviation(f"{name}s0", "Station", first_state(history, made))
    )


def call(name, history, index, drawn):
    return f"traced {name}s{index} ({numbers(history.events[index])}) (drop {drawn} {name}d) {history.room}"


def answer_fields(name, history, index, answer):
    output = numbers(answer.output, f"replicate {history.room - len(answer.output)} 0")
    return {"code": answer.code, "state": f"{name}s{index + 1}", "used": answer.used, "output": output}


def history_text(name, history, answers):
    """An equation NAMEnew for `new`, and NAMEeK for each event K."""
    if answers is None:
        zeroes = equation(f"{name}zeroes", f"(new {history.me} none {name}c).state", "zero_station")
        return beginning(name, history, 1) + zeroes
    text, drawn = [beginning(name, history, 0)], 0
    for index, answer in enumerate(answers):
        state = record(state_fields(history, f"{name}c", answer.state))
        text.append(abbreviation(f"{name}s{index + 1}", "Station", state))
        right = record(answer_fields(name, history, index, answer))
        text.append(equation(f"{name}e{index}", call(name, history, index, drawn), right))
        drawn += answer.used
    return "".join(text)


def fields_text(name, history, answers, index):
    """An equation NAMEfK for each part K of one event's answer, and the parts' names."""
    drawn = sum(answer.used for answer in answers[:index])
    left = f"({call(name, history, index, drawn)})"
    parts = answer_fields(name, history, index, answers[index])
    state = state_fields(history, f"{name}c", answers[index].state)
    del parts["state"]
    parts.update((f"state.{field}", value) for field, value in state.items())
    text = history_text(name, history, answers[:index])
    for number, (field, value) in enumerate(parts.items()):
        text += equation(f"{name}f{number}", f"{left}.{field}", value)
    return text, list(parts)
