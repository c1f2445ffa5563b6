#!/usr/bin/env python3
"""What only enumerates the fields of a state, from the one table of them below.

usage: tools/make/layout.py make | check

A number or a section that is added or moved is one line here. Some files are this tool's from the first line to the last; in others it writes what stands
between a line that names it and the next line "end".
"""
import re
import sys
from pathlib import Path

sys.path.insert(0, str(Path(__file__).resolve().parents[1]))

import tool

# the numbers, from word 0 on: the name, and the word that the definition's station g has there
WORDS = [
    ("me", "g.me"),
    ("own_present", "present_word g.own_data"),
    ("own_len", "length (bytes_of g.own_data)"),
    ("active_view_capacity", "g.config.active_view_capacity"),
    ("passive_view_capacity", "g.config.passive_view_capacity"),
    ("active_random_walk_length", "g.config.active_random_walk_length"),
    ("passive_random_walk_length", "g.config.passive_random_walk_length"),
    ("shuffle_random_walk_length", "g.config.shuffle_random_walk_length"),
    ("shuffle_active_view_count", "g.config.shuffle_active_view_count"),
    ("shuffle_passive_view_count", "g.config.shuffle_passive_view_count"),
    ("shuffle_interval", "g.config.shuffle_interval"),
    ("neighbor_request_timeout", "g.config.neighbor_request_timeout"),
    ("timers_scheduled", "cond g.scheduled 1 0"),
    ("next_shuffle_interval", "g.next_interval"),
    ("passes_alone", "g.passes_alone"),
    ("passes_short", "g.passes_short"),
    ("refill_kind", "kind_word g.refill"),
    ("refill_requests", "requests_word g.refill"),
    ("next_neighbor_request", "g.next_request"),
    ("next_join", "g.next_join"),
    ("own_low", "low_word (bytes_of g.own_data)"),
    ("own_high", "high_word (bytes_of g.own_data)"),
]

# the fields of the definition's station that numbers stand for, of the numbers n
FIELDS = {
    "me": "layout.me n",
    "own_data": "fields_in (own_at n)",
    "config": "settings_at n",
    "scheduled": "eqb (layout.timers_scheduled n) 1",
    "next_interval": "layout.next_shuffle_interval n",
    "passes_alone": "layout.passes_alone n",
    "passes_short": "layout.passes_short n",
    "next_request": "layout.next_neighbor_request n",
    "next_join": "layout.next_join n",
    "refill": "refill_in (limit_at n)",
}

# the sections after them: the field of the definition's station, what it holds, and its places
SECTIONS = [
    ("active", "set", 8),
    ("passive", "set", 32),
    ("alive", "set", 32),
    ("refused", "set", 32),
    ("requests", "numbers", 32),
    ("bootstrap", "set", 8),
    ("recent", "set", 8),
    ("joins", "numbers", 8),
    ("peer_data", "data", 80),
    ("pins", "set", 7),
]

NUMBERS = [name for name, _ in WORDS]

# the columns of each kind of section; the count is one word more
COLUMNS = {"set": 1, "numbers": 2, "data": 4}

# what each kind of section is in the specs: what its words hold, that they are well formed, the test of it, and the words of a list
READ = {"set": "items_at", "numbers": "numbers_at", "data": "data_map_at"}
VALID = {"set": "ValidSet", "numbers": "ValidNumbers", "data": "ValidDataWords"}
TEST = {"set": "valid_set", "numbers": "valid_numbers", "data": "valid_data_words"}
STORE = {"set": "section", "numbers": "numbers_section", "data": "data_section"}

# the places that a crate below names too: whose they are
BELOW = {"active": ("base_columns", "Columns")}

# what a law is given of the new words: that they hold x
HELD = {
    "set": ("HoldsSet", "List ℕ"),
    "numbers": ("HoldsNumbers", "List (ℕ × ℕ)"),
    "data": ("HoldsDataWords", "List (ℕ × List ℕ)"),
}

# the views, which a setting bounds
CAPACITY = {"active": "active_view_capacity", "passive": "passive_view_capacity"}

# the numbers that a law stores: the word, the field of the definition's station, its type, the word of its value, what is asked of the value, and what holds of it in `Packed`
STORED = [
    ("timers_scheduled", "scheduled", "Bool", "(cond v 1 0)", None, {"timers": "bit_fits v"}, "bool_back v i"),
    ("next_shuffle_interval", "next_interval", "ℕ", "v", "v ≤ longest_time", {"short_interval": "h"}, "v"),
    ("passes_alone", "passes_alone", "ℕ", "v", "v ≤ top_passes", {"alone": "h"}, "v"),
    ("passes_short", "passes_short", "ℕ", "v", "v ≤ top_passes", {"short": "h"}, "v"),
    ("next_neighbor_request", "next_request", "ℕ", "v", None, {}, "v"),
    ("next_join", "next_join", "ℕ", "v", None, {}, "v"),
]

# the fields of `Packed`, in their order
PACKED = ["present", "timers", "limit", "alone", "short", "own_data", "settings", "short_interval", "sections"] + [f"{view}_fits" for view in CAPACITY]

LAYOUT_HEAD = """-- Where each number and each section of the state's words stands. Written by tools/make/layout.py.
-- Assumes nothing.
use Rattle.std.specs.Prelude.{ℕ, List, get_or}
use Rattle.base_util.specs.Section.{part, ValidSet}
use Rattle.base_columns.specs.Columns.{ValidNumbers, ValidDataWords}
"""

FIELDS_HEAD = """-- The words with one number or one section stored anew stand for the station with that field changed: one law for each. Written by tools/make/layout.py.
-- Assumes nothing.
use Prim.Native.Nat.{ℕ, ◌≤◌}
use mathlib.Core.Path.{◌≡◌}
use mathlib.Core.Bool.{Bool, true, cond}
use mathlib.Core.List.{List}
use native.Mathlib.Omega.{arith}
use lib.Dec.{eqb}
use lib.ListN.{length, set}
use borrow.Rule.Slice.PartMut.{put_mid}
use Rattle.base_util.specs.Section.{HoldsSet}
use Rattle.base_columns.specs.Columns.{HoldsNumbers, word_bytes, HoldsDataWords}
use Rattle.base_peer.specs.Data.{Data}
use Rattle.base_peer.specs.Held.{HoldsData}
use Rattle.base_timing.specs.Timing.{longest_time}
use Rattle.base_words.specs.Parts.{begin}
use Rattle.spec_hyparview.specs.Station.{Station, top_passes}
use Rattle.spec_hyparview.specs.Setters as setters
use Rattle.hyparview_state.specs.declared.RefillLimit.{RefillLimit}
use Rattle.hyparview_state.specs.Layout as layout
use Rattle.hyparview_state.specs.Unpack.{unpack, station_of, own_at, limit_at, settings_at, limit_formed, refill_in, opened, long, Becomes}
use Rattle.hyparview_state.proofs.Memory.{bit_fits, bool_back, two_limit}
use Rattle.hyparview_state.proofs.Cuts.{slots, cut_self, cut_set, cut_put, becomes}
"""


def places():
    at = len(NUMBERS)
    for name, kind, cap in SECTIONS:
        size = COLUMNS[kind] * cap + 1
        yield name, kind, cap, at, size
        at += size


def length():
    return sum(COLUMNS[kind] * cap + 1 for _, kind, cap in SECTIONS) + len(NUMBERS)


def value(name, text):
    return f"abbrev pub {name} : ℕ\n{name} = {text}\n"


def layout():
    out = [LAYOUT_HEAD[:-1]]
    out += [f"pub use Rattle.{crate}.specs.{module}.{{{name}_places}}" for name, (crate, module) in BELOW.items()]
    out.append(f"\n-- the words of a state, and where its numbers end and its sections begin\n{value('words', length())}")
    out.append(value("numbers_end", len(NUMBERS)))
    out.append("-- ---- the numbers, and where each stands\n")
    for i, name in enumerate(NUMBERS):
        out.append(value(f"{name}_at", i))
        out.append(f"abbrev pub {name} : List ℕ → ℕ\n{name} xs = get_or xs {name}_at 0\n")
    out.append("-- ---- the sections: where each begins, its places, where its count stands, and its words\n")
    for name, _, cap, at, size in places():
        out.append(value(f"{name}_at", at))
        if name not in BELOW:
            out.append(value(f"{name}_places", cap))
        out.append(value(f"{name}_count", at + size - 1))
        out.append(value(f"{name}_size", size))
        out.append(f"abbrev pub {name}_part : List ℕ → List ℕ\n{name}_part xs = part {name}_at {name}_size xs\n")
    out.append("pub record Sections : Type 0 where")
    out += [f"  pub {name} : List ℕ" for name, _, _ in SECTIONS]
    out.append("\nabbrev pub sections : List ℕ → Sections")
    out.append("sections xs = record { " + "; ".join(f"{name} = {name}_part xs" for name, _, _ in SECTIONS) + " }\n")
    out.append("-- every section is well formed\npub record WellFormed (s : Sections) : Type 0 where")
    out += [f"  pub {name} : {VALID[kind]} {name}_places s.{name}" for name, kind, _ in SECTIONS] + [""]
    return "\n".join(out)


def packed(new):
    parts = [f"{p} = " + new.get(p, f"old.{p}") for p in PACKED]
    return f"record {{ {'; '.join(parts)} }}"


UNFOLD = "unfolding unpack station_of own_at limit_at settings_at slots"


def stored(cut, word, value):
    """The cut of words with a number stored."""
    return f"(cut_set layout.{word}_at {value} (omega arith) {cut})"


def number_law(word, name, kind, value, asked, new, path):
    bound = f"{asked} → " if asked else ""
    args = "v h b" if asked else "v b"
    return (
        f"pub put_{name} : {{xs : List ℕ}} {{g : Station}} (v : {kind}) → {bound}Becomes xs g → Becomes (set xs layout.{word}_at {value}) (setters.set_{name} v g)\n"
        f"{UNFOLD}\n"
        f"put_{name} {{xs}} {{g}} {args} = let old = opened b.packed in\n"
        f"    becomes {stored('(cut_self xs (long b.packed))', word, value)} ({packed(new)}) (λ i. setters.set_{name} ({path}) (b.same i))\n"
    )


def own_law():
    """The four words of own data, stored in the order of `update_own_data`."""
    words, cut = "xs", "(cut_self xs (long b.packed))"
    for word, value in (("own_present", "p"), ("own_len", "n"), ("own_low", "low"), ("own_high", "high")):
        words, cut = f"(set {words} layout.{word}_at {value})", stored(cut, word, value)
    return (
        f"pub put_own_data : {{xs : List ℕ}} {{g : Station}} {{x : Data}} (p n low high : ℕ) → p ≤ 1 → HoldsData (record {{ present = eqb p 1; len = n; bytes = word_bytes low high }}) x → Becomes xs g → Becomes {words} (setters.set_own_data x g)\n"
        f"{UNFOLD}\n"
        f"put_own_data {{xs}} {{g}} {{x}} p n low high k h b = let old = opened b.packed in\n"
        f"    becomes {cut} ({packed({'present': 'k', 'own_data': 'h.valid'})}) (λ i. setters.set_own_data (h.holds i) (b.same i))\n"
    )


def limit_law():
    """The two words of the limit on refills, stored in the order of `keep_limit`."""
    cut = stored(stored("(cut_self xs (long b.packed))", "refill_kind", "k"), "refill_requests", "n")
    return (
        f"pub put_refill : {{xs : List ℕ}} {{g : Station}} (k n : ℕ) (v : RefillLimit) → limit_formed k n ≡ true → two_limit k n ≡ v → Becomes xs g → Becomes (set (set xs layout.refill_kind_at k) layout.refill_requests_at n) (setters.set_refill (refill_in v) g)\n"
        f"{UNFOLD}\n"
        f"put_refill {{xs}} {{g}} k n v f e b = let old = opened b.packed in\n"
        f"    becomes {cut} ({packed({'limit': 'f'})}) (λ i. setters.set_refill (refill_in (e i)) (b.same i))\n"
    )


def section_law(i, name, kind):
    holds, model = HELD[kind]
    fits = f"length x ≤ layout.{CAPACITY[name]} xs → " if name in CAPACITY else ""
    args = "h l b" if fits else "h b"
    formed = "; ".join(f"{n} = " + ("h.valid" if n == name else f"old.sections.{n}") for n, _, _ in SECTIONS)
    new = {"sections": f"record {{ {formed} }}"}
    if fits:
        new[f"{name}_fits"] = "rw h.items l"
    return (
        f"pub put_{name} : {{xs ys : List ℕ}} {{g : Station}} {{x : {model}}} → {holds} layout.{name}_places ys x → {fits}Becomes xs g → Becomes (put_mid layout.{name}_at layout.{name}_size xs ys) (setters.set_{name} x g)\n"
        f"{UNFOLD} begin\n"
        f"put_{name} {{xs}} {{ys}} {{g}} {{x}} {args} = let old = opened b.packed in\n"
        f"    becomes (cut_put {i} ys (omega arith) h.valid.long (cut_self xs (long b.packed))) ({packed(new)}) (λ i. setters.set_{name} (h.items i) (b.same i))\n"
    )


def fields():
    laws = [FIELDS_HEAD]
    for row in STORED:
        laws.append(number_law(*row))
    laws += [own_law(), limit_law()]
    laws += [section_law(i, name, kind) for i, (name, kind, _) in enumerate(SECTIONS)]
    return "\n".join(laws)


def constants():
    """The names of the layout in code, in order, and their places."""
    for i, name in enumerate(NUMBERS):
        yield name.upper(), i
    for name, _, cap, at, size in places():
        code = name.upper()
        yield code, at
        yield f"{code}_PLACES", cap
        yield f"{code}_COUNT", at + size - 1
        yield f"{code}_END", at + size


def between(path, mark, *blocks):
    """The text of a file with each block's lines between the line that names it and this tool, and the next line "end"; `mark` opens a comment and ends it.
    Behind a block of definitions the layout of `rt fmt` has an empty line."""
    text = tool.read(tool.ROOT / path)
    opening, closing = mark
    for name, lines in blocks:
        begin = f"{opening} {name}, by tools/make/layout.py{closing}\n"
        head, found, rest = text.partition(begin)
        end = f"{head[head.rfind(chr(10)) + 1 :]}{opening} end{closing}\n"
        if not found or begin in rest or end not in rest:
            tool.fail(f"{path}: no lines between which this tool writes: {begin.strip()}")
        defines = mark == SPEC and (lines[0].startswith("module") or " : " in lines[0] and not lines[0].startswith("  pub"))
        gap = "\n" if defines else ""
        text = head + begin + "".join(f"{line}\n" for line in lines) + gap + rest[rest.index(end) :]
    return text


CODE, SPEC, C, PYTHON = ("//", ""), ("--", ""), ("/*", " */"), ("#", "")

# why some numbers are as they are, above the first of them in code
REASONS = {
    "OWN_PRESENT": "Own data: 1 present, 0 absent; the bytes stand in two words, `OWN_LOW` and `OWN_HIGH`.",
    "ACTIVE_VIEW_CAPACITY": "The settings, in the order of `Config`.",
    "REFILL_KIND": "The limit on refills: kind 0 Automatic, 1 Requests, 2 Recovery; the requests are 0 but in kind 1.",
    "ACTIVE": "The sections: where each begins, its places, where its count stands and where it ends.",
}


def code():
    lines, shared = [], {f"{name.upper()}_PLACES": crate for name, (crate, _) in BELOW.items()}
    for name, at in constants():
        lines.append("")
        if name in REASONS:
            lines.append(f"    // {REASONS[name]}")
        lines.append(f"    pub const {name}: usize = {shared[name] + '::' + name if name in shared else at};")
    whole = [("The words of a state, and where its numbers end.", "LENGTH", length()), ("", "NUMBERS_END", len(NUMBERS))]
    for reason, name, at in whole:
        lines += [""] + ([f"    // {reason}"] if reason else []) + [f"    pub const {name}: usize = {at};"]
    return lines[1:]


# ---- the specs of the words

def settings():
    """The settings are those numbers whose station's word is one of `config`."""
    found = [(name, word.removeprefix("g.config.")) for name, word in WORDS if word.startswith("g.config.")]
    return ["unfoldable pub settings_at : List ℕ → Config", "settings_at n = record {"] + [f"  {field} = layout.{name} n;" for name, field in found] + ["}"]


def station():
    """The fields of the definition's station, with their types, in order."""
    found = re.search(r"pub record Station : Type 0 where\n((?:  .*\n)+)", tool.read(tool.ROOT / STATION))
    if not found:
        tool.fail(f"{STATION}: no record Station")
    return re.findall(r"^  pub (\S+) : (.*)$", found.group(1), re.M)


def station_of():
    kinds = {name: kind for name, kind, _ in SECTIONS}
    lines = ["unfoldable pub station_of : List ℕ → Sections → Station", "station_of n s = record {"]
    for field, _ in station():
        if field not in kinds and field not in FIELDS:
            tool.fail(f"{STATION}: the field {field} has no words in the table")
        lines.append(f"  {field} = " + (f"{READ[kinds[field]]} layout.{field}_places s.{field};" if field in kinds else f"{FIELDS[field]};"))
    return lines + ["}"]


def access():
    lines = ["module _ (xs : List ℕ) (p : PackedState xs) where"]
    for name, kind, _ in SECTIONS:
        lines += [f"  pub of_{name} : {VALID[kind]} layout.{name}_places (layout.{name}_part xs)", f"  of_{name} = (opened p).sections.{name}", ""]
    return lines + [f"pub ruleset of_sections = ({', '.join(f'of_{name}' for name, _, _ in SECTIONS)})"]


def cuts():
    """The sections as a list, which the law of crate base_words speaks of."""
    names = [name for name, _, _ in SECTIONS]
    return [
        "abbrev pub sizes : List ℕ",
        "sizes = " + " ∷ ".join(f"layout.{name}_size" for name in names) + " ∷ []",
        "",
        "abbrev listed : Sections → List (List ℕ)",
        "listed s = " + " ∷ ".join(f"s.{name}" for name in names) + " ∷ []",
        "",
        "abbrev gathered : List (List ℕ) → Sections",
        "gathered l = record { " + "; ".join(f"{name} = get_or l {i} []" for i, name in enumerate(names)) + " }",
    ]


# ---- the rules: the test of the words and the words of a station

# the laws of each kind of section: the test says that it is well formed, and the other way; its words are those of the list that they hold
TRUE = {"set": "valid_set_true", "numbers": "valid_numbers_true", "data": "valid_words_true"}
TRUE_BACK = {"set": "true_valid_set", "numbers": "true_valid_numbers", "data": "true_valid_words"}
BACK = {"set": "set_words", "numbers": "numbers_words", "data": "data_words"}


def lent(name):
    return f"layout.{name}_places (layout.{name}_part xs)"


def argument(term):
    """A term as an argument: a name, a projection and what stands in parentheses need none around them."""
    return term if " " not in re.sub(r"^\([^()]*(?:\([^()]*\)[^()]*)*\)", "", term) else f"({term})"


def nested(terms, sign, indent="    "):
    """Terms joined from the right, a line for each."""
    lines = [f"{indent}{terms[0]}"] + [f"{indent}{sign} ({term}" for term in terms[1:-1]] + [f"{indent}{sign} {terms[-1]}"]
    return lines[:-1] + [lines[-1] + ")" * (len(terms) - 2)]


def sections_ok():
    return ["unfoldable pub sections_ok : List ℕ → Bool", "sections_ok xs ="] + nested([f"{TEST[kind]} {lent(name)}" for name, kind, _ in SECTIONS], "&&")


def front():
    return ["unfoldable pub front : Station → List ℕ", "front g ="] + [f"    {'' if i == 0 else '∷ '}{word}" for i, (_, word) in enumerate(WORDS)] + ["    ∷ []"]


def stored_words(name, kind, of="g"):
    return f"{STORE[kind]} layout.{name}_places {of}.{name}"


def pack():
    return ["unfoldable pub pack : Station → List ℕ", "pack g ="] + nested(["front g"] + [stored_words(name, kind) for name, kind, _ in SECTIONS], "++")


def shape():
    """The test of the sections, both ways."""
    tests = [f"{TEST[kind]} {lent(name)}" for name, kind, _ in SECTIONS]
    lines = ["formed_true : (xs : List ℕ) → length xs ≡ layout.words → sections_ok xs ≡ true → WellFormed (sections xs)", "unfolding sections_ok", "formed_true xs l e0 ="]
    lines += [f"    let e{i + 1} = and_right ({test}) _ e{i} in" for i, test in enumerate(tests[:-2])]
    lines += ["    record {"]
    last = len(SECTIONS) - 1
    for i, (name, kind, _) in enumerate(SECTIONS):
        fact = f"and_left ({tests[i]}) _ e{i}" if i < last else f"and_right ({tests[i - 1]}) _ e{i - 1}"
        lines.append(f"      {name} = {TRUE[kind]} layout.{name}_places _ (part_long layout.{name}_at layout.{name}_size xs (omega (arith, l))) ({fact});")
    lines += ["    }", "", "true_formed : (xs : List ℕ) → WellFormed (sections xs) → sections_ok xs ≡ true", "unfolding sections_ok", "true_formed xs v ="]
    facts = [f"{TRUE_BACK[kind]} layout.{name}_places _ v.{name}" for name, kind, _ in SECTIONS]
    body = [f"    (both_true _ _ ({fact})" for fact in facts[:-1]] + [f"    ({facts[-1]})" + ")" * len(facts[:-1])]
    body[0] = "    " + body[0].strip()[1:]
    body[-1] = body[-1][:-1]
    return lines + body


def known():
    lines = ["module _ (xs : List ℕ) (e : packed_ok xs ≡ true) where"]
    for name, kind, _ in SECTIONS:
        lines += [f"  pub ok_{name} : {VALID[kind]} {lent(name)}", f"  ok_{name} = (ok_shape xs e).sections.{name}", ""]
    return lines + [f"pub ruleset of_ok = ({', '.join(f'ok_{name}' for name, _, _ in SECTIONS)})"]


def tests_are():
    """The tests of the sections one after another, as the code has them."""
    bits = [f"b{i}" for i in range(len(SECTIONS))]
    facts = [f"e{i}" for i in range(len(SECTIONS))]
    lines = [f"pub sections_are : (xs : List ℕ) ({' '.join(bits)} : Bool)"]
    lines += [f"    → {bit} ≡ {TEST[kind]} {lent(name)}" for bit, (name, kind, _) in zip(bits, SECTIONS)]
    lines += [f"    → ({' && '.join(bits)}) ≡ sections_ok xs", "unfolding sections_ok"]
    right = " && (".join(f"{fact} i" for fact in facts) + ")" * (len(facts) - 1)
    return lines + [f"sections_are xs {' '.join(bits)} {' '.join(facts)} = simp and_assoc (λ i. {right})"]


CODE_TEST = {"set": "base_util::is_section", "numbers": "base_columns::numbers_valid", "data": "base_columns::data_valid"}


def sections_valid():
    lines = ["fn sections_valid(st: &Words) -> bool", "    ensures { result ≡ sections_ok st.now }", "{"]
    for i, (name, kind, _) in enumerate(SECTIONS):
        code = name.upper()
        words = [f"&st[Layout::{code}..Layout::{code}_END]", f"Layout::{code}_PLACES"]
        # as `rt fmt` has them: no `)` stands alone that is no further in than the next line would be, and a call's words stand on one line where they are short
        begun = "    " if i == 0 else lines.pop() + " & " if lines[-1] == "    )" else "        & "
        inner = begun[: len(begun) - len(begun.lstrip())]
        short = len(", ".join(words)) <= 60
        call = f"{begun}{CODE_TEST[kind]}("
        lines += [f"{call}{', '.join(words)})"] if short else [call] + [f"{inner}    {word}," for word in words] + [f"{inner})"]
    return lines + ["}"]


def sections_valid_proof():
    """What the calls said, put together."""
    said, seen = [], {}
    for _, kind, _ in SECTIONS:
        call = CODE_TEST[kind].split("::")[1]
        seen[call] = n = seen.get(call, 0) + 1
        said.append(f"c.{call}{f'-{n}' if n > 1 else ''}.ensures")
    return "\n".join([
        "-- What each call says of its section, put together. Written by tools/make/layout.py.",
        "use Rattle.base_util.specs.Section.{part}",
        "use Rattle.hyparview_rules.proofs.Under.{sections_are}",
        "use Rattle.hyparview_rules.proofs.sections_valid.Goals as goal",
        "",
        "pub returns : goal.returns",
        "unfolding part",
        "returns c =",
        f"    sections_are _ {' '.join('_' for _ in said)} {' '.join(said)}",
        "",
    ])


PARTS_HEAD = """-- The numbers and the sections of the words that a station is packed into, and words put together of their sections. Written by tools/make/layout.py.
-- Assumes nothing.
use Prim.Native.Nat.{ℕ, ◌+◌}
use mathlib.Core.Path.{◌≡◌, refl, sym, ap, ◌∙◌}
use mathlib.Core.List.{List, ◌++◌}
use native.Mathlib.Omega.{arith}
use lib.ListN.{length, take, drop, length-append, length-drop, take-append-drop}
use lib.Seq.{take_all, take_at, drop_at, drop-drop}
use Rattle.base_util.specs.Section.{part, section}
use Rattle.base_util.proofs.Sets.{framed_long}
use Rattle.base_columns.specs.Columns.{numbers_section, data_section}
use Rattle.spec_hyparview.specs.Station.{Station}
use Rattle.hyparview_state.specs.Layout as layout
use Rattle.hyparview_state.specs.Layout.{sections}
use Rattle.hyparview_rules.specs.Pack.{front, pack}
use Rattle.hyparview_rules.proofs.Maps.{numbers_stored, data_stored}

section_long : (n : ℕ) (xs : List ℕ) → length (section n xs) ≡ n + 1
unfolding section
section_long n xs = framed_long n xs (length xs)

module _ (a k : ℕ) (xs ys zs : List ℕ) (e : drop a xs ≡ ys ++ zs) (l : length ys ≡ k) where
  part_here : part a k xs ≡ ys
  unfolding part
  part_here = ap (take k) e ∙ take_at ys zs k l

  rest_here : drop (a + k) xs ≡ zs
  rest_here = sym (drop-drop k a xs) ∙ ap (drop k) e ∙ drop_at ys zs k l

joined : (a k : ℕ) (xs : List ℕ) → part a k xs ++ drop (a + k) xs ≡ drop a xs
unfolding part
joined a k xs = ap (λ (l : List ℕ). take k (drop a xs) ++ l) (sym (drop-drop k a xs)) ∙ take-append-drop k (drop a xs)

-- ---- a station that is packed
"""


def long_of(name, kind):
    law = {"set": "section_long {} {}", "numbers": "(numbers_stored {} {}).long", "data": "(data_stored {} {}).long"}[kind]
    return law.format(f"layout.{name}_places", f"g.{name}")


def parts():
    out, names = [PARTS_HEAD, "module _ (g : Station) where", "  -- the sections from each on"], [name for name, _, _ in SECTIONS]
    kinds = {name: kind for name, kind, _ in SECTIONS}
    first, last = names[0], names[-1]
    own = {name: stored_words(name, kinds[name]) for name in names}
    rest = {name: f"from_{following}" for name, following in zip(names, names[1:])}
    out += [f"  abbrev from_{last} : List ℕ", f"  from_{last} = {own[last]}", ""]
    for name in reversed(names[:-1]):
        out += [f"  abbrev from_{name} : List ℕ", f"  from_{name} = {own[name]} ++ {rest[name]}", ""]
    out += [f"  at_{first} : drop layout.{first}_at (pack g) ≡ from_{first}", "  unfolding pack front", f"  at_{first} = drop_at (front g) from_{first} layout.{first}_at refl", ""]
    given = {name: f"layout.{name}_at layout.{name}_size (pack g) ({own[name]}) {rest.get(name, '')} at_{name} {argument(long_of(name, kinds[name]))}" for name in names}
    for name, before in zip(names[1:], names):
        out += [f"  at_{name} : drop layout.{name}_at (pack g) ≡ from_{name}", f"  at_{name} = rest_here {given[before]}", ""]
    out += [f"  last_part : layout.{last}_part (pack g) ≡ from_{last}", "  unfolding part"]
    out += [f"  last_part = ap (take layout.{last}_size) at_{last} ∙ take_all layout.{last}_size from_{last} (omega (arith, {long_of(last, kinds[last])}))", ""]
    out += ["  pub packed_sections : sections (pack g) ≡ record {"] + [f"    {name} = {own[name]};" for name in names] + ["  }"]
    out += ["  packed_sections = λ i. record {"] + [f"    {name} = part_here {given[name]} i;" for name in names[:-1]] + [f"    {last} = last_part i;", "  }", ""]
    out += ["  pub packed_long : length (pack g) ≡ layout.words", "  unfolding pack front", "  packed_long =", "      omega (", "        arith,", f"        length-append (front g) from_{first},"]
    out += [f"        length-append ({own[name]}) {rest[name]}," for name in names[:-1]]
    out += [f"        {long_of(name, kinds[name])}," for name in names] + ["      )", "", "-- ---- words put together of their sections", ""]
    out += [f"rejoined_{last} : (xs : List ℕ) → length xs ≡ layout.words → layout.{last}_part xs ≡ drop layout.{last}_at xs", "unfolding part"]
    out += [f"rejoined_{last} xs l = take_all layout.{last}_size (drop layout.{last}_at xs) (omega (arith, length-drop layout.{last}_at xs, l))", ""]
    whole = f"layout.{last}_part xs"
    for name, following in list(zip(names, names[1:]))[::-1]:
        whole = f"layout.{name}_part xs ++ ({whole})" if following != last else f"layout.{name}_part xs ++ {whole}"
        public = "pub " if name == first else ""
        out += [f"{public}rejoined_{name} : (xs : List ℕ) → length xs ≡ layout.words → {whole} ≡ drop layout.{name}_at xs"]
        out += [f"rejoined_{name} xs l = ap (λ (m : List ℕ). layout.{name}_part xs ++ m) (rejoined_{following} xs l) ∙ joined layout.{name}_at layout.{name}_size xs", ""]
    return "\n".join(out)


def fits():
    """A station has room in every section, and its maps rise."""
    lines = []
    for name, kind, _ in SECTIONS:
        lines.append(f"  pub {name} : length g.{name} ≤ layout.{name}_places")
        if kind != "set":
            lines.append(f"  pub {name}_rise : Rising (keys g.{name})")
        if kind == "data":
            lines += [f"  pub {name}_short : all_short g.{name} ≡ true", f"  pub {name}_bytes : lists_under bytes_end (values g.{name}) ≡ true"]
    return lines


def holds(name, kind):
    law, more = {"set": ("section_holds", ""), "numbers": ("numbers_hold", f" v.{name}_rise"), "data": ("data_hold", f" v.{name}_rise v.{name}_short v.{name}_bytes")}[kind]
    return f"{law} layout.{name}_places g.{name} v.{name}{more}"


def kept_out():
    """What comes out of the sections that a station is packed into, and that they are well formed."""
    lines = ["module _ (g : Station) (v : Fits g) where"]
    for name, kind, _ in SECTIONS:
        lines += [f"  {name}_out : {READ[kind]} {lent(name).replace('xs', '(pack g)')} ≡ g.{name}"]
        lines += [f"  {name}_out = ap (λ (t : Sections). {READ[kind]} layout.{name}_places t.{name}) (packed_sections g) ∙ ({holds(name, kind)}).items", ""]
    lines += ["  sections_formed : WellFormed (sections (pack g))", "  sections_formed = subst WellFormed (sym (packed_sections g)) (record {"]
    return lines + [f"    {name} = ({holds(name, kind)}).valid;" for name, kind, _ in SECTIONS] + ["  })"]


# what `unpack_pack` says of the fields that numbers stand for, where it is not by computing
OUT = {
    "own_data": "(ap fields_in (own_words g.own_data v.own_data v.own_bytes) ∙ own_padded g.own_data v.own_data) i",
    "scheduled": "bool_back g.scheduled i",
    "refill": "limit_out g.refill i",
}


def unpack_pack():
    kinds = {name for name, _, _ in SECTIONS}
    lines = ["pub unpack_pack : (g : Station) → Fits g → unpack (pack g) ≡ g", "unfolding unpack station_of pack front own_at settings_at limit_at", "unpack_pack g v = λ i. record {"]
    return lines + [f"  {field} = {f'{field}_out g v i' if field in kinds else OUT.get(field, f'g.{field}')};" for field, _ in station()] + ["}"]


def peers(name, kind):
    return f"g.{name}" if kind == "set" else f"keys g.{name}"


def narrow():
    """The peers of a station that keeps the width rule, list by list in the order of `peer_lists`."""
    kinds = {name: kind for name, kind, _ in SECTIONS}
    order = [(field, argument(peers(field, kinds[field]))) for field, _ in station() if field in kinds]
    lines = ["record Narrow (g : Station) : Type 0 where", "  me : g.me < peers_end"]
    lines += [f"  {name} : all_under peers_end {of} ≡ true" for name, of in order]
    lines += ["", "narrow : (g : Station) → lists_under peers_end (peer_lists g) ≡ true → Narrow g", "unfolding lists_under all_under", "narrow g e =", "    let u : List ℕ → Bool = all_under peers_end in", "    let m = ltb g.me peers_end in", "    let e0 = and_right (m && true) _ e in"]
    lines += [f"    let e{i + 1} = and_right (u {of}) _ e{i} in" for i, (_, of) in enumerate(order[:-1])]
    lines += ["    record {", "      me = ltb-true g.me peers_end (and_left m true (and_left (m && true) _ e));"]
    return lines + [f"      {name} = and_left (u {of}) _ e{i};" for i, (name, of) in enumerate(order)] + ["    }"]


# the counter that bounds the numbers of a map
COUNTER = {"requests": "next_request", "joins": "next_join"}


def pack_fine():
    lines = ["  pack_fine : Fine (pack g)", "  unfolding pack", "  pack_fine =", "      let w = wide_of g k.width in", "      let n = narrow g w.peers in"]
    terms = ["front_fine"]
    for name, kind, _ in SECTIONS:
        places = f"layout.{name}_places"
        if kind == "set":
            terms.append(f"set_fine {places} g.{name} (omega arith) v.{name} n.{name}")
        elif kind == "numbers":
            counter = COUNTER[name]
            terms.append(f"numbers_fine {places} g.{counter} g.{name} (omega arith) v.{name} n.{name} (omega (arith, w.{counter})) {name}_under")
        else:
            terms.append(f"data_fine g.{name} v.{name} n.{name} v.{name}_short v.{name}_bytes")
    lines += [f"      {'(' if i else ''}both_fine _ _ ({term})" if term != "front_fine" else "      both_fine _ _ front_fine" for i, term in enumerate(terms[:-1])]
    return lines + [f"      ({terms[-1]})" + ")" * (len(terms) - 2)]


def zero_fits():
    lines = []
    for name, kind, _ in SECTIONS:
        lines.append(f"  {name} = omega arith;")
        if kind != "set":
            lines.append(f"  {name}_rise = tt;")
        if kind == "data":
            lines += [f"  {name}_short = refl;", f"  {name}_bytes = refl;"]
    return lines


def sections_back():
    terms = ["front_back xs v i"]
    for name, kind, _ in SECTIONS:
        more = f" (small_part layout.{name}_at layout.{name}_size xs (small xs v))" if kind == "data" else ""
        terms.append(f"sym ({BACK[kind]} layout.{name}_places _ v.sections.{name}{more}) i")
    lines = ["pub shape_back : (xs : List ℕ) → Shape xs → pack (unpack xs) ≡ xs", "unfolding pack unpack station_of", "shape_back xs v ="]
    lines += ["    (λ i."] + nested(terms, "++") 
    lines[-1] += ")"
    return lines + [f"    ∙ ap (λ (l : List ℕ). take layout.numbers_end xs ++ l) (rejoined_{SECTIONS[0][0]} xs v.size)", "    ∙ take-append-drop layout.numbers_end xs"]


def none_packed():
    none = [f"{STORE[kind]} layout.{name}_places []" for name, kind, _ in SECTIONS]
    lines = ["none_packed : pad {A = ℕ} 0 (layout.words - layout.numbers_end) [] ≡"] + nested(none, "++")
    return lines + ["unfolding section numbers_section data_section pad keys values", "none_packed = refl"]


def peers_under():
    kinds = {name: kind for name, kind, _ in SECTIONS}
    law = {"set": "set_under words_end {} (within _ _)", "numbers": "numbers_under words_end {} v.sections.{} (within _ _)", "data": "data_under words_end {} v.sections.{} (within _ _)"}
    lines = [f"    (both_true _ _ ({law[kinds[field]].format(lent(field), field)})" for field, _ in station() if field in kinds]
    return lines + ["    refl" + ")" * len(lines)]


# ---- the invariant of a station: a law for each part that changes

INVARIANT = "crates/spec_hyparview/specs/Invariant.antt"


def laws():
    """Of the record `Law`, whose parameters are the parts of a station: one law for each field, that another value of its parts keeps the others."""
    found = re.search(r"pub record Law ((?:\([^()]*(?:\([^()]*\)[^()]*)*\) )+): Type 0 where\n((?:  .*\n)+)", tool.read(tool.ROOT / INVARIANT))
    if not found:
        tool.fail(f"{INVARIANT}: no record Law")
    groups = re.findall(r"\(([^:()]+) : ((?:[^()]|\([^()]*\))*)\)", found.group(1))
    kinds = {name: kind for names, kind in groups for name in names.split()}
    fields = re.findall(r"^  pub (\S+)_ok : (.*)$", found.group(2), re.M)
    given = " ".join(f"{{{names} : {kind}}}" for names, kind in groups)
    lines = [f"module _ {given}", f"    (h : Law {' '.join(kinds)}) where"]
    for field, fact in fields:
        changed = [word for word in fact.split()[1:] if word not in ("me", "top", "cap")]
        new = dict(zip(changed, "vn"))
        values = " ".join(f"{{{letter} : {kinds[word]}}}" for word, letter in new.items())
        asked = " ".join(new.get(word, word) for word in fact.split())
        lines += [f"  pub law_{field} : {values} → {asked} → Law {' '.join(new.get(word, word) for word in kinds)}", f"  law_{field} x = record {{"]
        lines += [f"    {other}_ok = {'x' if other == field else f'h.{other}_ok'};" for other, _ in fields] + ["  }", ""]
    return lines[:-1]


# ---- the setters

STATION = "crates/spec_hyparview/specs/Station.antt"

# the fields that no step changes
KEPT = ["me", "config"]

SETTERS_HEAD = """-- The station with one field changed, for each field but `me` and `config`, which stay as `new` was given them. Written by tools/make/layout.py.
-- Assumes nothing.
use Rattle.std.specs.Prelude.{ℕ, Bool, List}
use Rattle.base_peer.specs.Data.{Data}
use Rattle.spec_hyparview.specs.Station.{Refill, Station}
"""


def setters():
    """A setter for each field of the definition's station."""
    of, out = station(), [SETTERS_HEAD]
    for field, kind in of:
        if field not in KEPT:
            lines = "".join(f"  {f} = {'v' if f == field else f's.{f}'};\n" for f, _ in of)
            out.append(f"abbrev pub set_{field} : {kind} → Station → Station\nset_{field} v s = record {{\n{lines}}}\n")
    return "\n".join(out)


# ---- the trace's line: the label of each field, and its number or section; the limit on refills has its own form

TRACE = [
    ("active", "active"),
    ("passive", "passive"),
    ("bootstrap", "bootstrap"),
    ("recent", "recent"),
    ("requests", "requests"),
    ("next_request", "next_neighbor_request"),
    ("joins", "joins"),
    ("next_join", "next_join"),
    ("data", "peer_data"),
    ("alive", "alive"),
    ("refused", "refused"),
    ("refill", None),
    ("timers", "timers_scheduled"),
    ("interval", "next_shuffle_interval"),
    ("alone", "passes_alone"),
    ("short", "passes_short"),
    ("pins", "pins"),
]
TRACE_KINDS = {name: kind for name, kind, _ in SECTIONS}
TRACED = [name for _, name in TRACE if name]


def trace_label(label, name):
    return f" {label}=[" if name in TRACE_KINDS else f" {label}="


def trace_mark(name):
    """What stands for a field in the line of the code: how many columns it has, or the letter of the limit."""
    return "L" if name is None else f"{COLUMNS[TRACE_KINDS[name]]}]" if name in TRACE_KINDS else "0"


def trace_rest(i):
    """The line of the code from field i on."""
    return "".join(trace_label(label, name) + trace_mark(name) for label, name in TRACE[i:]) + "\\n"


def trace_code():
    line = "state me=O" + trace_rest(0)
    lines = [f"const STATE_LINE: [u8; {len(line) - 1}] =", f'    *b"{line}";', "", "// Where the words of each field begin.", f"const FIELD_PLACES: [usize; {len(TRACED)}] = ["]
    lines += [f"    Layout::{name.upper().replace('-', '_')}," for name in TRACED]
    lines += ["];", "", "// How many items each has room for.", f"const FIELD_ROOMS: [usize; {len(TRACED)}] = ["]
    return lines + [f"    Layout::{name.upper().replace('-', '_')}_PLACES," if name in TRACE_KINDS else "    1," for name in TRACED] + ["];"]


TRACE_ITEM = {"set": "decimal", "numbers": "numbered_text", "data": "held_text"}


def trace_field(label, name):
    if name is None:
        return "refill_field (limit_at xs)"
    if name not in TRACE_KINDS:
        return f'number_field (ascii "{trace_label(label, name)}") (layout.{name} xs)'
    kind = TRACE_KINDS[name]
    return f'list_field (ascii "{trace_label(label, name)}") {TRACE_ITEM[kind]} ({READ[kind]} {lent(name)})'


def trace_spec():
    lines = ["unfoldable pub fields_text : List ℕ → List ℕ", "fields_text xs ="]
    return lines + nested([trace_field(label, name) for label, name in TRACE] + ['ascii "\\n"'], "++")


def trace_constants():
    places = [f"layout.{name}_at" for name in TRACED]
    rooms = [f"layout.{name}_places" if name in TRACE_KINDS else "1" for name in TRACED]
    line = "state me=O" + trace_rest(0)
    return [
        "unfoldable pub line : List ℕ",
        f'line = ascii "{line}"',
        "",
        "abbrev pub line_size : ℕ",
        f"line_size = {len(line) - 1}",
        "",
        "abbrev pub fields : ℕ",
        f"fields = {len(TRACED)}",
        "",
        "unfoldable pub places : List ℕ",
        f"places = {' ∷ '.join(places)} ∷ []",
        "",
        "unfoldable pub rooms : List ℕ",
        f"rooms = {' ∷ '.join(rooms)} ∷ []",
    ]


def trace_laws():
    """From each field on the line of the code says what the definition's line does."""
    law = {"set": "peers_line", "numbers": "numbers_line", "data": "data_line"}
    lines = ["module _ (xs : List ℕ) where", "  abbrev end_text : List ℕ", '  end_text = ascii "\\n"', ""]
    names = [label for label, _ in TRACE]
    following = dict(zip(names, names[1:] + ["end"]))
    for (label, name), own in list(zip(TRACE, names))[::-1]:
        lines += [f"  abbrev {own}_text : List ℕ", f"  {own}_text = {trace_field(label, name)} ++ {following[own]}_text", ""]
    lines += [f"  from_end : line_text (ascii \"\\n\") {len(TRACED)} xs ≡ end_text", "  unfolding line_text byte_text after digit choose ascii", "  from_end = refl", ""]
    k = len(TRACED)
    for i in range(len(TRACE) - 1, -1, -1):
        (label, name), own = TRACE[i], names[i]
        rest, then = f'(ascii "{trace_rest(i + 1)}")', f"ap (λ (z : List ℕ). {trace_field(label, name)} ++ z) from_{following[own]}"
        if name is not None:
            k -= 1
        lines += [f'  from_{own} : line_text (ascii "{trace_rest(i)}") {k} xs ≡ {own}_text', "  unfolding line_text byte_text after digit choose ascii places rooms"]
        if name is None:
            lines += [f"  from_{own} = limit_line xs {rest} {k} ∙ {then}", ""]
        else:
            of, room = (law[TRACE_KINDS[name]], f"layout.{name}_places") if name in TRACE_KINDS else ("number_line", "1")
            lines += [f'  from_{own} = {of} xs (ascii "{trace_label(label, name)}") {rest} {k} layout.{name}_at {room} (λ q. refl) refl refl ∙ {then}', ""]
    return lines + [f"  fields_line : line_text (ascii \"{trace_rest(0)}\") 0 xs ≡ fields_text xs", "  unfolding fields_text", f"  fields_line = from_{names[0]}"]


# ---- the header, tests and tools


def header():
    defines = [f"#define HYPARVIEW_WORD_{name} {at}" for name, at in constants()]
    return defines + [f'HYPARVIEW_ASSERT(HYPARVIEW_WORDS == {defines[-1].split()[1]}, "the words");']


HISTORIES = "tests/histories.rs"


def short(name):
    """The name of a section where the state's data is nothing but the peers'."""
    return name.removeprefix("peer_")


def histories():
    """What tests/histories.rs names of the layout, since Rust allows no constant that nothing names."""
    outside = re.sub(r"// The places, by tools/make/layout.py\n.*?// end\n", "", tool.read(tool.ROOT / HISTORIES), flags=re.S)
    named = set(re.findall(r"\b[A-Z][A-Z_]*\b", outside))
    lines = []
    for name, _, cap, at, size in places():
        lines.append((name.upper(), "Section", f"Section({at}, {cap}, {at + size - 1})"))
    lines += [(name.upper(), "usize", i) for i, name in enumerate(NUMBERS)]
    return [f"const {name}: {kind} = {value};" for name, kind, value in lines if name in named]


def damaged():
    lines = [f"WORDS = {length()}"] + [f"{name.upper().replace('-', '_')} = {i}" for i, name in enumerate(NUMBERS)]
    sections = [f'    "{short(name)}": ({at}, {cap}, {COLUMNS[kind]}),' for name, kind, cap, at, _ in places()]
    return lines + ["# The first word, the places and the columns of each section.", "SECTIONS = {"] + sections + ["}"]


def oracle_sections():
    rows = {"set": "&set(&parts.{})", "numbers": "&map(&parts.{})", "data": "&data(&parts.{})?"}
    return [f"    words.extend(section({cap}, {rows[kind].format(short(name))})?);" for name, kind, cap in SECTIONS]


def main():
    if sys.argv[1:] not in (["make"], ["check"]):
        tool.usage(__doc__)
    state, rules, spec, where = "crates/hyparview_state/", "crates/hyparview_rules/", "crates/spec_hyparview/", "The places"
    made = {
        spec + "specs/Setters.antt": setters(),
        spec + "proofs/Law.antt": between(spec + "proofs/Law.antt", SPEC, ("one part changed", laws())),
        state + "src/lib.rt": between(state + "src/lib.rt", CODE, (where, code())),
        state + "specs/Layout.antt": layout(),
        state + "specs/Unpack.antt": between(state + "specs/Unpack.antt", SPEC, ("the settings", settings()), ("the station of the numbers n and the sections s", station_of())),
        state + "proofs/Access.antt": between(state + "proofs/Access.antt", SPEC, ("the sections", access())),
        state + "proofs/Cuts.antt": between(state + "proofs/Cuts.antt", SPEC, ("the sections as a list", cuts())),
        state + "proofs/Fields.antt": fields(),
        rules + "src/lib.rt": between(rules + "src/lib.rt", CODE, ("Whether every set and map is well formed", sections_valid())),
        rules + "specs/Ok.antt": between(rules + "specs/Ok.antt", SPEC, ("every set and map is well formed, its count within its places, and zeroes past it", sections_ok())),
        rules + "specs/Pack.antt": between(rules + "specs/Pack.antt", SPEC, ("the numbers before the sections", front()), ("the words that stand for g", pack())),
        rules + "proofs/Shape.antt": between(rules + "proofs/Shape.antt", SPEC, ("the test of the sections, both ways", shape()), ("for `search (of_ok, needs)`", known())),
        rules + "proofs/Under.antt": between(rules + "proofs/Under.antt", SPEC, ("the tests of the sections one after another, as the code has them", tests_are())),
        rules + "proofs/sections_valid/Answers.antt": sections_valid_proof(),
        rules + "proofs/Parts.antt": parts(),
        rules + "proofs/Fitting.antt": between(
            rules + "proofs/Fitting.antt",
            SPEC,
            ("room in every section, and maps that rise", fits()),
            ("the sections come out again, and are well formed", kept_out()),
            ("a station comes out of the words that it is packed into", unpack_pack()),
            ("the peers, list by list", narrow()),
            ("every word of it has 64 bits", pack_fine()),
            ("no section has an item", zero_fits()),
        ),
        rules + "proofs/Back.antt": between(rules + "proofs/Back.antt", SPEC, ("the numbers and the sections, packed again", sections_back())),
        rules + "proofs/Widths.antt": between(rules + "proofs/Widths.antt", SPEC, ("list by list", peers_under())),
        "crates/hyparview/proofs/Making.antt": between("crates/hyparview/proofs/Making.antt", SPEC, ("the sections of a new station are zeroes", none_packed())),
        "include/hyparview.h": between("include/hyparview.h", C, ("The words of a state", [f"#define HYPARVIEW_WORDS {length()} /* uint64_t state[HYPARVIEW_WORDS], {8 * length():,} bytes */"]), (where, header())),
    }
    trace = "crates/trace_text/"
    made[trace + "src/lib.rt"] = between(trace + "src/lib.rt", CODE, ("The line and its fields", trace_code()))
    made[trace + "specs/Event.antt"] = between(trace + "specs/Event.antt", SPEC, ("the fields of the words xs; of each list no more than it has places", trace_spec()))
    made[trace + "proofs/Line.antt"] = between(trace + "proofs/Line.antt", SPEC, ("the constants of the code", trace_constants()), ("from each field on", trace_laws()))
    made[HISTORIES] = between(HISTORIES, CODE, (where, histories()))
    made["tools/gate/damaged.py"] = between("tools/gate/damaged.py", PYTHON, (where, damaged()))
    made["oracle/src/words.rs"] = between("oracle/src/words.rs", CODE, ("The words of a state", [f"pub const WORDS: usize = {length()};"]), ("The sections", oracle_sections()))
    made["examples/rust/hyparview.rs"] = between("examples/rust/hyparview.rs", CODE, ("The words of a state", [f"pub const WORDS: usize = {length()};"]))
    tool.made({name: text.encode() for name, text in made.items()}, sys.argv[1])


tool.main(main)
