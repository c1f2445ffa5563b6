"""What the tools have in common: help on standard output, and one clear line on standard error where something is wrong."""
import argparse
import os
import subprocess
import sys
from pathlib import Path

ROOT = Path(__file__).resolve().parent.parent
ORACLE = ROOT / "oracle" / "target" / "release" / "oracle"


def fail(text):
    """Ends the tool with one line and status 1."""
    sys.exit(f"{Path(sys.argv[0]).name}: {' '.join(str(text).splitlines())}")


def main(entry):
    """Runs a tool: what the system refuses it, and text that is none, is one line too."""
    try:
        try:
            status = entry()
        finally:
            print(end="", flush=True)
    except (OSError, UnicodeError) as wrong:
        silence()
        closed = isinstance(wrong, BrokenPipeError)
        fail("standard output was closed before the end" if closed else f"{named(wrong)}: {reason(wrong)}")
    except KeyboardInterrupt:
        silence()
        fail("interrupted")
    sys.exit(status)


def silence():
    """What is not written yet is never written: Python tries again at its end."""
    os.dup2(os.open(os.devnull, os.O_WRONLY), 1)


def misused(what):
    """Ends the tool where its words are not understood."""
    fail(f"{what}; tools/{Path(sys.argv[0]).name} --help tells the usage")


def usage(text):
    """Ends the tool with its help on standard output where that was asked for, otherwise with one line."""
    if {"-h", "--help"} & set(sys.argv[1:]):
        print(text.strip())
        sys.exit(0)
    words = " ".join(sys.argv[1:])
    misused(f"not understood: {words}" if words else "words are missing")


class Words(argparse.ArgumentParser):
    """The words of a tool that has many: its text is the help, and an error is one line."""

    def __init__(self, text):
        super().__init__(description=text, formatter_class=argparse.RawDescriptionHelpFormatter)

    def error(self, message):
        misused(message)


def reason(wrong):
    if isinstance(wrong, UnicodeError):
        return "no text in UTF-8"
    return (wrong.strerror or str(wrong)).lower() if isinstance(wrong, OSError) else str(wrong)


def named(wrong):
    """What an error of the system is about."""
    return getattr(wrong, "filename", None) or ("input" if isinstance(wrong, UnicodeError) else "output")


def read(path=None):
    """A file's text, or that of standard input."""
    try:
        if path is not None:
            return Path(path).read_text(encoding="utf-8")
        sys.stdin.reconfigure(encoding="utf-8", errors="strict")
        return sys.stdin.read()
    except (OSError, UnicodeError) as wrong:
        fail(f"{path if path is not None else 'standard input'}: {reason(wrong)}")


def crates():
    """Each crate of crates.txt, and the last heading above it."""
    heading = ""
    for line in read(ROOT / "crates.txt").splitlines():
        if line.startswith("# "):
            heading = line[2:]
        elif ":" in line:
            yield line.split(":")[0].split()[0], heading


def program(name):
    """Where `rt run` in a program's crate, and `rt ci`, leave it."""
    return ROOT / "crates" / name / "out" / name


def first(name):
    """What is to be done where it is not there."""
    return f"; run `rt run` in crates/{name} first"


def is_number(word):
    """Whether a word is a whole number of at most 20 digits, as every number of 64 bits is."""
    return word.isascii() and word.isdigit() and len(word) <= 20


def shown(text):
    """The beginning of a foreign line, printable."""
    return ascii(text if len(text) <= 60 else text[:60] + "..")


def run(command, **given):
    """What a program writes to standard output, as bytes. What it says on standard error stands behind the line where it fails."""
    try:
        done = subprocess.run(command, stdout=subprocess.PIPE, **{"stderr": subprocess.PIPE, **given})
    except OSError as wrong:
        name = Path(command[0]).name
        fail(f"{command[0]}: {reason(wrong)}{first(name) if Path(command[0]) == program(name) else ''}")
    said = (done.stderr or b"").decode(errors="replace").strip()
    if done.returncode != 0:
        fail(f"{command[0]} ended with status {done.returncode}" + (f": {' / '.join(said.splitlines())}" if said else ""))
    if said:
        print(said, file=sys.stderr)
    return done.stdout


def papers():
    """The folder of the Rust, or the line that says why there is none."""
    done = subprocess.run([ROOT / "tools/study/papers"], capture_output=True, text=True)
    if done.returncode != 0:
        fail(done.stderr.strip().removeprefix("papers: "))
    return done.stdout.strip()


def oracle(*words, **given):
    """What the oracle writes."""
    if not ORACLE.exists():
        fail("the oracle is not built: run tools/study/differential first")
    return run([ORACLE, *map(str, words)], **given)


def options(words, names):
    """The options that stand as `--name value`, of these names."""
    found = dict(zip(words[::2], words[1::2]))
    if len(words) % 2 or not set(found) <= set(names):
        fail(f"options are {' '.join(names)}, each with a value")
    return found


def number(found, name, usual):
    """The whole number of an option, or the usual one."""
    text = found.get(name, str(usual))
    if not is_number(text):
        fail(f"{name} takes a whole number, not {shown(text)}")
    return int(text)


def differs(name, expected, written):
    """Ends the tool with the first line where a text is another than the one expected."""
    pairs = zip(expected.split("\n") + ["(end)"], written.split("\n") + ["(end)"])
    left, right = next(pair for pair in pairs if pair[0] != pair[1])
    print(f"expected: {left}\nwritten:  {right}")
    fail(f"{name} differs")


def made(files, mode):
    """Writes the files, whose content is given by name, or with `check` fails where one is another."""
    if mode == "make":
        for name, content in files.items():
            (ROOT / name).write_bytes(content)
        return
    old = [name for name, content in files.items() if not (ROOT / name).is_file() or (ROOT / name).read_bytes() != content]
    if old:
        fail(f"not what `make` writes: {' '.join(old)}")


def sample(text, files, compare, names):
    """A sample's tool, whose help is the text: `make` or `check` of its files, or `compare` with options of these names, `--` and a command."""

    def entry():
        mode, rest = sys.argv[1:2], sys.argv[2:]
        if mode in (["make"], ["check"]) and not rest:
            made(files(), mode[0])
        elif mode == ["compare"] and "--" in rest[:-1]:
            split = rest.index("--")
            compare(options(rest[:split], names), rest[split + 1 :])
        else:
            usage(text)

    main(entry)
