"""A copy of the definition outside the repository, beside which the checker evaluates equations."""
import pathlib
import re
import shutil
import subprocess

import tool

from . import equations

ROOT = tool.ROOT
CRATE = "spec_hyparview"
# The crates that the definition stands in, each with the modules that are left as they speak of code.
DEFINITION = {CRATE: [], "work": ["Work"]}
ERROR = re.compile(r"\.antt\S* error: ")
REFUSED = re.compile(r"/Equations\.antt:\d+:\d+: error: `h(\d+)(new|zeroes|[ef]\d+)`")


class Failure(Exception):
    """The checker refused something that is no equation."""


def needed(crate, lines):
    """The lines of crates.txt for a crate and those that it stands on, lowest first."""
    found = {}
    for line in lines:
        name, _, deps = line.split("#")[0].partition(":")
        if name.strip():
            found[name.split()[0]] = deps.split()
    order = []

    def visit(name):
        for dep in found[name]:
            visit(dep)
        if name not in order:
            order.append(name)

    visit(crate)
    return {name: found[name] for name in order}


class Checker:
    """A copy of the definition; its code and proofs are left, as nothing here rests on them."""

    def __init__(self, folder):
        self.folder = pathlib.Path(folder).resolve()
        if ROOT == self.folder or ROOT in self.folder.parents:
            tool.fail("--folder must stand outside the repository")
        crates = needed(CRATE, (ROOT / "crates.txt").read_text().splitlines())
        for name in crates:
            source, target = ROOT / "crates" / name, self.folder / "crates" / name
            shutil.rmtree(target, ignore_errors=True)
            for part in ("specs",) if name in DEFINITION else ("src", "specs", "proofs"):
                if (source / part).is_dir():
                    shutil.copytree(source / part, target / part)
        lines = [" ".join([f"{name}:", *deps]) + "\n" for name, deps in crates.items()]
        (self.folder / "crates.txt").write_text("".join(lines))
        for name, left in DEFINITION.items():
            self.leave(self.folder / "crates" / name, left)
        self.definition = self.folder / "crates" / CRATE / "specs"
        with (self.definition / "Lib.antt").open("a") as modules:
            modules.write("pub mod Equations\n")

    def leave(self, crate, modules):
        """The copy of a crate without code and without these modules."""
        (crate / "src").mkdir()
        (crate / "src/lib.rt").write_text("// No code.\n#![tactic(auto)]\n")
        lib = crate / "specs/Lib.antt"
        for module in modules:
            (crate / "specs" / f"{module}.antt").unlink()
            lib.write_text(lib.read_text().replace(f"pub mod {module}\n", ""))

    def files(self, name):
        """The copies of a file of the definition: of the station first, then of what it stands on."""
        found = [self.folder / "crates" / crate / "specs" / name for crate in DEFINITION]
        return [path for path in found if path.is_file()]

    def evaluate(self, text):
        """The refused equations of a module, as pairs of the history's number and the rest of the name."""
        (self.definition / "Equations.antt").write_text(equations.USES + text, encoding="utf-8")
        run = subprocess.run(["rt", "check", "--jobs", "1"], cwd=self.folder / "crates" / CRATE, capture_output=True, text=True)
        said = run.stdout + run.stderr
        refused = [(int(number), rest) for number, rest in REFUSED.findall(said)]
        if len(ERROR.findall(said)) != len(refused) or (run.returncode != 0) != bool(refused):
            raise Failure(said)
        return refused
