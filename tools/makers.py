"""The two ways in which a crate is proved and built.

A crate above a library reads all that the library holds, and each job of its proof reads it anew. The statements are enough for that, and
are a small part of it. So what the program rests on is built by the kit's compiler itself, with the statements alone. `rt` makes such
libraries too, but only within `rt ci` and `rt verdict`, and keeps none. What `rt check` works on has to be built by `rt lib`, with the
proofs, over what earlier checks kept, which the compiler takes for no library of statements. Neither way reads the other's libraries.
"""
import os
import pathlib
import shutil
import subprocess

from workplace import Workplace


def kit_folder():
    return pathlib.Path(os.path.realpath(shutil.which("rattle"))).parent.parent


def inputs_of(crates, kit, name, library_of):
    """The words by which the compiler is given a crate, in whose folder it runs, and the libraries below."""
    used = crates.uses[name]
    words = ["--crate-name", name, "src/main.rt" if crates.is_program(name) else "src/lib.rt"]
    for it in ["std", *(it for it in used if it not in crates)]:
        words += ["--extern", f"{it}={kit}/rlibs/{it}.rlib"]
    for it in used:
        if it in crates:
            words += ["--extern", f"{it}={library_of(it)}"]
    for folder in dict.fromkeys([kit / "rlibs", *(library_of(it).parent for it in crates.below(name))]):
        words += ["-L", f"dependency={folder}"]
    return [*words, "--antt-project", f"{kit}/rattle/logic/antt-project.json", "--logic-built", f"{kit}/logic_built"]


def check_words(crates, name, library_of):
    """The words that check a copy of a crate, by one job."""
    kit = kit_folder()
    return [f"{kit}/bin/rattle", "check", *inputs_of(crates, kit, name, library_of), "--jobs", "1"]


class Compiler:
    """Proves and builds a crate in its folder, by `rattle`, over the statements of those below it."""

    RECORD = "proved"

    def __init__(self, crates):
        self.crates, self.kit = crates, kit_folder()

    def made(self, name):
        """What is made of a crate: the program, or the folder of the library."""
        out = self.crates.folder(name) / "out"
        return out / name if self.crates.is_program(name) else out / f"statements/{name}.rlib"

    def told_of(self, name):
        """The file that tells what was made: the program itself, or the library's list of its parts and of their sums."""
        return self.made(name) if self.crates.is_program(name) else self.made(name) / "toolchain/made.json"

    def begin(self, name, jobs, _scratch):
        """Where a crate is proved, with this many jobs, and built, and by which words."""
        made = self.made(name)
        made.parent.mkdir(parents=True, exist_ok=True)
        words = [f"{self.kit}/bin/rattle", "build", *inputs_of(self.crates, self.kit, name, self.made)]
        words += ["--links", f"{name}=", "--jobs", str(jobs)]
        if self.crates.is_program(name):
            return self.crates.folder(name), [*words, "--toolchain", f"{self.kit}/toolchain", "--backend", "llvm", "-o", f"{made}.o"]
        return self.crates.folder(name), [*words, "--statements", "-o", str(made)]

    def end(self, name, status):
        """Links the program. Returns the status of the whole."""
        if status or not self.crates.is_program(name):
            return status
        words = [f"{self.kit}/bin/rattle-link", "--target", "x86_64-unknown-linux-gnu", "--toolchain", f"{self.kit}/toolchain"]
        words += ["-o", self.made(name), f"{self.made(name)}.o", *(f"{self.kit}/c/{it}" for it in ("libos_c.a", "liblibc_c.a"))]
        return subprocess.run(words, check=False).returncode


class Rt:
    """Proves and builds a crate by `rt`, in a workplace of its own, over the proofs of those below it."""

    RECORD = "proved_by_rt"

    def __init__(self, crates):
        self.crates, self.places = crates, {}

    def told_of(self, name):
        """The file that tells what was made: the program itself, or the stamp of `rt`."""
        return self.crates.folder(name) / "out" / (name if self.crates.is_program(name) else "rlib/stamp")

    def begin(self, name, jobs, scratch):
        """Where a crate is proved, with this many jobs, and built, and by which words."""
        place = self.places[name] = Workplace(self.crates, scratch, name, keeps=True)
        words = ["run", "--jobs", str(jobs), "--", "start", "0"] if self.crates.is_program(name) else ["lib", "--jobs", str(jobs)]
        return place.own, ["rt", *words]

    def end(self, name, status):
        """Puts what the proof left in its place. Returns its status."""
        self.places.pop(name).put_back()
        return status
