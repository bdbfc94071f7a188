"""The crates of a program: what is proved of them already, and the checker's proof of one."""
import hashlib
import os
import re
import shutil
import subprocess
import tarfile
import tempfile
import time
from pathlib import Path


def kit_says(word):
    return subprocess.run(["rt", word], stdin=subprocess.DEVNULL, stdout=subprocess.PIPE, text=True, check=True).stdout.strip()


TOP = Path(__file__).resolve().parent.parent
KIT = Path(kit_says("doc")).parent
KIT_ID = kit_says("version")
PARTS = ("src", "specs", "proofs")
ERROR = re.compile(r"\berror\b|not proved|no proof")


def digest_of(*parts):
    return hashlib.sha256(repr(parts).encode()).hexdigest()


class Crate:
    """The program or a library below it, as it stood when the run began.

    What was proved is kept in the crate's out/proved: the program, or the library's rlib, beside the stamp of all that it was made
    from. The rlib is packed into one file, since `rt verdict` and `rt all` stop at sources in a folder that isn't rt's own.
    """

    def __init__(self, name, line, uses, of_kit):
        self.name, self.line, self.uses, self.of_kit = name, line, uses, of_kit
        self.folder = TOP / "crates" / name
        self.is_program = (self.folder / "src/main.rt").exists()
        # (of the code alone, which tells what a proof takes better than its lemmas do)
        self.lines = sum(it.read_bytes().count(b"\n") for it in (self.folder / "src").rglob("*.rt"))
        self.sources = self.digest()
        self.stamp = digest_of(self.sources, *(it.stamp for it in uses))
        self.proved = self.folder / "out/proved" / (name if self.is_program else f"{name}.rlib.tar")
        self.stamped = self.proved.with_name("stamp")
        is_stamped = self.proved.exists() and self.stamped.exists() and self.stamped.read_text() == self.stamp
        self.is_kept = is_stamped and all(it.is_kept for it in uses)

    def files(self):
        return sorted(it for part in PARTS for it in (self.folder / part).rglob("*") if it.is_file())

    def digest(self):
        """The digest of the kit and of all that is the crate's own."""
        return digest_of(KIT_ID, self.line, [(str(it.relative_to(self.folder)), it.read_bytes()) for it in self.files()])

    def has_changed(self):
        try:
            return self.digest() != self.sources
        except OSError:
            return True

    def commands(self, room, jobs):
        """The commands that prove the crate over the libraries in the room, and put there what is made of it."""
        folders = {**dict.fromkeys(["std", *self.of_kit], f"{KIT}/rlibs"), **{it.name: room for it in self.uses}}
        words = [f"{KIT}/bin/rattle", "build", "--crate-name", self.name, "src/main.rt" if self.is_program else "src/lib.rt"]
        for name, folder in folders.items():
            words += ["--extern", f"{name}={folder}/{name}.rlib"]
        words += ["-L", f"dependency={KIT}/rlibs", "-L", f"dependency={room}"]
        words += ["--antt-project", f"{KIT}/rattle/logic/antt-project.json", "--logic-built", f"{KIT}/logic_built"]
        words += ["--links", f"{self.name}=", "--jobs", str(jobs)]
        if not self.is_program:
            return [[*words, "--statements", "-o", f"{room}/{self.name}.rlib"]]
        toolchain, made = ["--toolchain", f"{KIT}/toolchain"], f"{room}/{self.name}"
        link = [f"{KIT}/bin/rattle-link", "--target", "x86_64-unknown-linux-gnu", *toolchain, "-o", made, f"{made}.o"]
        return [[*words, *toolchain, "--backend", "rattle", "-o", f"{made}.o"], [*link, f"{KIT}/c/libos_c.a", f"{KIT}/c/liblibc_c.a"]]

    def forget(self):
        """Takes the stamp away; also from what stands on a library that is proved anew, since an rlib fits only those that it was made over."""
        self.stamped.unlink(missing_ok=True)

    def keep(self, room):
        """Keeps what was made in the room. The stamp comes last, so that what is broken off counts for nothing."""
        self.proved.parent.mkdir(parents=True, exist_ok=True)
        new = self.proved.with_name("new")
        if self.is_program:
            shutil.copy2(f"{room}/{self.name}", new)
        else:
            with tarfile.open(new, "w") as file:
                file.add(f"{room}/{self.name}.rlib", f"{self.name}.rlib")
        self.forget()
        os.replace(new, self.proved)
        self.stamped.write_text(self.stamp)

    def take(self, room):
        """Puts what is kept of the library into the room."""
        with tarfile.open(self.proved) as file:
            file.extractall(room)


def crates_below(program):
    """The program and the repository's libraries below it, each behind those that it uses."""
    rows, found = {}, {}
    for line in (TOP / "crates.txt").read_text().splitlines():
        head, colon, below = line.partition("#")[0].partition(":")
        if colon:
            rows[head.split()[0]] = (line, below.split())

    def add(name):
        if name not in found:
            line, below = rows[name]
            uses, of_kit = [add(it) for it in below if it in rows], [it for it in below if it not in rows]
            found[name] = Crate(name, line, uses, of_kit)
        return found[name]

    add(program)
    return [*found.values()]


def longest_first(crates):
    """The crates, those first that have the most lines of code in the longest chain of crates that wait for them, half of their own counted
    twice: a long proof that begins late is one that others wait for."""
    behind = dict.fromkeys(crates, 0)
    for crate in reversed(crates):
        behind[crate] += crate.lines
        for it in crate.uses:
            behind[it] = max(behind[it], behind[crate])
    return sorted(crates, key=lambda it: -behind[it] - it.lines / 2)


class Proof:
    """The proof of a crate; a program's build and its link belong to it."""

    def __init__(self, crate, jobs, room, group):
        self.crate, self.jobs, self.group, self.began = crate, jobs, group, time.monotonic()
        self.said, self.commands = tempfile.TemporaryFile(), crate.commands(room, jobs)
        self.begin()

    def begin(self):
        how = {"cwd": self.crate.folder, "stdin": subprocess.DEVNULL, "stdout": self.said, "stderr": subprocess.STDOUT}
        self.run = subprocess.Popen(self.commands.pop(0), preexec_fn=lambda: os.setpgid(0, self.group), **how)

    def status(self):
        """How it ended, or None while it runs."""
        status = self.run.poll()
        if status == 0 and self.commands:
            return self.begin()
        return status

    def errors(self):
        """What the checker said of errors, and the last of what it said."""
        self.said.seek(0)
        lines = self.said.read().decode(errors="replace").splitlines()
        return [*(it for it in lines[:-20] if ERROR.search(it)), *lines[-20:]]

    def memory(self):
        """The memory that it holds by now, in bytes, without that of copies which work at its further jobs."""
        try:
            return os.sysconf("SC_PAGE_SIZE") * int(Path(f"/proc/{self.run.pid}/statm").read_text().split()[1])
        except (OSError, IndexError):
            return 0
