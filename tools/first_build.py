#!/usr/bin/env python3
"""Proves and builds the program `hera`, as many crates at a time as there are processors.

    tools/first_build.py [PROCESS]

`rt` proves one crate at a time in a checkout, and what it builds for the next check keeps each proof, which a check of
the crates above then takes long to read. So this calls the compiler `rattle` as the gate does: a library holds what
other crates can cite, and no proof. The libraries lie in `out/rlib` of the program's crate, each beside a sum of all
that it is made from, so that a build goes on where an earlier one was stopped. They go once the program is built.

Of the crates that can be begun, the one comes first from which the longest way leads up to the program, counted in lines
of code; where fewer can be begun than there are processors, a crate is given several.

Meanwhile the program's crate is locked as `rt` locks it, so that a second build or a gate waits for this one, and this
one for them. Where standard error is a terminal, it shows how far the build is.

It ends with 0 where the program is built, and with 1 where a crate fails, with what `rattle` said of it, or where the
sources of a crate changed while it was proved. It ends, and the proofs with it, when a signal tells it to or when the
process that started it (number PROCESS) has ended.
"""

import fcntl
import hashlib
import os
import shutil
import signal
import subprocess
import sys
import tempfile
import time

TOP = os.path.dirname(os.path.dirname(os.path.abspath(__file__)))
CRATES = os.path.join(TOP, "crates")
PROGRAM = "hera_shell"
OUT = os.path.join(CRATES, PROGRAM, "out")
LIBRARIES = os.path.join(OUT, "rlib")
STARTED_BY = int(sys.argv[1]) if len(sys.argv) > 1 else os.getppid()


class Kit:
    """Where the toolchain's files are."""

    def __init__(self):
        command = shutil.which("rt")
        if not command:
            sys.exit("hera: the kit's command rt is not on the path")
        self.top = os.path.dirname(os.path.dirname(os.path.realpath(command)))
        self.rattle = self.path("bin", "rattle")

    def path(self, *names):
        return os.path.join(self.top, *names)

    def library(self, name):
        return ["--extern", f"{name}={self.path('rlibs', name)}.rlib"]

    def identity(self):
        with open(self.path("WHAT"), "rb") as text:
            return text.read()


class Crate:
    """A crate of this repository over the libraries that it names: crates of this repository, and libraries of the kit."""

    def __init__(self, name, crates, of_kit):
        self.name, self.crates, self.of_kit = name, crates, of_kit
        self.folder = os.path.join(CRATES, name)
        self.is_program = name == PROGRAM
        self.above = []
        for it in crates:
            it.above.append(self)
        self.files = self.read_files()

    def read_files(self):
        """What its sources hold, by their paths."""
        files = {}
        for part in ("src", "specs", "proofs"):
            for folder, _, names in os.walk(os.path.join(self.folder, part)):
                for path in (os.path.join(folder, name) for name in names):
                    with open(path, "rb") as source:
                        files[os.path.relpath(path, self.folder)] = source.read()
        return files

    def lines(self):
        """How many lines of code it has."""
        return sum(text.count(b"\n") for path, text in self.files.items() if path.endswith(".rt"))

    def way(self):
        """The lines of code on the longest way from it up to the program."""
        if not hasattr(self, "known_way"):
            self.known_way = self.lines() + max((it.way() for it in self.above), default=0)
        return self.known_way

    def sum(self, kit):
        """A sum of all that it is made from."""
        if not hasattr(self, "known_sum"):
            below = [(it.name, it.sum(kit)) for it in self.crates]
            parts = kit.identity(), sorted(self.files.items()), below, self.of_kit
            self.known_sum = hashlib.sha256(repr(parts).encode()).hexdigest()
        return self.known_sum

    def made(self):
        """The library, or the program, that is made of it."""
        if self.is_program:
            return os.path.join(OUT, self.name)
        return os.path.join(LIBRARIES, f"{self.name}.rlib")

    def sum_file(self):
        return os.path.join(LIBRARIES, f"{self.name}.sum")

    def is_built(self, kit):
        """Whether what is made of it is there, of what it is made from now."""
        try:
            with open(self.sum_file()) as text:
                return text.read() == self.sum(kit) and os.path.exists(self.made())
        except FileNotFoundError:
            return False

    def command(self, kit, jobs):
        """The words that prove and build it."""
        words = [kit.rattle, "build", "--crate-name", self.name]
        words += ["src/main.rt" if self.is_program else "src/lib.rt"]
        for name in self.of_kit:
            words += kit.library(name)
        for it in self.crates:
            words += ["--extern", f"{it.name}={it.made()}"]
        words += ["-L", f"dependency={kit.path('rlibs')}", "-L", f"dependency={LIBRARIES}"]
        words += ["--antt-project", kit.path("rattle", "logic", "antt-project.json")]
        words += ["--logic-built", kit.path("logic_built"), "--links", f"{self.name}="]
        words += ["--jobs", str(jobs)]
        if self.is_program:
            return words + ["--toolchain", kit.path("toolchain"), "-o", f"{self.made()}.o"]
        return words + ["--statements", "-o", self.made()]

    def link(self, kit, log):
        """Makes the program of what was compiled. Whether that worked."""
        words = [kit.path("bin", "rattle-link"), "--target", "x86_64-unknown-linux-gnu"]
        words += ["--toolchain", kit.path("toolchain"), "-o", f"{self.made()}.new", f"{self.made()}.o"]
        words += [kit.path("c", "libos_c.a"), kit.path("c", "liblibc_c.a")]
        if subprocess.run(words, stdout=log, stderr=subprocess.STDOUT).returncode:
            return False
        os.replace(f"{self.made()}.new", self.made())
        return True


def crates_below(program):
    """The crates on which the program stands, by crates.txt, and its own."""
    uses = {}
    with open(os.path.join(TOP, "crates.txt")) as lines:
        for line in lines:
            name, colon, rest = line.partition("#")[0].partition(":")
            if colon:
                uses[name.split()[0]] = rest.split()
    found = {}

    def find(name):
        if name not in found:
            crates = [find(it) for it in uses[name] if it in uses]
            of_kit = dict.fromkeys(["std", *(it for it in uses[name] if it not in uses)])
            found[name] = Crate(name, crates, list(of_kit))
        return found[name]

    find(program)
    return list(found.values())


class Proof:
    """The proof and the building of one crate, at work."""

    def __init__(self, crate, kit, jobs):
        self.crate, self.kit, self.jobs = crate, kit, jobs
        self.log = tempfile.TemporaryFile("w+", errors="replace")
        self.process = subprocess.Popen(
            crate.command(kit, jobs),
            cwd=crate.folder,
            stdin=subprocess.DEVNULL,
            stdout=self.log,
            stderr=subprocess.STDOUT,
            start_new_session=True,
        )

    def has_ended(self):
        return self.process.poll() is not None

    def was_killed(self):
        """Whether something killed it, as a system does that is short of memory."""
        return self.process.returncode == -signal.SIGKILL

    def stop(self):
        """Ends it with all processes that it started."""
        if not self.has_ended():
            os.killpg(self.process.pid, signal.SIGTERM)

    def finish(self):
        """Notes what the crate was made from. None, or what was said where it failed, or that its sources changed meanwhile."""
        crate = self.crate
        if crate.read_files() != crate.files:
            return f"{crate.name}: its sources changed while it was proved"
        if self.process.returncode == 0 and (not crate.is_program or crate.link(self.kit, self.log)):
            with open(crate.sum_file(), "w") as text:
                text.write(crate.sum(self.kit))
            return None
        self.log.seek(0)
        return f"{crate.name}:\n{self.log.read()}"


class Build:
    """The crates that are built, at work, or to be begun."""

    def __init__(self, crates, kit, processors):
        self.kit, self.processors = kit, processors
        self.built = [it for it in crates if it.is_built(kit)]
        self.left = [it for it in crates if it not in self.built]
        self.at_work = []

    def begin_some(self):
        """Gives the free processors to crates that can be begun."""
        ready = [it for it in self.left if all(below in self.built for below in it.crates)]
        ready.sort(key=lambda it: -it.way())
        free = self.processors - sum(it.jobs for it in self.at_work)
        while ready and free > 0:
            crate = ready.pop(0)
            jobs = max(1, min(4, free - len(ready)))
            self.left.remove(crate)
            self.at_work.append(Proof(crate, self.kit, jobs))
            free -= jobs

    def end_some(self):
        """Takes the crates whose proofs have ended. None, or what was said of one that failed."""
        for proof in [it for it in self.at_work if it.has_ended()]:
            self.at_work.remove(proof)
            if proof.was_killed() and proof.jobs > 1:
                self.at_work.append(Proof(proof.crate, self.kit, 1))
                continue
            failed = proof.finish()
            if failed:
                return failed
            self.built.append(proof.crate)
        return None

    def run(self, progress):
        """Proves and builds all crates. None, or what was said of one that failed."""
        failed = None
        try:
            while not failed and (self.left or self.at_work):
                self.begin_some()
                progress.show(len(self.built))
                pause()
                failed = self.end_some()
        finally:
            progress.end()
            for it in self.at_work:
                it.stop()
        return failed


class Progress:
    """How far the build is, in a line on standard error that each next one overwrites, where that is a terminal."""

    def __init__(self, many):
        self.many = many
        self.start = time.monotonic()
        self.last = None

    def show(self, built):
        text = f"hera: {built} of {self.many} crates, {(time.monotonic() - self.start) // 60:.0f} minutes"
        if sys.stderr.isatty() and text != self.last:
            print(f"\r{text}", end="", file=sys.stderr, flush=True)
            self.last = text

    def end(self):
        if self.last:
            print(file=sys.stderr)


def pause():
    """Waits for half a second, and ends this process where the one that started it has ended."""
    time.sleep(0.5)
    if os.getppid() != STARTED_BY:
        sys.exit(1)


def lock_program():
    """Waits until no other build, gate or `rt` works on the program's crate, and keeps others out until this process ends."""
    folder = os.open(os.path.join(CRATES, PROGRAM), os.O_RDONLY)
    waits = False
    while True:
        try:
            return fcntl.flock(folder, fcntl.LOCK_EX | fcntl.LOCK_NB)
        except BlockingIOError:
            if not waits:
                print("hera: waiting for another build or gate in this checkout to end", file=sys.stderr, flush=True)
            waits = True
            pause()
        except OSError:
            # Some file systems have no locks.
            return None


def main():
    for number in (signal.SIGTERM, signal.SIGHUP, signal.SIGINT):
        signal.signal(number, lambda number, _: sys.exit(128 + number))
    lock_program()
    if os.access(os.path.join(CRATES, PROGRAM, "out", PROGRAM), os.X_OK):
        # Another build, for which this one waited, has made it.
        return 0
    os.makedirs(LIBRARIES, exist_ok=True)
    crates = crates_below(PROGRAM)
    build = Build(crates, Kit(), len(os.sched_getaffinity(0)))
    failed = build.run(Progress(len(crates)))
    if failed:
        print(failed, file=sys.stderr)
        return 1
    shutil.rmtree(LIBRARIES)
    return 0


if __name__ == "__main__":
    sys.exit(main())
