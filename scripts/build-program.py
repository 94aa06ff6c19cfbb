#!/usr/bin/env python3
"""Proves a program's chain of crates and builds the program, where it is missing. Says on standard error how far it is.

    scripts/build-program.py [CRATE]     the program of this crate, and else that of vortex

A second call waits for the first, and takes what it built. The status is 0 where the program is there in the end.
"""
import fcntl
import os
import shutil
import subprocess
import sys
import tempfile
import time

TOP = os.path.dirname(os.path.dirname(os.path.abspath(__file__)))
NAME = sys.argv[1] if sys.argv[1:] else "vortex"
PROGRAM = os.path.join(TOP, "crates", NAME, "out", NAME)
AT_ONCE = 2  # rt gives a crate up to four processors where they are free
STILL = 60  # where the line is not written over, it comes again after so many seconds


def chain(top):
    """Each crate that `top` stands on and `top` itself, with the crates of this repository below it, lowest first."""
    with open(os.path.join(TOP, "crates.txt"), encoding="utf-8") as file:
        lines = [line.split("#")[0].partition(":") for line in file]
    uses = {name.split()[0]: words.split() for name, _, words in lines if name.strip()}
    found = {}

    def visit(name):
        direct = [it for it in uses[name] if it in uses]
        for it in direct:
            visit(it)
        found.setdefault(name, set(direct).union(*(found[it] for it in direct)))

    visit(top)
    return dict(sorted(found.items(), key=lambda it: len(it[1])))


class Progress:
    """One line on standard error, written over where that is a terminal."""

    def __init__(self):
        self.begin, self.text, self.told = time.monotonic(), "", 0
        self.is_terminal = sys.stderr.isatty()

    def seconds(self):
        return int(time.monotonic() - self.begin)

    def say(self, text):
        if self.is_terminal:
            sys.stderr.write(f"\r\033[K{NAME}: {text}: {self.seconds()} s")
        elif text != self.text or self.seconds() >= self.told + STILL:
            sys.stderr.write(f"{NAME}: {text}: {self.seconds()} s\n")
            self.text, self.told = text, self.seconds()
        sys.stderr.flush()

    def end(self, text):
        self.text = ""
        self.say(text)
        sys.stderr.write("\n" if self.is_terminal else "")


class Job:
    """rt at work in a crate's folder: it builds a library, or the program, whose proof it keeps in out/."""

    def __init__(self, name):
        self.log = tempfile.TemporaryFile("w+", errors="replace")
        # rt run also runs what it built: on no words and no input, which tells nothing here.
        words, folder = ["rt", "run" if name == NAME else "lib"], os.path.join(TOP, "crates", name)
        self.child = subprocess.Popen(words, cwd=folder, stdin=subprocess.DEVNULL, stdout=self.log, stderr=subprocess.STDOUT)
        self.name = name

    def failed(self):
        return not os.access(PROGRAM, os.X_OK) if self.name == NAME else self.child.returncode != 0

    def said(self):
        self.log.seek(0)
        return self.log.read()


def build(progress):
    """Builds the crates of the chain, each as soon as those below it are there. Returns the job that failed, if one did."""
    below = chain(NAME)
    numbers = {name: number for number, name in enumerate(below, 1)}
    jobs, done, failed = [], set(), None
    while jobs or not failed and len(done) < len(below):
        for job in [it for it in jobs if it.child.poll() is not None]:
            jobs.remove(job)
            if job.failed():
                failed = failed or job
            done.add(job.name)
        for name in [] if failed else below:
            # Two that stand on one crate go in turn: rt lets only one command at a time into a crate, and into those below it.
            busy = {it for job in jobs for it in {job.name, *below[job.name]}}
            if len(jobs) < AT_ONCE and name not in done | busy and below[name] <= done and not below[name] & busy:
                jobs.append(Job(name))
        if jobs:
            progress.say("proving " + "; ".join(f"crate {numbers[it.name]} of {len(below)}, {it.name}" for it in jobs))
            time.sleep(0.5)
    return failed


def main():
    if not shutil.which("rt"):
        sys.stderr.write(f"{NAME}: the program is not built, and rt, of the Rattle kit, which proves and builds it, is not installed\n")
        return 1
    progress = Progress()
    with open(os.path.join(TOP, "crates.txt"), encoding="utf-8") as lock:
        try:
            fcntl.flock(lock, fcntl.LOCK_EX | fcntl.LOCK_NB)
        except BlockingIOError:
            progress.end("another call is building the program; waiting for it")
            fcntl.flock(lock, fcntl.LOCK_EX)
        except OSError:
            pass  # Some file systems have no locks.
        if os.access(PROGRAM, os.X_OK):
            return 0
        progress.end("the program is missing, so it is proved and built, once; this takes minutes")
        failed = build(progress)
        progress.end(f"{failed.name} could not be built" if failed else "the program is built")
        sys.stderr.write(failed.said() if failed else "")
    return 1 if failed else 0


if __name__ == "__main__":
    try:
        sys.exit(main())
    except KeyboardInterrupt:
        sys.exit(130)
