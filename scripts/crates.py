"""The crates of crates.txt, and how those that do not stand on one another are proved side by side."""
import hashlib
import os
import shutil
import signal
import subprocess
import sys
import tempfile
import threading
from concurrent.futures import ThreadPoolExecutor
from functools import lru_cache
from pathlib import Path

from program import ROOT

RT = os.environ.get("RT", "rt")


@lru_cache(None)
def lines():
    """Of each crate its line, lower ones first."""
    found = {}
    for line in (ROOT / "crates.txt").read_text().splitlines():
        head, parted, _ = line.partition("#")[0].partition(":")
        if parted:
            found[head.split()[0]] = line
    return found


@lru_cache(None)
def libraries():
    """Of each crate the crates of the repository that it stands on at once."""
    named = {crate: line.partition("#")[0].partition(":")[2].split() for crate, line in lines().items()}
    return {crate: [it for it in its if it in named] for crate, its in named.items()}


@lru_cache(None)
def below(crate):
    """All crates that a crate stands on, at once or through others."""
    return frozenset(libraries()[crate]).union(*(below(it) for it in libraries()[crate]))


def in_order(crates):
    """The crates, lower ones first."""
    return [it for it in lines() if it in crates]


def is_program(crate):
    return (ROOT / "crates" / crate / "src/main.rt").is_file()


@lru_cache(None)
def toolchain():
    """The toolchain, as it names itself."""
    return subprocess.run([RT, "version"], check=True, capture_output=True, text=True).stdout.strip()


@lru_cache(None)
def own_sum(crate):
    """One digest of a crate's line and sources, as they were when this was asked first."""
    said = hashlib.sha256(f"{lines()[crate]}\n".encode())
    for path in sorted(it for part in ("src", "specs", "proofs") for it in (ROOT / "crates" / crate / part).rglob("*") if it.is_file()):
        data = path.read_bytes()
        said.update(f"{path.relative_to(ROOT)} {len(data)}\n".encode() + data)
    return said.hexdigest()


def proved_line(crate):
    """What stands behind all that `rt` said of a crate, once a lane has proved it: with what toolchain, and of which sources, all below."""
    told = "".join(f"{own_sum(it)}\n" for it in in_order(below(crate) | {crate}))
    return f"lanes: proved {hashlib.sha256(f'{toolchain()}{told}'.encode()).hexdigest()}\n"


def is_kept(crate, said):
    """Whether this checkout keeps a crate as its sources are, and those of all below it, by this toolchain: the file with what was said of
    it ends in that."""
    is_there = (ROOT / "crates" / crate / "out").is_dir() and said.is_file()
    return is_there and said.read_text(errors="replace").endswith(proved_line(crate))


def linked(file, to):
    """Gives a file another name, or copies it where that lies on another disk."""
    try:
        os.link(file, to)
    except OSError:
        shutil.copy2(file, to)


def laid_out(crates, room, with_kept_work=False, own=None):
    """Puts crates into a workspace of their own, and where it is wanted with the whole of what earlier checks kept of them: nothing may
    run in these crates meanwhile. Where `own` names the one that is worked on there, the others, which nothing changes, are links."""
    for crate in crates:
        nothing = None if with_kept_work else shutil.ignore_patterns("out")
        how = shutil.copy2 if own in (None, crate) else linked
        shutil.copytree(ROOT / "crates" / crate, room / "crates" / crate, symlinks=True, ignore=nothing, copy_function=how)
    (room / "crates.txt").write_text("".join(f"{lines()[it]}\n" for it in in_order(crates)))
    shutil.copy(ROOT / "HANDLES", room)


class Kept:
    """In which workspace each crate was proved. What is kept of it there, the whole of its out/, `rt` uses at any path."""

    def __init__(self):
        self.makers = {}

    def note(self, crate, top):
        self.makers.setdefault(crate, top)

    def hand(self, crate, top):
        """Puts what is kept of a crate into a workspace, where another has proved it, and says whether that is so. Nothing may prove it
        meanwhile."""
        maker = self.makers.get(crate, top)
        if maker == top:
            return False
        kept = top / "crates" / crate / "out"
        shutil.rmtree(kept, ignore_errors=True)
        shutil.copytree(maker / "crates" / crate / "out", kept, symlinks=True, copy_function=linked)
        return True


def processors():
    """How many processors this process may use."""
    return len(os.sched_getaffinity(0))


class Commands:
    """Commands of `rt`, of which several may run at once."""

    def __init__(self):
        self.running, self.is_stopped, self.lock = set(), False, threading.Lock()

    def timed(self, words, folder, said):
        """How a command ends in a folder, and the seconds of processor that the system tells of it and all that it started."""
        with self.lock:
            if self.is_stopped:
                return None, 0
            run = subprocess.Popen([RT, *words], cwd=folder, stdin=subprocess.DEVNULL, stdout=said, stderr=subprocess.STDOUT)
            self.running.add(run)
        _, status, took = os.wait4(run.pid, 0)
        run.returncode = os.waitstatus_to_exitcode(status)
        with self.lock:
            self.running.discard(run)
        return run.returncode, took.ru_utime + took.ru_stime

    def stop(self):
        """Ends those that run, and lets none begin."""
        with self.lock:
            self.is_stopped = True
            for run in self.running:
                run.terminate()


class Queue:
    """Crates, each to be handed out once all that it stands on are well: of those that can be begun the one with most to prove in it and
    in the longest chain above it. Those of `well` are so from the beginning."""

    def __init__(self, crates, well):
        self.left, self.running, self.well, self.changed = set(crates) - set(well), set(), set(well), threading.Condition()
        self.ahead = {}
        for crate in reversed(in_order(crates)):
            above = [self.ahead[it] for it in self.ahead if crate in libraries()[it]]
            self.ahead[crate] = self.size(crate) + max(above, default=0)

    @staticmethod
    def size(crate):
        texts = [it for part in ("src", "specs", "proofs") for it in (ROOT / "crates" / crate / part).rglob("*") if it.is_file()]
        return sum(it.read_bytes().count(b"\n") for it in texts)

    def taken(self):
        """The next crate, waited for where none can be begun yet; None where none is left that can."""
        with self.changed:
            while True:
                ready = [it for it in self.left if below(it) & self.ahead.keys() <= self.well]
                if ready:
                    crate = max(ready, key=self.ahead.get)
                    self.left.remove(crate)
                    self.running.add(crate)
                    return crate
                if not self.running or not self.left:
                    return None
                self.changed.wait()

    def ended(self, crate, is_well):
        with self.changed:
            self.running.discard(crate)
            if is_well:
                self.well.add(crate)
            self.changed.notify_all()


def side_by_side(crates, jobs, commands, one, tops=(), last=len, well=()):
    """Calls `one` with the top of a workspace and a crate for each crate once all below it are well, in so many workspaces at once, and
    answers what `last` says to those for which it said yes, or that were well from the beginning. The first workspaces are those that
    are given, the others copies of the sources, which are taken away behind `last`."""
    queue = Queue(crates, well)
    signal.signal(signal.SIGTERM, lambda *_: sys.exit(143))
    with tempfile.TemporaryDirectory(prefix="dc429-lanes-") as room:
        tops = [*tops, *(Path(room) / str(it) for it in range(len(tops), jobs))]
        for top in tops:
            if not top.exists():
                top.mkdir()
                laid_out(in_order(crates), top)

        def lane(top):
            while crate := queue.taken():
                is_well = False
                try:
                    is_well = one(top, crate)
                finally:
                    queue.ended(crate, is_well)

        with ThreadPoolExecutor(len(tops)) as pool:
            try:
                list(pool.map(lane, tops))
            except BaseException:
                # (an interrupt ends the commands that run)
                commands.stop()
                raise
        return last(queue.well)
