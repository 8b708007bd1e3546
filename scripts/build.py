"""Proves and builds the program gh_cli: every crate below it, each once those that it stands on are built, on all processors.

Usage: build.py TOP, where TOP is the repository. What it does is told on standard error. Status 0: the program is built.
70: it could not be built, and the log of the crate that failed is named. 130: the build was interrupted.

The kit's command proves one crate at a time in one checkout, and takes what another checkout on the machine has built of the
same files. So each lane of the build works in a copy of the sources of its own, and the checkout itself takes what they built.
"""
import fcntl
import os
import shutil
import signal
import subprocess
import sys
import tempfile
import time

PROGRAM = "gh_cli"
FAILED = 70
INTERRUPTED = 130
# The status of the program without words.
USAGE = 2
# What one proof takes of memory, in kilobytes, at most.
MEMORY = 3_000_000
# Where the kit keeps what was built on this machine.
KEPT = "/opt/rattle-kept"
# How long a first build took on four processors, in minutes.
FIRST = 45


def tell(line):
    print(f"genhs: {line}", file=sys.stderr, flush=True)


def crates_of(top):
    """Each crate of the repository, with the crates of the repository that it stands on."""
    below = {}
    with open(os.path.join(top, "crates.txt"), encoding="utf-8") as file:
        for line in file:
            head, _, rest = line.split("#")[0].partition(":")
            if head.strip():
                below[head.split()[0]] = rest.split()
    return {name: [it for it in names if it in below] for name, names in below.items()}


def needed(below, name):
    """The crate and all that it stands on."""
    found, left = set(), [name]
    while left:
        it = left.pop()
        if it not in found:
            found.add(it)
            left += below[it]
    return found


def chains(below, names):
    """For each crate, how many crates stand on it or on one that does: those with most go first."""
    return {name: sum(name in needed(below, it) for it in names) for name in names}


def shares():
    """Whether the kit can keep what one copy of the sources built, so that another takes it."""
    return os.access(KEPT if os.path.isdir(KEPT) else os.path.dirname(KEPT), os.W_OK)


def lanes():
    """How many proofs run at once: one a processor, as many as memory holds."""
    if not shares():
        return 1
    processors = len(os.sched_getaffinity(0))
    with open("/proc/meminfo", encoding="utf-8") as file:
        free = next((int(line.split()[1]) for line in file if line.startswith("MemAvailable:")), MEMORY)
    return max(1, min(processors, free // MEMORY))


class Build:
    """One build: the crates that are left, those that are being proved, and those that are done."""

    def __init__(self, top):
        self.top = top
        self.below = crates_of(top)
        self.copies = []
        self.left = needed(self.below, PROGRAM) - {PROGRAM}
        self.behind = chains(self.below, needed(self.below, PROGRAM))
        self.count = len(self.left) + 1
        self.done = set()
        self.running = {}
        self.lanes = lanes()
        # The folders in which a proof may run now.
        self.free = [top] if self.lanes == 1 else [self.copy() for _ in range(self.lanes)]
        self.logs = os.path.join(top, "crates", PROGRAM, "out", "logs")
        self.began = time.time()
        os.makedirs(self.logs, exist_ok=True)

    def copy(self):
        """A copy of the sources that the program is built of."""
        lane = tempfile.mkdtemp(prefix="genhs-build-")
        names = needed(self.below, PROGRAM)
        with open(os.path.join(self.top, "crates.txt"), encoding="utf-8") as file:
            lines = [line for line in file if line.split(":")[0].split()[:1] and line.split(":")[0].split()[0] in names]
        with open(os.path.join(lane, "crates.txt"), "w", encoding="utf-8") as file:
            file.writelines(lines)
        for name in names:
            leave = shutil.ignore_patterns("out", "must-fail")
            shutil.copytree(os.path.join(self.top, "crates", name), os.path.join(lane, "crates", name), ignore=leave)
        self.copies.append(lane)
        return lane

    def log(self, name):
        return os.path.join(self.logs, f"{name}.log")

    def start(self, lane, name, *command):
        with open(self.log(name), "wb") as log:
            folder = os.path.join(lane, "crates", name)
            child = subprocess.Popen(command, cwd=folder, stdin=subprocess.DEVNULL, stdout=log, stderr=log, start_new_session=True)
            self.running[name] = child, lane

    def stop(self):
        """Ends the proofs that run, with all that they started."""
        for child, _ in self.running.values():
            try:
                os.killpg(child.pid, signal.SIGTERM)
            except ProcessLookupError:
                pass
        for child, _ in self.running.values():
            child.wait()
        for lane in self.copies:
            shutil.rmtree(lane, ignore_errors=True)

    def ended(self):
        """Waits until a proof has ended, and returns its crate and its status."""
        while True:
            for name, (child, lane) in self.running.items():
                if child.poll() is not None:
                    del self.running[name]
                    self.free.append(lane)
                    return name, child.returncode
            time.sleep(0.2)

    def says_done(self, name):
        self.done.add(name)
        minutes = (time.time() - self.began) / 60
        tell(f"{name} is proved ({len(self.done)} of {self.count} crates, {minutes:.1f} minutes)")

    def fails(self, name):
        with open(self.log(name), encoding="utf-8", errors="replace") as log:
            sys.stderr.write("".join(log.readlines()[-20:]))
        tell(f"{name} could not be proved; the log is {self.log(name)}")

    def libraries(self):
        """Proves the crates below the program; returns whether all were proved."""
        while self.left or self.running:
            ready = sorted((it for it in self.left if self.done.issuperset(self.below[it])), key=lambda it: -self.behind[it])
            for name in ready[: len(self.free)]:
                self.left.remove(name)
                self.start(self.free.pop(), name, "rt", "lib", "--jobs", "1")
            name, status = self.ended()
            if status != 0:
                self.fails(name)
                return False
            self.says_done(name)
        return True

    def program(self):
        """Links the program, and runs it once without words; returns whether it is there and answers as it should."""
        self.start(self.top, PROGRAM, "rt", "run")
        _, status = self.ended()
        path = os.path.join(self.top, "crates", PROGRAM, "out", PROGRAM)
        with open(self.log(PROGRAM), encoding="utf-8", errors="replace") as log:
            answers = any(line.startswith("usage: genhs") for line in log)
        if status != USAGE or not answers or not os.access(path, os.X_OK):
            self.fails(PROGRAM)
            return False
        # A source that changed while the build went on is newer than the program.
        os.utime(path, (self.began, self.began))
        self.says_done(PROGRAM)
        return True


def build(top):
    one = Build(top)
    tell(f"proving and building {one.count} crates; a first build takes about {FIRST} minutes on four processors; logs in {one.logs}")
    try:
        return 0 if one.libraries() and one.program() else FAILED
    except KeyboardInterrupt:
        tell("interrupted; the next build goes on from here")
        return INTERRUPTED
    finally:
        one.stop()


def interrupt(*_):
    raise KeyboardInterrupt


def main():
    top = os.path.realpath(sys.argv[1])
    out = os.path.join(top, "crates", PROGRAM, "out")
    signal.signal(signal.SIGTERM, interrupt)
    signal.signal(signal.SIGHUP, interrupt)
    try:
        os.makedirs(out, exist_ok=True)
        with open(os.path.join(out, "build.lock"), "w", encoding="utf-8") as lock:
            try:
                fcntl.flock(lock, fcntl.LOCK_EX | fcntl.LOCK_NB)
            except BlockingIOError:
                tell("another build goes on in this checkout; waiting for it")
                fcntl.flock(lock, fcntl.LOCK_EX)
            return build(top)
    except KeyboardInterrupt:
        return INTERRUPTED
    except OSError as fault:
        tell(f"the program is not built, and cannot be built here: {fault}")
        return FAILED


sys.exit(main())
