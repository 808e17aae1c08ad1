"""Builds target/librachdoum.so: has the crates of the library proved, its archive made and linked. Then runs the command given.

    python3 scripts/build_library.py [COMMAND..]

What the prover says goes to target/plan.log, how far it is to standard error. Exits with 2 where something failed.
"""
import fcntl
import os
import re
import shutil
import signal
import subprocess
import sys
import time
from pathlib import Path

ROOT = Path(__file__).resolve().parent.parent
TARGET = ROOT / "target"
LIBRARY = TARGET / "librachdoum.so"
ARCHIVE = TARGET / "staticlib" / "librachdoum.a"
LOG = TARGET / "plan.log"
NAME = "rachdoum"
FOLDER = ROOT / "crates" / NAME
BEGINS = re.compile(r"^rt: chose --jobs \d+ for (\w+)$", re.MULTILINE)
FAILS = re.compile(r"^rt: the library (\w+) did not build", re.MULTILINE)


class Failed(Exception):
    """The build failed; the text says at what."""


def put(text, end="\n"):
    """Writes to standard error. That nobody reads it is no reason to stop."""
    try:
        print(text, end=end, file=sys.stderr, flush=True)
    except OSError:
        pass


def say(text):
    put(f"plan: {text}")


def shown(path):
    """A path as the user would write it."""
    return os.path.relpath(path) if Path.cwd() == ROOT else str(path)


def listed():
    """The crates of crates.txt, each with those of them that it depends on."""
    lines = (line.split("#")[0].split(":") for line in (ROOT / "crates.txt").read_text().splitlines())
    # (a static library has that word after its name)
    found = {line[0].split()[0]: line[1].split() for line in lines if len(line) == 2}
    return {name: [other for other in needed if other in found] for name, needed in found.items()}


def order(crates):
    """The library and the crates that it stands on, as rt takes them: each after those that it needs."""
    found = []

    def visit(name):
        if name not in found:
            for other in crates[name]:
                visit(other)
            found.append(name)

    visit(NAME)
    return found


def parts(name):
    """The code, the rules and the proofs of a crate, folders and files; of all crates where the name is `*`."""
    for part in ("src", "specs", "proofs"):
        for folder in (ROOT / "crates").glob(f"{name}/{part}"):
            yield folder
            yield from folder.rglob("*")


def newest_source():
    """When the newest source was changed, as `plan` looks for it, in nanoseconds."""
    return max(path.stat().st_mtime_ns for path in (ROOT / "crates.txt", *parts("*")))


def proved(name):
    """Whether a crate looks as it was when it was last proved."""
    stamp = ROOT / "crates" / name / "out" / "rlib" / "stamp"
    return stamp.exists() and all(path.stat().st_mtime <= stamp.stat().st_mtime for path in parts(name))


def expected(name):
    """About how many seconds the proof of a crate takes: seen on one machine, it grows with the length of the code."""
    return 10 + sum(path.stat().st_size for path in (ROOT / "crates" / name / "src").rglob("*.rt")) / 900


class Progress:
    """How far the proofs are, by what rt says in the log: it names a crate when it begins with it, and takes one after the other."""

    def __init__(self, crates):
        self.names = order(crates)
        self.seconds = {}
        for name in self.names:
            again = name == NAME or not proved(name) or any(self.seconds[other] for other in crates[name])
            self.seconds[name] = expected(name) if again else 0
        self.began, self.took = {}, {}
        self.start = time.time()
        self.terminal, self.drawn = sys.stderr.isatty(), ""

    def look(self):
        """Sees which crates have begun and so which are proved, and tells of those that are new."""
        now = time.time()
        for name in BEGINS.findall(LOG.read_text(errors="replace")):
            if name in self.seconds and name not in self.began:
                # Those before it are proved, or nothing has changed in them: these rt passes over, and names none.
                for other in self.names[: self.names.index(name)]:
                    self.took.setdefault(other, max(1, now - self.began[other]) if other in self.began else 0)
                self.began[name] = now
                self.tell(name)
        if self.terminal:
            proving = [name for name in self.began if name not in self.took]
            spent = int(now - self.start)
            self.line(f"{', '.join(proving) or 'looking'}: {spent // 60}:{spent % 60:02} so far, {self.to_go()} to go")

    def tell(self, name):
        self.line("")
        number = f"{self.names.index(name) + 1:2} of {len(self.names)}"
        say(f"{number} {name:10} {self.to_go():>12} to go: {title(name)}")

    def line(self, text):
        """On a terminal, a line that the next one takes the place of."""
        if self.terminal and text != self.drawn:
            self.drawn = text
            width = os.get_terminal_size(sys.stderr.fileno()).columns or 80
            put("\r\033[K" + (f"plan: {text}"[: width - 1] if text else ""), end="")

    def to_go(self):
        """About how long it takes yet, by the pace so far: of what is proved, and of what takes longer already than thought."""
        now = time.time()
        spent = {name: self.took.get(name, now - self.began[name]) for name in self.began}
        told = [name for name in spent if spent[name] > (0 if name in self.took else self.seconds[name])]
        # The first half minute says little of how slow this machine is.
        pace = (30 + sum(spent[name] for name in told)) / (30 + sum(self.seconds[name] for name in told))
        still = [name for name in self.names if name not in self.took]
        left = sum(max(1, pace * self.seconds[name] - spent.get(name, 0)) for name in still)
        return f"about {round(left / 60)} min" if left >= 90 else f"about {max(10, round(left, -1)):.0f} s"


def title(name):
    """What a crate is about: the first sentence of its source."""
    lines = (ROOT / "crates" / name / "src" / "lib.rt").read_text(errors="replace").split("\n")
    first = next((line for line in lines if line.startswith("//")), "")
    return first.lstrip("/ ").split(". ")[0].rstrip(".")


def run(words, log, folder=ROOT, progress=None):
    """Runs a command in a process group of its own, which ends with this program. Answers its exit status."""
    child = subprocess.Popen(
        words, cwd=folder, stdin=subprocess.DEVNULL, stdout=log, stderr=subprocess.STDOUT, start_new_session=True
    )
    try:
        while child.poll() is None:
            if progress:
                progress.look()
            time.sleep(0.2)
        if progress:
            progress.look()
        return child.returncode
    finally:
        if progress:
            progress.line("")
        if child.poll() is None:
            os.killpg(child.pid, signal.SIGTERM)
            child.wait()


def prove(log, progress):
    """Has rt prove the library and what it stands on, and make the archive; where it fails, finds in the log at what."""
    words = ["rt", "lib"]
    if run(words, log, FOLDER, progress) == 0:
        return
    said = LOG.read_text(errors="replace")
    names = FAILS.findall(said) or ([NAME] if "\nlogic=not-proved" in said else [])
    if names:
        raise Failed(f"not proved: {', '.join(names)}")
    raise Failed(" ".join(words))


def build():
    """Proves, makes the archive and links it. The library appears whole or not at all."""
    progress = Progress(listed())
    when = newest_source()
    count = len(progress.names)
    if not LIBRARY.exists():
        say(f"the library is proved and built first, once: {count} crates, {progress.to_go()} (log: {shown(LOG)})")
    else:
        say(f"the sources have changed: what stands on them is proved again (log: {shown(LOG)})")
    with open(LOG, "w") as log:
        prove(log, progress)
        ARCHIVE.parent.mkdir(exist_ok=True)
        shutil.copyfile(FOLDER / "out" / ARCHIVE.name, ARCHIVE)
        fresh = TARGET / f".librachdoum.{os.getpid()}.so"
        try:
            words = ["cc", "-shared", "-o", fresh, "-Wl,--whole-archive", ARCHIVE, "-Wl,--no-whole-archive"]
            if run(words, log) != 0:
                raise Failed("cc cannot link the library")
            os.utime(fresh, ns=(when, when))
            os.replace(fresh, LIBRARY)
        finally:
            fresh.unlink(missing_ok=True)
    say(f"built in {time.time() - progress.start:.0f} s")


def locked_build():
    """Builds, unless another call has done so meanwhile, which is waited for."""
    TARGET.mkdir(exist_ok=True)
    with open(TARGET / "plan.lock", "w") as lock:
        try:
            fcntl.flock(lock, fcntl.LOCK_EX | fcntl.LOCK_NB)
        except BlockingIOError:
            say("another call builds the library: waiting for it")
            fcntl.flock(lock, fcntl.LOCK_EX)
        if not LIBRARY.exists() or LIBRARY.stat().st_mtime_ns < newest_source():
            build()


class Stopped(BaseException):
    """A signal asks for the end."""


def stop(number, _):
    raise Stopped(number)


def main():
    for number in (signal.SIGINT, signal.SIGTERM, signal.SIGHUP):
        if signal.getsignal(number) != signal.SIG_IGN:
            signal.signal(number, stop)
    try:
        locked_build()
    except Failed as failure:
        say(f"the build failed: {failure} (log: {shown(LOG)})")
        return 2
    except OSError as error:
        say(f"the build failed: {error}")
        return 2
    except Stopped as signalled:
        say("stopped; the next call goes on with what is not proved yet")
        return 128 + signalled.args[0]
    if len(sys.argv) > 1:
        os.execvp(sys.argv[1], sys.argv[1:])
    return 0


if __name__ == "__main__":
    sys.exit(main())
