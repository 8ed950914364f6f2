"""Builds the program of ./play or ./judge without a proof, once for the sources as they are, and prints its path.

    tools/unproved.py NAME CRATE INPUT

The path is out/quick/CRATE-SUM. SUM is made of what `rt version` prints, and of the name, the libraries and the
sources of each crate of this repository that is part of the program. If that file is there, nothing is built. If
the sources change during the build, they are built again. Programs that no call used for an hour are removed then.

`rt try` alone builds a program without a proof, and it removes the program at its end. So this runs `rt try --cases`
on some files that all are the INPUT, on which the program has to end with status 0. rt runs the program from a
folder below TMPDIR, which is one below out/quick here; meanwhile this makes a hard link to the program. It is kept if
all those runs ended, and if it then answers the INPUT as it did in them. A second call waits until the first one has
built.

Lines on standard error begin with NAME. Status 0: the program is there. 1: the build failed. 2: the program can't be
kept, or nothing can be written to out/quick; then nothing is printed.
"""

import contextlib
import fcntl
import hashlib
import os
import pathlib
import shutil
import signal
import subprocess
import sys
import tempfile
import threading
import time

sys.dont_write_bytecode = True
from proving import counted, unproved  # noqa: E402
from workspace import ROOT, crates, with_below  # noqa: E402

KEPT = ROOT / "out/quick"
# How often the program is run while it is to be caught, and after how many seconds without a use it is removed.
RUNS, UNUSED = 8, 3600


def say(text):
    print(f"{sys.argv[1]}: {text}", file=sys.stderr, flush=True)


def sources(crate):
    """The files that a program is made of, in order."""
    folders = [ROOT / "crates" / it / "src" for it in with_below(crate, crates())]
    return sorted(it for folder in folders for it in folder.rglob("*") if it.is_file())


def sum_of(crate):
    """The sum of all that a program is made of."""
    uses, made = crates(), hashlib.sha256(subprocess.run(["rt", "version"], capture_output=True, check=True).stdout)
    for it in with_below(crate, uses):
        made.update(f"{it}: {' '.join(uses[it])}\n".encode())
    for file in sources(crate):
        text = file.read_bytes()
        made.update(f"{file.relative_to(ROOT)} {len(text)}\n".encode() + text)
    return made.hexdigest()[:32]


def changes_of(crate):
    """When each of these files was changed last: so it is seen that one was changed, and changed back."""
    return [(it, it.stat().st_ino, it.stat().st_ctime_ns) for it in sources(crate)]


def link(folder, program, is_over):
    """Links the program while rt runs it: its input, which rt writes first, is beside it."""
    while not is_over.wait(0.005):
        for it in folder.glob("*/*/stdin"):
            with contextlib.suppress(OSError):
                os.link(it.parent / "program", program)
                return


def build(crate, given, folder):
    """Builds the program in a folder: where it is, or None if it couldn't be caught."""
    program, cases, is_over = folder / "program", folder / "cases", threading.Event()
    cases.mkdir()
    for number in range(RUNS):
        (cases / f"case{number}").write_text(given)
    linking = threading.Thread(target=link, args=[folder, program, is_over])
    linking.start()
    pipe = {"stdin": subprocess.DEVNULL, "stdout": subprocess.PIPE, "stderr": subprocess.PIPE, "errors": "replace"}
    words = ["rt", "try", "--cases", cases]
    with subprocess.Popen(words, cwd=ROOT / "crates" / crate, env={**os.environ, "TMPDIR": folder}, **pipe) as ran:
        try:
            printed, messages = ran.communicate()
        finally:
            # Broken off: rt ends too, with what it started.
            ran.terminate()
            is_over.set()
    linking.join()
    if ran.returncode or f"cases={RUNS} ended={RUNS} " not in messages:
        sys.stderr.write(messages)
        say("the build failed")
        sys.exit(1)
    with contextlib.suppress(OSError):
        answered = subprocess.run([program], input=given, env={}, capture_output=True, text=True)
        wanted = "".join(f"== case{number}\n{answered.stdout}" for number in range(RUNS))
        if answered.returncode == 0 and printed == wanted:
            return program
    return None


def remove_if_old(path):
    """Removes what no call used lately: whether it did."""
    is_old = time.time() - path.stat().st_mtime > UNUSED
    if is_old:
        shutil.rmtree(path) if path.is_dir() else path.unlink(missing_ok=True)
    return is_old


def kept(crate, given):
    """The program for the sources as they are, or None if it can't be kept."""
    while True:
        before = changes_of(crate)
        path = KEPT / f"{crate}-{sum_of(crate)}"
        if path.exists() and path.stat().st_size:
            os.utime(path)
            return path
        # An empty file says that it couldn't be kept; after a while it is tried again.
        if path.exists() and not remove_if_old(path):
            return None
        KEPT.mkdir(parents=True, exist_ok=True)
        with open(KEPT / f"{crate}.lock", "w") as lock:
            try:
                fcntl.flock(lock, fcntl.LOCK_EX | fcntl.LOCK_NB)
            except BlockingIOError:
                say("waits for another call, which builds the program")
                fcntl.flock(lock, fcntl.LOCK_EX)
            if path.exists():
                continue
            for it in set(KEPT.iterdir()) - set(KEPT.glob("*.lock")):
                with contextlib.suppress(OSError):
                    remove_if_old(it)
            say("builds the program without a proof, once for the sources as they are: that takes half a minute")
            with tempfile.TemporaryDirectory(dir=KEPT) as folder:
                program = build(crate, given, pathlib.Path(folder))
                if path.name.endswith(sum_of(crate)) and changes_of(crate) == before:
                    program.rename(path) if program else path.touch()


def main():
    _, name, crate, given = sys.argv
    todo = unproved(crate, crates())
    first = f": {counted(todo)} to prove" if todo else ""
    say(f"nothing is proved of this answer; './{name} FILE' proves the program first{first}")
    for it in (signal.SIGTERM, signal.SIGHUP):
        signal.signal(it, lambda number, _: sys.exit(128 + number))
    path = None
    with contextlib.suppress(OSError):
        path = kept(crate, f"{given}\n")
    if not path:
        say("the program can't be kept in out/quick, so each answer takes a build")
        sys.exit(2)
    with contextlib.suppress(BrokenPipeError):
        print(path, flush=True)


if __name__ == "__main__":
    try:
        main()
    except KeyboardInterrupt:
        sys.exit(130)
