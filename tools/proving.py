"""Tells, while rt proves a crate and those below it, which one begins.

    tools/proving.py NAME HINT CRATE COMMAND..

Runs a COMMAND of rt in the folder of the CRATE. Lines on standard error begin with NAME. The first one, said before
rt starts, tells how many crates are to be proved, and then the HINT; it is left out if all are proved. Where rt fails,
standard error has what it printed. The status is rt's.
"""

import os
import re
import signal
import subprocess
import sys

sys.dont_write_bytecode = True
from workspace import ROOT, crates, with_below  # noqa: E402

# What rt prints before it proves a crate.
BEGINS = re.compile(r"rt: chose --jobs .* for (\w+)$")


def changed_since(folder, kept):
    """Whether a file of a crate's sources is newer than what was kept of it. rt may link what another clone kept: that
    is older, but not the folder that it was put into."""
    time_of = max(it.stat().st_mtime for it in (kept, folder / "out"))
    files = (it for part in ("src", "specs", "proofs") for it in (folder / part).rglob("*"))
    return any(it.stat().st_mtime > time_of for it in files)


def unproved(crate, uses):
    """The crates that are to be proved for this one: no proof of them is kept, or one of those below them is."""
    found = []
    for it in with_below(crate, uses):
        folder = ROOT / "crates" / it
        is_program = (folder / "src/main.rt").is_file()
        kept = folder / "out" / (it if is_program else "rlib/stamp")
        if not kept.is_file() or changed_since(folder, kept) or set(uses[it]) & set(found):
            found.append(it)
    return found


def counted(crates):
    return "1 crate" if len(crates) == 1 else f"{len(crates)} crates"


def prove(name, hint, crate, command, given=None):
    """Runs a command of rt in the folder of a crate, and tells how far it is: its status, and what it printed."""

    def say(text):
        print(f"{name}: {text}", file=sys.stderr, flush=True)

    todo, begun = unproved(crate, crates()), []
    if todo:
        say(f"{counted(todo)} to prove first, once" + (f"; {hint}" if hint else ""))
    pipe = {"stdout": subprocess.PIPE, "stderr": subprocess.STDOUT, "errors": "replace", "start_new_session": True}
    lines = []
    with subprocess.Popen(command, cwd=ROOT / "crates" / crate, stdin=given, **pipe) as ran:
        try:
            for line in ran.stdout:
                lines.append(line)
                begins = BEGINS.match(line)
                if begins and begins[1] not in begun:
                    begun.append(begins[1])
                    say(f"proving {begins[1]}, {len(begun)} of {max(len(begun), len(todo))}")
        except BaseException:
            # Broken off: rt and all that it started end too.
            os.killpg(ran.pid, signal.SIGTERM)
            raise
    return ran.returncode, "".join(lines)


def main():
    name, hint, crate, *command = sys.argv[1:]
    try:
        status, printed = prove(name, hint, crate, command)
    except KeyboardInterrupt:
        sys.exit(130)
    if status:
        sys.stderr.write(printed)
    sys.exit(status if status >= 0 else 1)


if __name__ == "__main__":
    main()
