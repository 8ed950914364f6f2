"""The crates of this repository, and repositories in temporary folders, for a program that isn't one of these crates."""

import contextlib
import pathlib
import re
import shutil
import subprocess
import sys
import tempfile

ROOT = pathlib.Path(__file__).resolve().parent.parent


def usage(doc, is_right):
    """Prints what a tool says of itself, and ends, unless it was called rightly."""
    if not is_right:
        print(doc.strip())
        sys.exit(0 if {"-h", "--help"} & set(sys.argv) else 2)


def uses_by(lines):
    """For each crate of a crates.txt the libraries that it names for it."""
    pairs = [it.split("#")[0].split(":") for it in lines.splitlines()]
    return {pair[0].split()[0]: pair[1].split() for pair in pairs if len(pair) == 2 and pair[0].split()}


def crates():
    """For each crate of this repository the libraries that it uses."""
    return uses_by((ROOT / "crates.txt").read_text())


def code_of(crate):
    """The text of all sources of a crate."""
    return "".join(it.read_text() for it in sorted((ROOT / "crates" / crate / "src").rglob("*.rt")))


def edits(crate):
    """The wrong bodies of a crate, each a file."""
    return sorted((ROOT / "crates" / crate / "must-fail").glob("*.edit"))


def status_in(messages):
    """The status of a program by the messages of `rt try`, or None if it didn't run to its end."""
    found = re.search(r"^run=ended status=(\d+)", messages, re.M)
    return int(found[1]) if found else None


def with_below(crate, uses):
    """A crate behind those of this repository that it uses, the lowest first."""
    found = []
    for it in uses.get(crate, []):
        found += [one for one in (with_below(it, uses) if it in uses else []) if one not in found]
    return [*found, crate]


class Workspace:
    """A crate of a repository in a folder, and the files of which its sources are copies."""

    def __init__(self, repository, crate, libraries, sources, copied=None, ignored=()):
        """Makes a repository of a folder, with copies of these crates of this one (of all, if none are named) but for what
        is ignored, and one crate, which uses these libraries and has these files in src/, a text or a path by each name."""
        uses = crates()
        uses = uses if copied is None else {it: uses[it] for it in copied}
        for it in uses:
            unread = shutil.ignore_patterns("out", "must-fail", *ignored)
            shutil.copytree(ROOT / "crates" / it, repository / "crates" / it, ignore=unread)
        self.folder = repository / "crates" / crate
        # For each source the file with which it begins, and how many lines that has.
        self.files = {}
        shutil.rmtree(self.folder / "src", ignore_errors=True)
        for name, source in sources.items():
            file = self.folder / "src" / name
            file.parent.mkdir(parents=True, exist_ok=True)
            file.write_text(source if isinstance(source, str) else source.read_text())
            if not isinstance(source, str):
                self.begins(f"src/{name}", source)
        lines = {**uses, crate: libraries.split()}
        (repository / "crates.txt").write_text("".join(f"{it}: {' '.join(lines[it])}\n" for it in lines))
        shutil.copy(ROOT / "HANDLES", repository)

    def begins(self, source, file):
        """Notes that a source of the crate begins with the text of this file, line by line."""
        self.files[source] = (file.relative_to(ROOT), len(file.read_text().splitlines()))

    def named(self, text):
        """A text of rt, in which a line of a source that is one of a file has the name of that file."""

        def place(found):
            file, lines = self.files.get(found[1], (None, 0))
            return f"{file}:{found[2]}" if int(found[2]) <= lines else found[0]

        return re.sub(r"(?<![\w/])(src/[\w/]+\.rt):(\d+)", place, text)

    def ran(self, *words):
        """A run of rt with these words in the folder of the crate, which reads nothing."""
        given = {"stdin": subprocess.DEVNULL, "capture_output": True, "text": True}
        ran = subprocess.run(["rt", *words], cwd=self.folder, **given)
        ran.stdout, ran.stderr = self.named(ran.stdout), self.named(ran.stderr)
        return ran


@contextlib.contextmanager
def workspace(crate, libraries, sources, copied=None, ignored=()):
    """Such a repository in a temporary folder, which is removed at the end."""
    with tempfile.TemporaryDirectory(prefix=f"{crate}-") as repository:
        subprocess.run(["git", "init", "-q", repository], check=True)
        yield Workspace(pathlib.Path(repository), crate, libraries, sources, copied, ignored)
