"""The pages of this repository, and what the tools that compare them read in one: its code, its titles, its links."""

import functools
import re
import subprocess
import textwrap

from workspace import ROOT

FENCED = re.compile(r"^```[^\n]*\n(.*?)^```$\n?", re.M | re.S)
INDENTED = re.compile(r"(?<=\n\n)((?: {4}.*\n(?:\n(?= {4}))*)+)")


def files():
    """The paths of all files that git knows or would add."""
    words = ["git", "ls-files", "-co", "--exclude-standard"]
    listed = subprocess.run(words, cwd=ROOT, capture_output=True, text=True).stdout.splitlines()
    return [it for it in listed if (ROOT / it).is_file()]


def blocks(page):
    """The code of a page: what stands between fences, and the paragraphs that are indented by four spaces."""
    return FENCED.findall(page) + [textwrap.dedent(it) for it in INDENTED.findall(FENCED.sub("", page))]


def prose(page):
    """A page without its code."""
    return INDENTED.sub("", FENCED.sub("", page))


@functools.cache
def anchors(page):
    """The names by which a link may go to a title of the page, as GitHub makes them."""
    found = []
    for title in re.findall(r"^#+ (.*)$", FENCED.sub("", page), re.M):
        title = re.sub(r"\[([^\]]*)\]\([^)]*\)", r"\1", title).strip().lower()
        name = re.sub(r"[^\w\- ]", "", title).replace(" ", "-")
        found.append(name if name not in found else f"{name}-{found.count(name)}")
    return found


def links(page):
    """Where the links and the pictures of a page go."""
    text = re.sub(r"`[^`]*`", "``", prose(page))
    return re.findall(r"\]\(([^)\s]+)\)", text) + re.findall(r"^\[[^\]]+\]: (\S+)", text, re.M)
