"""What the pictures of scripts and of recordings have in common: texts, lines and colours, as SVG."""

import html

# A text of more letters is cut off, and stands whole in what a pointer over it shows.
LONGEST = 34
COLOURS = [("#1b66ad", "#74b6f2"), ("#b04a00", "#f5a55c"), ("#23763a", "#7fd08c"),
           ("#a3246b", "#f28cc0"), ("#5d45b5", "#b9a6f5"), ("#00707c", "#5ed0d8")]


def code_width(words):
    """How wide a text in letters of one width is, of 13 pixels."""
    return 8 * len(words)


def label_width(words):
    """How wide a label is at most, of 12 pixels."""
    return 7 * len(words)


def short(words):
    return words if len(words) <= LONGEST else words[: LONGEST - 1] + "…"


def text(x, y, words, name="label"):
    """A text that begins at x."""
    return f'<text class="{name}" x="{x}" y="{y}">{html.escape(words)}</text>'


def cut_text(x, y, words, name):
    """A text that begins at x, and is cut off where it is long; a pointer over it shows the whole."""
    whole = "" if words == short(words) else f"<title>{html.escape(words)}</title>"
    return f'<text class="{name}" x="{x}" y="{y}">{html.escape(short(words))}{whole}</text>'


def line(x, y, right, bottom, name):
    return f'<line class="{name}" x1="{x}" y1="{y}" x2="{right}" y2="{bottom}"/>'


def cross(x, y):
    return f'<path class="path" d="M{x - 4} {y - 4} l8 8 m0 -8 l-8 8"/>'


def down(x, y):
    """The head of an arrow that points down, with its point here."""
    return f'<path class="head" d="M{x} {y} l-4 -8 h8 z"/>'


def right(x, y):
    return f'<path class="head" d="M{x} {y} l-8 -4 v8 z"/>'


def diamond(x, y):
    return f'<path class="round" d="M{x} {y - 5} l5 5 l-5 5 l-5 -5 z"/>'


def tick(x, y):
    return f'<path class="accepted" d="M{x - 5} {y} l4 4 l7 -9"/>'


def coloured(number, parts):
    """Parts in the colour of this number."""
    return f'<g class="m{number % len(COLOURS)}">{"".join(parts)}</g>'


def legend(signs, bottom, most):
    """The signs below a picture, each given as what draws it around a point and its words, and the picture's height."""
    x, y, drawn = 16, bottom + 26, []
    for sign, words in signs:
        width = 48 + label_width(words)
        if x > 16 and x + width > most:
            x, y = 16, y + 22
        drawn.append(sign(x + 11, y) + text(x + 30, y + 4, words, "label"))
        x += width
    return drawn, y + 18


def title_of(name, capacity):
    """What stands above a picture: the file's name, and how the channel was opened."""
    name = "".join(letter if letter.isprintable() else "?" for letter in name)
    return f"{name}: {'an unbounded channel' if capacity is None else f'a channel of capacity {capacity}'}"


def style(shapes, light, dark):
    """The colours, on a white ground and on a black one."""
    messages = ["\n".join(f".m{number} {{ color: {pair[at]} }}" for number, pair in enumerate(COLOURS)) for at in (0, 1)]
    dark = f"@media (prefers-color-scheme: dark) {{\n{dark}\n{messages[1]} }}"
    return f"{shapes}\n{light}\n{messages[0]}\n{dark}"


def framed(title, width, height, style, parts):
    """A whole picture, of these parts."""
    body = "\n".join(part for part in parts if part)
    title = html.escape(title)
    return (
        f'<svg xmlns="http://www.w3.org/2000/svg" width="{width}" height="{height}" '
        f'viewBox="0 0 {width} {height}" font-family="sans-serif" font-size="12" role="img">\n'
        f'<title>{title}</title>\n<style>\n{style}\n</style>\n'
        f'<rect class="ground" width="100%" height="100%"/>\n'
        f'<text x="16" y="28" font-size="15" font-weight="bold">{title}</text>\n{body}\n</svg>\n'
    )
