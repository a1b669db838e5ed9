#!/usr/bin/env python3
"""picture.py [--program FILE] [--to FILE]: draws docs/margins.svg, the margins of 4,096 groups of each set.

Group i of set n is the 96 bytes that SHAKE-128 makes of the text "margin n i", i from 0 on, and marginreport is run on
each by itself. What the picture shows is printed too: the groups, the least margin, the median and the greatest, and
the message bits that came back wrong. The same margins give the same file, byte for byte."""
import argparse
import collections
import hashlib
import pathlib
import statistics
import subprocess
import sys

ROOT = pathlib.Path(__file__).resolve().parent.parent.parent
sys.path.append(str(ROOT / "oracle"))

import saber

GROUPS = saber.MOST_GROUPS

# In pixels: the picture, what it leaves free at the sides, and a panel's bars with its title and axis
WIDTH, HEIGHT, LEFT, RIGHT = 860, 660, 56, 24
PANEL, BARS_TOP, BARS_HEIGHT = 184, 92, 120
MARGINS, MARGIN_TICK, COUNT_TICK = range(-64, 2064), 200, 200  # what lies across, and ticks
BAR = 16  # margins in a bar
BLACK, GREY, PALE, BLUE, RED = "#222222", "#777777", "#e0e0e0", "#4c78a8", "#b22222"
CAPTION = (
    "Margin: 8 M less the largest size of a noise coefficient. From 0 up, no bit of the message comes back wrong.",
    f"Group i of set n is 96 bytes of SHAKE-128 of the text “margin n i”, with i from 0 to {GROUPS - 1}.",
)


# Margins


def group(number, i):
    return hashlib.shake_128(f"margin {number} {i}".encode()).digest(saber.GROUP)


def figures(program, number, i):
    """The margin and the wrong bits of one group, as the program prints them."""
    done = subprocess.run([program], input=bytes([number]) + group(number, i), capture_output=True, check=True)
    header, line = done.stdout.decode().splitlines()
    printed, cases, least, wrong, rest = map(int, line.split())
    if (header, printed, cases, rest) != ("set cases least wrong rest", number, 1, 0):
        sys.exit(f"{program} prints {done.stdout!r} of a group of set {number}")
    return least, wrong


# The picture


def across(margin):
    return LEFT + (margin - MARGINS.start) * (WIDTH - LEFT - RIGHT) / len(MARGINS)


def element(name, content=None, **attributes):
    """An element of SVG; attributes with an underscore for a hyphen."""
    rounded = {key: f"{x:.1f}" if isinstance(x, float) else x for key, x in attributes.items()}
    words = [name, *(f'{key.replace("_", "-")}="{x}"' for key, x in rounded.items())]
    return f"<{' '.join(words)}/>" if content is None else f"<{' '.join(words)}>{content}</{name}>"


def line(x1, y1, x2, y2, color, **more):
    return element("line", x1=x1, y1=y1, x2=x2, y2=y2, stroke=color, **more)


def text(x, y, words, color=BLACK, **more):
    return element("text", words, x=x, y=y, fill=color, **more)


def marked(margin, y, words, color, side="start", **more):
    """A line up a panel at a margin, and words at its upper end."""
    x, top = across(margin), y - BARS_HEIGHT
    yield line(x, top, x, y, color, **more)
    yield text(x + (5 if side == "start" else -5), top + 12, words, color, text_anchor=side)


def panel(number, margins, y, most):
    """A set's panel. Its axis lies at y, and `most` groups are as high as it is."""
    bound, least, greatest = 8 * saber.SETS[number].margin, min(margins), max(margins)
    title = f"Set {number}, {saber.NAMES[number]}: "
    title += f"least margin {least}, median {statistics.median_low(margins)}, greatest {greatest}"
    yield text(LEFT, y - BARS_HEIGHT - 10, title, font_weight="bold")
    for count in range(0, most + 1, COUNT_TICK):
        high = y - count * BARS_HEIGHT / most
        yield line(LEFT, high, WIDTH - RIGHT, high, PALE)
        yield text(LEFT - 6, high + 4, count, text_anchor="end")
    bars = collections.Counter(margin // BAR * BAR for margin in margins)
    for start, count in sorted(bars.items()):
        x, high = across(start), count * BARS_HEIGHT / most
        yield element("rect", x=x, y=y - high, width=across(start + BAR) - x - 0.5, height=high, fill=BLUE)
    yield line(LEFT, y, WIDTH - RIGHT, y, BLACK)
    for margin in range(0, MARGINS.stop, MARGIN_TICK):
        yield line(across(margin), y, across(margin), y + 4, BLACK)
        yield text(across(margin), y + 17, margin, text_anchor="middle")
    yield from marked(0, y, f"0, the bound: a size of 8 M = {bound}", RED, stroke_width=2)
    yield from marked(least, y, f"least {least}", BLACK, "end", stroke_dasharray="3 3")
    yield from marked(bound, y, f"{bound}, no noise", GREY, "end", stroke_dasharray="3 3")


def picture(margins):
    highest = max(max(collections.Counter(x // BAR for x in some).values()) for some in margins.values())
    most = -(-highest // COUNT_TICK) * COUNT_TICK
    size = f'viewBox="0 0 {WIDTH} {HEIGHT}" font-family="sans-serif" font-size="12"'
    yield f'<svg xmlns="http://www.w3.org/2000/svg" {size}>'
    yield element("rect", width=WIDTH, height=HEIGHT, fill="#ffffff")
    yield text(LEFT, 30, f"The margin of {GROUPS} groups of each set", font_size=17, font_weight="bold")
    yield text(LEFT, 50, f"How many groups (upward) have which margin (across), in bars {BAR} wide")
    for place, (number, some) in enumerate(margins.items()):
        yield from panel(number, some, BARS_TOP + PANEL * place + BARS_HEIGHT, most)
    for place, words in enumerate(CAPTION):
        yield text(LEFT, HEIGHT - 32 + 16 * place, words)
    yield "</svg>"


def main():
    options = argparse.ArgumentParser()
    options.add_argument("--program", type=pathlib.Path, default=ROOT / "target/bin/marginreport")
    options.add_argument("--to", type=pathlib.Path, default=ROOT / "docs/margins.svg")
    options = options.parse_args()
    program, margins = options.program.resolve(), {}
    print(f"{'set':>3}{'groups':>8}{'least':>7}{'median':>8}{'greatest':>10}{'wrong':>7}")
    for number in saber.SETS:
        found = [figures(program, number, i) for i in range(GROUPS)]
        some, wrong = [margin for margin, _ in found], sum(bits for _, bits in found)
        print(f"{number:>3}{len(some):>8}{min(some):>7}{statistics.median_low(some):>8}{max(some):>10}{wrong:>7}")
        margins[number] = some
    options.to.write_text("\n".join(picture(margins)) + "\n")


if __name__ == "__main__":
    main()
