#!/usr/bin/env python3
"""Draws docs/granules.svg: the granules of a small tree, before and after an insertion.

The tree has M = 4, m = 2 and the records 1 to 5 of the lock protocol's example. Run it in docs/; the picture
is a function of the numbers below.
"""

SCALE = 4
MARGIN = 12
WIDTH, HEIGHT = 124, 68
LEAF_1 = (0, 0, 10, 10)
LEAF_2 = (100, 0, 110, 10)
GROWN_2 = (55, 0, 110, 56)
SEARCH = (50, 50, 60, 60)
RECORDS = {
    1: (0, 0, 2, 2),
    2: (8, 8, 10, 10),
    3: (100, 0, 102, 2),
    4: (108, 8, 110, 10),
    5: (4, 4, 6, 6),
}
NEW_RECORD = (55, 55, 56, 56)


def box(rect, left, style):
    x1, y1, x2, y2 = rect
    x = left + (x1 + 4) * SCALE
    y = (HEIGHT - 4 - y2) * SCALE
    return (
        f'<rect x="{x}" y="{y}" width="{max(x2 - x1, 1) * SCALE}" '
        f'height="{max(y2 - y1, 1) * SCALE}" {style}/>'
    )


def word(x, y, text, left, style=""):
    return f'<text x="{left + (x + 4) * SCALE}" y="{(HEIGHT - 4 - y) * SCALE}" {style}>{text}</text>'


def frame(left, leaves, title):
    yield box((-4, -4, WIDTH - 4, HEIGHT - 4), left, 'fill="#eef3ee" stroke="#334433"')
    for name, rect in leaves:
        yield box(rect, left, 'fill="#ffffff" stroke="#334433"')
        yield word(rect[0], rect[3] + 1.5, f"leaf {name}", left)
    for rect in RECORDS.values():
        yield box(rect, left, 'fill="#7a9a7a"')
    yield word(4, 30, "granule 3: the rest of space", left)
    yield word(-2, HEIGHT - 12, title, left, 'font-weight="bold"')


def picture():
    total = 2 * WIDTH * SCALE + 3 * MARGIN
    high = HEIGHT * SCALE + 2 * MARGIN
    yield f'<svg xmlns="http://www.w3.org/2000/svg" width="{total}" height="{high}" font-family="sans-serif" font-size="13">'
    yield f'<g transform="translate(0,{MARGIN})">'
    left = MARGIN
    yield from frame(left, [("1", LEAF_1), ("2", LEAF_2)], "before")
    yield box(SEARCH, left, 'fill="none" stroke="#b03020" stroke-dasharray="4 3" stroke-width="2"')
    yield word(SEARCH[2] + 1, SEARCH[1] + 3, "A's search: S on 3", left, 'fill="#b03020"')
    left += WIDTH * SCALE + MARGIN
    yield from frame(left, [("1", LEAF_1), ("2", GROWN_2)], "after: leaf 2 has grown")
    yield box(LEAF_2, left, 'fill="none" stroke="#334433" stroke-dasharray="2 2"')
    yield box(SEARCH, left, 'fill="none" stroke="#b03020" stroke-dasharray="4 3" stroke-width="2"')
    yield box(NEW_RECORD, left, 'fill="#3050b0"')
    yield word(57, 46, "B's record: IX on 3, blocked by S", left, 'fill="#3050b0"')
    yield "</g>"
    yield "</svg>"


with open("granules.svg", "w") as file:
    file.write("\n".join(picture()) + "\n")
