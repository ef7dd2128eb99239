#!/usr/bin/env python3
# Draws docs/versions.svg: the versions of one entry over time, and who needs them. Run: python3 tools/picture.py > docs/versions.svg

LEFT, STEP, CLOCK = 170, 74, 8
INK, SOFT, LINE = "#1f2933", "#52606d", "#cbd2d9"
KEPT, FREE, LATER, READ, EDIT = "#2f6f9f", "#b0412c", "#8a94a0", "#2d7d46", "#8f5a00"


def at(time):
    return LEFT + STEP * time


def text(x, y, words, size=13, fill=INK, anchor="start", weight="normal"):
    return (f'<text x="{x}" y="{y}" font-size="{size}" fill="{fill}" text-anchor="{anchor}" '
            f'font-weight="{weight}">{words}</text>')


# Words over lines: a white edge keeps them apart.
def over(x, y, words, size=12, fill=INK, anchor="start"):
    return (f'<text x="{x}" y="{y}" font-size="{size}" fill="{fill}" text-anchor="{anchor}" '
            f'stroke="#ffffff" stroke-width="5" stroke-linejoin="round" paint-order="stroke">{words}</text>')


def line(x1, y1, x2, y2, stroke, width=1, dash=""):
    dashes = f' stroke-dasharray="{dash}"' if dash else ""
    return f'<line x1="{x1}" y1="{y1}" x2="{x2}" y2="{y2}" stroke="{stroke}" stroke-width="{width}"{dashes}/>'


def bar(x1, x2, y, fill, dash=False):
    style = f'fill="none" stroke="{fill}" stroke-dasharray="5 3"' if dash else f'fill="{fill}"'
    return f'<rect x="{x1}" y="{y}" width="{x2 - x1}" height="26" rx="4" {style}/>'


# The times, and the three that matter.
def times():
    yield text(20, 60, "time", weight="bold")
    for time in range(CLOCK + 1):
        yield line(at(time), 70, at(time), 410, LINE)
    for time, name, fill in [(4, "floor", FREE), (6, "ready point", READ), (8, "clock", INK)]:
        yield line(at(time), 30, at(time), 410, fill, 2, "6 4")
        yield text(at(time), 24, name, anchor="middle", fill=fill, weight="bold")
    for time in range(CLOCK + 1):
        yield over(at(time), 60, time, 13, SOFT, "middle")


# The versions of the entry: each holds from its time until the next.
def versions():
    yield text(20, 100, "the mark's", weight="bold")
    yield text(20, 117, "versions", weight="bold")
    for time, until, words, fill in [(1, 3, "may be collected", FREE), (3, 6, "needed by seat 9", KEPT),
                                     (6, 8, "the newest seen", KEPT)]:
        yield bar(at(time), at(until) - 4, 90, fill)
        yield text(at(time) + 8, 107, words, fill="#ffffff", size=12)
    yield bar(at(8), at(8) + 96, 90, LATER, dash=True)
    yield text(at(8) + 8, 107, "not seen yet", fill=SOFT, size=12)


# A seat, and what it does at which time.
def seat(y, name, doing, time, words, fill):
    yield line(20, y - 26, 900, y - 26, LINE)
    yield text(20, y, name, weight="bold")
    yield text(20, y + 17, doing, fill=SOFT, size=12)
    yield f'<circle cx="{at(time)}" cy="{y - 3}" r="6" fill="{fill}"/>'
    for row, part in enumerate(words):
        yield over(at(time) + 14, y + 1 + 16 * row, part, 12, fill)


def seats():
    yield from seat(170, "seat 9", "a proof", 4, ["began at 4 and is still read:", "it finds the version of 3"], READ)
    yield from seat(228, "seat 11", "a proof", 6, ["began just now, at the ready point:", "it finds the version of 6"], READ)
    yield from seat(286, "seat 2", "a stamped edit", 7, ["took 7, has put one draft of two:", "the ready point is 6"], EDIT)
    yield from seat(344, "seat 5", "a stamped edit", 8, ["took 8, all put:", "it waits for 7"], EDIT)


def legend():
    yield text(20, 440, "The floor is the earliest start of an open proof, or else the ready point. "
               "A version may be collected where the next one", size=12, fill=SOFT)
    yield text(20, 457, "is of a time up to the floor: no proof, open or to come, can ask for it. "
               "Here that is the version of 1, since 3 is up to 4.", size=12, fill=SOFT)


def main():
    print('<svg xmlns="http://www.w3.org/2000/svg" width="920" height="474" viewBox="0 0 920 474" '
          'font-family="Helvetica, Arial, sans-serif">')
    print('<title>The versions of an entry over time, and who needs them</title>')
    print('<rect width="920" height="474" fill="#ffffff"/>')
    for part in [times(), versions(), seats(), legend()]:
        print("\n".join(part))
    print("</svg>")


main()
