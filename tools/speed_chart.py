#!/usr/bin/env python3
"""Draws docs/speed.svg from the table of speeds in docs/STATUS.md: a panel for each map that is compared, a group of
three bars for each operation, on a scale of powers of two, with a line at 1.

usage: tools/speed_chart.py            writes docs/speed.svg
       tools/speed_chart.py --check    fails if docs/speed.svg is not what it would write
"""
import math
import pathlib
import re
import sys

TOP = pathlib.Path(__file__).resolve().parent.parent
TABLE, CHART = TOP / "docs/STATUS.md", TOP / "docs/speed.svg"
PANELS = [("Over the crate", "the crate rart 0.11.0"), ("Over `BTreeMap`", "std's BTreeMap")]
SETS = [("random u64 keys", "#1f77b4"), ("paths", "#ff7f0e"), ("dense u64 keys", "#2ca02c")]
# Ratios beyond these are drawn up to the border, with an arrow.
LEAST, MOST = 1 / 16, 8
LEFT, TOP_GAP, HEIGHT, GROUP, BAR = 52, 44, 190, 62, 16
LABELS = 92


def read_rows(text):
    """Returns the names of the operations and, by the heading of a column, their triples of ratios; and the day."""
    lines = text.splitlines()
    start = next(at for at, line in enumerate(lines) if line.startswith("|") and PANELS[0][0] in line)
    heads = [it.strip() for it in lines[start].strip("|").split("|")]
    names, ratios = [], {head: [] for head, _ in PANELS}
    for line in lines[start + 2 :]:
        if not line.startswith("|"):
            break
        cells = [it.strip() for it in line.strip("|").split("|")]
        names.append(cells[0].replace("`", ""))
        for head in ratios:
            found = re.findall(r"[\d.]+", cells[heads.index(head)])
            ratios[head].append([float(it) for it in found[:3]])
    day = re.search(r"\d{4}-\d{2}-\d{2}", "\n".join(lines[lines.index("## Speed") : start]))[0]
    return names, ratios, day


def height_of(ratio):
    """Returns the part of the panel's height at which a ratio stands, from 0 to 1."""
    inside = min(max(ratio, LEAST), MOST)
    return (math.log2(inside) - math.log2(LEAST)) / (math.log2(MOST) - math.log2(LEAST))


def draw_panel(top, title, names, rows, day):
    """Returns the elements of one panel, whose upper border is at `top`."""
    right = LEFT + GROUP * len(names)
    y_of = lambda ratio: top + HEIGHT * (1 - height_of(ratio))
    words = f"CPU time over that of {title}, {day} (lower is faster)"
    made = [f'<text x="{LEFT}" y="{top - 12}" class="title">{words}</text>']
    for power in range(round(math.log2(LEAST)), round(math.log2(MOST)) + 1):
        ratio = 2.0**power
        label = f"1/{2 ** -power}" if power < 0 else f"{2 ** power}"
        kind = "one" if power == 0 else "grid"
        made.append(f'<line x1="{LEFT}" x2="{right}" y1="{y_of(ratio):.1f}" y2="{y_of(ratio):.1f}" class="{kind}"/>')
        made.append(f'<text x="{LEFT - 6}" y="{y_of(ratio) + 4:.1f}" class="scale">{label}</text>')
    for at, (name, row) in enumerate(zip(names, rows)):
        x = LEFT + GROUP * at + 7
        for number, ratio in enumerate(row):
            low, high = sorted((y_of(1), y_of(ratio)))
            place = x + BAR * number
            made.append(
                f'<rect x="{place}" y="{low:.1f}" width="{BAR - 2}" height="{max(high - low, 0.5):.1f}"'
                f' fill="{SETS[number][1]}"><title>{name}, {SETS[number][0]}: {ratio:g}</title></rect>'
            )
            if not LEAST <= ratio <= MOST:
                arrow = "↓" if ratio < LEAST else "↑"
                made.append(f'<text x="{place + 7}" y="{y_of(ratio) + 4:.1f}" class="beyond">{arrow}</text>')
        turn = f"rotate(-35 {x + 26} {top + HEIGHT + 14})"
        made.append(f'<text x="{x + 26}" y="{top + HEIGHT + 14}" transform="{turn}" class="name">{name}</text>')
    return made


def draw(names, ratios, day):
    """Returns the text of the chart."""
    width = LEFT + GROUP * len(names) + 12
    step = TOP_GAP + HEIGHT + LABELS
    made = [
        '<svg xmlns="http://www.w3.org/2000/svg" '
        f'viewBox="0 0 {width} {step * len(PANELS) + 30}" font-family="sans-serif">',
        "<style>.title{font-size:14px;font-weight:bold}.scale{font-size:11px;text-anchor:end}"
        ".name{font-size:11px;text-anchor:end}.beyond{font-size:11px;text-anchor:middle}"
        ".grid{stroke:#ddd}.one{stroke:#000;stroke-width:1.5}.key{font-size:12px}</style>",
        f'<rect width="{width}" height="{step * len(PANELS) + 30}" fill="#fff"/>',
    ]
    for number, (head, title) in enumerate(PANELS):
        made += draw_panel(TOP_GAP + step * number, title, names, ratios[head], day)
    for number, (name, colour) in enumerate(SETS):
        x, y = LEFT + 150 * number, step * len(PANELS) + 10
        made.append(f'<rect x="{x}" y="{y}" width="12" height="12" fill="{colour}"/>')
        made.append(f'<text x="{x + 18}" y="{y + 11}" class="key">{name}</text>')
    return "\n".join([*made, "</svg>", ""])


def main(words):
    if words not in ([], ["--check"]):
        sys.exit(__doc__)
    text = draw(*read_rows(TABLE.read_text(encoding="utf-8")))
    if words and CHART.read_text(encoding="utf-8") != text:
        sys.exit("docs/speed.svg is not what docs/STATUS.md says: run tools/speed_chart.py")
    if not words:
        CHART.write_text(text, encoding="utf-8")


if __name__ == "__main__":
    main(sys.argv[1:])
