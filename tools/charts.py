"""The charts of docs/costs.md and README.md, which are drawn from the tables of docs/costs.md.

A chart shows the table below one heading of the page: a group of bars for each row, a bar for each column. The same figures give the same bytes.
README.md repeats some of these figures; each number of its section has to be on docs/costs.md.
"""
import html
import os
import re
from collections import namedtuple

from start import ROOT

PAGE = "docs/costs.md"
# A chart: its file, its title, the heading of its table, and whether that is a heading of the page.
Chart = namedtuple("Chart", "file title heading")
CHARTS = (
    Chart("docs/speed.svg", "Commands a second, as lines of JSON", "Lines a second, beside jsdom and Chromium"),
    Chart("docs/sizes.svg", "Instructions of one command", "Instructions of a command, few and many"),
)
REPEATING, SECTION = "README.md", "Beside others"

# A chart's measures in pixels: its width, the room right of and above the bars, a bar with its gap, and the gap between groups.
WIDTH, RIGHT, TOP, BAR, GAP = 700, 56, 70, 12, 12
# How wide a letter is at most, on average.
LETTER = 7
# The fill of the page, the text, the grid and each column's bars, in light and in dark.
LIGHT = ("#ffffff", "#27343f", "#dde3e9", "#1f6fb5", "#c76a00", "#7b8794")
DARK = ("#15191e", "#e4e9ee", "#333c45", "#64aef0", "#f0a24a", "#a3afba")
CLASSES = (".page { fill: %s } .number { stroke: %s; stroke-width: 3px; paint-order: stroke }", "text { fill: %s }", ".grid { stroke: %s }", ".a { fill: %s }", ".b { fill: %s }", ".c { fill: %s }")
STEPS = (1, 2, 5)


def text_of(file):
    with open(f"{ROOT}/{file}", encoding="utf-8") as it:
        return it.read()


def section_of(text, heading):
    """Returns the text of a page below a heading, up to the next."""
    return text.partition(f"\n## {heading}\n")[2].partition("\n## ")[0]


def number_of(cell):
    return int(cell.replace(",", ""))


def table_of(text, heading):
    """Returns the table below a heading: the names of its columns, and of each row its name and its numbers."""
    lines = [it for it in section_of(text, heading).split("\n") if it.startswith("|")]
    cells = [[cell.strip().replace("`", "") for cell in it.strip("|").split("|")] for it in lines]
    if len(cells) < 3:
        raise ValueError(f"{PAGE}: there is no table below '{heading}'")
    return cells[0][1:], [(row[0], [number_of(it) for it in row[1:]]) for row in cells[2:]]


def step_of(most):
    """Returns the distance of the lines of the grid: at most five fit."""
    tens = 10 ** (len(str(most)) - 2)
    return next(it * tens for it in (*STEPS, 10 * STEPS[0], 10 * STEPS[1]) if most < 5 * it * tens)


def styles():
    light, dark = (" ".join(it.replace("%s", fill) for it, fill in zip(CLASSES, fills)) for fills in (LIGHT, DARK))
    return f"text {{ font: 12px sans-serif }} .title {{ font-weight: bold }} .end {{ text-anchor: end }} .mid {{ text-anchor: middle }} .mid, .number {{ font-size: 11px }}\n{light}\n@media (prefers-color-scheme: dark) {{ {dark} }}"


def drawn(chart, text):
    """Returns the chart of a page's text, as SVG."""
    columns, rows = table_of(text, chart.heading)
    most = max(number for _, numbers in rows for number in numbers)
    group = BAR * len(columns) + GAP
    left = LETTER * max(len(name) for name, _ in rows) + 2 * GAP
    height, scale, step = TOP + group * len(rows) + 4, (WIDTH - left - RIGHT) / most, step_of(most)
    words = lambda x, y, shown, kind="": f'<text x="{x:.0f}" y="{y:.0f}"{f" class={chr(34)}{kind}{chr(34)}" if kind else ""}>{html.escape(shown)}</text>'
    said = "; ".join(f"{name}: " + ", ".join(f"{column} {number:,}" for column, number in zip(columns, numbers)) for name, numbers in rows)
    lines, x = [words(12, 20, chart.title, "title")], left
    for at, column in enumerate(columns):
        lines += [f'<rect class="{"abc"[at]}" x="{x}" y="32" width="10" height="10"/>', words(x + 15, 41, column)]
        x += 15 + LETTER * len(column) + 2 * GAP
    for value in range(0, most + 1, step):
        x = left + value * scale
        lines += [f'<path class="grid" d="M{x:.1f} {TOP - 4}V{height - 6}"/>', words(x, TOP - 8, f"{value:,}", "mid")]
    for at, (name, numbers) in enumerate(rows):
        y = TOP + group * at
        lines.append(words(left - 8, y + BAR * len(columns) / 2 + 4, name, "end"))
        for which, number in enumerate(numbers):
            width, top = number * scale, y + BAR * which
            lines += [f'<rect class="{"abc"[which]}" x="{left}" y="{top}" width="{width:.1f}" height="{BAR - 1}"/>', words(left + width + 5, top + BAR - 2, f"{number:,}", "number")]
    head = f'<svg xmlns="http://www.w3.org/2000/svg" width="{WIDTH}" height="{height}" viewBox="0 0 {WIDTH} {height}" role="img" aria-label="{html.escape(f"{chart.title}. {said}")}">'
    return "\n".join([head, f"<style>\n{styles()}\n</style>", f'<rect class="page" width="{WIDTH}" height="{height}" rx="6"/>', *lines, "</svg>\n"])


def unknown_figures(text, page):
    """Returns the numbers of README.md's section that docs/costs.md does not have."""
    found = re.findall(r"(?<![\w.,])\d+(?:,\d{3})*(?:\.\d+)?", re.sub(r"\]\([^)]*\)", "", section_of(text, SECTION)))
    if not found:
        raise ValueError(f"{REPEATING}: there are no figures below '{SECTION}'")
    return [it for it in dict.fromkeys(found) if not re.search(rf"(?<![\d,]){re.escape(it)}(?!,?\d)", page)]


def check():
    """Returns the faults of the charts, and what holds without any."""
    page, readme, faults = text_of(PAGE), text_of(REPEATING), []
    for chart in CHARTS:
        is_there = os.path.exists(f"{ROOT}/{chart.file}")
        if not is_there or text_of(chart.file) != drawn(chart, page):
            faults.append(f"{chart.file}: it does not show the table below '{chart.heading}' of {PAGE}: run python3 tools/docs.py write charts")
    faults += [f"{REPEATING}: {it} below '{SECTION}' is not on {PAGE}" for it in unknown_figures(readme, page)]
    return faults, f"{len(CHARTS)} charts show the figures of {PAGE}"


def write():
    page = text_of(PAGE)
    for chart in CHARTS:
        with open(f"{ROOT}/{chart.file}", "w", encoding="utf-8") as file:
            file.write(drawn(chart, page))
