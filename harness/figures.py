#!/usr/bin/env python3
"""Draws the figures of docs/BENCHMARK.md from a stored run of the benchmark: harness/figures.py RUN FOLDER.

Python's own library is all that it needs, and the same run gives the same bytes.
"""

import math
import sys
from pathlib import Path

# Who judges, by the run's column: its words, its colour, its dashes and the mark of a measured value.
JUDGES = {
    "engine": ("the engine", "#0b5cad", "", "circle"),
    "levels": ("Rust, the same algorithm (levels)", "#d9730d", "7 3", "square"),
    "whole": ("Rust, a whole query at each leaf (whole)", "#6b6b6b", "2 3", "triangle"),
}
ROUTES = {"built": "built-in trees", "lent": "lent trees", "plain": "plain rounds", "one-sided": "one-sided route"}
# Whose queries are counted, by the run's column, in the same way.
COUNTED = {
    "built": ("built-in trees", "#6b6b6b", "2 3", "triangle"),
    "one-sided": ("the one-sided route", "#0b5cad", "", "circle"),
    "root": ("the square root of the first", "#999999", "7 3", ""),
    "plain": ("plain rounds", "#d9730d", "7 3", "square"),
}
MODELS = {"sparse": "two or three operands a line", "hard": "hard for plain rounds", "2-of-3": "a third of the lines votes"}
SECONDS = {"us": 1e-6, "ms": 1e-3, "s": 1.0}
INK, GRID = "#222222", "#dddddd"


# ---- the run ----


def sections(text):
    """The run's parts: a title, the words of a heading, and the words of each row."""
    parts = [part.splitlines() for part in text.split("\n\n")]
    return {lines[0]: (lines[1].split(), [line.split() for line in lines[2:]]) for lines in parts if len(lines) > 2}


def section(run, title):
    """The one part whose title begins so."""
    found = [part for name, part in run.items() if name.startswith(title)]
    if len(found) != 1:
        sys.exit(f"figures.py: the run has {len(found)} parts that begin with '{title}', where one is expected")
    return found[0]


def judgements(heading, rows):
    """The rows of a table of judgements: route, lines, levels, and by judge the seconds and the engine's time / its."""
    judges = heading[5 : heading.index("Mq/s")]
    for row in rows:
        route, lines, levels = row[0], int(row[1]), int(row[2])
        pairs = [row[5 + 2 * i : 7 + 2 * i] for i in range(len(judges))]
        seconds = {judge: float(value) * SECONDS[unit] for judge, (value, unit) in zip(judges, pairs)}
        ratios = dict(zip(judges[1:], map(float, row[6 + 2 * len(judges) :])))
        yield route, lines, levels, seconds, ratios


# ---- drawing ----


def text(x, y, words, anchor="middle", size=12, weight="normal", turn=""):
    turned = f' transform="rotate(-90 {x:.1f} {y:.1f})"' if turn else ""
    return (
        f'<text x="{x:.1f}" y="{y:.1f}" text-anchor="{anchor}" font-size="{size}" font-weight="{weight}"'
        f' fill="{INK}"{turned}>{words}</text>'
    )


def line(x1, y1, x2, y2, colour=GRID, width=1, dashes=""):
    return (
        f'<line x1="{x1:.1f}" y1="{y1:.1f}" x2="{x2:.1f}" y2="{y2:.1f}"'
        f' stroke="{colour}" stroke-width="{width}" stroke-dasharray="{dashes}"/>'
    )


def mark(kind, x, y, colour, opacity=1):
    paint = f'fill="{colour}" fill-opacity="{opacity}"'
    if kind == "circle":
        return f'<circle cx="{x:.1f}" cy="{y:.1f}" r="4" {paint}/>'
    if kind == "square":
        return f'<rect x="{x - 3.5:.1f}" y="{y - 3.5:.1f}" width="7" height="7" {paint}/>'
    return f'<path d="M {x:.1f} {y - 4.5:.1f} l 4.5 8 h -9 z" {paint}/>'


def picture(width, height, title, parts):
    return "\n".join(
        [
            f'<svg xmlns="http://www.w3.org/2000/svg" width="{width}" height="{height}" viewBox="0 0 {width} {height}"'
            ' font-family="sans-serif" role="img">',
            f"<title>{title}</title>",
            f'<rect width="{width}" height="{height}" fill="#ffffff"/>',
            text(20, 26, title, "start", 16, "bold"),
            *parts,
            "</svg>\n",
        ]
    )


def time_words(seconds):
    for unit, words in (("s", "s"), ("ms", "ms"), ("us", "µs")):
        if seconds >= 0.999 * SECONDS[unit]:
            return f"{seconds / SECONDS[unit]:g} {words}"
    return f"{seconds / SECONDS['us']:g} µs"


def legend(series, y):
    x, parts = 24, []
    for words, colour, dashes, kind in series.values():
        parts.append(line(x, y, x + 32, y, colour, 2, dashes))
        parts += [mark(kind, x + 16, y, colour)] if kind else []
        parts.append(text(x + 40, y + 4, words, "start"))
        x += 70 + 7 * len(words)
    return parts


def panels(title, upwards, words_of, panels, series, axis, steps, place):
    """A panel for each of some groups of points, which it has by series: numbers across, values upwards on a logarithmic scale."""
    shown = [value for by_series in panels.values() for points in by_series.values() for _, value in points]
    low, high = math.floor(math.log10(min(shown))), math.ceil(math.log10(max(shown)))
    panel, gap, left, top, tall = 240, 30, 80, 90, 280
    width, height = left + len(panels) * (panel + gap), top + tall + 60

    def up(value):
        return top + tall - tall * (math.log10(value) - low) / (high - low)

    def across(number):
        return 16 + (panel - 32) * (place(number) - place(steps[0])) / (place(steps[-1]) - place(steps[0]))

    parts = legend(series, 52)
    parts.append(text(24, top + tall / 2, upwards, turn="left"))
    for i, (name, by_series) in enumerate(panels.items()):
        x = left + i * (panel + gap)
        parts.append(text(x + panel / 2, top - 10, name, weight="bold"))
        for power in range(low, high + 1):
            parts.append(line(x, up(10**power), x + panel, up(10**power)))
            if i == 0:
                parts.append(text(x - 8, up(10**power) + 4, words_of(10**power), "end"))
        for step in steps:
            parts.append(text(x + across(step), top + tall + 20, step))
        parts.append(text(x + panel / 2, top + tall + 42, axis))
        for one, (_, colour, dashes, kind) in series.items():
            points = [(x + across(number), up(value)) for number, value in by_series[one]]
            path = " ".join(f"{a:.1f},{b:.1f}" for a, b in points)
            parts.append(
                f'<polyline points="{path}" fill="none" stroke="{colour}" stroke-width="2" stroke-dasharray="{dashes}"/>'
            )
            parts += [mark(kind, a, b, colour) for a, b in points if kind]
    return picture(width, height, title, parts)


def times(title, run, name, column, axis, steps, place):
    """A panel for each route: the time of one judgement by the numbers of a column."""
    rows = list(judgements(*section(run, name)))
    judges = {judge: drawn for judge, drawn in JUDGES.items() if judge in rows[0][3]}
    by_route = {
        words: {judge: [(row[column], row[3][judge]) for row in rows if row[0] == route] for judge in judges}
        for route, words in ROUTES.items()
        if any(row[0] == route for row in rows)
    }
    return panels(title, "time of one judgement", time_words, by_route, judges, axis, steps, place)


def queries(title, run, lines):
    """A panel for each sort of model of so many lines: the queries of one judgement by levels, by each route. What did not end is left out."""
    heading, rows = section(run, "the routes side by side")
    rows = [dict(zip(heading[:8], row)) for row in rows]
    by_model = {
        words: {
            route: [
                (int(row["levels"]), float(row[route]))
                for row in rows
                if (row["model"], row["lines"]) == (model, lines) and row[route] != "over"
            ]
            for route in COUNTED
        }
        for model, words in MODELS.items()
    }
    return panels(title, "queries of one judgement", "{:,}".format, by_model, COUNTED, "levels", [2, 4, 6, 8], float)


def ratios(title, run):
    """A dot for each row of the run: the engine's time / the same algorithm's in Rust."""
    groups = {}
    for name, (heading, rows) in run.items():
        if heading[0] == "route":
            for route, _, _, _, by_judge in judgements(heading, rows):
                votes = ", votes" if name.startswith("votes") else ""
                groups.setdefault(ROUTES[route] + votes, []).append(by_judge["levels"])
    for words, name, column in (
        ("a refused forecast", "a refused forecast", -1),
        ("the bench page", "the bench page", -2),
        ("joining", "joining", -1),
    ):
        groups[words] = [float(row[column]) for row in section(run, name)[1]]
    order = sorted(groups, key=lambda words: "votes" in words)
    most = max(1.0, math.ceil(5 * max(map(max, groups.values()))) / 5)
    left, top, wide, step = 180, 56, 640, 30
    width, height = left + wide + 30, top + step * len(order) + 60

    def across(ratio):
        return left + wide * ratio / most

    bottom = top + step * len(order)
    parts = []
    for fifth in range(int(5 * most + 0.5) + 1):
        at = across(fifth / 5)
        parts.append(line(at, top, at, bottom, INK if fifth == 5 else GRID))
        parts.append(text(at, bottom + 20, f"{fifth / 5:.1f}"))
    parts.append(text(left + wide / 2, bottom + 44, "the engine's time / Rust's: left of 1.0 the engine is faster"))
    for i, words in enumerate(order):
        y = top + step * (i + 0.5)
        parts.append(text(left - 12, y + 4, words, "end"))
        parts += [mark("circle", across(ratio), y, JUDGES["engine"][1], 0.5) for ratio in groups[words]]
    return picture(width, height, title, parts)


def main(run, folder):
    run = sections(Path(run).read_text())
    figures = {
        "time-by-lines.svg": times(
            "Time by lines: 4 levels, two or three operands a line",
            run, "growth with the lines", 1, "lines", [8, 16, 32, 64], math.log2,
        ),
        "time-by-levels.svg": times(
            "Time by levels: 16 lines, two or three operands a line",
            run, "growth with the levels", 2, "levels", list(range(1, 9)), float,
        ),
        "queries-by-levels.svg": queries("Queries by levels: 32 lines, over trees that are universal for them", run, "32"),
        "beside-rust.svg": ratios("The engine beside the same algorithm in Rust, each row of the run", run),
    }
    for name, drawn in figures.items():
        (Path(folder) / name).write_text(drawn)


if __name__ == "__main__":
    if len(sys.argv) != 3:
        sys.exit("usage: harness/figures.py RUN FOLDER")
    main(*sys.argv[1:])
