#!/usr/bin/env python3
"""Draws the figures of the benchmarks: of each table bench/figures/NAME.txt the picture docs/NAME.png.

usage: plot.py [NAME ..]

A table is plain text. Lines `KEY: TEXT` stand first:
  title   what stands over the picture
  kind    bars, a bar for each row; groups, bars side by side for each row, one for each column; or lines, a line for each column over
          the first one, which has numbers
  y       how the numbers are called
  column  of bars, the column that is drawn; the first one where none is named
  x       of lines, how the numbers of the first column are called
  level   of lines, NAME = NUMBER, something to compare with; it may stand several times
  from    the command that measured, and when; it stands below the picture
Behind an empty line stands the table, its columns divided by two spaces or more, its first row their names, as compare.py prints it; `-` stands
where there is no number. A line that begins with `#` is no part of it. What is ours, whose name begins with `mfu`, is drawn in blue.
It needs matplotlib.
"""
import glob
import os
import re
import sys

TOP = os.path.dirname(os.path.dirname(os.path.realpath(__file__)))
BLUES = ["#08519c", "#3182bd", "#6baed6", "#9ecae1"]
OTHERS = ["#636363", "#969696", "#bdbdbd", "#d95f0e"]


class Table:
    """The head of a table, its names of columns, and its rows, each a name and the numbers."""

    def __init__(self, path):
        self.head, self.levels, self.rows, self.texts = {"kind": "bars"}, [], [], []
        with open(path, encoding="utf-8") as file:
            head, _, body = file.read().partition("\n\n")
        for line in head.splitlines():
            key, found, text = line.partition(":")
            if line.startswith("#"):
                continue
            if not found:
                raise ValueError(f"{path}: no `KEY: TEXT`: {line}")
            if key == "level":
                name, _, number = text.rpartition("=")
                self.levels.append((name.strip(), float(number)))
            else:
                self.head[key] = text.strip()
        lines = [line for line in body.splitlines() if line.strip() and not line.startswith("#")]
        self.columns = re.split(r"\s{2,}", lines[0].strip())
        for line in lines[1:]:
            name, *numbers = re.split(r"\s{2,}", line.strip())
            self.rows.append((name, [None if number == "-" else float(number.replace(",", "")) for number in numbers]))
            self.texts.append(numbers)
        # compare.py leaves the name of its first column out.
        if self.rows and len(self.columns) == len(self.rows[0][1]):
            self.columns.insert(0, "")
        for name, numbers in self.rows:
            if len(numbers) != len(self.columns) - 1:
                raise ValueError(f"{path}: the row {name} has {len(numbers)} numbers, and {len(self.columns) - 1} columns have names")

    def numbers(self, column):
        """The numbers of a column, and how they are written."""
        place = self.columns.index(column) - 1
        return [numbers[place] for _, numbers in self.rows], [texts[place] for texts in self.texts]


def colours(names):
    """A colour for each name: blues for ours, greys for others."""
    blues, others = iter(BLUES * 4), iter(OTHERS * 4)
    return [next(blues) if name.startswith("mfu") else next(others) for name in names]


def bars(axes, table):
    names = [name for name, _ in table.rows]
    numbers, texts = table.numbers(table.head.get("column", table.columns[1]))
    drawn = axes.barh(names, numbers, color=[BLUES[1] if name.startswith("mfu") else OTHERS[1] for name in names])
    axes.bar_label(drawn, texts, padding=3)
    axes.invert_yaxis()
    axes.set_xlabel(table.head["y"])
    axes.margins(x=0.12)


def groups(axes, table):
    series = table.columns[1:]
    width = 0.8 / len(series)
    for at, (name, colour) in enumerate(zip(series, colours(series))):
        places = [row + at * width for row in range(len(table.rows))]
        numbers, texts = table.numbers(name)
        drawn = axes.barh(places, [number or 0 for number in numbers], width, label=name, color=colour)
        axes.bar_label(drawn, texts, padding=3, fontsize=8)
    axes.set_yticks([row + 0.4 - width / 2 for row in range(len(table.rows))], [name for name, _ in table.rows])
    axes.invert_yaxis()
    axes.set_xlabel(table.head["y"])
    axes.margins(x=0.12)
    axes.legend()


def lines(axes, table):
    over = [float(name.replace(",", "")) for name, _ in table.rows]
    series = table.columns[1:]
    for name, colour in zip(series, colours(series)):
        axes.plot(over, table.numbers(name)[0], marker="o", label=name, color=colour)
    for (name, number), style in zip(table.levels, ["--", ":", "-."]):
        axes.axhline(number, linestyle=style, color=OTHERS[0], label=name)
    axes.set_xticks(over, [name for name, _ in table.rows])
    axes.set_xlabel(table.head["x"])
    axes.set_ylabel(table.head["y"])
    axes.set_ylim(bottom=0)
    axes.legend()


def draw(pyplot, path):
    table = Table(path)
    kinds = {"bars": bars, "groups": groups, "lines": lines}
    many = len(table.rows) * (len(table.columns) - 1 if table.head["kind"] == "groups" else 1)
    high = 4 if table.head["kind"] == "lines" else 1.3 + 0.32 * many
    figure, axes = pyplot.subplots(figsize=(7.2, high), layout="constrained")
    kinds[table.head["kind"]](axes, table)
    axes.set_title(table.head["title"], fontsize=11)
    axes.spines[["top", "right"]].set_visible(False)
    if "from" in table.head:
        figure.supxlabel(table.head["from"], fontsize=7, color="#636363")
    to = os.path.join(TOP, "docs", os.path.basename(path).removesuffix(".txt") + ".png")
    figure.savefig(to, dpi=110, metadata={"Software": None})
    pyplot.close(figure)
    print(os.path.relpath(to, TOP))


def main(names):
    try:
        import matplotlib
    except ImportError:
        sys.exit("plot.py needs matplotlib")
    matplotlib.use("Agg")
    from matplotlib import pyplot

    folder = os.path.join(TOP, "bench/figures")
    for path in [os.path.join(folder, name + ".txt") for name in names] or sorted(glob.glob(os.path.join(folder, "*.txt"))):
        draw(pyplot, path)


if __name__ == "__main__":
    main(sys.argv[1:])
