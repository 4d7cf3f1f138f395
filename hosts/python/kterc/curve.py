"""The plot of totals over budgets: the optimum, the greedy rule and heuristics, and below it how far each is above the optimum."""

from typing import NamedTuple

from matplotlib.lines import Line2D
from matplotlib.ticker import FuncFormatter, MaxNLocator

from .compare import per_cent
from .figure import (BLACK, BLUE, GREEN, GREY, MARGIN, ORANGE, PURPLE, SKY, VERMILION, counted, fitted_legend, legend_size,
                     new_figure, printable, separated, settings, top_height, wrapped, write_top)

# Points.
WIDTH, LEFT, RIGHT = 620, 92, 8
TOTALS, BETWEEN, GAPS, BOTTOM = 250, 14, 120, 34
LETTERS = 9.5

PLAIN = 10**9  # totals from here on are shown in larger units
LONGEST = 60  # letters of a heuristic's name; a longer one is cut
LOOKS = ((VERMILION, "^"), (GREEN, "v"), (PURPLE, "D"), (ORANGE, "P"), (SKY, "X"))
DASHES = ("-.", ":", "--")
SMALL = str.maketrans("0123456789", "⁰¹²³⁴⁵⁶⁷⁸⁹")


class Line(NamedTuple):
    """One line of the plot: its totals by budget, its name in the SVG, and how it looks."""

    text: str
    totals: dict
    gid: str
    look: dict


def curve(report, heuristics, heading, facts):
    """The figure for a report and heuristics billed on the same tree. heading and facts are the lines above it."""
    with settings():
        lines = [*_own_lines(report), *map(_heuristic_line, range(len(heuristics)), heuristics)]
        figure, totals, gaps = _panels(lines, heading, facts)
        _draw_totals(totals, lines)
        _draw_gaps(gaps, lines[1:], report.totals)
        return figure


def facts_of(tree):
    """One line: n and the budgets."""
    return f"{counted(len(tree.nodes), 'node')}, budgets 0 to {tree.budget}"


def _own_lines(report):
    """The greedy rule's marks are smaller, so that the optimum's are seen below them."""
    optimum = {"color": BLACK, "marker": "o", "linestyle": "-", "markersize": 7}
    greedy = {"color": BLUE, "marker": "s", "linestyle": "--", "markersize": 4}
    yield Line("optimum", dict(enumerate(report.totals)), "optimum", optimum)
    yield Line("greedy rule", dict(enumerate(report.greedy_totals)), "greedy", greedy)


def _heuristic_line(place, heuristic):
    color, marker = LOOKS[place % len(LOOKS)]
    look = {"color": color, "marker": marker, "linestyle": DASHES[place // len(LOOKS) % len(DASHES)]}
    totals = {billed.budget: billed.total for billed in heuristic.sets}
    return Line(printable(heuristic.name, LONGEST), dict(sorted(totals.items())), f"heuristic-{place + 1}", look)


def _panels(lines, heading, facts):
    """The figure with its top and its legend, and the axes for totals and for gaps."""
    figure = new_figure()
    top = wrapped(heading, WIDTH)
    legend = fitted_legend(figure, [(Line2D([], [], **_look(line)), line.text) for line in lines], WIDTH)
    legend_height = legend_size(figure, legend)[1]
    plots = BOTTOM + GAPS + BETWEEN + TOTALS
    width, height = WIDTH + 2 * MARGIN, 2 * MARGIN + plots + 10 + legend_height + top_height(top)
    figure.set_size_inches(width / 72, height / 72)
    write_top(figure, top, facts)
    legend.set_bbox_to_anchor((0.5, (MARGIN + plots + 10) / height), figure.transFigure)

    def panel(bottom, tall, **settings):
        place = ((MARGIN + LEFT) / width, (MARGIN + bottom) / height, (WIDTH - LEFT - RIGHT) / width, tall / height)
        return _styled(figure.add_axes(place, **settings))

    gaps = panel(BOTTOM, GAPS)
    return figure, panel(BOTTOM + GAPS + BETWEEN, TOTALS, sharex=gaps), gaps


def _look(line):
    return {"markersize": 5.5, "linewidth": 1.3, "markeredgecolor": "white", "markeredgewidth": 0.5, **line.look}


def _styled(axes):
    axes.grid(True, color=GREY, linewidth=0.4, alpha=0.6)
    axes.set_axisbelow(True)
    axes.tick_params(labelsize=LETTERS)
    axes.spines[["top", "right"]].set_visible(False)
    axes.xaxis.set_major_locator(MaxNLocator(nbins=17, integer=True))
    axes.yaxis.set_label_coords(-(LEFT - 20) / (WIDTH - LEFT - RIGHT), 0.5)
    return axes


def _draw_totals(axes, lines):
    """Totals are exact; only their places in the plot are rounded."""
    largest = max(max(line.totals.values(), default=0) for line in lines)
    least = min(min(line.totals.values(), default=largest) for line in lines)
    power = 0 if largest < PLAIN else (len(str(largest)) - 1) // 3 * 3
    for line in lines:
        axes.plot(list(line.totals), [total / 10**power for total in line.totals.values()], gid=line.gid, **_look(line))
    from_zero = 4 * (largest - least) >= largest
    if from_zero:
        top = max(1, largest / 10**power)
        axes.set_ylim(-0.03 * top, 1.05 * top)
    axes.set_ylabel("Total, " + _unit(power) + ("" if from_zero else "\n(the axis does not begin at 0)"), fontsize=LETTERS)
    axes.yaxis.set_major_formatter(FuncFormatter(_plain))
    axes.tick_params(labelbottom=False)


def _unit(power):
    return f"10{str(power).translate(SMALL)} thousandths" if power else "thousandths"


def _plain(value, _):
    """A number of the axis, with separators and no more places than it needs."""
    return separated(int(value)) if value == int(value) else f"{value:,.10g}"


def _draw_gaps(axes, lines, optima):
    for line in lines:
        gaps = {budget: per_cent(total - optima[budget], optima[budget]) for budget, total in line.totals.items()}
        told = {budget: float(gap) for budget, gap in gaps.items() if gap is not None}
        axes.plot(list(told), list(told.values()), gid=f"gap-{line.gid}", **_look(line))
    top = max(1, axes.get_ylim()[1])
    axes.set_ylim(-0.05 * top, 1.05 * top)
    axes.set_xlim(-0.3, max(1, len(optima) - 1) + 0.3)
    axes.set_ylabel("Above the\noptimum, per cent", fontsize=LETTERS)
    axes.yaxis.set_major_formatter(FuncFormatter(_plain))
    axes.yaxis.set_major_locator(MaxNLocator(nbins=5))
    axes.set_xlabel("Budget (caches)", fontsize=LETTERS)
