"""The plots, as SVG. Colours are variables of CSS, so a page in the dark has other ones; shapes tell planners apart without any colour."""
from __future__ import annotations

import html
import io
import re
from typing import Any, Callable, Dict, Iterable, List, Match, Optional, Sequence, Tuple

import matplotlib
from matplotlib.figure import Figure
from matplotlib.ticker import FuncFormatter, LogLocator, MaxNLocator, NullLocator
from matplotlib.transforms import ScaledTranslation

from .exact import Number, cost_text, rounded
from .names import shown
from .scores import Total

Axes = Any  # of matplotlib, whose types are not known
Point = Tuple[Optional[Number], Optional[Number], str, str]  # two costs, a link and a name
Progress = Tuple[str, List[Tuple[int, Number]], List[str]]  # a planner, its plans' numbers with the least costs up to them, and links

MOST_SERIES = 8  # planners in one plot, as there are colours and shapes
MOST_BARS = 24  # planners in the plot of scores
WIDTH = 4.4  # inches; about as wide as a telephone, so that letters stay readable there
SHAPES = "osD^vPX*"
LIGHT = {"ink": "#1b1f23", "faint": "#b9c0c7", "bar": "#0072b2"}
DARK = {"ink": "#e8eaed", "faint": "#4a525a", "bar": "#56b4e9"}
LIGHT.update({"p%d" % at: it for at, it in enumerate("#0072b2 #d55e00 #009e73 #b0448a #5b4fa0 #a07800 #2f8fc4 #444444".split())})
DARK.update({"p%d" % at: it for at, it in enumerate("#56b4e9 #ff9a4d #2fd0a0 #f29bcf #b4a8ff #f0d24a #9fdcff #d0d0d0".split())})
STAND_INS = {name: "#0a0b%02x" % at for at, name in enumerate(LIGHT)}  # colours in matplotlib's text, which become variables
INK, FAINT, BAR = STAND_INS["ink"], STAND_INS["faint"], STAND_INS["bar"]
ROOT = "@root@/"  # stands in links for the way to the site's top folder
NAMED = re.compile(r'(<a xlink:href=".*?)@name@([0-9]+)">(\s*<\w+)')  # a link of a point that has a name, and the beginning of its shape

matplotlib.rcParams.update({
    "svg.fonttype": "none", "svg.hashsalt": "tournament", "text.parse_math": False, "font.size": 9, "font.family": "sans-serif",
    "text.color": INK, "axes.labelcolor": INK, "axes.edgecolor": FAINT, "xtick.color": INK, "ytick.color": INK, "grid.color": FAINT,
    "axes.grid": True, "grid.linewidth": 0.5, "axes.axisbelow": True, "axes.spines.top": False, "axes.spines.right": False,
    "legend.frameon": False, "legend.fontsize": 8.5, "axes.facecolor": "none", "figure.facecolor": "none"})


def variables(colours: Dict[str, str]) -> str:
    """Colours as variables of CSS."""
    return "; ".join("--%s: %s" % it for it in colours.items())


def series(at: int) -> Tuple[str, str]:
    """The colour and the shape of a planner."""
    return STAND_INS["p%d" % at], SHAPES[at]


def short(name: str, most: int = 22) -> str:
    """A name as it fits into a plot."""
    text = shown(name)
    return text if len(text) <= most else text[:most - 1] + "\u2026"


def canvas(height: float, left: float, bottom: float = 0.5, top: float = 0.12, right: float = 0.15) -> Tuple[Any, Axes]:
    """A figure of this height with one pair of axes; all margins are in inches."""
    figure = Figure(figsize=(WIDTH, height))
    axes = figure.add_axes([left / WIDTH, bottom / height, (WIDTH - left - right) / WIDTH, (height - bottom - top) / height])
    return figure, axes


def margin(names: Iterable[str]) -> float:
    """The room for names at the left, in inches."""
    return 0.25 + 0.085 * max(map(len, names), default=1)


class Names:
    """The names of a plot's points, which are shown on hovering and read by screen readers."""

    def __init__(self) -> None:
        self.texts: List[str] = []

    def link(self, href: str, text: str) -> str:
        """A link of a point that has this name."""
        self.texts.append(html.escape(text))
        return "%s@name@%d" % (href, len(self.texts) - 1)

    def put_into(self, body: str) -> str:
        """The text of a plot with the names at its links."""
        def named(found: Match[str]) -> str:
            """A link with its name."""
            front, at, shape = found.groups()
            text = self.texts[int(at)]
            return '%s"><title>%s</title>%s role="img" aria-label="%s"' % (front, text, shape, text)
        return NAMED.sub(named, body)


def svg(figure: Any, name: str, title: str, names: Names, description: str) -> str:
    """The text of a figure, to be put into a page: no prolog, identifiers of its own, colours as variables.

    It is a group, since its points are links; each of these is an image with a name.
    """
    out = io.StringIO()
    figure.savefig(out, format="svg", metadata={"Date": None, "Creator": None, "Format": None, "Type": None})
    text = out.getvalue()
    box = re.findall(r'viewBox="([^"]*)"', text)[0]
    body = text[text.index("</defs>") + 7:] if text.index("<defs>") < text.index("<g ") else text[text.index("<g "):]
    body = re.sub(r'(\bid="|url\(#|xlink:href="#)', lambda it: it.group() + name + "-", body)
    for variable, colour in STAND_INS.items():
        body = body.replace(colour, "var(--%s, %s)" % (variable, LIGHT[variable]))
    head = '<svg xmlns="http://www.w3.org/2000/svg" xmlns:xlink="http://www.w3.org/1999/xlink" viewBox="%s" class="plot" role="group" ' % box
    head += 'aria-label="%s" style="stroke-linejoin: round; stroke-linecap: butt"><desc>%s</desc>' % (html.escape(title), html.escape(description))
    return head + names.put_into(body.lstrip())


def alone(text: str, root: str) -> str:
    """The text of a plot as a file of its own, in light and dark."""
    dark = "@media screen and (prefers-color-scheme: dark) { svg { background: #15191d; %s } }" % variables(DARK)
    style = "<style>svg { background: #fff } %s</style>" % dark
    at = text.index(">") + 1
    return '<?xml version="1.0" encoding="utf-8"?>\n' + (text[:at] + style + text[at:]).replace(ROOT, root)


def score_plot(standings: Sequence[Tuple[int, str, Total]], link: Callable[[str], str]) -> str:
    """Bars with the score of each planner."""
    rows, points, standings = [short(planner) for _, planner, _ in standings[:MOST_BARS]], Names(), standings[:MOST_BARS]
    figure, axes = canvas(0.65 + 0.28 * len(rows), margin(rows), right=0.55)
    for at, (_, planner, total) in enumerate(standings):
        score = rounded(total.score, 2)
        url = points.link(link(planner), "%s: score %s, coverage %d" % (shown(planner), score, total.coverage))
        axes.barh(at, float(total.score), height=0.62, color=BAR)[0].set_url(url)
        axes.annotate(score, (float(total.score), at), (4, 0), textcoords="offset points", va="center", url=url)
    rows_axis(axes, rows)
    axes.set_xlim(0, max([float(total.score) for _, _, total in standings] + [1]) * 1.02)
    axes.set_xlabel("score")
    return svg(figure, "score", "Score by planner", points, "A bar for each planner, the highest score on top.")


def rows_axis(axes: Axes, names: Sequence[str]) -> None:
    """Names down the left side, the first one on top."""
    axes.set_yticks(range(len(names)), names)
    axes.set_ylim(len(names) - 0.5, -0.5)
    axes.tick_params(axis="y", length=0)
    axes.grid(axis="y", visible=False)
    axes.xaxis.set_major_locator(MaxNLocator(5, integer=True))


def coverage_plot(domains: Sequence[Tuple[str, List[int]]], planners: Sequence[str], link: Callable[[str, str], str]) -> str:
    """For each domain a line to each planner's number of solved problems. Domains are pairs of a name and the planners' numbers."""
    planners, group, points = planners[:MOST_SERIES], len(planners[:MOST_SERIES]) + 1.2, Names()
    rows = [short(name) for name, _ in domains]
    legend_rows = (len(planners) + 1) // 2
    top = 0.1 + 0.19 * legend_rows
    figure, axes = canvas(0.55 + top + 0.105 * group * len(domains), margin(rows), top=top)
    for at, planner in enumerate(planners):
        colour, shape = series(at)
        places = [row * group + at for row in range(len(domains))]
        counts = [numbers[at] for _, numbers in domains]
        axes.hlines(places, 0, counts, color=colour, linewidth=1.6)
        drawn = axes.scatter(counts, places, s=20, color=colour, marker=shape, label=short(planner), clip_on=False, zorder=3)
        drawn.set_urls([points.link(link(name, planner), "%s, %s: %d solved" % (shown(name), shown(planner), numbers[at]))
                        for name, numbers in domains])
    axes.set_yticks([row * group + (len(planners) - 1) / 2 for row in range(len(domains))], rows)
    axes.set_ylim(len(domains) * group - 1.1, -1.1)
    axes.set_xlim(0, max([1] + [it for _, numbers in domains for it in numbers]) * 1.03)
    axes.tick_params(axis="y", length=0)
    axes.grid(axis="y", visible=False)
    axes.xaxis.set_major_locator(MaxNLocator(6, integer=True))
    axes.set_xlabel("solved problems")
    figure.legend(loc="upper center", ncol=2, borderaxespad=0.1, handletextpad=0.3)
    return svg(figure, "coverage", "Coverage by domain", points, "For each domain, a line to the number of problems that each planner solves.")


def scatter_plot(one: str, other: str, points: Sequence[Point], name: str) -> str:
    """The costs of two planners on log axes. A point is both costs (None for unsolved or unknown), a link and a name.

    What a log axis cannot show is at the edges: zero below the least cost, and what has no cost above the greatest.
    """
    figure, axes = canvas(4.1, 0.75, bottom=0.6, top=0.15)
    names, costs = Names(), [float(it) for x, y, *_ in points for it in (x, y) if it]
    low, high = min(costs, default=1), max(costs, default=1)
    zero, low_edge, none, high_edge = low / 3, low / 5, high * 3, high * 5
    if not any(it == 0 for x, y, *_ in points for it in (x, y)):
        low_edge = low / 1.5

    def place(cost: Optional[Number]) -> float:
        """Where a cost is on an axis."""
        return none if cost is None else float(cost) if cost else zero

    axes.plot([low_edge, none / 1.4], [low_edge, none / 1.4], color=FAINT, linewidth=1)
    axes.axhline(none / 1.6, color=FAINT, linewidth=1, linestyle=":")
    axes.axvline(none / 1.6, color=FAINT, linewidth=1, linestyle=":")
    for at, chosen in enumerate([[it for it in points if None not in it[:2]], [it for it in points if None in it[:2]]]):
        colour, shape = series(at)
        drawn = axes.scatter([place(x) for x, *_ in chosen], [place(y) for _, y, *_ in chosen], s=26, color=colour, marker="ox"[at],
                             alpha=0.75, zorder=3)
        drawn.set_urls([names.link(link, text) for *_, link, text in chosen])
    for axis, planner in (axes.xaxis, one), (axes.yaxis, other):
        log_axis(axis, low, high, zero, none, zero_shown=low_edge == low / 5)
        axis.set_label_text("%s: least cost" % short(planner))
    axes.set_xlim(low_edge, high_edge)
    axes.set_ylim(low_edge, high_edge)
    title = "Costs of %s against costs of %s" % (shown(one), shown(other))
    return svg(figure, name, title, names, "Each point is a problem: the costs of both planners' best plans, on log axes.")


def log_axis(axis: Axes, low: float, high: float, zero: float, none: float, zero_shown: bool) -> None:
    """A log axis whose ticks are plain numbers, with a place for none and one for zero if it is needed."""
    axis.axes.set_xscale("log") if axis.axis_name == "x" else axis.axes.set_yscale("log")
    steps = LogLocator(subs=(1, 2, 5) if high / low < 100 else (1,)).tick_values(low, high)
    ticks = [it for it in steps if low * 0.999 <= it <= high * 1.001] or [low]
    ticks = ticks[::1 + len(ticks) // 8]
    named = [(zero, "0")] * zero_shown + [(it, "%g" % it) for it in ticks] + [(none, "none")]
    axis.set_ticks([it for it, _ in named], [text for _, text in named])
    axis.set_minor_locator(NullLocator())


def progress_plot(lines: Sequence[Progress], unit: str, name: str) -> str:
    """The least cost of a planner's plans up to each. Lines are triples of a planner, pairs of a plan's number and that cost, and links."""
    lines, points = lines[:MOST_SERIES], Names()
    top = 0.12 + 0.19 * ((len(lines) + 1) // 2)
    figure, axes = canvas(2.4 + top, 0.7, top=top)
    last = max(pairs[-1][0] for _, pairs, _ in lines)
    for at, (planner, pairs, links) in enumerate(lines):
        colour, shape = series(at)
        numbers, costs = [it for it, _ in pairs], [float(it) for _, it in pairs]
        apart = (at - (len(lines) - 1) / 2) / 72  # so that lines at one cost do not hide each other
        shifted = axes.transData + ScaledTranslation(2.5 * apart, -1.8 * apart, figure.dpi_scale_trans)
        axes.step(numbers + [last], costs + costs[-1:], where="post", color=colour, linewidth=1.3, transform=shifted, clip_on=False)
        drawn = axes.scatter(numbers, costs, s=18, color=colour, marker=shape, label=short(planner), zorder=3, transform=shifted, clip_on=False)
        drawn.set_urls([points.link(link, "%s, plan %d: least %s %s" % (shown(planner), number, unit, cost_text(cost)))
                        for link, (number, cost) in zip(links, pairs)])
    costs = [float(it) for _, pairs, _ in lines for _, it in pairs]
    spread = max(costs) - min(costs) or 1
    axes.set_ylim(min(costs) - 0.08 * spread, max(costs) + 0.08 * spread)
    axes.set_xlim(0.7, last + 0.3)
    axes.xaxis.set_major_locator(MaxNLocator(6, integer=True, min_n_ticks=1))
    axes.yaxis.set_major_locator(MaxNLocator(5, integer=all(it == int(it) for it in costs), min_n_ticks=1))
    axes.yaxis.set_major_formatter(FuncFormatter(lambda it, _: "%g" % it))
    axes.set_xlabel("plan, in the order of the planner's files")
    axes.set_ylabel("least %s so far" % unit)
    figure.legend(loc="upper center", ncol=2, borderaxespad=0.1, handletextpad=0.3)
    return svg(figure, name, "Least %s over successive plans" % unit, points, "A line for each planner, with a point for each of its valid plans.")
