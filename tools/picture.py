"""Draws the lanes of a replay, by matplotlib."""
from names import AUTH_TYPES, clock, diagnostic, ends_of, kind_of, where_of
from texts import library

library("matplotlib", "python3-matplotlib").use("Agg")
import matplotlib.pyplot as plt
from matplotlib.collections import LineCollection, PolyCollection
from matplotlib.lines import Line2D
from matplotlib.patches import Patch
from matplotlib.ticker import FuncFormatter

# Colours that red-green colour-blind people can distinguish.
COLOURS = {"Up": "#009e73", "Init": "#f0c419", "Down": "#d55e00", "AdminDown": "#8c8c8c"}
INK = {"Up": "white", "Init": "black", "Down": "white", "AdminDown": "white"}
CAME, SENT, ECHO, DROP = "#222222", "#0072b2", "#e08214", "#b00020"
POLL, DEMAND, REFUSAL = "#b0479b", "#56b4e9", "#7a4f00"
MARGIN = 1.35                      # inches for the title, the axis and the legend
TALLEST = 60                       # inches, however many lanes there are
MOST_DETAILED = 12                 # with more sessions there are lanes alone
MOST_WITH_GAPS = 400               # with more, gaps between lanes would flicker
BAR, BAR_HEIGHT = 0.43, 0.25       # where the bar of states begins in a lane of height 1, from above, and its height
MOST_BARS = 100000                 # with more bars, those that are too narrow to be seen are drawn as one
MOST_COLUMNS = 2000                # so many strokes in a lane are a surface
LEAST_COLUMNS = 20
LEVELS = (0.24, 0.15, 0.06)        # where reasons stand, one over the other where they would overlap
CHANGE = 1.3                       # points: the width of the mark of a change, at every scale


class Scale:
    """The unit of the time axis, and what part of the picture a time takes. `start` is when second 0 was, or None."""

    def __init__(self, since, until, start=None):
        self.start = start
        span = max(until - since, 1e-6)
        self.name, self.unit = next(((name, unit) for name, unit in (("hours", 3600), ("minutes", 60), ("seconds", 1))
                                     if span >= 3 * unit), ("milliseconds", 0.001))
        self.since, self.until, self.span = since / self.unit, until / self.unit, span / self.unit

    def at(self, moment):
        return moment / self.unit

    def column(self, moment, columns):
        """The number of the column, of so many, that a moment of the picture's unit is in."""
        return (moment - self.since) * columns // self.span


def thinned(scale, moments, columns=MOST_COLUMNS):
    """The moments inside the picture, and where they are many, the first in each column alone."""
    inside = [at for at in map(scale.at, moments) if scale.since <= at <= scale.until]
    if len(inside) <= columns:
        return inside
    first = {}
    for at in inside:
        first.setdefault(scale.column(at, columns), at)
    return list(first.values())


def joined(scale, spans, columns):
    """The spans of a lane, each with what it is of, inside the picture and in its unit. One that begins in the column in which the one
    before begins is drawn as a part of that; without columns each is drawn."""
    bars, last = [], None
    for start, end, what in spans:
        start, end = max(scale.at(start), scale.since), min(scale.at(end), scale.until)
        if end < start:
            continue
        column = scale.column(start, columns) if columns else None
        if columns and column == last:
            bars[-1][1] = end
        else:
            bars.append([start, end, what])
        last = column
    return bars


def columns_of(lanes):
    """How many columns bars of states stand in, or None where they aren't too many."""
    every = lanes.lanes.values()
    if sum(len(lane.states) for lane in every) <= MOST_BARS:
        return None
    return min(max(MOST_BARS // len(every), LEAST_COLUMNS), MOST_COLUMNS)


def draw(lanes, title, since, until, lanes_alone=False, start=None):
    """The figure of these lanes between two moments; where `start` is known, with the time of the day."""
    detailed = len(lanes.lanes) <= MOST_DETAILED and not lanes_alone
    count = len(lanes.lanes) + bool(lanes.strays)
    height = MARGIN + count * (1.25 if detailed else min(0.24, max(0.045, 14 / count), TALLEST / count))
    figure, axes = plt.subplots(figsize=(12, height))
    scale = Scale(since, until, start)
    draw_states(axes, scale, lanes, detailed)
    for row, lane in enumerate(lanes.lanes.values() if detailed else ()):
        draw_details(axes, scale, row, lane)
    if lanes.strays:
        draw_drops(axes, scale, len(lanes.lanes), lanes.strays, detailed)
    finish(figure, axes, scale, lanes, title, detailed, height)
    return figure


def draw_states(axes, scale, lanes, detailed):
    """The bars of all lanes, one collection a state, so that thousands of lanes are drawn in seconds."""
    boxes, gap = {state: [] for state in COLOURS}, 0.16 if len(lanes.lanes) <= MOST_WITH_GAPS else 0
    columns = columns_of(lanes)
    for row, lane in enumerate(lanes.lanes.values()):
        low, height = (row + BAR, BAR_HEIGHT) if detailed else (row + gap / 2, 1 - gap)
        for start, end, state in joined(scale, lane.states, columns):
            if end == start:
                continue
            boxes[state].append(((start, low), (start, low + height), (end, low + height), (end, low)))
            if detailed and (end - start) / scale.span > 0.012 + 0.009 * len(state):
                axes.text((start + end) / 2, low + height / 2, state, ha="center", va="center", color=INK[state], fontsize=9)
    for state, corners in boxes.items():
        axes.add_collection(PolyCollection(corners, facecolor=COLOURS[state], linewidth=0), autolim=False)
    draw_changes(axes, scale, lanes, detailed, columns or MOST_COLUMNS)


def draw_changes(axes, scale, lanes, detailed, columns):
    """A mark for each change, in the colour of the new state, so that a state that was left at once shows too. Down lies over Up."""
    for order, state in enumerate(("Up", "Init", "Down", "AdminDown")):
        marks = []
        for row, lane in enumerate(lanes.lanes.values()):
            low, high = (row + BAR - 0.015, row + BAR + BAR_HEIGHT + 0.015) if detailed else (row + 0.04, row + 0.96)
            moments = [moment for moment, new, _ in lane.changes if new == state]
            marks += [((at, low), (at, high)) for at in thinned(scale, moments, columns)]
        axes.add_collection(LineCollection(marks, colors=COLOURS[state], linewidths=CHANGE, zorder=2 + order / 10), autolim=False)


def draw_details(axes, scale, row, lane):
    below = row + BAR + BAR_HEIGHT
    marks(axes, scale, lane.came, row + BAR - 0.13, row + BAR - 0.02, CAME)
    marks(axes, scale, lane.sent, below + 0.02, below + 0.13, SENT)
    if any(lane.echoes):
        marks(axes, scale, lane.echoes[0], row + BAR - 0.08, row + BAR - 0.02, ECHO)
        marks(axes, scale, lane.echoes[1], below + 0.02, below + 0.08, ECHO)
    for spans, colour, low in ((lane.polls, POLL, below + 0.16), (lane.demand, DEMAND, below + 0.22)):
        bars = joined(scale, ((start, end, None) for start, end in spans), MOST_COLUMNS)
        axes.broken_barh([(start, max(end - start, scale.span / 600)) for start, end, _ in bars],
                         (low, 0.045), color=colour, linewidth=0)
    draw_drops(axes, scale, row, lane.drops, True, lane.changes)
    draw_refusals(axes, scale, below, lane.refusals)


def draw_refusals(axes, scale, below, refusals):
    """A rhomb for each refused command, and its cause where there is room."""
    if not refusals:
        return
    marked = thinned(scale, [moment for moment, _ in refusals])
    axes.plot(marked, [below + 0.075] * len(marked), "D", color=REFUSAL, markersize=5)
    free = scale.since
    for moment, cause in refusals:
        at = scale.at(moment) + scale.span / 150
        if free <= at <= scale.until:
            write(axes, scale, at, below + 0.08, cause, REFUSAL)
            free = at + scale.span * width_of(cause)


def marks(axes, scale, moments, low, high, colour):
    """A stroke for each packet, thinner where there are many."""
    width = 1.4 if len(moments) < 150 else 0.8 if len(moments) < 800 else 0.3
    axes.vlines(thinned(scale, moments), low, high, color=colour, linewidth=width)


def write(axes, scale, moment, height, label, colour):
    """Small words at a moment, kept inside at the right end."""
    at_end = moment > scale.until - scale.span * width_of(label)
    axes.text(scale.until if at_end else moment, height, label, color=colour, fontsize=7.5, ha="right" if at_end else "left",
              va="center", clip_on=True)


def width_of(label):
    """The part of the picture's width that small words take, with a space."""
    return 0.008 + 0.0068 * len(label)


def draw_drops(axes, scale, row, drops, detailed, changes=()):
    """A cross for each drop, and over it why; over each change to Down or AdminDown its diagnostic. Reasons that follow each other closely
    share a label. Diagnostics come first in the uppermost level; one that has no room is written by its number. Else a label is left
    out."""
    if not detailed:
        return marks(axes, scale, [moment for moment, _ in drops], row + 0.08, row + 0.92, DROP)
    crosses = thinned(scale, [moment for moment, _ in drops])
    axes.plot(crosses, [row + BAR - 0.075] * len(crosses), "x", color=DROP, markersize=6, markeredgewidth=1.6)
    taken = {level: [] for level in LEVELS}
    groups = grouped(inside(scale, drops), scale.span / 40)
    labels = [(moment, reason + (f" ×{count}" if count > 1 else "")) for moment, reason, count in groups]
    left = [one for one in labels if not place(axes, scale, row, taken, LEVELS[:2], one[0], one[1:], DROP)]
    for state in ("Down", "AdminDown"):
        reasons = [(moment, diag) for moment, new, diag in changes if new == state]
        for moment, diag, count in grouped(inside(scale, reasons), scale.span / 40):
            times = f" ×{count}" if count > 1 else ""
            place(axes, scale, row, taken, LEVELS[::-1], moment, (diagnostic(diag) + times, f"{diag}{times}"), COLOURS[state])
    for moment, label in left:
        place(axes, scale, row, taken, LEVELS[2:], moment, (label,), DROP)


def inside(scale, reasons):
    """Those of the picture, with their moments in its unit."""
    return [(scale.at(moment), reason) for moment, reason in reasons if scale.since <= scale.at(moment) <= scale.until]


def place(axes, scale, row, taken, levels, moment, labels, colour):
    """Writes the first of these labels that has room in one of the levels, and whether one had; `taken` are the parts of each that are
    written on."""
    for label in labels:
        width = scale.span * width_of(label)
        start = min(moment, scale.until - width)
        for level in levels:
            if all(start + width <= low or high <= start for low, high in taken[level]):
                taken[level].append((start, start + width))
                write(axes, scale, moment, row + level, label, colour)
                return True
    return False


def grouped(drops, near):
    """(first moment, reason, number) of the drops of one reason that are near to each other."""
    groups, last = [], None
    for moment, reason in drops:
        if groups and groups[-1][1] == reason and moment - last <= near:
            groups[-1][2] += 1
        else:
            groups.append([moment, reason, 1])
        last = moment
    return groups


def finish(figure, axes, scale, lanes, title, detailed, height):
    rows = [label_of(lane.session, lanes.auth, detailed) for lane in lanes.lanes.values()] + ["no session"] * bool(lanes.strays)
    step = 1 if detailed else max(1, -(-len(rows) * 13 // int((height - MARGIN) * 72)))
    middle = BAR + BAR_HEIGHT / 2 if detailed else 0.5
    axes.set_yticks([row + middle for row in range(0, len(rows), step)], rows[::step], fontsize=9 if detailed else 8)
    axes.set_ylim(len(rows), 0)
    axes.set_xlim(scale.since, scale.until)
    axes.set_xlabel(scale.name if scale.start is None else "the time of the day, UTC")
    if scale.start is not None:
        axes.xaxis.set_major_formatter(FuncFormatter(lambda at, _: time_of_day(scale, at)))
    axes.tick_params(axis="y", length=0 if step == 1 else 3)
    axes.xaxis.grid(True, color="#dddddd", linewidth=0.6)
    axes.set_axisbelow(True)
    if not detailed:
        axes.set_ylabel("session")
    else:
        axes.hlines(range(1, len(rows)), scale.since, scale.until, color="#cccccc", linewidth=0.6)
    for side in ("top", "right", "left"):
        axes.spines[side].set_visible(False)
    axes.set_title(title, loc="left", fontsize=11)
    figure.tight_layout(rect=(0, 0.3 / height, 1, 1))
    keys = legend_of(lanes, detailed)
    figure.legend(handles=keys, loc="lower center", ncol=len(keys), fontsize=8.5, frameon=False, columnspacing=1.3,
                  handletextpad=0.5)


def time_of_day(scale, at):
    """The words at a place of the axis: as many digits as the scale needs, and at its beginning the date."""
    date, _, time = clock(scale.start, round(at * scale.unit * 1000000)).partition(" ")
    return time[:12] if scale.span * scale.unit < 20 else time[:8]


def label_of(session, auth, detailed):
    if not detailed:
        return f"{session.discr}  {ends_of(session)}"
    kind = f", {AUTH_TYPES.get(auth[session.discr], auth[session.discr])}" if session.discr in auth else ""
    return f"{kind_of(session)} {session.discr}\n{ends_of(session)}\n{where_of(session)}{kind}"


def legend_of(lanes, detailed):
    """What the picture has, and no more."""
    every = list(lanes.lanes.values())
    states = {state for lane in every for _, _, state in lane.states}
    keys = [Patch(color=colour, label=state) for state, colour in COLOURS.items() if state in states]
    if detailed:
        keys += [Line2D([], [], color=colour, marker="|", linestyle="", markersize=9, markeredgewidth=1.6, label=label)
                 for colour, label in ((CAME, "packet that came"), (SENT, "packet that was sent"), (ECHO, "echo packet"))
                 if colour != ECHO or any(any(lane.echoes) for lane in every)]
        if any(lane.polls for lane in every):
            keys.append(Line2D([], [], color=POLL, linewidth=4, label="poll: own P that waits for the peer's F"))
        keys += [Line2D([], [], color=DEMAND, linewidth=4, label="demand mode")] if any(lane.demand for lane in every) else []
        if any(lane.refusals for lane in every):
            keys.append(Line2D([], [], color=REFUSAL, marker="D", linestyle="", markersize=5, label="command refused"))
    if lanes.strays or detailed and any(lane.drops for lane in every):
        keys.append(Line2D([], [], color=DROP, marker="x" if detailed else "|", linestyle="", markersize=7, markeredgewidth=1.6,
                           label="dropped"))
    return keys
