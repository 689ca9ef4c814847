"""A chart as SVG: time goes down, each process has a line, and what was sent goes aslant to who took it."""
from html import escape

LEFT, TOP, GAP, HIGH = 70, 70, 300, 30
LETTER = 6.2
MOST_LETTERS = 84
STYLE = """
text { font: 11px sans-serif; fill: #222; }
.title { font-weight: bold; font-size: 14px; }
.name { font-weight: bold; text-anchor: middle; }
.line { fill: #999; text-anchor: end; font-size: 10px; }
.on { stroke: #fff; stroke-width: 4px; paint-order: stroke; text-anchor: middle; }
.life { stroke: #bbb; }
.waits { stroke: #f0b429; stroke-width: 7px; }
.arrow { stroke: #2358a8; fill: none; marker-end: url(#head); }
.wakes { stroke: #2e7d32; stroke-dasharray: 5 3; fill: none; marker-end: url(#woken); }
.box { fill: #fff; stroke: #ccc; }
.note .box { fill: #fff8e1; stroke: #e0c060; }
.over .box { fill: #fdecea; stroke: #d99; }
.wait .box { fill: #fff3d0; stroke: #f0b429; }
.dot { fill: #2358a8; }
"""
HEADS = ('<marker id="{0}" markerWidth="9" markerHeight="8" refX="8" refY="4" orient="auto">'
         '<path d="M0,0 L9,4 L0,8 z" fill="{1}"/></marker>')


def x_of(chart, pid):
    return LEFT + 60 + GAP * chart.pids.index(pid)


def y_of(row):
    return TOP + 40 + HIGH * row


def shown(text, most=MOST_LETTERS):
    return escape(text if len(text) <= most else text[:most - 2] + "..")


def box(kind, x, y, text):
    """A note beside a line; its whole text is told where the mouse stands."""
    wide = LETTER * min(len(text), MOST_LETTERS) + 10
    return (f'<g class="{kind}"><title>{escape(text)}</title>'
            f'<rect class="box" x="{x + 7}" y="{y - 10}" width="{wide:.0f}" height="19" rx="4"/>'
            f'<text x="{x + 12}" y="{y + 3}">{shown(text)}</text></g>')


def is_aslant(mark):
    """Whether it was sent in another row than that in which it was taken."""
    return mark.kind == "arrow" and mark.since is not None


def path(chart, mark, row):
    """An arrow, from the row in which it was sent to that in which it was taken."""
    begin, end, y = x_of(chart, mark.pid), x_of(chart, mark.to), y_of(row)
    since = y_of(mark.since) if is_aslant(mark) else y - 8 if begin == end else y
    kind = "wakes" if mark.kind == "wakes" else "arrow"
    if begin == end:
        return f'<path class="{kind}" d="M{begin},{since} C{begin - 40},{since} {begin - 40},{y} {begin - 4},{y}"/>'
    side = 4 if begin < end else -4
    return f'<path class="{kind}" d="M{begin},{since} L{end - side},{y}"/>'


def label(chart, mark, row):
    """What goes along an arrow: beside its end, or above it where it is level."""
    begin, end, y = x_of(chart, mark.pid), x_of(chart, mark.to), y_of(row)
    if is_aslant(mark) or begin == end:
        # room for the head of an arrow from the right
        aside = 12 if begin > end else 0
        return box("taken", end + aside, y, ("gets " if mark.kind == "arrow" else "") + mark.text)
    return (f'<text class="on" x="{(begin + end) / 2:.0f}" y="{y - 5}"><title>{escape(mark.text)}</title>'
            f'{shown(mark.text)}</text>')


def waits(chart):
    """The bars of those that wait, up to what wakes them or ends them."""
    begun, bars = {}, []
    for row, mark in enumerate(chart.rows):
        if mark.kind == "wait":
            begun[mark.pid] = row
        who = mark.to if mark.kind == "wakes" else mark.pid if mark.kind == "over" else None
        if who in begun:
            bars.append((who, begun.pop(who), row))
    bars += [(pid, row, len(chart.rows)) for pid, row in begun.items()]
    return [f'<path class="waits" d="M{x_of(chart, pid)},{y_of(first)} V{y_of(last)}"/>'
            for pid, first, last in bars]


def lives(chart):
    """The line of each process, from its name to its end."""
    ends = {mark.pid: row for row, mark in enumerate(chart.rows) if mark.kind == "over"}
    lines = []
    for pid in chart.pids:
        x, last = x_of(chart, pid), y_of(ends.get(pid, len(chart.rows)))
        lines.append(f'<text class="name" x="{x}" y="{TOP}">{escape(chart.name(pid))}</text>'
                     f'<path class="life" d="M{x},{TOP + 8} V{last}"/>')
    return lines


def marked(chart, row, mark):
    """What stands in a row."""
    line = f'<text class="line" x="{LEFT - 25}" y="{y_of(row) + 3}">{mark.line or ""}</text>'
    if mark.kind in ("arrow", "wakes"):
        return line + label(chart, mark, row)
    x = x_of(chart, mark.pid) if mark.pid else LEFT
    dot = f'<circle class="dot" cx="{x}" cy="{y_of(row)}" r="3.5"/>' if mark.kind == "sent" else ""
    taken = " (taken by nobody)" if mark.kind == "sent" and not mark.is_read else ""
    return line + dot + box(mark.kind, x, y_of(row), mark.text + taken)


def drawing(chart):
    """The whole drawing."""
    wide = LEFT + GAP * max(1, len(chart.pids)) + 300
    high = y_of(len(chart.rows)) + 30
    parts = [
        f'<svg xmlns="http://www.w3.org/2000/svg" width="{wide}" height="{high}" viewBox="0 0 {wide} {high}">',
        f"<style>{STYLE}</style>",
        "<defs>" + HEADS.format("head", "#2358a8") + HEADS.format("woken", "#2e7d32") + "</defs>",
        f'<rect width="{wide}" height="{high}" fill="#fff"/>',
        f'<text class="title" x="{LEFT - 40}" y="28">{escape(chart.title)}</text>',
        *lives(chart), *waits(chart),
        *(path(chart, mark, row) for row, mark in enumerate(chart.rows) if mark.kind in ("arrow", "wakes")),
        *(marked(chart, row, mark) for row, mark in enumerate(chart.rows)),
        "</svg>",
    ]
    return "\n".join(parts)
