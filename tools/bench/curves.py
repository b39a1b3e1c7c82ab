"""Draws the tables of ./dev bench as curves: one SVG picture, and a page around it, without
scripts."""

import html
import math

# What a curve is drawn like: its color, and the dashes of the second order of keys.
COLORS = {"store": "#0b62c4", "plain Rust": "#d1590f"}
DASHES = {"turn": "", "rising": "5 3"}
WIDTH, HEIGHT = 250, 150
LEFT, TOP, RIGHT, BOTTOM = 54, 26, 12, 24
COLUMNS = 4


def whole(number):
    """A round number from this one on, for the end of an axis."""
    scale = 10 ** math.floor(math.log10(number))
    return next(step * scale for step in (1, 1.5, 2, 3, 4, 5, 6, 8, 10) if step * scale >= number)


def named(number):
    exponent = round(math.log10(number))
    return f"10^{exponent}" if number == 10**exponent and exponent > 3 else f"{number:,g}"


class Panel:
    """One operation: its curves over the numbers of entries, whose axis is logarithmic; the other
    begins at zero."""

    def __init__(self, title, curves, numbers):
        self.title, self.curves = title, curves
        self.first, self.last = math.log10(min(numbers)), math.log10(max(numbers))
        self.most = whole(max(value for curve in curves.values() for value in curve.values()))

    def x(self, number):
        return LEFT + (math.log10(number) - self.first) / (self.last - self.first) * (
            WIDTH - LEFT - RIGHT
        )

    def y(self, value):
        return HEIGHT - BOTTOM - value / self.most * (HEIGHT - TOP - BOTTOM)

    def axes(self):
        for part in range(3):
            value = self.most * part / 2
            yield f'<line x1="{LEFT}" x2="{WIDTH - RIGHT}" y1="{self.y(value):.1f}" y2="{self.y(value):.1f}" stroke="#ddd"/>'
            yield f'<text x="{LEFT - 6}" y="{self.y(value) + 4:.1f}" text-anchor="end">{value:,g}</text>'
        for exponent in range(math.ceil(self.first), math.floor(self.last) + 1):
            at = self.x(10**exponent)
            yield f'<line x1="{at:.1f}" x2="{at:.1f}" y1="{TOP}" y2="{HEIGHT - BOTTOM}" stroke="#eee"/>'
            yield (
                f'<text x="{at:.1f}" y="{HEIGHT - BOTTOM + 15}" text-anchor="middle">10'
                f'<tspan dy="-4" font-size="8">{exponent}</tspan></text>'
            )

    def draw(self):
        yield f'<text x="{LEFT}" y="16" font-weight="bold">{html.escape(self.title)}</text>'
        yield from self.axes()
        for (program, order), curve in self.curves.items():
            points = " ".join(
                f"{self.x(number):.1f},{self.y(value):.1f}"
                for number, value in sorted(curve.items())
            )
            look = f'fill="none" stroke="{COLORS[program]}" stroke-width="1.8" stroke-dasharray="{DASHES[order]}"'
            yield f'<polyline points="{points}" {look}/>'
            for number, value in curve.items():
                at = f'cx="{self.x(number):.1f}" cy="{self.y(value):.1f}"'
                yield f'<circle {at} r="2" fill="{COLORS[program]}"><title>{number:,}: {value:,.0f}</title></circle>'


def legend(orders):
    at = 0
    for program, color in COLORS.items():
        for order, name in orders.items():
            yield (
                f'<line x1="{at}" x2="{at + 26}" y1="8" y2="8" stroke="{color}" stroke-width="1.8" '
                f'stroke-dasharray="{DASHES[order]}"/><text x="{at + 32}" y="12">{program}, {html.escape(name)}</text>'
            )
            at += 215


def picture(tables, orders):
    """Returns the picture. A table has a title and, for each operation, its curves by program and
    order of keys."""
    parts, top = [f'<g transform="translate({LEFT} 10)">', *legend(orders), "</g>"], 40
    for title, operations in tables:
        parts.append(
            f'<text x="{LEFT}" y="{top + 14}" font-size="14" font-weight="bold">{html.escape(title)}</text>'
        )
        top += 22
        for number, (name, curves) in enumerate(operations.items()):
            at = (number % COLUMNS * WIDTH, top + number // COLUMNS * HEIGHT)
            entries = [it for curve in curves.values() for it in curve]
            parts += [
                f'<g transform="translate({at[0]} {at[1]})">',
                *Panel(name, curves, entries).draw(),
                "</g>",
            ]
        top += math.ceil(len(operations) / COLUMNS) * HEIGHT + 16
    size = f'width="{COLUMNS * WIDTH}" height="{top}" viewBox="0 0 {COLUMNS * WIDTH} {top}"'
    head = f'<svg xmlns="http://www.w3.org/2000/svg" {size} font-family="sans-serif" font-size="11" fill="#222">'
    return (
        "\n".join(
            [
                head,
                f'<rect width="{COLUMNS * WIDTH}" height="{top}" fill="#fff"/>',
                *parts,
                "</svg>",
            ]
        )
        + "\n"
    )


def rows_of(operations):
    """Yields the rows of a table: an operation, a program and an order, then a figure for each
    number of entries."""
    numbers = sorted(
        {it for curves in operations.values() for curve in curves.values() for it in curve}
    )
    yield ["", "", "", *(named(it) for it in numbers)]
    for name, curves in operations.items():
        for (program, order), curve in curves.items():
            yield [
                name,
                program,
                order,
                *(f"{curve[it]:,.0f}" if it in curve else "" for it in numbers),
            ]


def page(tables, orders, about):
    """Returns the page: the picture, then its figures."""
    parts = [
        '<!DOCTYPE html><html lang="en"><meta charset="utf-8"><title>./dev bench</title>',
        "<style>body{font:14px sans-serif;max-width:1000px;margin:2em auto}td,th{padding:1px "
        "8px;text-align:right}",
        "td:nth-child(-n+3){text-align:left}</style>",
        f"<h1>./dev bench</h1><p>{html.escape(about)}</p>",
        picture(tables, orders),
    ]
    for title, operations in tables:
        parts.append(f"<h2>{html.escape(title)}</h2><table>")
        for row in rows_of(operations):
            parts.append("<tr>" + "".join(f"<td>{html.escape(it)}</td>" for it in row) + "</tr>")
        parts.append("</table>")
    return "\n".join([*parts, "</html>"]) + "\n"
