"""Charts with logarithmic axes, as SVG."""
import math

WIDTH, HEIGHT, LEFT, TOP, BOTTOM = 460, 400, 104, 46, 56
COLOURS = ["#1b6ca8", "#c0392b", "#2e8b57", "#8e44ad", "#d68910", "#555555", "#16a2a2"]


class Panel:
    """One chart: `curves` is a list of (name, colour, dashed, [(x, y)])."""

    def __init__(self, title, across, up, curves):
        self.title, self.across, self.up, self.curves = title, across, up, curves
        points = [point for _, _, _, line in curves for point in line]
        self.x_low, self.x_high = min(x for x, _ in points), max(x for x, _ in points)
        self.y_low = 10 ** math.floor(math.log10(min(y for _, y in points)))
        self.y_high = 10 ** math.ceil(math.log10(max(y for _, y in points)))

    def x(self, value):
        return LEFT + WIDTH * math.log(value / self.x_low) / math.log(self.x_high / self.x_low)

    def y(self, value):
        return TOP + HEIGHT * (1 - math.log(value / self.y_low) / math.log(self.y_high / self.y_low))


def text(x, y, words, size=12, anchor="middle", more=""):
    return f'<text x="{x:.1f}" y="{y:.1f}" font-size="{size}" text-anchor="{anchor}" fill="#222222"{more}>{words}</text>'


def line(x1, y1, x2, y2, colour="#dddddd", width=1.0):
    return f'<line x1="{x1:.1f}" y1="{y1:.1f}" x2="{x2:.1f}" y2="{y2:.1f}" stroke="{colour}" stroke-width="{width}"/>'


def short(value):
    return f"{value:,.0f}" if value >= 1 else f"{value:g}"


def axes(panel):
    out = [text(LEFT + WIDTH / 2, 24, panel.title, 15)]
    value = panel.x_low
    while value <= panel.x_high:
        out.append(line(panel.x(value), TOP, panel.x(value), TOP + HEIGHT))
        out.append(text(panel.x(value), TOP + HEIGHT + 18, short(value)))
        value *= 4
    value = panel.y_low
    while value <= panel.y_high * 1.001:
        out.append(line(LEFT, panel.y(value), LEFT + WIDTH, panel.y(value)))
        out.append(text(LEFT - 8, panel.y(value) + 4, short(value), 12, "end"))
        value *= 10
    out.append(line(LEFT, TOP + HEIGHT, LEFT + WIDTH, TOP + HEIGHT, "#222222"))
    out.append(line(LEFT, TOP, LEFT, TOP + HEIGHT, "#222222"))
    out.append(text(LEFT + WIDTH / 2, TOP + HEIGHT + 42, panel.across, 13))
    middle = TOP + HEIGHT / 2
    out.append(text(16, middle, panel.up, 13, "middle", f' transform="rotate(-90 16 {middle:.1f})"'))
    return out


def curve(panel, colour, dashed, points):
    way = " ".join(f"{panel.x(x):.1f},{panel.y(y):.1f}" for x, y in points)
    dash = ' stroke-dasharray="6 4"' if dashed else ""
    out = [f'<polyline points="{way}" fill="none" stroke="{COLOURS[colour]}" stroke-width="2"{dash}/>']
    out += [f'<circle cx="{panel.x(x):.1f}" cy="{panel.y(y):.1f}" r="2.4" fill="{COLOURS[colour]}"/>' for x, y in points]
    return out


def legend(curves, top):
    """What each curve is: a row for each colour, dashed ones in the second column."""
    out = []
    for name, colour, dashed, _ in curves:
        x, y = LEFT + (420 if dashed else 0), top + 20 * colour
        dash = ' stroke-dasharray="6 4"' if dashed else ""
        out.append(f'<line x1="{x}" y1="{y - 4}" x2="{x + 34}" y2="{y - 4}" stroke="{COLOURS[colour]}" stroke-width="2.5"{dash}/>')
        out.append(text(x + 42, y, name, 13, "start"))
    return out


def drawn(panels):
    """Panels side by side, all with the same curves in the same order, over one legend."""
    wide = LEFT + WIDTH + 30
    rows = 1 + max(colour for _, colour, _, _ in panels[0].curves)
    tall = TOP + HEIGHT + BOTTOM + 20 * rows + 16
    out = [f'<svg xmlns="http://www.w3.org/2000/svg" width="{wide * len(panels)}" height="{tall}" viewBox="0 0 {wide * len(panels)} {tall}" font-family="sans-serif">']
    out.append(f'<rect width="{wide * len(panels)}" height="{tall}" fill="#ffffff"/>')
    for place, panel in enumerate(panels):
        out.append(f'<g transform="translate({place * wide} 0)">')
        out += axes(panel)
        for _, colour, dashed, points in panel.curves:
            out += curve(panel, colour, dashed, points)
        out.append("</g>")
    out += legend(panels[0].curves, TOP + HEIGHT + BOTTOM + 20)
    return "\n".join(out + ["</svg>", ""])
