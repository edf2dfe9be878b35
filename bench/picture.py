"""Draws what the tables of lanes and of the server found, as a picture in SVG."""

from __future__ import annotations

import os

from measure import HERE

PATH = os.path.join(HERE, "picture.svg")
COLOURS = {"worm": "#b5523b", "peer": "#7a8793"}
PAPER = "#ffffff"
INK = "#22282e"
FAINT = "#d9dde1"

WIDTH = 920
PANEL_WIDTH, PANEL_HEIGHT = 280, 150
LEFT, TOP, GAP = 50, 78, 22
BETWEEN = 78
BAR = 26

Row = dict[str, float | str]


def draw(of_lanes: list[Row], of_server: list[Row]) -> str:
    """Writes the picture, and answers its path."""
    mixes = list(dict.fromkeys(row["mix"] for row in of_lanes))
    parts = [text(LEFT, 28, "Requests a second, by lanes (millions)", size=17, weight="bold"), *legend(LEFT, 50)]
    for number, mix in enumerate(mixes):
        x = LEFT + number % 3 * (PANEL_WIDTH + GAP)
        y = TOP + number // 3 * (PANEL_HEIGHT + BETWEEN)
        rows = [row for row in of_lanes if row["mix"] == mix]
        parts += panel(x, y, str(mix), [(f"{row['lanes']} lanes".replace("1 lanes", "1 lane"), row) for row in rows], ".1f")
    y = TOP + (len(mixes) + 2) // 3 * (PANEL_HEIGHT + BETWEEN) + 26
    parts.append(text(LEFT, y - 26, "Requests a second, by four connections (thousands)", size=17, weight="bold"))
    for number, depth in enumerate(dict.fromkeys(row["depth"] for row in of_server)):
        rows = [row for row in of_server if row["depth"] == depth]
        x = LEFT + number * (PANEL_WIDTH + GAP)
        parts += panel(x, y + 22, f"depth {depth}", [(str(row["requests"]), row) for row in rows], ".0f")
    height = y + PANEL_HEIGHT + 76
    with open(PATH, "w", newline="\n") as file:
        file.write(svg(height, parts))
    return PATH


def svg(height: int, parts: list[str]) -> str:
    head = (
        f'<svg xmlns="http://www.w3.org/2000/svg" width="{WIDTH + LEFT}" height="{height}" '
        f'viewBox="0 0 {WIDTH + LEFT} {height}" font-family="Helvetica, Arial, sans-serif">'
    )
    return "\n".join([head, f'<rect width="100%" height="100%" fill="{PAPER}"/>', *parts, "</svg>\n"])


def legend(x: int, y: int) -> list[str]:
    names = {"worm": "worm", "peer": "peer: a BTreeMap in an RwLock"}
    parts = []
    for number, (program, name) in enumerate(names.items()):
        parts.append(rect(x + 90 * number, y - 10, 12, 12, COLOURS[program]))
        parts.append(text(x + 90 * number + 18, y, name))
    return parts


def panel(x: int, y: int, title: str, groups: list[tuple[str, Row]], form: str) -> list[str]:
    """Two bars for each group, and a line of four steps for the height of the greatest."""
    most = max(float(row[program]) for _, row in groups for program in COLOURS)
    parts = [text(x, y + 2, title, size=13, weight="bold")]
    bottom = y + PANEL_HEIGHT + 18
    for step in range(5):
        at = bottom - step * PANEL_HEIGHT * 0.8 / 4
        parts.append(f'<line x1="{x}" y1="{at:.1f}" x2="{x + PANEL_WIDTH}" y2="{at:.1f}" stroke="{FAINT}"/>')
    room = PANEL_WIDTH / len(groups)
    for number, (name, row) in enumerate(groups):
        middle = x + room * (number + 0.5)
        for side, program in enumerate(COLOURS):
            height = float(row[program]) / most * PANEL_HEIGHT * 0.8
            left = middle + (side - 1) * (BAR + 2) + 1
            parts.append(rect(left, bottom - height, BAR, height, COLOURS[program]))
            number_text = format(float(row[program]), form)
            parts.append(text(left + BAR / 2, bottom - height - 4, number_text, size=11, anchor="middle"))
        parts.append(text(middle, bottom + 16, name, anchor="middle"))
    return parts


def rect(x: float, y: float, width: float, height: float, colour: str) -> str:
    return f'<rect x="{x:.1f}" y="{y:.1f}" width="{width:.1f}" height="{height:.1f}" fill="{colour}"/>'


def text(x: float, y: float, words: str, size: int = 12, weight: str = "normal", anchor: str = "start") -> str:
    return (
        f'<text x="{x:.1f}" y="{y:.1f}" font-size="{size}" font-weight="{weight}" text-anchor="{anchor}" '
        f'fill="{INK}">{words}</text>'
    )
