"""Draws the two pictures of docs/ALGORITHM.md beside this file: board.svg, the words of a board, and scan.svg, a scan's tries beside an update."""
import pathlib
from xml.sax.saxutils import escape

HERE = pathlib.Path(__file__).resolve().parent
INK, BLUE, GREEN, YELLOW, GREY, RED = "#1a1a1a", "#dbe9f6", "#dff0d8", "#fff3cd", "#eeeeee", "#f8d7da"
MARKER = (
    '<defs><marker id="tip" viewBox="0 0 8 8" refX="7" refY="4" markerWidth="7" markerHeight="7" orient="auto">'
    f'<path d="M0 0 L8 4 L0 8 z" fill="{INK}"/></marker></defs>'
)


def text(x, y, words, size=13, anchor="middle", weight="normal"):
    return f'<text x="{x}" y="{y}" font-size="{size}" text-anchor="{anchor}" font-weight="{weight}">{escape(words)}</text>'


def box(x, y, width, height, lines, fill):
    """A box with lines of text in its middle."""
    first = y + height / 2 - 8 * (len(lines) - 1) + 4.5
    shape = f'<rect x="{x}" y="{y}" width="{width}" height="{height}" fill="{fill}" stroke="{INK}"/>'
    return [shape, *(text(x + width / 2, first + 16 * at, line) for at, line in enumerate(lines))]


def line(points, dashed=False, tip=True):
    path = " ".join(f"{x},{y}" for x, y in points)
    dash = ' stroke-dasharray="5 4"' if dashed else ""
    end = ' marker-end="url(#tip)"' if tip else ""
    return f'<polyline points="{path}" fill="none" stroke="{INK}"{dash}{end}/>'


def picture(width, height, title, parts):
    head = f'<svg xmlns="http://www.w3.org/2000/svg" width="{width}" height="{height}" viewBox="0 0 {width} {height}" role="img">'
    ground = f'<rect width="{width}" height="{height}" fill="#ffffff"/>'
    group = f'<g font-family="DejaVu Sans, Verdana, sans-serif" fill="{INK}">'
    return "\n".join([head, f"<title>{escape(title)}</title>", MARKER, ground, group, *parts, "</g>", "</svg>", ""])


def zoom(left, right, y, to_left, to_right, to_y):
    """The dashed lines by which a box is shown larger below."""
    return [line([(left, y), (to_left, to_y)], True, False), line([(right, y), (to_right, to_y)], True, False)]


def strip(y, name, boxes, left=64):
    """A row of boxes, each with its left edge, its width, its lines and its color, below the row's name."""
    parts = [text(left, y - 9, name, anchor="start", weight="bold")]
    for x, width, lines, fill in boxes:
        parts += box(x, y, width, 44, lines, fill)
    return parts


def board():
    segments = [(20, 150, ["segment 0"], BLUE), (170, 150, ["segment 1"], BLUE), (320, 90, [". . ."], "#ffffff"), (410, 150, ["segment N - 1"], BLUE)]
    segment = [(20, 120, ["number s:", "1 word"], YELLOW), (140, 390, ["buffer 0: versions 0, 2, 4, .."], BLUE)]
    segment += [(530, 390, ["buffer 1: versions 1, 3, 5, .."], BLUE)]
    buffer = [(20, 330, ["row:", "W words"], GREEN), (350, 90, ["flag:", "1 word"], YELLOW)]
    buffer += [(440, 150, ["vector:", "N numbers"], GREY), (590, 330, ["lent totals:", "W words"], GREY)]
    row = [(20, 230, ["C counters:", "1 word each"], GREEN), (250, 440, ["H histograms, 27 words each:", "25 buckets, the sum, the count"], GREEN)]
    row += [(690, 230, ["G gauges, 2 words each:", "the ups, the downs"], GREEN)]
    hush = [(690, 230, ["requests: 56 bits", "scans that ask: 8 bits"], RED)]
    return picture(940, 470, "The words of a board", [
        *strip(40, "the board: N segments, one of each worker", segments, left=20),
        *strip(40, "beside it: the hush word", hush, left=690),
        *zoom(170, 320, 84, 20, 920, 160),
        *strip(160, "a segment: 1 + 2 * B words; the number s shows the buffer s mod 2", segment),
        *zoom(140, 530, 204, 20, 920, 280),
        *strip(280, "a buffer: B = 2 * W + 1 + N words", buffer),
        *zoom(20, 350, 324, 20, 920, 400),
        *strip(400, "a row: W = C + 27 * H + 2 * G words, each at most 2^48 - 1", row),
    ])


SCAN = [
    (44, ["try 1, first collect: load each number,", "and read the rows that are not remembered"], BLUE),
    (124, ["try 1, second collect: load each number again"], BLUE),
    (204, ["floor = numbers of the first collect,", "base = numbers of the second one; ask for a hush"], YELLOW),
    (284, ["tries 2 to N + 2: both collects again"], BLUE),
    (364, ["ask each worker that is 2 or more above its base:", "number, flag, vector, totals, number again"], GREY),
    (444, ["nobody lends: ask for the hush anew"], YELLOW),
    (524, ["after try N + 2: given up (14)"], RED),
]
UPDATE = [
    (44, ["add the list to the row, or refuse it: 15, 11, 12"], GREEN),
    (124, ["look at the hush word; if a scan asks, rest:", "at most 100,000 loads for a request"], YELLOW),
    (204, ["make a scan of its own, which asks for no hush"], BLUE),
    (284, ["fill the hidden buffer: the new row, the flag,", "the answer of the scan; only words that change"], GREEN),
    (364, ["store the number plus one:", "the hidden buffer becomes the shown one"], GREEN),
]


def column(x, width, steps):
    """Steps one below the other, with arrows between them."""
    parts = []
    for (y, lines, fill), after in zip(steps, [*steps[1:], None]):
        parts += box(x, y, width, 44, lines, fill)
        parts += [line([(x + width / 2, y + 44), (x + width / 2, after[0])])] if after else []
    return parts


def scan():
    ends = [*box(20, 124, 100, 44, ["direct"], GREEN), *box(20, 284, 100, 44, ["direct"], GREEN), *box(20, 364, 100, 44, ["lent"], GREEN)]
    yes = [part for y, words in ((146, "same"), (306, "same"), (386, "lends")) for part in
           (line([(190, y), (120, y)]), text(155, y - 6, words, 12))]
    return picture(1010, 600, "The tries of a scan beside the steps of an update", [
        text(365, 28, "a scan", 15, weight="bold"), text(805, 28, "an update", 15, weight="bold"),
        *column(190, 350, SCAN), *column(630, 350, UPDATE), *ends, *yes,
        text(373, 189, "a number moved", 12, "start"), text(373, 349, "a number moved", 12, "start"),
        line([(540, 466), (575, 466), (575, 306), (540, 306)]), text(581, 426, "next", 12, "start"), text(581, 441, "try", 12, "start"),
        line([(540, 226), (585, 226), (585, 146), (630, 146)], True), text(591, 192, "hush", 12, "start"),
        text(805, 430, "A scan that loads the number finds the last such store.", 12),
        text(20, 590, "The scan of a reader, or of a worker for its caller, asks for a hush; the scan of an update asks for none.", 12, "start"),
    ])


if __name__ == "__main__":
    (HERE / "board.svg").write_text(board())
    (HERE / "scan.svg").write_text(scan())
