"""Two canvases with the same calls: one writes SVG, the other PNG. Lengths are in picture points."""

import struct
import zlib
from html import escape

from .glyphs import HEIGHT, WIDTH, columns

TEXT_SIZE = 12
ANCHORS = {"start": 0.0, "middle": 0.5, "end": 1.0}
MOST_DOTS = 64 << 20


def hatched(pattern, x, y):
    """Whether a dot of a hatching is set; each repeats after eight dots."""
    x, y = x % 8, y % 8
    return {
        1: (x + y) % 8 < 2,
        2: (x - y) % 8 < 2,
        3: (x + y) % 8 < 1 or (x - y) % 8 < 1,
        4: y % 4 < 1,
        5: x % 4 < 1,
        6: x % 4 < 2 and y % 4 < 2,
        7: x < 1 or y < 1,
    }[pattern]


class SvgCanvas:
    def __init__(self, width, height):
        self.width, self.height = width, height
        self.patterns = {}
        self.parts = []

    def box(self, x, y, width, height, color):
        self.parts.append(f'<rect x="{x:g}" y="{y:g}" width="{width:g}" height="{height:g}" fill="{color}"/>')

    def hatch(self, x, y, width, height, color, pattern):
        name = f"hatch{pattern}"
        self.patterns[name] = (color, pattern)
        self.box(x, y, width, height, f"url(#{name})")

    def mark(self, x, y, size, color):
        """A triangle that stands on its tip."""
        half = size / 2
        points = f"{x - half:g},{y - size:g} {x + half:g},{y - size:g} {x:g},{y:g}"
        self.parts.append(f'<polygon points="{points}" fill="{color}"/>')

    def text(self, x, y, words, anchor="start", color="#222222"):
        self.parts.append(f'<text x="{x:g}" y="{y:g}" text-anchor="{anchor}" fill="{color}">{escape(words)}</text>')

    def bytes(self):
        lines = [
            f'<svg xmlns="http://www.w3.org/2000/svg" width="{self.width}" height="{self.height}" '
            f'viewBox="0 0 {self.width} {self.height}" font-family="sans-serif" font-size="{TEXT_SIZE}">',
            "<defs>",
            *(pattern_of(name, *look) for name, look in sorted(self.patterns.items())),
            "</defs>",
            f'<rect width="{self.width}" height="{self.height}" fill="#ffffff"/>',
            *self.parts,
            "</svg>",
        ]
        return ("\n".join(lines) + "\n").encode()


def pattern_of(name, color, pattern):
    """A hatching of eight by eight points: its dots row by row, on a pale ground."""
    path = []
    for y in range(8):
        x = 0
        while x < 8:
            end = x
            while end < 8 and hatched(pattern, end, y):
                end += 1
            if end > x:
                path.append(f"M{x} {y}h{end - x}v1h-{end - x}z")
            x = end + 1
    return (
        f'<pattern id="{name}" width="8" height="8" patternUnits="userSpaceOnUse">'
        f'<rect width="8" height="8" fill="{pale(color)}"/><path d="{"".join(path)}" fill="{color}"/></pattern>'
    )


def pale(color):
    """The color mixed with three parts of white."""
    return "#" + "".join(f"{255 - (255 - part) // 4:02x}" for part in bytes.fromhex(color[1:]))


class PngCanvas:
    """Dots with an index into a list of colors. Small pictures have two dots a point."""

    def __init__(self, width, height):
        self.scale = 2 if 4 * width * height <= MOST_DOTS else 1
        self.width, self.height = width * self.scale, height * self.scale
        self.colors = {"#ffffff": 0}
        self.rows = [bytearray(self.width) for _ in range(self.height)]

    def index(self, color):
        return self.colors.setdefault(color, len(self.colors))

    def dots(self, start, length, most):
        """The dots from a place on, at least one, within the picture."""
        first = round(start * self.scale)
        last = max(first + 1, round((start + length) * self.scale))
        return max(0, min(first, most)), max(0, min(last, most))

    def box(self, x, y, width, height, color):
        index = self.index(color)
        left, right = self.dots(x, width, self.width)
        top, bottom = self.dots(y, height, self.height)
        for row in self.rows[top:bottom]:
            row[left:right] = bytes([index]) * (right - left)

    def hatch(self, x, y, width, height, color, pattern):
        ground, line = self.index(pale(color)), self.index(color)
        left, right = self.dots(x, width, self.width)
        top, bottom = self.dots(y, height, self.height)
        for at in range(top, bottom):
            across = [hatched(pattern, dot // self.scale, at // self.scale) for dot in range(8 * self.scale)]
            line_of_dots = bytes(line if dot else ground for dot in across)
            shift = left % len(across)
            repeated = line_of_dots * ((right - left) // len(across) + 2)
            self.rows[at][left:right] = repeated[shift : shift + right - left]

    def mark(self, x, y, size, color):
        for step in range(size * self.scale):
            half = size / 2 - step / self.scale / 2
            self.box(x - half, y - size + step / self.scale, 2 * half, 1 / self.scale, color)

    def text(self, x, y, words, anchor="start", color="#222222"):
        index = self.index(color)
        left = round((x - ANCHORS[anchor] * WIDTH * len(words)) * self.scale)
        top = round((y - HEIGHT + 1) * self.scale)
        for place, character in enumerate(words):
            for column, dots in enumerate(columns(character)):
                for dot in range(HEIGHT):
                    if dots >> dot & 1:
                        self.dot(left + (place * WIDTH + column) * self.scale, top + dot * self.scale, index)

    def dot(self, left, top, index):
        for row in self.rows[max(0, top) : max(0, top + self.scale)]:
            for at in range(max(0, left), min(self.width, left + self.scale)):
                row[at] = index

    def bytes(self):
        palette = b"".join(bytes.fromhex(color[1:]) for color in self.colors)
        packed = zlib.compressobj(6)
        data = b"".join(packed.compress(b"\0" + row) for row in self.rows) + packed.flush()
        head = struct.pack(">2I5B", self.width, self.height, 8, 3, 0, 0, 0)
        parts = ((b"IHDR", head), (b"PLTE", palette), (b"IDAT", data), (b"IEND", b""))
        return b"\x89PNG\r\n\x1a\n" + b"".join(chunk(name, content) for name, content in parts)


def chunk(name, content):
    return struct.pack(">I", len(content)) + name + content + struct.pack(">I", zlib.crc32(name + content))
