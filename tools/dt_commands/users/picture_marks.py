"""What pictures are drawn with: elements of SVG, colours, numbers for readers, and places in which marks don't cover one another."""
import math
from xml.sax.saxutils import escape, quoteattr

FONT = "system-ui, 'Segoe UI', Helvetica, Arial, sans-serif"
# Colours that a reader tells apart without seeing red or green, and by their brightness alone on paper.
COLOURS = {
    "segment": "#8ecbf2", "keeper": "#0b5fa5", "token": "#e69f00", "phase": "#c3c9d1", "wait": "#8a94a3",
    "critical": "#111827", "flow": "#00704f", "race": "#d1420e",
}
# From few to many.
PAGES = ("#ece8f6", "#c4b8e2", "#9a86c9", "#6f51a8", "#451c82")
READY = ("#eceff3", "#c9ced6", "#a3abb8", "#78818f", "#4c5462")
# How wide a character is about, as a part of its size.
CHARACTER = 0.58
# How far a page is zoomed in for marks that don't find a place before.
ZOOMS = tuple(2 ** it for it in range(15))


def shown(number):
    """Returns a coordinate as a picture has it."""
    return f"{number:.2f}".rstrip("0").rstrip(".") if isinstance(number, float) else str(number)


def element(name, inside="", **attributes):
    """Returns an element; an attribute of two words is named with `_` between them, and one that is None is left out."""
    words = "".join(
        f" {key.rstrip('_').replace('_', '-')}={quoteattr(shown(it) if isinstance(it, (int, float)) else it)}"
        for key, it in attributes.items() if it is not None
    )
    return f"<{name}{words}>{inside}</{name}>" if inside else f"<{name}{words}/>"


def words(text, x, y, kind=None, **attributes):
    """Returns a text at a place; its class says how it looks."""
    return element("text", escape(str(text)), x=x, y=y, class_=kind, **attributes)


def title(*lines):
    """Returns what is shown beside the pointer."""
    return f"<title>{escape(chr(10).join(lines))}</title>"


def width_of(text, size):
    """Returns about how wide a text of this size is."""
    return len(str(text)) * size * CHARACTER


def count(number, what, many=None):
    """Returns a number with its noun, as `1 turn` or `2,000 turns`."""
    return f"{number:,} {what if number == 1 else many or what + 's'}"


def step(span, most):
    """Returns the distance of marks on a scale: 1, 2 or 5 times a power of ten, at most so many of them, and a whole number."""
    least = max(1, span / most)
    power = 10 ** math.floor(math.log10(least))
    return int(next(it * power for it in (1, 2, 5, 10) if it * power >= least))


def shade(colours, value, most):
    """Returns the colour of a value from 1 to the most that there is; few values are far apart, many by their logarithms."""
    if not value:
        return colours[0]
    at = math.log(value) / math.log(most) if most > 1 else 0
    return colours[min(len(colours) - 1, 1 + int(at * (len(colours) - 1)))]


class Places:
    """Gives marks of a row, which come from left to right, the least zoom at which they keep their distance."""

    def __init__(self):
        self.last = {}

    def zoom(self, row, x, width, least=1):
        """Returns the zoom from which on a mark of this width is shown, at least this one, or None if it finds no place."""
        for at, first in enumerate(ZOOMS):
            if first >= least and all(x - self.last.get((row, it), -1e9) >= width / it for it in ZOOMS[at:]):
                self.last.update({(row, it): x for it in ZOOMS[at:]})
                return first
        return None


def zoom_for(needed, width):
    """Returns the zoom at which something of this width has the width that is needed, or None if it never has."""
    return next((it for it in ZOOMS if width * it >= needed), None)
