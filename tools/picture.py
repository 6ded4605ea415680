"""A small writer of pictures in SVG: what is drawn later lies above, and texts above all."""
from xml.sax.saxutils import escape, quoteattr

# The width of a letter, and the height of a line, of the size that is written in.
LETTER, LINE, SIZE = 6.7, 14, 11

# The most that a picture is wide and high.
WIDEST, HIGHEST = 2000, 4000

RED, GREY, PLUM = "#c0392b", "#667", "#8e44ad"


def width(text):
    """How wide a text is."""
    return LETTER * len(text)


def short(text, room):
    """A text, or its beginning, where it is wider than the room."""
    most = max(1, int(room / LETTER))
    return text if len(text) <= most else text[: most - 1] + "…"


def shares(spans, count):
    """For each of so many bands of width 1, how many of the spans lie in it, those that lie in a part of it by that part."""
    found, more = [0.0] * (count + 1), [0] * (count + 2)
    for begin, end in spans:
        first, last = min(count, int(begin)), min(count, int(end))
        if first == last:
            found[first] += end - begin
        else:
            found[first] += first + 1 - begin
            found[last] += end - last
            more[first + 1] += 1
            more[last] -= 1
    whole = 0
    for band in range(count + 1):
        whole += more[band]
        found[band] += whole
    return found[:count]


def most_at_once(spans):
    """How many of the spans lie at one place at most."""
    count, most = 0, 0
    for _, more in sorted([(begin, 1) for begin, end in spans if begin < end] + [(end, -1) for begin, end in spans if begin < end]):
        count += more
        most = max(most, count)
    return most


def steps_of(shares):
    """Where the shares change: each band with its share, if that is another than the one before."""
    last = None
    for band, share in enumerate(shares):
        if share != last:
            yield band, share
            last = share


class Room:
    """Which places of a picture are taken, so that a label is put where nothing else stands."""

    # The height of the bands by which places are looked up.
    BAND = 40

    def __init__(self):
        self.bands = {}

    def of(self, y, high):
        return range(int(y // self.BAND), int((y + high) // self.BAND) + 1)

    def take(self, x, y, wide, high):
        for band in self.of(y, high):
            self.bands.setdefault(band, []).append((x, y, x + wide, y + high))

    def is_free(self, x, y, wide, high):
        places = (place for band in self.of(y, high) for place in self.bands.get(band, ()))
        return all(right <= x or left >= x + wide or below <= y or above >= y + high for left, above, right, below in places)


class Picture:
    """A picture: shapes below, texts above. `of` names what a shape stands for, by which a page finds it."""

    def __init__(self):
        self.shapes, self.texts, self.wide, self.high = [], [], 0, 0

    def reach(self, x, y):
        self.wide, self.high = max(self.wide, x), max(self.high, y)

    def box(self, x, y, wide, high, fill, edge="none", thick=1, tip="", of=""):
        title = f"<title>{escape(tip)}</title>" if tip else ""
        name = f" data-of={quoteattr(of)}" if of else ""
        self.shapes.append(
            f'<rect x="{x:.1f}" y="{y:.1f}" width="{wide:.1f}" height="{high:.1f}" fill="{fill}" '
            f'stroke="{edge}" stroke-width="{thick}"{name}>{title}</rect>'
        )
        self.reach(x + wide, y + high)

    def path(self, way, colour, thick=1, dashes="", head=False, tip="", fill="none"):
        dash = f' stroke-dasharray="{dashes}"' if dashes else ""
        end = ' marker-end="url(#%s)"' % ("red" if colour == RED else "head") if head else ""
        title = f"<title>{escape(tip)}</title>" if tip else ""
        self.shapes.append(
            f'<path d="{way}" fill="{fill}" stroke="{colour}" stroke-width="{thick}" stroke-linejoin="round"{dash}{end}>{title}</path>'
        )

    def dot(self, x, y, colour):
        self.shapes.append(f'<circle cx="{x:.1f}" cy="{y:.1f}" r="2.5" fill="{colour}"/>')

    def text(self, x, y, text, colour="#222", anchor="start", size=SIZE, bold=False):
        weight = ' font-weight="bold"' if bold else ""
        self.texts.append(
            f'<text x="{x:.1f}" y="{y:.1f}" fill="{colour}" text-anchor="{anchor}" font-size="{size}"{weight} '
            f'class="t">{escape(text)}</text>'
        )
        if anchor == "start":
            self.reach(x + width(text) * size / SIZE, y + 4)

    def svg(self):
        wide, high = min(WIDEST, int(self.wide + 20)), min(HIGHEST, int(self.high + 16))
        heads = "".join(
            f'<marker id="{name}" viewBox="0 0 8 8" refX="7" refY="4" markerWidth="9" markerHeight="9" '
            f'markerUnits="userSpaceOnUse" '
            f'orient="auto"><path d="M0 0 8 4 0 8z" fill="{colour}"/></marker>'
            for name, colour in (("head", GREY), ("red", RED))
        )
        return (
            f'<svg xmlns="http://www.w3.org/2000/svg" width="{wide}" height="{high}" viewBox="0 0 {wide} {high}">\n'
            f"<defs>{heads}<style>.t {{ font-family: 'DejaVu Sans Mono', Menlo, Consolas, monospace; paint-order: stroke; "
            f"stroke: white; stroke-width: 3px; stroke-linejoin: round }}</style></defs>\n"
            f'<rect width="{wide}" height="{high}" fill="white"/>\n'
            + "\n".join(self.shapes + self.texts)
            + "\n</svg>\n"
        )
