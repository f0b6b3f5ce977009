"""A layer of the grid as SVG: points inside and outside, marks, flips, odd faces, rims' boxes. The page and `--svg` show the same drawing.

A view looks along one axis at the plane m of points. Edges in the plane are lines; those that lead from it to plane m+1 are diamonds beside
their point. Odd faces in the plane are squares; those between planes m and m+1 are seen edge-on and are bars. Shapes tell without colour.
"""
from lattice import LETTERS, OTHERS, step

PITCH, MARGIN, FRAME = 24, 36, 18
RIGHT_DOWN = ((1, 2, False), (0, 2, False), (0, 1, True))  # for each view: the axis to the right, the other, and whether it points down
COLOURS = ("#0072b2", "#d55e00", "#007a5e", "#b0478f", "#8a6d00", "#3d8fc4", "#5b4bb5", "#7a4a21")

STYLE = """
.grid{stroke:#d5d9de;stroke-width:1;fill:none}
.outside{stroke:#9aa3ad;stroke-width:3;stroke-linecap:round}
.inside{stroke:#111;stroke-width:11;stroke-linecap:round}
.mark{stroke:#444;stroke-width:3.4;fill:none}
.across{fill:#444;stroke:none}
.added{stroke:#00633c;stroke-width:3.4;stroke-dasharray:3.5 2;fill:none}
.taken{stroke:#b02a00;stroke-width:2;stroke-dasharray:1.5 2.5;fill:none}
.plus{stroke:#00633c;stroke-width:2;fill:none}
.times{stroke:#b02a00;stroke-width:2;fill:none}
.equals{stroke:#5b4bb5;stroke-width:2;fill:none}
.halo{stroke:#fff;stroke-width:5;fill:none}
.box{fill:none;stroke-width:1.6;stroke-dasharray:7 4}
.word{font:10px sans-serif;fill:#333}
.count{font:bold 10px sans-serif;text-anchor:middle;fill:#111;stroke:#fff;stroke-width:2.5;paint-order:stroke}
"""


class View:
    """Where things lie when one looks along an axis."""

    def __init__(self, level, a):
        self.a, self.n = a, level.n
        self.u, self.v, self.down = RIGHT_DOWN[a]

    def at(self, u, v):
        return MARGIN + PITCH * u, MARGIN + PITCH * (v if self.down else self.n - v)

    def of(self, p):
        return self.at(p[self.u], p[self.v])

    def size(self):
        return 2 * MARGIN + PITCH * self.n


def number(x):
    return f"{x:.1f}".rstrip("0").rstrip(".")


def move(x, y):
    return f"M{number(x)} {number(y)}"


def drawn(kind, parts, more=""):
    """One path for all things of a kind; nothing where there are none."""
    return f'<path class="{kind}" d="{"".join(parts)}"{more}/>' if parts else ""


def dots(view, points):
    return [move(*view.of(p)) + "h0" for p in points]


def lines(view, edges):
    """Edges in the plane, a little short of their points' middles."""
    parts = []
    for a, p in edges:
        (x, y), (s, t) = view.of(p), view.of(step(p, a))
        dx, dy = (s - x) / PITCH * 4, (t - y) / PITCH * 4
        parts.append(f"{move(x + dx, y + dy)}L{number(s - dx)} {number(t - dy)}")
    return parts


def middle(view, edge):
    """Where an edge's glyph stands: its middle, or beside its point when it leads out of the plane."""
    a, p = edge
    x, y = view.of(p)
    if a == view.a:
        return x + 7, y - 7
    s, t = view.of(step(p, a))
    return (x + s) / 2, (y + t) / 2


def diamonds(view, edges):
    return [move(x, y - 4.5) + "l4.5 4.5l-4.5 4.5l-4.5 -4.5z" for x, y in (middle(view, edge) for edge in edges)]


def plus(x, y):
    return f"{move(x - 4, y)}h8{move(x, y - 4)}v8"


def times(x, y):
    return f"{move(x - 3, y - 3)}l6 6{move(x - 3, y + 3)}l6 -6"


def equals(x, y):
    return f"{move(x - 3.5, y - 1.8)}h7{move(x - 3.5, y + 1.8)}h7"


def glyphs(view, kind, sign, edges):
    parts = [sign(*middle(view, edge)) for edge in edges]
    return drawn("halo", parts) + drawn(kind, parts)


# ---- faces and boxes

def colour(rim):
    return (rim.number - 1) % len(COLOURS)


def rectangle(corner, other):
    (x, y), (s, t) = corner, other
    return f'x="{number(min(x, s))}" y="{number(min(y, t))}" width="{number(abs(s - x))}" height="{number(abs(t - y))}"'


def face_shape(view, face):
    """A square in the plane, or a bar of an edge's length where it is seen edge-on."""
    a, p = face
    b, c = OTHERS[a]
    if a == view.a:
        return rectangle(view.of(p), view.of(step(step(p, b), c)))
    along = c if b == view.a else b
    (x, y), (s, t) = view.of(p), view.of(step(p, along))
    wide = (0, 4.5) if y == t else (4.5, 0)
    return rectangle((x - wide[0], y - wide[1]), (s + wide[0], t + wide[1]))


def draw_face(view, face, rim, marks):
    kind, c = ("gap" if marks == 1 else "membrane"), colour(rim)
    shape = f'<rect {face_shape(view, face)} fill="url(#{kind}{c})" stroke="{COLOURS[c]}" stroke-width="1"/>'
    if face[0] != view.a:
        return shape
    x, y = view.of(face[1])
    s, t = view.of(step(step(face[1], view.u), view.v))
    return shape + f'<text class="count" x="{number((x + s) / 2)}" y="{number((y + t) / 2 + 3.5)}">{marks}</text>'


def draw_box(view, rim, m):
    if not rim.box.low[view.a] <= m <= rim.box.high[view.a]:
        return ""
    x, y = view.of(rim.box.low)
    s, t = view.of(rim.box.high)
    word = f'<text class="word" x="{number(min(x, s) - 3)}" y="{number(min(y, t) - 7)}" style="fill:{COLOURS[colour(rim)]}">rim {rim.number}</text>'
    return f'<rect class="box" {rectangle((min(x, s) - 4, min(y, t) - 4), (max(x, s) + 4, max(y, t) + 4))} stroke="{COLOURS[colour(rim)]}"/>{word}'


def patterns():
    """Gaps are hatched one way, membranes both ways."""
    parts = []
    for c, paint in enumerate(COLOURS):
        for kind, d in (("gap", "M0 6L6 0"), ("membrane", "M0 6L6 0M0 0L6 6")):
            parts.append(f'<pattern id="{kind}{c}" width="6" height="6" patternUnits="userSpaceOnUse"><rect width="6" height="6" fill="{paint}" '
                         f'fill-opacity="{0.12 if kind == "gap" else 0.3}"/><path d="{d}" stroke="{paint}" stroke-width="1.4"/></pattern>')
    return f"<defs>{''.join(parts)}</defs>"


# ---- a layer

def ground(level, a):
    """What all layers of a view share: grid lines, every point as one outside, and the axes."""
    view = View(level, a)
    far = PITCH * level.n
    rows = range(level.n + 1)
    grid = [f"{move(MARGIN, MARGIN + PITCH * c)}h{far}{move(MARGIN + PITCH * c, MARGIN)}v{far}" for c in rows]
    points = [move(*view.at(u, v)) + "h0" for u in rows for v in rows]
    every = 1 if level.n <= 8 else 4
    texts = [f'<text class="word" text-anchor="middle" x="{view.at(c, 0)[0]}" y="18">{c}</text>'
             f'<text class="word" text-anchor="end" x="{MARGIN - 14}" y="{view.at(0, c)[1] + 3}">{c}</text>' for c in range(0, level.n + 1, every)]
    end = view.size() - 4
    texts.append(f'<text class="word" text-anchor="end" x="{end}" y="18">{LETTERS[view.u]} &#8594;</text>')
    texts.append(f'<text class="word" x="3" y="{end}">{LETTERS[view.v]} {"&#8595;" if view.down else "&#8593;"}</text>')
    return drawn("grid", grid) + drawn("outside", points) + "".join(texts)


class Planes:
    """A repair's things sorted by the plane that they lie in, for one view."""

    def __init__(self, repair, a):
        self.repair, self.view = repair, View(repair.level, a)
        added, taken = repair.added(), repair.taken()
        kinds = {"kept": set(repair.marks) - taken, "added": added, "taken": taken, "cancelled": repair.cancelled()}
        self.edges = {kind: self.by_plane(edges, lambda e: e[1]) for kind, edges in kinds.items()}
        self.points = self.by_plane(repair.inside, lambda p: p)
        self.faces = self.by_plane([(rim, face) for rim in repair.rims for face in rim.faces], lambda pair: pair[1][1])

    def by_plane(self, items, point):
        planes = {}
        for item in sorted(items, key=lambda i: point(i)[::-1]):
            planes.setdefault(point(item)[self.view.a], []).append(item)
        return planes

    def edges_at(self, kind, m, across):
        """The edges of a kind at plane m: those that lead out of it, or those in it."""
        return [e for e in self.edges[kind].get(m, []) if (e[0] == self.view.a) == across]

    def draw(self, m):
        """What the layer has beyond the ground."""
        view, repair = self.view, self.repair
        return "".join((
            *(draw_face(view, face, rim, repair.counts[face]) for rim, face in self.faces.get(m, [])),
            drawn("mark", lines(view, self.edges_at("kept", m, False))),
            drawn("added", lines(view, self.edges_at("added", m, False))),
            drawn("taken", lines(view, self.edges_at("taken", m, False))),
            drawn("inside", dots(view, self.points.get(m, []))),
            drawn("across", diamonds(view, self.edges_at("kept", m, True))),
            glyphs(view, "plus", plus, self.edges["added"].get(m, [])),
            glyphs(view, "times", times, self.edges["taken"].get(m, [])),
            glyphs(view, "equals", equals, self.edges["cancelled"].get(m, [])),
            *(draw_box(view, rim, m) for rim in repair.rims)))


def svg(level, a, inner, window=None):
    """A picture that stands by itself; `window` is x, y, width and height of the part to show."""
    size = View(level, a).size()
    x, y, width, height = window or (0, 0, size, size)
    return (f'<svg xmlns="http://www.w3.org/2000/svg" viewBox="{number(x)} {number(y)} {number(width)} {number(height)}" '
            f'width="{number(2 * width)}" height="{number(2 * height)}">\n<style>{STYLE}</style>\n<rect x="{number(x)}" y="{number(y)}" '
            f'width="100%" height="100%" fill="#fff"/>\n{patterns()}\n{ground(level, a)}\n{inner}\n</svg>\n')


def best_view(rim):
    """The axis and the plane that show most of a rim: of its flips in a plane, then of its faces; the first of equals."""
    shown = {}
    for a in range(3):
        for b, p in rim.flips:
            shown.setdefault((a, p[a]), [0, 0])[0] += b != a
        for b, p in rim.faces:
            shown.setdefault((a, p[a]), [0, 0])[1] += b == a
    return max(sorted(shown), key=lambda plane: shown[plane])


def frame(view, m, window):
    """What a cut-out has around it: the coordinates of its grid lines, and which layer it is."""
    x, y, width, height = window
    bands = [(x, y, width, FRAME), (x, y, FRAME, height), (x, y + height - FRAME, width, FRAME)]
    parts = [f'<rect x="{number(s)}" y="{number(t)}" width="{number(w)}" height="{number(h)}" fill="#fff"/>' for s, t, w, h in bands]
    for c in range(view.n + 1):
        s, t = view.at(c, c)
        if x + FRAME < s < x + width:
            parts.append(f'<text class="word" text-anchor="middle" x="{number(s)}" y="{number(y + 12)}">{c}</text>')
        if y + FRAME < t < y + height - FRAME:
            parts.append(f'<text class="word" text-anchor="end" x="{number(x + FRAME - 4)}" y="{number(t + 3)}">{c}</text>')
    words = f"layer {LETTERS[view.a]} = {m}, {LETTERS[view.u]} to the right, {LETTERS[view.v]} {'down' if view.down else 'up'}"
    return "".join(parts) + f'<text class="word" x="{number(x + FRAME)}" y="{number(y + height - 5)}">{words}</text>'


def rim_picture(repair, rim, around=2.5):
    """The layer that shows most of the rim, cut out around its box."""
    a, m = best_view(rim)
    view = View(repair.level, a)
    (x, y), (s, t) = view.of(rim.box.low), view.of(rim.box.high)
    edge = around * PITCH + FRAME
    window = (min(x, s) - edge, min(y, t) - edge, abs(s - x) + 2 * edge, abs(t - y) + 2 * edge)
    return svg(repair.level, a, Planes(repair, a).draw(m) + frame(view, m, window), window)


def layer_picture(repair, a, m):
    return svg(repair.level, a, Planes(repair, a).draw(m))
