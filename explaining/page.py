"""The page: one HTML file with the layers as drawn, the marks and signs as bytes, and a script of our own; it needs no network."""
import base64
import html
import json
import os
import re

import account
import drawing
from drawing import COLOURS, MARGIN, PITCH, Planes, View, best_view, colour, equals, ground, patterns, plus, times

FOLDER = os.path.dirname(os.path.abspath(__file__))


def part(file):
    with open(os.path.join(FOLDER, file), encoding="utf-8") as opened:
        return opened.read()


def base(data):
    return base64.b64encode(data).decode("ascii")


def marks_bytes(level, marks):
    grid = bytearray(level.points)
    for a, p in marks:
        grid[level.point_number(p)] |= 1 << a
    return bytes(grid)


def key(level, item):
    return str(3 * level.point_number(item[1]) + item[0])


def largest(repair):
    """The rim shown first: the one with most faces."""
    return max(range(len(repair.rims)), key=lambda at: len(repair.rims[at].faces), default=0)


def rim_data(repair, rim):
    words = f"{account.kinds(repair, rim.faces)}, {account.many(len(rim.flips), 'flip')}"
    middle = [low + high for low, high in zip(*rim.box)]  # in half cells
    return {"words": words, "account": account.rim_account(repair, rim), "best": best_view(rim), "middle": middle, "colour": COLOURS[colour(rim)]}


def page_data(case, repair):
    level = repair.level
    return {"short": account.short(repair), "n": level.n, "pitch": PITCH, "margin": MARGIN, "size": View(level, 0).size(),
            "views": [{"u": u, "v": v, "down": down} for u, v, down in drawing.RIGHT_DOWN],
            "came": base(marks_bytes(level, repair.marks)), "grid": base(account.grid_bytes(repair)),
            "cameWords": {key(level, e): account.came(case, repair, e) for e in repair.marks},
            "flipWords": {key(level, e): words for e, words in account.flip_words(repair).items()},
            "faces": {key(level, face): rim.number for rim in repair.rims for face in rim.faces},
            "rims": [rim_data(repair, rim) for rim in repair.rims], "first": largest(repair),
            "patterns": patterns(), "grounds": [ground(level, a) for a in range(3)],
            "layers": [[planes.draw(m) for m in range(level.n + 1)] for planes in (Planes(repair, a) for a in range(3))]}


def sample(kind):
    """A small picture for the legend, of the same shapes."""
    shapes = {
        "outside": '<path class="outside" d="M23 14h0"/>', "inside": '<path class="inside" d="M23 14h0"/>', "mark": '<path class="mark" d="M13 14h20"/>',
        "across": '<path class="across" d="M23 9l5 5l-5 5l-5 -5z"/>',
        "added": f'<path class="added" d="M8 14h30"/><path class="halo" d="{plus(23, 14)}"/><path class="plus" d="{plus(23, 14)}"/>',
        "taken": f'<path class="taken" d="M8 14h30"/><path class="halo" d="{times(23, 14)}"/><path class="times" d="{times(23, 14)}"/>',
        "equals": f'<path class="equals" d="{equals(23, 14)}"/>',
        "gap": f'<rect x="3" y="3" width="22" height="22" fill="url(#gap0)" stroke="{COLOURS[0]}"/><text class="count" x="14" y="18">1</text>'
               f'<rect x="32" y="3" width="9" height="22" fill="url(#gap0)" stroke="{COLOURS[0]}"/>',
        "membrane": f'<rect x="3" y="3" width="22" height="22" fill="url(#membrane0)" stroke="{COLOURS[0]}"/><text class="count" x="14" y="18">3</text>'
                    f'<rect x="32" y="3" width="9" height="22" fill="url(#membrane0)" stroke="{COLOURS[0]}"/>',
        "box": f'<rect class="box" x="3" y="4" width="40" height="20" stroke="{COLOURS[0]}"/>'}
    return f'<svg viewBox="0 0 46 28" aria-hidden="true">{shapes[kind]}</svg>'


def make_page(title, case, repair, compared):
    """The whole file; every placeholder of page.html is filled once."""
    texts = {"title": html.escape(title), "heading": html.escape(" ".join(account.heading(title, case)).removeprefix(title + ": ")),
             "style": part("page.css") + drawing.STYLE, "script": part("page_accounts.js") + part("page.js"), "compared": "".join(f"<p>{html.escape(line)}</p>\n" for line in compared),
             "data": json.dumps(page_data(case, repair), separators=(",", ":")).replace("</", "<\\/")}

    def fill(found):
        word = found.group(1)
        return sample(word.removeprefix("sample:")) if word.startswith("sample:") else texts[word]
    return re.sub(r"\{\{([a-z:]+)\}\}", fill, part("page.html"))
