"""Opens the pages of ./explain in a headless browser, uses them as a person would, and holds what they show to the program's numbers.

A copy of a page gets a script more, which clicks, presses keys and moves sliders, and writes what the page shows into it; the browser prints
the page as it stands then.
"""
import html
import json
import os
import re
import shutil
import subprocess
import sys
import tempfile

from explain_inputs import CANCELLING, EXAMPLES, ROOT
from explain_running import hold

sys.path.insert(0, os.path.join(ROOT, "explaining"))
import account  # noqa: E402
from reading import read_job, read_stream  # noqa: E402
from repairing import repair_case  # noqa: E402

BROWSERS = ("chromium", "chromium-browser", "google-chrome", "google-chrome-stable", "microsoft-edge")
SMOOTH = 50  # milliseconds for one layer, drawn and laid out

TRIAL = """
<script>
"use strict";
{
  const seen = {}, svg = document.getElementById("layer"), text = id => document.getElementById(id).textContent;
  const press = (key, more) => svg.dispatchEvent(new KeyboardEvent("keydown", {key, bubbles: true, ...more}));
  const clickAt = (x, y) => {
    const at = new DOMPoint(x, y).matrixTransform(svg.getScreenCTM());
    svg.dispatchEvent(new MouseEvent("click", {clientX: at.x, clientY: at.y, bubbles: true}));
  };
  const slide = (a, m) => {
    const slider = document.getElementById("plane" + a);
    slider.value = m;
    slider.dispatchEvent(new Event("input"));
  };
  const ask = words => {
    location.hash = words;
    asked();
    return text("account");
  };
  const words = [...document.querySelectorAll("#counts dt")], numbers = [...document.querySelectorAll("#counts dd")];
  seen.counts = Object.fromEntries(words.map((dt, at) => [dt.textContent, numbers[at].textContent]));
  seen.first = text("account");
  seen.accounts = Object.fromEntries(ASKED.map(words => [words, ask(words)]));
  seen.rims = [...document.querySelectorAll("#rims button")].map(b => (b.click(), text("account")));
  const places = {};
  for (const a of [0, 1, 2]) {
    slide(a, 2);
    for (const [u, v] of [[2, 3], [2.5, 3], [2, 2.5], [2.5, 2.5]]) {
      const y = data.views[a].down ? v : n - v;
      clickAt(data.margin + data.pitch * u, data.margin + data.pitch * y);
      places[[a, u, v]] = text("account").split("\\n")[0];
    }
  }
  seen.clicked = places;
  slide(2, 2);
  clickAt(data.margin + data.pitch * 2, data.margin + data.pitch * 2);
  seen.keys = [];
  for (const key of ["ArrowRight", "ArrowDown", "ArrowLeft", "Shift ArrowUp", "PageUp", "o", "ArrowUp", "o", "+", "-", "x", "z"]) {
    press(key.replace("Shift ", ""), {shiftKey: key.startsWith("Shift")});
    seen.keys.push(key + ": " + text("account").split("\\n")[0] + " | " + [0, 1, 2].map(a => text("told" + a)).join("; "));
  }
  const began = performance.now();
  for (const a of [0, 1, 2]) for (let m = 0; m <= n; m++) { look(a, m); svg.getBBox(); }
  seen.milliseconds = (performance.now() - began) / (3 * (n + 1));
  seen.outside = [...document.querySelectorAll("[src],link,[href]")].length;
  const made = document.createElement("pre");
  made.id = "trial";
  made.textContent = JSON.stringify(seen);
  document.body.append(made);
}
</script>
"""


drawn = []  # milliseconds a layer, of each page


def slowest():
    return max(drawn, default=0)


def find_browser():
    return next(filter(None, map(shutil.which, BROWSERS)), None)


def dom_of(path, folder):
    """The page as the browser has it after its scripts ran."""
    words = [find_browser(), "--headless", "--disable-gpu", "--no-first-run", "--user-data-dir=" + os.path.join(folder, "profile"),
             *(["--no-sandbox"] if os.getuid() == 0 else []), "--dump-dom", "file://" + path]
    done = subprocess.run(words, stdout=subprocess.PIPE, stderr=subprocess.PIPE, timeout=60, env={**os.environ, "HOME": folder})
    return done.stdout.decode()


def seen_on_page(source, asked):
    """What the page of an input shows, and the page."""
    with tempfile.TemporaryDirectory() as folder:
        path = os.path.join(folder, "page.html")
        subprocess.run([os.path.join(ROOT, "explain"), "--page", path, source], check=True, stdout=subprocess.DEVNULL, timeout=60)
        with open(path) as file:
            page = file.read()
        with open(path, "w") as file:
            file.write(page.replace("</body>", TRIAL.replace("ASKED", json.dumps(asked)) + "</body>"))
        found = re.search(r'<pre id="trial">(.*?)</pre>', dom_of(path, folder), re.S)
        hold(found, f"the page of {os.path.basename(source)} runs to its end in the browser")
        return json.loads(html.unescape(found.group(1))), page


def listing(stream):
    """The counts that the proved program prints."""
    done = subprocess.run([os.path.join(ROOT, "explaining", "proved.sh"), "repair"], input=stream, stdout=subprocess.PIPE, check=True, timeout=60)
    return dict(re.findall(r"(rims|flips|inside|quads) (\d+)", done.stdout.decode().splitlines()[1]))


def of_item(words):
    letter, *numbers = words.split(",")
    return "xyz".index(letter), tuple(map(int, numbers))


def told(case, repair, words):
    """The account of what an address asks for, by ./explain's own functions."""
    kind, _, what = words.partition("=")
    if kind == "point":
        return account.point(repair, tuple(map(int, what.split(","))))
    return account.edge(case, repair, of_item(what)) if kind == "edge" else account.face(repair, of_item(what))


def some(items):
    return items[::max(1, len(items) // 6)]


def asked_of(repair):
    """Points, edges and faces of every kind: in rims and away from them, flipped and kept, on the outside."""
    edges = sorted(repair.flips)[:6] + sorted(repair.cancelled())[:2] + some(sorted(repair.patched)) + [(0, (0, 0, 0)), (2, (1, 1, 0))]
    points = [p for _, p in edges] + some(sorted(repair.inside))
    faces = some(repair.odd()) + [(0, (1, 1, 1)), (2, (2, 1, 1))]
    items = [("edge", "xyz"[a] + "," + ",".join(map(str, p))) for a, p in edges] + [("face", "xyz"[a] + "," + ",".join(map(str, p))) for a, p in faces]
    return [f"{kind}={what}" for kind, what in items + [("point", ",".join(map(str, p))) for p in points]]


def hold_page(source, case):
    repair = repair_case(case)
    asked = asked_of(repair)
    seen, page = seen_on_page(source, asked)
    counts = {word: int(number) for word, number in seen["counts"].items()}
    odd = repair.odd()
    hold(counts == {"marks": len(repair.marks), "gaps": len(repair.gaps(odd)), "membranes": len(repair.membranes(odd)), "rims": len(repair.rims),
                    "flips": len(repair.flips), "added": len(repair.added()), "taken away": len(repair.taken()), "inside": len(repair.inside),
                    "quads": len(repair.quads)}, f"the page's counts: {counts}")
    hold(seen["first"] == "\n".join(account.short(repair)), "the page begins with the short account")
    for words in asked:
        hold(seen["accounts"][words] == "\n".join(told(case, repair, words)), f"{words} on the page: {seen['accounts'][words]}")
    hold(seen["rims"] == ["\n".join(account.rim_account(repair, rim)) for rim in repair.rims], "the rims' accounts on the page")
    drawn.append(seen["milliseconds"])
    hold(seen["milliseconds"] < SMOOTH, f"a layer takes {seen['milliseconds']:.1f} ms")
    hold(seen["outside"] == 0 and not re.search(r"(?:src|href|url\()\s*=?\s*[\"']?https?:", page), "the page names nothing outside itself")
    return seen, counts


def lampshade_page():
    path = os.path.join(ROOT, "models", "lampshade.bin")
    with open(path, "rb") as file:
        stream = file.read()
    seen, counts = hold_page(path, read_stream(stream))
    for word, number in listing(stream).items():
        hold(counts[word] == int(number), f"the page has {counts[word]} {word}, the proved program {number}")


def page_of_a_job(name, contents):
    with tempfile.TemporaryDirectory() as folder:
        path = os.path.join(folder, name)
        with open(path, "wb") as file:
            file.write(contents)
        return hold_page(path, read_job(contents))[0]


def cancelling_page():
    """Flips that cancel between rims."""
    name, contents, _ = CANCELLING
    page_of_a_job(name, contents)


def use_of_a_page():
    """Clicks and keys on the page of example 3, where it can be told by hand what they come to."""
    name, contents, _ = next(example for example in EXAMPLES if example[0].startswith("example_03"))
    seen = page_of_a_job(name, contents)
    first = {"0,2,3": "Point (2,2,3), number", "0,2.5,3": "Edge y(2,2,3),", "0,2,2.5": "Edge z(2,2,2),", "0,2.5,2.5": "Face x(2,2,2) ",
             "1,2,3": "Point (2,2,3), number", "1,2.5,3": "Edge x(2,2,3),", "1,2,2.5": "Edge z(2,2,2),", "1,2.5,2.5": "Face y(2,2,2) ",
             "2,2,3": "Point (2,3,2), number", "2,2.5,3": "Edge x(2,3,2),", "2,2,2.5": "Edge y(2,2,2),", "2,2.5,2.5": "Face z(2,2,2) "}
    for place, words in first.items():
        hold(seen["clicked"][place].startswith(words), f"a click at {place}: {seen['clicked'][place]}")
    z = "layer x = 2 of 4; layer y = 2 of 4; layer z = {} of 4, shown"
    expected = [("Edge x(2,2,2)", z.format(2)), ("Face z(2,2,2)", z.format(2)), ("Edge y(2,2,2)", z.format(2)), ("Edge y(2,1,2)", z.format(2)),
                ("Edge y(2,1,3)", z.format(3)), ("Edge y(2,1,3)", z.format(3)), ("Point (2,1,3)", z.format(3)), ("Edge z(2,1,3)", z.format(3)),
                ("Edge z(2,1,3)", z.format(3)), ("Edge z(2,1,3)", z.format(3)),
                ("Edge z(2,1,3)", "layer x = 2 of 4, shown; layer y = 2 of 4; layer z = 3 of 4"), ("Edge z(2,1,3)", z.format(3))]
    for key, (begins, layers) in zip(seen["keys"], expected):
        word, _, rest = key.partition(": ")
        hold(rest.startswith(begins) and rest.endswith(" | " + layers), f"key {word}: {rest}, expected {begins} and {layers}")


TESTS = (lampshade_page, cancelling_page, use_of_a_page)
