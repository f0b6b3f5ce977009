// The page: draws a layer, finds what was clicked or moved to, and shows its account.

// ---- the picture: coordinates in half cells, so that points, edges and faces are all places of it

const planes = [n >> 1, n >> 1, n >> 1];
let view = 2, cursor = null, zoom = 1, centre = null; // the centre of what is shown, in half cells; zoom 1 shows all

const across = () => data.views[view]; // u, v and whether v points down
const px = h => data.margin + data.pitch * h / 2;
const screen = ([u, v]) => [px(u), px(across().down ? v : 2 * n - v)];

function thingAt([u, v]) { // what lies there: the kind, its axis and its point
  const half = [0, 0, 0];
  half[across().u] = u;
  half[across().v] = v;
  half[view] = 2 * planes[view];
  const odd = [0, 1, 2].filter(a => half[a] % 2), p = half.map(c => c >> 1);
  return odd.length === 0 ? ["point", 0, p] : odd.length === 1 ? ["edge", odd[0], p] : ["face", view, p];
}

function draw() {
  let ring = "";
  if (cursor) {
    const [x, y] = screen(cursor);
    ring = `<circle class="cursor" cx="${x}" cy="${y}" r="9"/>`;
  }
  const svg = byId("layer"), wide = data.size / zoom;
  const low = screen(cursor || centre || [n, n]).map(c => Math.max(0, Math.min(data.size - wide, c - wide / 2)));
  svg.innerHTML = data.patterns + data.grounds[view] + data.layers[view][planes[view]] + ring;
  svg.setAttribute("viewBox", `${low[0]} ${low[1]} ${wide} ${wide}`);
  for (let a = 0; a < 3; a++) {
    byId("plane" + a).value = planes[a];
    byId("view" + a).checked = a === view;
    byId("label" + a).className = a === view ? "now" : "";
    byId("told" + a).textContent = `layer ${LETTERS[a]} = ${planes[a]} of ${n}` + (a === view ? ", shown" : "");
  }
}

function look(a, m) {
  view = a;
  planes[a] = Math.max(0, Math.min(n, m));
  draw();
}

// The ring stays where it is while the direction does, and tells what lies there now.
function turn(a, m) {
  if (view !== a) cursor = centre = null;
  look(a, m);
  if (cursor) tell(...thingAt(cursor));
}

function magnify(by) {
  zoom = Math.max(1, Math.min(8, zoom * by));
  draw();
}

function select(place) {
  cursor = place.map(c => Math.max(0, Math.min(2 * n, c)));
  tell(...thingAt(cursor));
  draw();
}

// Shows the account of a thing, and buttons for its neighbours: the edges of a point or a face, the ends and faces of an edge, a face's rim.
function tell(kind, a, p) {
  show(account[kind](a, p));
  const links = [];
  if (kind === "point") for (let b = 0; b < 3; b++) links.push(["edge", b, step(p, b, -1)], ["edge", b, p]);
  if (kind === "face") links.push(...edgesOfFace(a, p).map(([b, q]) => ["edge", b, q]));
  if (kind === "edge") links.push(["point", 0, p], ["point", 0, step(p, a)], ...facesOfEdge(a, p).map(([b, q]) => ["face", b, q]));
  const box = byId("links"), rim = kind === "face" && data.faces[key(a, p)];
  box.textContent = "";
  for (const [what, b, q] of links)
    if (exists[what](b, q)) box.append(button(what === "point" ? "point " + told(q) : `${what} ${name(b, q)}`, () => goTo(what, b, q)));
  if (rim) box.append(button("rim " + rim, () => goToRim(rim)));
}

function button(words, act) {
  const made = document.createElement("button");
  made.type = "button";
  made.textContent = words;
  made.addEventListener("click", act);
  return made;
}

// Shows the layer that a thing lies in, the ring around it, and its account.
function goTo(kind, a, p) {
  if (kind === "face") view = a;
  else if (kind === "edge" && a === view) view = others(a)[1];
  planes[view] = p[view];
  const half = p.map((c, b) => 2 * c + (kind === "edge" && b === a || kind === "face" && b !== a ? 1 : 0));
  cursor = [half[across().u], half[across().v]];
  tell(kind, a, p);
  draw();
}

function goToRim(number) {
  const rim = data.rims[number - 1];
  cursor = null;
  view = rim.best[0];
  centre = [rim.middle[across().u], rim.middle[across().v]];
  look(...rim.best);
  show(rim.account);
  byId("links").textContent = "";
}

// ---- the mouse, the keyboard, the address

function clicked(event) {
  const svg = byId("layer"), at = new DOMPoint(event.clientX, event.clientY).matrixTransform(svg.getScreenCTM().inverse());
  const half = data.pitch / 2, v = y => across().down ? (y - data.margin) / half : 2 * n - (y - data.margin) / half;
  const point = [Math.round((at.x - 7 - data.margin) / data.pitch) * 2, Math.round(v(at.y + 7) / 2) * 2];
  const [x, y] = screen(point), p = thingAt(point)[2];
  const drawn = isPoint(p) && isEdge(view, p) && (marked(came, view, p) || data.flipWords[key(view, p)]);
  svg.focus();
  if (drawn && Math.hypot(at.x - x - 7, at.y - y + 7) < 5) {
    cursor = point;
    tell("edge", view, p);
    draw();
  } else select([Math.round((at.x - data.margin) / half), Math.round(v(at.y))]);
}

function pressed(event) {
  if (event.ctrlKey || event.altKey || event.metaKey) return;
  const by = event.shiftKey ? 2 : 1, up = across().down ? -by : by;
  const moves = {ArrowLeft: [-by, 0], ArrowRight: [by, 0], ArrowUp: [0, up], ArrowDown: [0, -up]};
  if (moves[event.key]) select((cursor || [n, n]).map((c, at) => c + moves[event.key][at]));
  else if (event.key === "+" || event.key === "-") magnify(event.key === "+" ? 2 : 0.5);
  else if (event.key === "PageUp" || event.key === "PageDown") turn(view, planes[view] + (event.key === "PageUp" ? 1 : -1));
  else if (event.key.length === 1 && LETTERS.includes(event.key)) turn(LETTERS.indexOf(event.key), planes[LETTERS.indexOf(event.key)]);
  else if (event.key === "o" && cursor && thingAt(cursor)[0] === "point" && planes[view] < n) tell("edge", view, thingAt(cursor)[2]);
  else return;
  event.preventDefault();
}

// The address asks as ./explain is asked: #layer=y,17&point=2,2,2&edge=x,1,2,2&face=z,1,2,2&rim=1. The accounts are shown one after the other.
function asked() {
  const lines = [];
  for (const [kind, words] of new URLSearchParams(location.hash.slice(1))) {
    const parts = words.split(","), a = LETTERS.indexOf(parts[0]), numbers = parts.map(Number);
    if (kind === "layer" && a >= 0) look(a, numbers[1]);
    if (kind === "rim" && data.rims[numbers[0] - 1]) goToRim(numbers[0]), lines.push(...account.rim(numbers[0]));
    const p = kind === "point" ? numbers : numbers.slice(1);
    if (exists[kind] && p.length === 3 && exists[kind](a, p)) goTo(kind, a, p), lines.push(...account[kind](a, p));
  }
  if (lines.length) show(lines);
}

// ---- the controls

function begin() {
  for (const [word, number] of Object.entries(countAll())) {
    const pair = document.createElement("div");
    pair.innerHTML = `<dt>${word}</dt><dd id="count-${word.replace(" ", "-")}">${number}</dd>`;
    byId("counts").append(pair);
  }
  for (let a = 0; a < 3; a++) {
    const label = document.createElement("label");
    label.id = "label" + a;
    label.innerHTML = `<input type="radio" name="view" id="view${a}" aria-label="look along ${LETTERS[a]}"><span id="told${a}"></span>` +
      `<input type="range" id="plane${a}" min="0" max="${n}" step="1" aria-label="layer along ${LETTERS[a]}">`;
    byId("sliders").append(label);
    byId("view" + a).addEventListener("change", () => turn(a, planes[a]));
    byId("plane" + a).addEventListener("input", event => turn(a, Number(event.target.value)));
  }
  data.rims.forEach((rim, at) => {
    const made = button(`${at + 1}: ${rim.words}`, () => goToRim(at + 1));
    made.style.borderLeftColor = rim.colour;
    byId("rims").append(made);
  });
  if (!data.rims.length) byId("rims").textContent = "There is none.";
  byId("larger").addEventListener("click", () => magnify(2));
  byId("smaller").addEventListener("click", () => magnify(0.5));
  byId("layer").addEventListener("click", clicked);
  byId("layer").addEventListener("keydown", pressed);
  byId("layer").style.maxWidth = Math.max(360, data.size * 2.4) + "px";
  window.addEventListener("hashchange", asked);
  if (data.rims.length) [view, planes[view]] = data.rims[data.first].best;
  show(data.short);
  draw();
  asked();
}

begin();
