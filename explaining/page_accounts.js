"use strict";
// The grid of the page, its counts, and the account of a point, an edge, a face or a rim in the words of ./explain, from the data in the page.
const data = JSON.parse(document.getElementById("data").textContent);
const n = data.n, row = n + 1, LETTERS = "xyz", SIGN = 8;
const bytes = text => Uint8Array.from(atob(text), c => c.charCodeAt(0));
const came = bytes(data.came), grid = bytes(data.grid); // marks as they came; marks and signs of the patched grid
const byId = id => document.getElementById(id);

// ---- the grid

const pointNumber = p => p[0] + row * (p[1] + row * p[2]);
const cellNumber = p => p[0] + n * (p[1] + n * p[2]);
const told = p => "(" + p.join(",") + ")";
const name = (a, p) => LETTERS[a] + told(p);
const key = (a, p) => 3 * pointNumber(p) + a;
const step = (p, a, by = 1) => p.map((c, b) => b === a ? c + by : c);
const others = a => [0, 1, 2].filter(b => b !== a);
const marked = (buffer, a, p) => (buffer[pointNumber(p)] >> a & 1) === 1;
const inside = p => (grid[pointNumber(p)] & SIGN) !== 0;
const side = p => inside(p) ? "inside" : "outside";
const isPoint = p => p.every(c => 0 <= c && c <= n);
const isEdge = (a, p) => isPoint(p) && p[a] < n;
const isInner = (a, p) => isEdge(a, p) && others(a).every(b => 1 <= p[b] && p[b] <= n - 1);

function edgesOfFace(a, p) {
  const [b, c] = others(a);
  return [[b, p], [b, step(p, c)], [c, p], [c, step(p, b)]];
}

function facesOfEdge(a, p) {
  const [b, c] = others(a);
  return [[b, p], [b, step(p, c, -1)], [c, p], [c, step(p, b, -1)]];
}

const exists = {
  point: (a, p) => isPoint(p),
  edge: isEdge,
  face: (a, p) => p.every((c, b) => (b === a ? 1 : 0) <= c && c < n), // between two cells
};

const marksOfFace = (buffer, a, p) => edgesOfFace(a, p).filter(([b, q]) => marked(buffer, b, q)).map(([b, q]) => name(b, q));

// ---- counts, taken from the bytes

function faceCounts() {
  const counts = [0, 0, 0, 0, 0];
  for (let k = 0; k <= n; k++)
    for (let j = 0; j <= n; j++)
      for (let i = 0; i <= n; i++)
        for (let a = 0; a < 3; a++) {
          const p = [i, j, k];
          if (exists.face(a, p)) counts[marksOfFace(came, a, p).length]++;
        }
  return counts;
}

function countAll() {
  const bits = byte => (byte & 1) + (byte >> 1 & 1) + (byte >> 2 & 1);
  const faces = faceCounts();
  const found = {marks: 0, gaps: faces[1], membranes: faces[3], rims: data.rims.length, flips: 0, added: 0, "taken away": 0, inside: 0, quads: 0};
  for (let p = 0; p < grid.length; p++) {
    found.marks += bits(came[p]);
    found.added += bits(grid[p] & ~came[p]);
    found["taken away"] += bits(came[p] & ~grid[p]);
    found.inside += grid[p] >> 3 & 1;
    found.quads += bits(grid[p]);
  }
  found.flips = found.added + found["taken away"];
  return found;
}

// ---- accounts, word for word those of ./explain

function pointAccount(p) {
  const [i, j, k] = p, met = [];
  for (let c = 0; c < k; c++) if (marked(grid, 2, [0, 0, c])) met.push(name(2, [0, 0, c]));
  for (let c = 0; c < j; c++) if (marked(grid, 1, [0, c, k])) met.push(name(1, [0, c, k]));
  for (let c = 0; c < i; c++) if (marked(grid, 0, [c, j, k])) met.push(name(0, [c, j, k]));
  const sign = met.length % 2 ? "inside" : "outside";
  return [`Point ${told(p)}, number ${pointNumber(p)}: ${side(p)}.`,
    `  Route: from (0,0,0), which is outside, along z to (0,0,${k}), along y to (0,${j},${k}), along x to ${told(p)}.`,
    `  Marks met: ${met.join(", ") || "none"}; ${met.length} is ${met.length % 2 ? "odd" : "even"}, so the point is ${sign}.`];
}

function quadWords(a, p) {
  if (!marked(grid, a, p)) return "Quad: none, since the edge is not marked.";
  let number = 1;
  for (let q = 0; q < pointNumber(p); q++) for (let b = 0; b < 3; b++) number += grid[q] >> b & 1;
  for (let b = 0; b < a; b++) number += marked(grid, b, p) ? 1 : 0;
  const [b, c] = [(a + 1) % 3, (a + 2) % 3];
  const cells = [step(step(p, b, -1), c, -1), step(p, c, -1), p, step(p, b, -1)];
  const order = inside(p) ? [0, 1, 2, 3] : [0, 3, 2, 1];
  const words = inside(p) ? "the lower end is inside, so in this order" : "the lower end is outside, so first, fourth, third, second";
  return `Quad ${number}: cells ${cells.map(told).join(", ")}; ${words}: q ${order.map(c => cellNumber(cells[c])).join(" ")}.`;
}

function edgeAccount(a, p) {
  if (!isInner(a, p)) return [`Edge ${name(a, p)}: not inner, since a crosswise coordinate is 0 or ${n}; it is never marked and has no quad.`];
  const high = step(p, a);
  return [`Edge ${name(a, p)}, from point ${told(p)} to point ${told(high)}: ${marked(grid, a, p) ? "marked" : "not marked"}.`,
    "  " + (data.cameWords[key(a, p)] || "As it came: not marked."),
    "  " + (data.flipWords[key(a, p)] || "Flips: none."),
    `  Signs: ${told(p)} ${side(p)}, ${told(high)} ${side(high)}.`,
    "  " + quadWords(a, p)];
}

function faceAccount(a, p) {
  if (!exists.face(a, p)) return [`Face ${name(a, p)}: on the outside of the grid; it has no marks.`];
  const before = marksOfFace(came, a, p), after = marksOfFace(grid, a, p), rim = data.faces[key(a, p)];
  const kind = before.length === 1 ? "a gap" : before.length === 3 ? "a membrane" : "even";
  return [`Face ${name(a, p)} between cells ${told(step(p, a, -1))} and ${told(p)}: ${before.length} mark${before.length === 1 ? "" : "s"} as it came, ` +
      kind + (rim ? ` of rim ${rim}.` : "."),
    `  Marked as it came: ${before.join(", ") || "none"}.`,
    `  Marked afterwards: ${after.join(", ") || "none"}.`];
}

const account = {
  point: (a, p) => pointAccount(p),
  edge: edgeAccount,
  face: faceAccount,
  rim: number => data.rims[number - 1].account,
};

function show(lines) {
  byId("account").textContent = lines.join("\n");
}
