// The lines beside the list: a mark for each change, and a curve from each undo to what it took back.

const SVG = "http://www.w3.org/2000/svg";
// Where the marks are, how far apart the curves are beside them, and how many fit.
const MARK = 12, LANE = 9, MOST = 5;

function shape(name, kind, attributes) {
  const made = document.createElementNS(SVG, name);
  made.setAttribute("class", kind);
  for (const [key, value] of Object.entries(attributes)) made.setAttribute(key, value);
  return made;
}

// For each pair of rows a lane in which it meets no other pair, or the last one if there are too many. Short ones come first, nearest to the marks.
function lanesOf(pairs) {
  const taken = [];
  for (const pair of [...pairs].sort((one, other) => (one.to - one.from) - (other.to - other.from))) {
    let lane = taken.findIndex((others) => others.every((other) => other.to < pair.from || pair.to < other.from));
    if (lane < 0) lane = Math.min(taken.length, MOST - 1);
    (taken[lane] ??= []).push(pair);
    pair.lane = lane;
  }
  return taken.length;
}

// Draws the picture for the rows of a list. `pairs` are the numbers of changes to be joined, each with its kind: "undo" or "clash".
export function draw(lines, list, pairs) {
  const top = list.getBoundingClientRect().top, rows = [...list.children];
  const middles = new Map(rows.map((row) => {
    const at = row.querySelector(".number").getBoundingClientRect();
    return [Number(row.dataset.entry), at.top + at.height / 2 - top];
  }));
  const shown = pairs.filter((pair) => middles.has(pair.later) && middles.has(pair.earlier))
    .map((pair) => ({ ...pair, from: middles.get(pair.later), to: middles.get(pair.earlier) }));
  const room = MARK * 2 + lanesOf(shown) * LANE;
  list.parentElement.style.setProperty("--room", `${room}px`);
  const x = room - MARK, ends = [...middles.values()];
  const made = ends.length ? [shape("line", "time", { x1: x, x2: x, y1: ends[0], y2: ends.at(-1) })] : [];
  for (const { kind, from, to, lane } of shown) {
    const left = x - MARK / 2 - (lane + 1) * LANE, bend = Math.min(14, (to - from) / 2);
    made.push(shape("path", kind, { d: `M${x} ${from} C${left} ${from} ${left} ${from} ${left} ${from + bend} V${to - bend} C${left} ${to} ${left} ${to} ${x} ${to}` }));
  }
  for (const row of rows) {
    const y = middles.get(Number(row.dataset.entry)), kind = `of-${row.dataset.state}`;
    made.push(row.dataset.state === "undo" ? shape("rect", kind, { x: x - 4, y: y - 4, width: 8, height: 8 }) : shape("circle", kind, { cx: x, cy: y, r: 5 }));
  }
  lines.replaceChildren(...made);
}
