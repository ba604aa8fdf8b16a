// SPDX-License-Identifier: Apache-2.0
// The shapes and the names of a figure in an SVG element: `view` is width, height, scale, and the place in the middle.
class Sketch {
  constructor(svg, data, view) {
    this.data = data;
    [this.width, this.height, this.scale, ...this.middle] = view;
    this.shown = element("g");
    this.last = new Map();
    svg.append(this.shown);
    this.measure(svg);
  }

  // how far a name stands from its point, and how deep its letters reach below their line: by the looks of the points that are pulled
  measure(svg) {
    const [grip, name] = [element("circle", { class: "free", r: 7 }), element("text")];
    svg.append(grip, name);
    this.reach = (parseFloat(getComputedStyle(grip).r) || 7) + 5;
    this.depth = 0.3 * (parseFloat(getComputedStyle(name).fontSize) || 20);
    grip.remove();
    name.remove();
  }

  view() {
    return [this.width, this.height, this.scale, ...this.middle];
  }
  seat(p) {
    return [this.width / 2 + (p[0] - this.middle[0]) * this.scale, this.height / 2 - (p[1] - this.middle[1]) * this.scale];
  }
  place([x, y]) {
    return [(x - this.width / 2) / this.scale + this.middle[0], (this.height / 2 - y) / this.scale + this.middle[1]];
  }

  // draws the figure; a point that does not exist stays where it was last, faded. `isGrip` tells points that have a mark of their own
  draw(f, missing, isGrip) {
    const seats = new Map(), drawn = [], ends = [];
    for (const [name, p] of f.points) {
      if (!missing.has(name)) this.last.set(name, p);
      const p0 = this.last.get(name);
      if (p0 && isSeen(...this.seat(p0))) seats.set(name, this.seat(p0));
    }
    for (const [kind, names, style] of this.data.shapes) {
      const e = names.some((name) => missing.has(name)) ? null : this[kind](f, names, style);
      if (!e) continue;
      drawn.push(e);
      if (kind === "segment") ends.push([["x1", "y1"], ["x2", "y2"]].map((pair) => pair.map((key) => Number(e.getAttribute(key)))));
    }
    drawn.push(...this.labels(seats, missing, ends));
    for (const [name, [cx, cy]] of seats) {
      if (!isGrip(name)) drawn.push(element("circle", { class: missing.has(name) ? "dot missing" : "dot", "data-name": name, cx, cy, r: 3.5 }));
    }
    this.shown.replaceChildren(...drawn);
    return seats;
  }

  segment(f, names, style) {
    const p = names.map((name) => f.points.get(name));
    let best = [p[0], p[1]];
    for (const a of p) for (const b of p) if (far(a, b) > far(...best)) best = [a, b];
    const [[x1, y1], [x2, y2]] = best.map((q) => this.seat(q));
    return isSeen(x1, y1, x2, y2) && element("line", { class: style, x1, y1, x2, y2 });
  }
  circle(f, [o, a], style) {
    return this.around(f.points.get(o), f.points.get(a), style);
  }
  round(f, names, style) {
    for (let k = 0; k + 2 < names.length; k++) {
      const [a, b, c] = names.slice(k, k + 3).map((name) => f.points.get(name)), v = minus(b, a), w = minus(c, a);
      if (Math.abs(cross(v, w)) > 5e-10 * (dot(v, v) + dot(w, w))) return this.around(formulas.command.circumcenter(a, b, c), a, style);
    }
    return null;
  }
  around(o, a, style) {
    const [cx, cy] = this.seat(o), r = far(o, a) * this.scale;
    return isSeen(cx, cy, r) && element("circle", { class: style, cx, cy, r });
  }
  line(f, [name], style) {
    const [p, v] = f.lines.get(name), [x, y] = this.seat(p), n = 2 * (this.width + this.height) / Math.hypot(...v);
    return isSeen(x, y, n * v[0], n * v[1]) && element("line", { class: style, x1: x - n * v[0], y1: y + n * v[1], x2: x + n * v[0], y2: y - n * v[1] });
  }

  // the names; those of one place share a label, which stands where no line goes
  labels(seats, missing, ends) {
    const groups = new Map(), places = [...seats.values()];
    const mid = [0, 1].map((k) => places.reduce((sum, p) => sum + p[k], 0) / places.length);
    for (const [name, [x, y]] of seats) {
      const key = `${x.toFixed(1)} ${y.toFixed(1)}`;
      groups.set(key, [...(groups.get(key) || []), name]);
    }
    return [...groups].map(([key, names]) => {
      const [x, y] = key.split(" ").map(Number), u = freeDirection([x, y], ends, mid);
      const anchor = u[0] > 0.4 ? "start" : u[0] < -0.4 ? "end" : "middle";
      const style = names.every((name) => missing.has(name)) ? "missing" : "";
      const place = { x: x + this.reach * u[0], y: y + 1.4 * this.reach * u[1] + this.depth };
      const text = element("text", { ...place, "text-anchor": anchor, class: style });
      this.label(text, names);
      return text;
    });
  }

  // names with their digits lower; what follows is raised again
  label(text, names) {
    let isLow = false;
    names.forEach((name, k) => {
      const [stem, low] = this.data.labels[name];
      if (k) text.append(element("tspan", isLow ? { dy: "-4" } : {}, " = "));
      text.append(stem);
      isLow = low !== "";
      if (isLow) text.append(element("tspan", { class: "low", dy: "4" }, low));
    });
  }
}

// the direction from a point, of sixteen, that is farthest from the lines there; else away from the middle of the picture
function freeDirection(p, ends, mid) {
  const taken = [];
  for (const [a, b] of ends) {
    const d = far(a, b), t = d && dot(minus(p, a), minus(b, a)) / d ** 2;
    if (!d || t < -0.01 || t > 1.01 || Math.abs(cross(minus(b, a), minus(p, a))) / d >= 3) continue;
    for (const q of [a, b]) if (far(q, p) > 1) taken.push(Math.atan2(q[1] - p[1], q[0] - p[0]));
  }
  const away = far(mid, p) > 1 ? Math.atan2(p[1] - mid[1], p[0] - mid[0]) : -Math.PI / 2;
  const between = (a, b) => Math.abs(Math.atan2(Math.sin(a - b), Math.cos(a - b)));
  let best = 0, most = -9;
  for (let k = 0; k < 16; k++) {
    const angle = k * Math.PI / 8, worth = Math.min(Math.PI, ...taken.map((t) => between(angle, t))) - 0.1 * between(angle, away);
    if (worth > most) [best, most] = [angle, worth];
  }
  return [Math.cos(best), Math.sin(best)];
}

function isSeen(...numbers) {
  return numbers.every((n) => Number.isFinite(n) && Math.abs(n) < 20000);
}
function element(tag, attributes = {}, text) {
  const e = document.createElementNS("http://www.w3.org/2000/svg", tag);
  for (const [key, value] of Object.entries(attributes)) if (value !== "") e.setAttribute(key, typeof value === "number" ? value.toFixed(1) : value);
  if (text !== undefined) e.textContent = text;
  return e;
}
