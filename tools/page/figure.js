// SPDX-License-Identifier: Apache-2.0
// Where the points of a figure are, and whether its statement and its conditions hold there. It reckons in floating point, and proves
// nothing. `formulas` and the vectors are made of the table `formulas`; `data` is what live.py writes.
class Geometry {
  constructor(data) {
    this.data = data;
  }

  // the figure at these values: the places of the free points and the numbers that may be changed, by name
  figure(values) {
    const f = { points: new Map(), lines: new Map(), numbers: new Map() };
    for (const c of this.data.commands) {
      if (c.word === "param") f.numbers.set(c.name, values.get(c.name));
      else if (c.word === "point") f.points.set(c.name, values.get(c.name));
      else {
        const own = c.value === null ? [] : [values.get(c.name)];
        const made = this.evaluated(f, "command", c.word, c.args, ...own);
        (Array.isArray(made[0]) ? f.lines : f.points).set(c.name, made);
      }
    }
    return f;
  }

  // the formula of this word at these names and expressions
  evaluated(f, kind, word, args, ...more) {
    return formulas[kind][word](...args.map((a) => this.argument(f, a)), ...more);
  }
  argument(f, a) {
    return typeof a === "string" ? f.points.get(a) || f.lines.get(a) : this.expression(f, a);
  }
  expression(f, [word, ...args]) {
    if (word === "number") return args[0];
    return word === "name" ? f.numbers.get(args[0]) : this.evaluated(f, "expression", word, args);
  }

  // how far the statement is from holding, as a part of the size of its terms: 0 where it holds
  gap(f) {
    const [word, ...args] = this.data.statement, off = Math.abs(this.evaluated(f, "prove", word, args)), size = sizeOf(f);
    if (word === "equal") return Math.max(off / (args.reduce((sum, e) => sum + this.most(f, e), 0) || 1), ...args.map((e) => this.skew(f, e)));
    const p = args.map((name) => f.points.get(name)), v = minus(p[1], p[0]), w = minus(p[p.length - 1], p[p.length - 2]);
    // a length that vanishes is that of an error, not of a segment
    const long = (u) => Math.max(Math.hypot(...u), 1e-7 * size);
    const sizes = {
      collinear: () => Math.max(long(v), long(w), long(minus(p[2], p[0]))) ** 2,
      same_length: () => (long(v) + long(w)) ** 2,
      concyclic: () => size ** 4,
    };
    if (word === "identical" || word === "midpoint") return Math.sqrt(off) / size;
    if (word === "harmonic") return Math.max(off, sine(minus(p[2], p[0]), minus(p[1], p[2])), sine(minus(p[3], p[0]), minus(p[3], p[1])));
    return off / (sizes[word] || (() => long(v) * long(w)))();
  }

  // how large the terms of an expression are: what its error in floating point is measured by
  most(f, e) {
    const m = (k) => this.most(f, e[k]);
    switch (e[0]) {
      case "sum": case "sub": return m(1) + m(2);
      case "mult": return m(1) * m(2);
      case "div": return m(1) / Math.abs(this.expression(f, e[2]));
      case "neg": return m(1);
      case "signed_area3": case "pythagoras_difference3": {
        const [a, b, c] = e.slice(1).map((name) => f.points.get(name));
        return Math.max(far(a, b), far(b, c), far(c, a), 1e-7 * sizeOf(f)) ** 2;
      }
      default: return Math.abs(this.expression(f, e));
    }
  }

  // the largest sine between the two segments of a ratio: the ratio is defined where they are parallel
  skew(f, e) {
    if (e[0] !== "sratio") return Math.max(0, ...e.slice(1).map((part) => (Array.isArray(part) ? this.skew(f, part) : 0)));
    const [a, b, c, d] = e.slice(1).map((name) => f.points.get(name));
    return sine(minus(b, a), minus(d, c));
  }

  // the numbers of the conditions that fail here, from 1
  failing(f) {
    const lengths = {
      nonzero: ([e]) => this.most(f, e),
      different: () => sizeOf(f) ** 2,
      crossing: (names) => names.reduce((size, name) => size * Math.hypot(...f.lines.get(name)[1]), 1),
      not_collinear: ([a, b, c]) => this.length(f, a, b) * this.length(f, a, c),
      not_parallel: ([a, b, c, d]) => this.length(f, a, b) * this.length(f, c, d),
    };
    return this.data.conditions.flatMap(([word, ...args], k) => {
      const off = Math.abs(this.evaluated(f, "condition", word, args)), size = lengths[word](args);
      return off > size * (word === "different" ? 1e-18 : 1e-9) ? [] : [k + 1];
    });
  }
  // a length that vanishes is that of an error, and the condition on it fails
  length(f, a, b) {
    const long = far(f.points.get(a), f.points.get(b));
    return long > 1e-9 * sizeOf(f) ? long : Infinity;
  }

  // the points that do not exist: without a place, or, where a condition fails, in another one as soon as anything moves at all
  missing(f, values, isBroken) {
    const size = sizeOf(f), little = (k) => 1e-9 * (k + 1);
    const other = (v, k) => (Array.isArray(v) ? along(v, little(k) * size, [1, -0.7]) : v * (1 + little(k)) + 1e-9);
    const g = isBroken ? this.figure(new Map([...values].map(([name, v], k) => [name, other(v, k)]))) : f;
    return new Set([...f.points].filter(([name, p]) => !isPlace(p) || !(far(p, g.points.get(name)) < 1e-3 * size)).map(([name]) => name));
  }

  // the quantities of the statement here, in words
  measured(f) {
    const [word, ...args] = this.data.statement;
    if (word === "equal") return args.map((e) => short(this.expression(f, e))).join(" and ");
    const p = args.map((name) => f.points.get(name)), v = minus(p[1], p[0]), w = minus(p[p.length - 1], p[p.length - 2]);
    const turn = Math.abs(Math.atan2(cross(v, w), dot(v, w))) * 180 / Math.PI, angle = short(Math.min(turn, 180 - turn)) + "\u00b0 between them";
    const ratios = () => [[p[2], p[0], p[1]], [p[3], p[0], p[1]]].map(([x, a, b], k) => ratio(minus(x, a), k ? minus(x, b) : minus(b, x)));
    const told = {
      same_length: () => [v, w].map((u) => short(Math.hypot(...u))).join(" and "),
      identical: () => short(far(p[0], p[1])) + " apart",
      midpoint: () => short(far(p[0], middle(p[1], p[2]))) + " from the midpoint",
      harmonic: () => "ratios " + ratios().map(short).join(" and "),
      concyclic: () => {
        const o = formulas.command.circumcenter(p[0], p[1], p[2]);
        if (!isPlace(o)) return "";
        return `the circle of the first three has radius ${short(far(o, p[0]))}, and the fourth is ${short(far(o, p[3]))} from its centre`;
      },
    };
    return (told[word] || (() => angle))();
  }
}

// as in the table, without a refusal: a division by 0 makes no place
function divided(a, b) { return a / b; }
function ratio(v, w) { return dot(v, w) / dot(w, w); }
function far(p, q) { return Math.hypot(p[0] - q[0], p[1] - q[1]); }
function sine(v, w) { return Math.abs(cross(v, w)) / (Math.hypot(...v) * Math.hypot(...w) || 1); }
function isPlace(p) { return p.every((x) => Number.isFinite(x) && Math.abs(x) < 1e12); }
// a number in at most four digits, a large one with a power of ten
function short(x) {
  const rounded = Number(x.toPrecision(4)), [digits, power] = rounded.toExponential().split("e");
  const raised = { "-": "\u207b", 0: "\u2070", 1: "\u00b9", 2: "\u00b2", 3: "\u00b3" };
  const sign = (c) => raised[c] || String.fromCharCode(0x2070 + Number(c));
  if (Math.abs(x) < 1e-12) return "0";
  const text = Math.abs(power) < 6 ? String(rounded) : `${digits}\u00b710${[...power.replace("+", "")].map(sign).join("")}`;
  return text.replace("-", "\u2212");
}
// the diagonal of the box around the points
function sizeOf(f) {
  const places = [...f.points.values()].filter(isPlace), end = (most, k) => most(...places.map((p) => p[k]));
  const diagonal = Math.hypot(...[0, 1].map((k) => end(Math.max, k) - end(Math.min, k)));
  return places.length && diagonal ? diagonal : 1;
}
