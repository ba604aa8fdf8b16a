// SPDX-License-Identifier: Apache-2.0
// A figure that moves: its free points, the points of lines and circles and its numbers are changed by mouse, finger and keys, and all
// that is constructed follows. `root` has an empty svg.moving and the controls, `data` is what live.py writes, `onChange` is told the
// state after each change, `onRelease` that what was held was let go, `kept` has values and a view to begin with, and with `zoom` the
// wheel and the mouse move the picture.
class LiveFigure {
  constructor(root, data, { onChange = () => {}, onRelease = () => {}, kept = null, zoom = false } = {}) {
    Object.assign(this, { root, data, onChange, onRelease, geometry: new Geometry(data), svg: root.querySelector("svg.moving") });
    Object.assign(this, { pointer: null, held: null, pushed: null });
    this.first = new Map(data.commands.filter((c) => c.value !== null).map((c) => [c.name, c.value]));
    this.values = new Map(kept ? kept.values : this.first);
    this.svg.setAttribute("viewBox", `0 0 ${data.view[0]} ${data.view[1].toFixed(1)}`);
    this.sketch = new Sketch(this.svg, data, kept ? kept.view : data.view);
    this.grips = this.makeGrips();
    this.listen();
    this.listenToControls();
    if (zoom) this.listenToZoom();
    root.classList.add("on");
    this.draw();
  }

  // the points that may be moved; their marks stay while all else is drawn anew, so that a finger does not lose them
  makeGrips() {
    const grips = new Map(), group = element("g");
    for (const c of this.data.commands) {
      if (c.value === null || c.word === "param") continue;
      const told = { role: "slider", tabindex: "0", "aria-label": `point ${c.name}` };
      const grip = element("circle", { class: "dot free", r: 7, ...told, "data-name": c.name, "data-point": c.name });
      grips.set(c.name, grip);
      group.append(grip);
    }
    this.svg.append(group);
    return grips;
  }

  figure() {
    return this.geometry.figure(this.values);
  }

  draw() {
    const f = this.figure(), failing = this.geometry.failing(f), missing = this.geometry.missing(f, this.values, failing.length > 0);
    const seats = this.sketch.draw(f, missing, (name) => this.grips.has(name));
    for (const [name, grip] of this.grips) {
      const seat = seats.get(name);
      grip.setAttribute("visibility", seat ? "visible" : "hidden");
      grip.classList.toggle("missing", missing.has(name));
      if (!seat) continue;
      grip.setAttribute("cx", seat[0].toFixed(1));
      grip.setAttribute("cy", seat[1].toFixed(1));
      grip.setAttribute("aria-valuenow", f.points.get(name)[0].toPrecision(4));
      grip.setAttribute("aria-valuetext", f.points.get(name).map(short).join(", "));
    }
    this.tell(f, failing, missing);
  }

  // the state in words, and the quantities of the statement
  tell(f, failing, missing) {
    const gap = this.geometry.gap(f), isNone = failing.length > 0 || missing.size > 0 || Number.isNaN(gap);
    const state = isNone ? "none" : gap < 1e-7 ? "holds" : "fails", here = this.root.querySelector(".here");
    const [said, measured] = here.children, more = isNone ? "" : this.geometry.measured(f);
    if (said.textContent !== this.data.words[state]) said.textContent = this.data.words[state];
    measured.textContent = more ? ` As drawn: ${more}.` : "";
    Object.assign(here.dataset, { state, gap });
    this.onChange({ state, failing });
  }

  // a free point goes where it is wanted, a point of a line or of a circle to the nearest place there
  move(name, p) {
    const c = this.data.commands.find((one) => one.name === name), f = this.figure();
    const [a, b] = c.args.map((arg) => f.points.get(arg));
    if (c.word === "point") this.values.set(name, p);
    else if (c.word === "online") this.put(name, dot(minus(p, a), minus(b, a)) / square(minus(b, a)));
    else {
      const on = along(a, far(a, b) / (far(p, a) || 1), minus(p, a)), v = minus(on, b);
      this.put(name, -cross(v, minus(a, b)) / cross(v, turned(minus(b, a))));
    }
    this.draw();
  }
  put(name, number) {
    if (Number.isFinite(number)) this.values.set(name, number);
  }

  // the place in the picture of a pointer
  at(event) {
    const { x, y } = new DOMPoint(event.clientX, event.clientY).matrixTransform(this.svg.getScreenCTM().inverse());
    return [x, y];
  }
  under(event) {
    const inside = (x, most) => Math.min(Math.max(x, 8), most - 8), [x, y] = this.at(event);
    return this.sketch.place([inside(x, this.sketch.width), inside(y, this.sketch.height)]);
  }

  // one pointer at a time holds a point, the picture or a slider, wherever it is let go
  isHeld() {
    return this.pointer !== null;
  }
  hold(event, what = {}) {
    const over = new AbortController();
    Object.assign(this, { pointer: event.pointerId, ...what });
    for (const end of ["pointerup", "pointercancel"]) addEventListener(end, (one) => this.release(one, over), { signal: over.signal });
  }
  release(event, over) {
    if (event.pointerId !== this.pointer) return;
    over.abort();
    Object.assign(this, { pointer: null, held: null, pushed: null });
    this.onRelease();
  }

  listen() {
    this.svg.addEventListener("pointerdown", (event) => {
      const held = event.target.getAttribute("data-point");
      if (!held || this.isHeld()) return;
      event.preventDefault();
      event.target.focus();
      this.hold(event, { held });
      if (event.isTrusted) this.svg.setPointerCapture(event.pointerId);
    });
    this.svg.addEventListener("pointermove", (event) => { if (this.held && event.pointerId === this.pointer) this.move(this.held, this.under(event)); });
    // a finger on a point pulls it; elsewhere it moves the page, as ever
    this.svg.addEventListener("touchstart", (event) => { if (this.held) event.preventDefault(); }, { passive: false });
    this.svg.addEventListener("keydown", (event) => {
      const name = event.target.getAttribute("data-point"), step = (event.shiftKey ? 20 : 4) / this.sketch.scale;
      const way = { ArrowLeft: [-step, 0], ArrowRight: [step, 0], ArrowUp: [0, step], ArrowDown: [0, -step] }[event.key];
      if (!name || !way) return;
      event.preventDefault();
      const p = this.figure().points.get(name);
      if (isPlace(p)) this.move(name, along(p, 1, way));
    });
  }

  listenToControls() {
    this.sliders = [...this.root.querySelectorAll("input[type=range]")];
    for (const input of this.sliders) {
      input.value = this.values.get(input.name);
      input.addEventListener("input", () => { this.put(input.name, Number(input.value)); this.draw(); });
      input.addEventListener("pointerdown", (event) => { if (!this.isHeld()) this.hold(event); });
    }
    this.root.querySelector("button.back").addEventListener("click", () => {
      [, , this.sketch.scale, ...this.sketch.middle] = this.data.view;
      this.set(this.first);
    });
    this.root.querySelector("button.fit").addEventListener("click", () => this.fit());
  }

  // the wheel zooms, and the mouse pushes the picture where there is no point
  listenToZoom() {
    const sketch = this.sketch;
    this.svg.addEventListener("wheel", (event) => {
      event.preventDefault();
      this.zoom(Math.exp(-Math.max(-200, Math.min(200, event.deltaY)) / 500), sketch.place(this.at(event)));
    }, { passive: false });
    this.svg.addEventListener("pointerdown", (event) => {
      if (this.isHeld() || event.target.hasAttribute("data-point") || event.pointerType !== "mouse" || event.button) return;
      this.hold(event, { pushed: this.at(event) });
      if (event.isTrusted) this.svg.setPointerCapture(event.pointerId);
    });
    this.svg.addEventListener("pointermove", (event) => {
      if (!this.pushed) return;
      const to = this.at(event), [dx, dy] = minus(to, this.pushed);
      sketch.middle = [sketch.middle[0] - dx / sketch.scale, sketch.middle[1] + dy / sketch.scale];
      this.pushed = to;
      this.draw();
    });
  }
  zoom(by, p) {
    this.sketch.scale *= by;
    this.sketch.middle = along(p, 1 / by, minus(this.sketch.middle, p));
    this.draw();
  }

  // all points in the picture
  fit() {
    const places = [...this.figure().points.values()].filter(isPlace), sketch = this.sketch;
    if (!places.length) return;
    const [low, high] = [Math.min, Math.max].map((least) => [0, 1].map((k) => least(...places.map((p) => p[k]))));
    sketch.middle = middle(low, high);
    sketch.scale = Math.min((sketch.width - 100) / (high[0] - low[0] || 1e-9), (sketch.height - 100) / (high[1] - low[1] || 1e-9), 1e6);
    this.draw();
  }

  set(places) {
    for (const [name, value] of places) this.values.set(name, value);
    for (const input of this.sliders) input.value = this.values.get(input.name);
    this.draw();
  }

  // lights the points of these names, and no others
  light(names) {
    for (const e of this.svg.querySelectorAll("[data-name]")) e.classList.toggle("lit", names.has(e.dataset.name));
  }

  // whether a point, a number or the view is another than at first
  isMoved() {
    const isOther = [...this.values].some(([name, v]) => String(v) !== String(this.first.get(name)));
    return isOther || String(this.sketch.view()) !== String(this.data.view);
  }
}
