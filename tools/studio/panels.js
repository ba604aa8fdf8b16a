// SPDX-License-Identifier: Apache-2.0
// All relations, theorems to cite, points at given numbers, and the tabs of the panels. `studio` is the page.
class RelationsPanel {
  constructor(studio) {
    Object.assign(this, { studio, search: null, of: "" });
    $("discover").addEventListener("click", () => (this.search ? this.stop() : this.discover()));
  }

  async discover() {
    const begun = (this.search = new AbortController());
    Object.assign(this, { of: this.studio.commands(), lists: {}, many: 0, open: 0, end: "" });
    this.age();
    $("relations").replaceChildren();
    $("discover").textContent = "Stop";
    $("progress").hidden = false;
    try {
      for await (const line of this.studio.ask("relations", { text: this.studio.editor.get() }, begun.signal)) this.take(line);
      const all = `${this.many} relations, and no others${this.open ? `, but ${this.open} are open` : ""}.`;
      $("told").textContent = this.end || (this.isWhole ? all : "Another search began meanwhile.");
    } catch (fault) {
      $("told").textContent = `Stopped: ${this.many} relations so far.`;
    }
    this.search = null;
    $("discover").textContent = "Find all relations";
    $("progress").hidden = true;
  }
  take(line) {
    if (line.note) this.end = line.note;
    for (const one of line.found || []) {
      if (one.end) {
        this.isWhole = true;
        if (one.end.startsWith("impossible")) this.end = "There is no such figure.";
      } else if (one.open) this.open++;
      else this.add(one);
    }
    if (line.of) $("progress").value = line.done / line.of;
    $("told").textContent = `${this.many} relations${this.open ? `, ${this.open} open` : ""}`;
  }
  add(one) {
    const titles = { collinear: "On one line", parallel: "Parallel", perpendicular: "Perpendicular", same_length: "As long", concyclic: "On one circle or line" };
    if (!this.lists[one.kind]) {
      this.lists[one.kind] = create("ul");
      $("relations").append(create("h3", { textContent: titles[one.kind] }), this.lists[one.kind]);
    }
    this.many++;
    this.lists[one.kind].append(create("li", {}, this.studio.statementButton(one.html, `prove { ${one.relation} }\n`)));
  }
  // relations of another figure than the present one are faded
  age() {
    $("relations").classList.toggle("stale", this.of !== this.studio.commands());
  }
  stop() {
    if (!this.search) return;
    this.search.abort();
    this.studio.post("stop", {}).catch(() => {});
  }
}

// the theorems of the library that can be cited: asked for where they are seen
class CitesPanel {
  constructor(studio) {
    Object.assign(this, { studio, root: $("panel-cites"), of: null });
  }
  async show() {
    const { root, studio } = this, { answer } = studio.asked, mine = studio.commands();
    if (root.hidden || this.of === mine) return;
    if (!answer || !answer.numbers) return root.replaceChildren(note("Theorems stand here where there is a verdict."));
    this.of = mine;
    root.replaceChildren(note("Looking in the library \u2026"));
    const list = create("ul", { className: "cites" });
    let words = "";
    for await (const line of studio.ask("cites", { text: studio.editor.get() })) {
      if (this.of !== mine) return;
      if (line.note) words = line.note;
      if (!line.cited) continue;
      list.append(this.item(line.cited));
      root.replaceChildren(list);
    }
    if (!list.children.length) root.replaceChildren(note(words || "No theorem of the library has an instance here."));
    else if (words) root.append(note(words));
  }
  item({ title, html, missing, own, tail }) {
    const item = create("li", {}, create("span", { className: "theorem", textContent: title }), this.studio.statementButton(html, tail));
    if (missing.length) item.append(create("span", { className: "note", innerHTML: `assumed: ${missing.join("; ")}` }));
    if (own) item.append(create("span", { className: "note", textContent: "the statement of this program" }));
    return item;
  }
}

class PlacePanel {
  constructor(studio) {
    Object.assign(this, { studio, due: [] });
    $("numbers").addEventListener("submit", (event) => {
      event.preventDefault();
      this.place();
    });
  }
  fields() {
    return [...$("numbers").querySelectorAll("input")];
  }

  // a field for each number that is due; what was typed stays while the same ones are
  show({ numbers }) {
    const labels = (list) => list.map((one) => one.html).join();
    const isSame = labels(this.due) === labels(numbers);
    this.due = numbers;
    if (isSame) return;
    const label = (one) => create("label", { innerHTML: `${one.html} ` }, create("input", { type: "text", inputMode: "numeric", value: one.value, autocomplete: "off" }));
    const button = create("button", { type: "button", textContent: "As in the figure" });
    button.addEventListener("click", () => this.takeFigure());
    $("places").replaceChildren();
    $("numbers").replaceChildren(...numbers.map(label), create("button", { type: "submit", textContent: "Place" }), button);
  }
  takeFigure() {
    const values = this.studio.figure && this.studio.figure.values;
    if (!values) return;
    this.due.forEach(({ of: [name, axis] }, k) => { this.fields()[k].value = Math.round(axis === null ? values.get(name) : values.get(name)[axis]); });
  }

  async place() {
    const given = this.fields().map((input) => input.value.trim().replace("\u2212", "-"));
    for await (const line of this.studio.ask("place", { text: this.studio.editor.get(), numbers: given })) {
      if (line.note) $("places").replaceChildren(note(line.note));
      else if (line.html) $("places").replaceChildren(create("p", { className: "bad", innerHTML: line.html }));
      else this.tell(line, given);
    }
  }
  tell(line, given) {
    const rows = line.rows.map((row) => `<tr>${row}</tr>`).join("");
    const table = create("table", { className: "points", innerHTML: `<tr><th>Point</th><th>x</th><th>y</th></tr>${rows}` });
    const words = line.holds ? "Here the statement holds, exactly." : "Here the statement fails, exactly.";
    const button = create("button", { type: "button", textContent: "Show in the figure" });
    button.addEventListener("click", () => this.studio.move(this.due.map((one, k) => [one.of, Number(given[k])])));
    $("places").replaceChildren(create("p", { className: line.holds ? "good" : "bad", textContent: words }), table, button);
  }
}

// the tabs, also by the arrow keys; `onShow` is told which one is seen
function makeTabs(onShow) {
  const tabs = [...document.querySelectorAll("[role=tab]")];
  function show(tab) {
    for (const one of tabs) {
      one.setAttribute("aria-selected", String(one === tab));
      one.tabIndex = one === tab ? 0 : -1;
      $(one.getAttribute("aria-controls")).hidden = one !== tab;
    }
    onShow();
  }
  tabs.forEach((tab, k) => {
    tab.addEventListener("click", () => show(tab));
    tab.addEventListener("keydown", (event) => {
      const way = { ArrowRight: 1, ArrowLeft: tabs.length - 1 }[event.key];
      if (!way) return;
      const next = tabs[(k + way) % tabs.length];
      next.focus();
      show(next);
    });
  });
  show(tabs[0]);
}
