// SPDX-License-Identifier: Apache-2.0
// The proof, folded: each move is a line, with its equations behind it and their lemmas behind these. It comes in parts, which are put
// into the page as they are read.
class ProofPanel {
  constructor(studio) {
    Object.assign(this, { studio, root: $("panel-proof"), of: null, parts: [], lemmas: {}, section: null });
    this.sight = new IntersectionObserver((seen) => { if (seen.some((one) => one.isIntersecting)) this.more(); }, { root: $("panels"), rootMargin: "600px" });
    this.end = create("p", { className: "note" });
  }

  // asks for the proof where it is seen, once for each answer
  async show() {
    const { text, more, answer } = this.studio.asked;
    if (this.root.hidden || this.of === answer) return;
    this.of = answer;
    this.clear();
    if (!answer || !answer.proof) return this.root.replaceChildren(note("A proof stands here where the log has a verdict."));
    for await (const line of this.studio.ask("proof", { text, more })) {
      if (this.of !== answer) return;
      if (line.note) this.root.replaceChildren(note(line.note));
      else if (line.lemmas) this.lemmas = line.lemmas;
      else this.parts.push(line);
    }
    if (this.of !== answer || !this.parts.length) return;
    this.root.replaceChildren(this.end);
    this.sight.observe(this.end);
  }
  clear() {
    this.sight.disconnect();
    Object.assign(this, { parts: [], lemmas: {}, section: null });
    this.root.replaceChildren();
  }

  // the next part; the observer tells again when its end comes near
  more() {
    const part = this.parts.shift();
    if (!part) return this.sight.disconnect();
    if (part.section) {
      this.section = create("details", { open: part.section.main }, create("summary", { innerHTML: part.section.head }));
      this.end.before(this.section);
    } else this.section.append(...part.steps.map((step) => this.step(step)));
    this.end.textContent = this.parts.length ? "\u2026" : "";
    this.sight.unobserve(this.end);
    this.sight.observe(this.end);
  }

  step({ move, equations, lines }) {
    const step = create("div", { className: "step" });
    if (move) step.append(create("details", {}, create("summary", { innerHTML: move }), ...equations.map((equation) => this.equation(...equation))));
    step.insertAdjacentHTML("beforeend", lines);
    return step;
  }
  equation(key, text) {
    const line = create("p", { className: "equation", innerHTML: text });
    if (!key) return line;
    const button = create("button", { type: "button", className: "lemma", textContent: key });
    button.setAttribute("aria-expanded", "false");
    button.addEventListener("click", () => {
      const row = line.nextElementSibling, isOpen = row?.classList.contains("row") === true;
      if (isOpen) row.remove();
      else line.after(this.row(key));
      button.setAttribute("aria-expanded", String(!isOpen));
    });
    line.append(button);
    return line;
  }
  row(key) {
    const rows = this.lemmas[key].map(([title, cell]) => create("tr", {}, create("th", { textContent: title }), create("td", { innerHTML: cell })));
    return create("div", { className: "row" }, create("table", {}, create("caption", { textContent: key }), ...rows));
  }
}
