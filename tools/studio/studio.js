// SPDX-License-Identifier: Apache-2.0
// The studio's page: the text is asked about at each pause of typing, and the answers go to their places. From the first key until all of
// them stand there, the page waits.
const PAUSE = 300, MOST = 1 << 20, LOST = "The studio does not answer. It may have ended: start it anew.";
const FIRST = "point A\npoint B\npoint C\nmidpoint M A B\nmidpoint N A C\nprove { parallel M N B C }\n";

class Studio {
  constructor(start) {
    Object.assign(this, { page: makeName(), asked: {}, figure: null, described: null, due: null, timer: null, question: null });
    const Editor = window.CodeMirror ? RichEditor : PlainEditor;
    this.editor = new Editor($("text"), new Forms(start.forms), () => this.changed(), (form) => { $("form").textContent = form; });
    this.proof = new ProofPanel(this);
    this.relations = new RelationsPanel(this);
    this.cites = new CitesPanel(this);
    this.place = new PlacePanel(this);
    this.file = new ProgramFile(this, start.files);
    listExamples(start.examples, (number) => this.file.openExample(number));
    makeTabs(() => this.showPanels());
    this.light();
    addEventListener("pagehide", () => this.relations.stop());
    if (start.files.length) this.file.open(start.files[0].text, start.files[0].name, 0);
    else this.file.open(FIRST, "figure.geo", null);
    this.editor.focus();
  }

  // questions
  request(name, body, signal) {
    return fetch(name, { method: "POST", headers: { "Content-Type": "application/json" }, body: JSON.stringify({ page: this.page, ...body }), signal });
  }
  async post(name, body) {
    const reply = await this.request(name, body);
    return reply.ok ? reply.json() : { note: "not done" };
  }
  // the lines of an answer, as they come
  async* ask(name, body, signal) {
    const reply = await this.request(name, body, signal);
    if (!reply.ok) throw new Error(await reply.text());
    const reader = reply.body.pipeThrough(new TextDecoderStream()).getReader();
    for (let rest = ""; ;) {
      const { value, done } = await reader.read();
      if (done) return;
      const lines = (rest + value).split("\n");
      rest = lines.pop();
      for (const line of lines) yield JSON.parse(line);
    }
  }

  // the text
  opened(text) {
    this.editor.set(text);
    this.editor.mark(null);
    this.askNow();
  }
  changed() {
    this.file.tell();
    this.giveUp();
    this.timer = setTimeout(() => this.askNow(), PAUSE);
  }
  // the question about a text that is no longer there, and its answer
  giveUp() {
    clearTimeout(this.timer);
    if (this.question) this.question.abort();
    Object.assign(this, { question: null, due: null });
    this.wait(true);
  }
  wait(isWaiting) {
    document.body.classList.toggle("waits", isWaiting);
  }
  async askNow(more = false) {
    this.giveUp();
    const mine = (this.question = new AbortController()), text = this.editor.get();
    if (new TextEncoder().encode(text).length > MOST) return this.wrong({ words: "a program has at most 1,048,576 bytes", hint: "" });
    try {
      for await (const line of this.ask("ask", { text, more }, mine.signal)) {
        if (this.question !== mine) return;
        if (line.state === "building") this.say(line.words, "news");
        else if (line.state) this.tell(line, text, more);
        else this.picture(line);
      }
    } catch (fault) {
      if (mine.signal.aborted) return;
      this.say(LOST);
    }
    if (this.question === mine) this.wait(this.due !== null);
  }

  // the verdict
  say(words, look = "") {
    $("verdict").className = look;
    $("verdict").replaceChildren(create("p", { textContent: words }));
  }
  tell(answer, text, more) {
    this.editor.mark(answer.words && answer);
    $("panel-proof").classList.toggle("stale", !answer.html);
    if (answer.words) return this.wrong(answer);
    if (answer.note) return this.say(answer.note);
    this.asked = { text, more, answer };
    $("verdict").className = "";
    $("verdict").innerHTML = answer.html;
    if (answer.more) {
      const button = create("button", { type: "button", textContent: "Try longer, up to two minutes" });
      button.addEventListener("click", () => this.askNow(true));
      $("verdict").append(button);
    }
    const unproved = answer.recorded ? "" : ". Of the program that answers no record says that it is proved (geo --version).";
    if (answer.lines) $("verdict").append(note(`${answer.lines} lines of log${answer.ms === null ? "" : `, ${answer.ms} ms`}${unproved}`));
    if (answer.state === "impossible") this.picture({ note: "No picture: there is no such figure." });
    if (answer.numbers) this.place.show(answer);
    this.showPanels();
  }
  wrong(error) {
    this.wait(false);
    const place = error.line === undefined ? "" : `Line ${error.line + 1}: `;
    const button = create("button", { type: "button", className: "where", textContent: place + error.words });
    button.addEventListener("click", () => { if (place) this.editor.go(error); });
    $("verdict").className = "error";
    $("verdict").replaceChildren(button, ...(error.hint ? [create("p", { textContent: error.hint })] : []));
  }
  showPanels() {
    this.relations.age();
    for (const panel of [this.proof, this.cites]) panel.show().catch(() => panel.root.replaceChildren(note(LOST)));
  }

  // the figure: what was moved stays where it is, while the same points and numbers are free; what is held is let go first
  picture(line) {
    if (this.figure && this.figure.isHeld()) {
      this.due = line;
      return;
    }
    if (!line.figure) {
      this.figure = this.described = null;
      return $("picture").replaceChildren(note(line.note));
    }
    const isKept = this.figure && this.figure.isMoved() && freeOf(this.described) === freeOf(line.figure);
    const kept = isKept ? { values: this.figure.values, view: this.figure.sketch.view() } : null;
    const root = create("figure", { className: "live", innerHTML: `<svg class="moving" role="group" aria-label="Figure"></svg>${line.controls}` });
    root.append(create("figcaption", { textContent: `${kept ? "As it was moved by hand." : line.caption} Reckoned in floating point: it proves nothing.` }));
    const held = document.activeElement?.getAttribute?.("data-point");
    fill(line.figure.view);
    $("picture").replaceChildren(root);
    this.described = line.figure;
    const onChange = ({ failing }) => $("verdict").querySelectorAll("li").forEach((item, k) => item.classList.toggle("fails", failing.includes(k + 1)));
    this.figure = new LiveFigure(root, line.figure, { onChange, onRelease: () => this.released(), kept, zoom: true });
    if (held) root.querySelector(`[data-point="${held}"]`)?.focus();
  }
  // what came while the figure was held
  released() {
    if (this.due === null) return;
    const line = this.due;
    this.due = null;
    this.picture(line);
    this.wait(false);
  }
  // moves the figure to numbers of points and parameters
  move(numbers) {
    if (!this.figure) return;
    const places = new Map();
    for (const [[name, axis], value] of numbers) {
      if (axis === null) places.set(name, value);
      else places.set(name, Object.assign([...(places.get(name) || [0, 0])], { [axis]: value }));
    }
    this.figure.set(places);
    this.figure.fit();
  }
  // the points of what the pointer is on are lit in the figure
  light() {
    for (const id of ["verdict", "panels"]) {
      const light = (event) => {
        const line = event.target.closest?.("li, p, summary, tr");
        if (this.figure) this.figure.light(new Set(line ? this.namesIn(line) : []));
      };
      for (const kind of ["mouseover", "focusin"]) $(id).addEventListener(kind, light);
      $(id).addEventListener("mouseleave", () => this.figure && this.figure.light(new Set()));
    }
  }
  namesIn(root) {
    const names = this.asked.answer?.names || [];
    return [...root.querySelectorAll("var")].map((v) => {
      const low = v.nextSibling?.nodeName === "SUB" ? v.nextSibling.textContent : "";
      return names.find((name) => name === v.textContent + low || name === `${v.textContent}_${low}`) || v.textContent;
    });
  }

  // the commands of the program, without comments and statement
  commands() {
    return this.editor.get().replace(/%[^\n]*/g, "").split(/\bprove\b/)[0].split(/\s+/).join(" ");
  }
  // a button that puts a statement in the place of the program's
  statementButton(html, tail) {
    const button = create("button", { type: "button", title: "Make it the statement", innerHTML: html });
    button.addEventListener("click", () => {
      const all = this.editor.get(), at = all.replace(/%[^\n]*/g, (comment) => " ".repeat(comment.length)).search(/\bprove\b/);
      if (at >= 0) this.editor.replace(at, all.length, tail);
    });
    return button;
  }
}

function makeName() {
  return [...crypto.getRandomValues(new Uint8Array(12))].map((byte) => byte.toString(16).padStart(2, "0")).join("");
}
function freeOf(data) {
  return JSON.stringify(data.commands.filter((c) => c.value !== null).map((c) => [c.word, c.name, c.args]));
}
// the picture takes all of its room
function fill(view) {
  const width = $("picture").clientWidth || 640, height = Math.max($("picture").clientHeight - 80, 200);
  view[2] *= Math.min(width / view[0], height / view[1]);
  view[0] = width;
  view[1] = height;
}

fetch("start").then((reply) => reply.json()).then((start) => { window.studio = new Studio(start); }, () => { $("verdict").textContent = LOST; });
