// SPDX-License-Identifier: Apache-2.0
// The program's file: opened, saved, saved as something else; and the examples. `studio` is the page.
class ProgramFile {
  constructor(studio, files) {
    Object.assign(this, { studio, files, number: null, name: "figure.geo", saved: "" });
    const list = $("files");
    if (files.length > 1) {
      list.hidden = false;
      list.append(...files.map((file, k) => create("option", { textContent: file.name, value: k })));
      list.addEventListener("change", () => {
        if (this.mayLeave()) this.open(files[list.value].text, files[list.value].name, Number(list.value));
        else list.value = this.number;
      });
    }
    $("save").addEventListener("click", () => this.save());
    for (const button of document.querySelectorAll("[data-as]")) button.addEventListener("click", () => this.saveAs(button.dataset.as));
    addEventListener("keydown", (event) => {
      if (!(event.ctrlKey || event.metaKey) || event.key !== "s") return;
      event.preventDefault();
      this.save();
    });
    addEventListener("beforeunload", (event) => { if (this.isChanged()) event.preventDefault(); });
  }

  open(text, name, number) {
    Object.assign(this, { number, name, saved: text });
    $("name").textContent = this.files.length > 1 && number !== null ? "" : name;
    document.title = `${name} \u00b7 Studio`;
    this.studio.opened(text);
    this.tell();
  }
  isChanged() {
    return this.studio.editor.get() !== this.saved;
  }
  mayLeave() {
    return !this.isChanged() || confirm("The text is not saved. Leave it?");
  }
  tell(words) {
    $("saved").textContent = words || (this.isChanged() ? "not saved" : "");
  }

  // writes a given file; without one the browser saves the text
  async save(anyway = false) {
    const text = this.studio.editor.get();
    if (this.number === null) {
      download(text, this.name, "text/plain");
      this.saved = text;
      return this.tell("saved");
    }
    const answer = await this.studio.post("save", { number: this.number, text, anyway }).catch(() => ({ note: "not saved: the studio does not answer" }));
    if (answer.saved) {
      this.saved = this.files[this.number].text = text;
      return this.tell("saved");
    }
    if (answer.note) return this.tell(answer.note);
    if (confirm(`${this.name} was changed by another program. Write over it?`)) await this.save(true);
  }

  async saveAs(as) {
    $("more").open = false;
    const text = this.studio.editor.get(), stem = this.name.replace(/\.geo$/, "");
    if (as === "geo") return download(text, this.name, "text/plain");
    for await (const line of this.studio.ask("saved", { text, as, name: this.name, more: this.studio.asked.more === true })) {
      if (line.note) this.tell(line.note);
      else download(line.text, stem + (as === "log" ? ".log" : ".html"), as === "log" ? "text/plain" : "text/html");
    }
  }

  async openExample(number) {
    if (!this.mayLeave()) return;
    const { name, text } = await this.studio.post("example", { number });
    this.open(text, name, null);
  }
}

function download(text, name, type) {
  const link = create("a", { href: URL.createObjectURL(new Blob([text], { type })), download: name });
  link.click();
  setTimeout(() => URL.revokeObjectURL(link.href), 10000);
}

// the examples by subject, with a search
function listExamples(examples, open) {
  const draw = () => {
    const words = $("search").value.toLowerCase().split(/\s+/).filter(Boolean), lists = new Map();
    examples.forEach((one, k) => {
      const text = `${one.subject} ${one.title} ${one.file}`.toLowerCase();
      if (!words.every((word) => text.includes(word))) return;
      const button = create("button", { type: "button", textContent: one.title });
      button.addEventListener("click", () => { $("gallery").close(); open(k); });
      if (!lists.has(one.subject)) lists.set(one.subject, create("ul"));
      lists.get(one.subject).append(create("li", {}, button));
    });
    $("list").replaceChildren(...[...lists].flatMap(([subject, list]) => [create("h3", { textContent: subject }), list]));
    if (!lists.size) $("list").append(note("No example has these words."));
  };
  $("search").addEventListener("input", draw);
  $("search").addEventListener("keydown", (event) => {
    if (event.key !== "Enter") return;
    event.preventDefault();
    $("list").querySelector("button")?.click();
  });
  $("examples").hidden = !examples.length;
  $("examples").addEventListener("click", () => { $("search").value = ""; draw(); $("gallery").showModal(); });
}

// for all scripts of the studio
function $(id) { return document.getElementById(id); }
function create(tag, properties = {}, ...inside) {
  const e = Object.assign(document.createElement(tag), properties);
  e.append(...inside);
  return e;
}
function note(words) { return create("p", { className: "note", textContent: words }); }
