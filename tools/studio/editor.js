// SPDX-License-Identifier: Apache-2.0
// The text of the program: CodeMirror where it is installed, else a plain field, with the same calls. `forms` are the lines of tools/forms that say
// how a command, a statement or a condition is written.
class Forms {
  constructor(lines) {
    this.written = new Map();
    this.statements = new Set();
    this.kinds = new Map();
    for (const line of lines) {
      const [first, second] = line.split(" ");
      if (first === "prove" || first === "assume") {
        this.written.set(`${first} ${second}`, first === "prove" ? `prove { ${line.slice(6)} }` : line);
        this.statements.add(second);
        this.kinds.set(first, "keyword");
      } else {
        this.written.set(first, line);
        this.kinds.set(first, "builtin");
      }
    }
    for (const word of ["signed_area3", "pythagoras_difference3", "sratio", "neg", "sum", "sub", "mult", "div"]) this.kinds.set(word, "variable-2");
    for (const word of this.statements) if (!this.kinds.has(word)) this.kinds.set(word, "atom");
  }

  // how the command of this line is written, or nothing
  of(line) {
    const [first, second, third] = line.trim().split(/\s+/);
    return this.written.get(first) || this.written.get(`${first} ${second === "{" ? third : second}`) || "";
  }

  // the colours of the language; behind 'assume' and 'prove {' stands a statement, whose word may be a command's too
  mode() {
    const plain = [[/^%.*/, "comment"], [/^-?[0-9]+/, "number"], [/^[{}]/, "bracket"]];
    return {
      startState: () => ({ isDue: false }),
      token: (stream, state) => {
        if (stream.eatSpace()) return null;
        for (const [pattern, kind] of plain) if (stream.match(pattern)) return kind;
        const word = stream.match(/^[A-Za-z][A-Za-z0-9_]*/);
        if (!word) {
          stream.next();
          return null;
        }
        const isStatement = state.isDue && this.statements.has(word[0]);
        state.isDue = word[0] === "prove" || word[0] === "assume";
        return isStatement ? "atom" : this.kinds.get(word[0]) || "variable";
      },
      lineComment: "%",
    };
  }

  // the names and words that begin so, names first
  beginning(text, begun) {
    const names = [...text.matchAll(/^\s*[a-z]+\s+([A-Za-z][A-Za-z0-9_]*)/gm)].map((found) => found[1]).filter((name) => !this.kinds.has(name));
    const list = [...new Set([...names, ...this.kinds.keys()])].filter((word) => word.startsWith(begun) && word !== begun);
    return list.map((word) => ({ text: word, displayText: this.written.get(word) || word }));
  }
}

class RichEditor {
  constructor(root, forms, onChange, onCursor) {
    CodeMirror.defineMode("geo", () => forms.mode());
    const extraKeys = { "Ctrl-Space": () => this.complete(forms), Tab: false, "Shift-Tab": false };
    const looks = { lineNumbers: true, lineWrapping: true, matchBrackets: true, indentUnit: 2 };
    this.editor = CodeMirror(root, { mode: "geo", ...looks, inputStyle: "contenteditable", screenReaderLabel: "Program", extraKeys });
    this.marks = [];
    this.editor.on("change", (_, change) => { if (change.origin !== "setValue") onChange(); });
    this.editor.on("cursorActivity", () => onCursor(forms.of(this.editor.getLine(this.editor.getCursor().line))));
  }
  complete(forms) {
    const editor = this.editor, at = editor.getCursor(), token = editor.getTokenAt(at);
    const begun = /^[A-Za-z]/.test(token.string) ? token.string.slice(0, at.ch - token.start) : "";
    const list = forms.beginning(editor.getValue(), begun);
    editor.showHint({ completeSingle: true, hint: () => ({ list, from: CodeMirror.Pos(at.line, at.ch - begun.length), to: at }) });
  }
  get() { return this.editor.getValue(); }
  set(text) {
    this.editor.setValue(text);
    this.editor.clearHistory();
  }
  replace(from, to, text) { this.editor.replaceRange(text, this.editor.posFromIndex(from), this.editor.posFromIndex(to)); }
  // marks a mistake at its place, or none
  mark(error) {
    const { editor } = this;
    for (const clear of this.marks) clear();
    this.marks = [];
    if (!error || error.line === undefined) return;
    const line = editor.addLineClass(Math.min(error.line, editor.lastLine()), "gutter", "wrong-line");
    const text = editor.getLine(error.line) || "", from = error.column >= text.length ? Math.max(text.length - 1, 0) : error.column;
    const to = Math.max(error.column + error.length, from + 1);
    const mark = editor.markText({ line: error.line, ch: from }, { line: error.line, ch: to }, { className: "wrong", title: error.words });
    this.marks = [() => mark.clear(), () => editor.removeLineClass(line, "gutter", "wrong-line")];
  }
  go(error) {
    this.editor.focus();
    this.editor.setCursor({ line: error.line, ch: error.column });
  }
  focus() { this.editor.focus(); }
}

class PlainEditor {
  constructor(root, forms, onChange, onCursor) {
    this.onChange = onChange;
    this.field = document.createElement("textarea");
    this.field.setAttribute("aria-label", "Program");
    this.field.spellcheck = false;
    root.append(this.field);
    this.field.addEventListener("input", onChange);
    const line = () => this.field.value.slice(0, this.field.selectionStart).split("\n").length - 1;
    document.addEventListener("selectionchange", () => { if (document.activeElement === this.field) onCursor(forms.of(this.lines()[line()])); });
  }
  lines() { return this.field.value.split("\n"); }
  get() { return this.field.value; }
  set(text) { this.field.value = text; }
  replace(from, to, text) {
    this.field.setRangeText(text, from, to, "end");
    this.onChange();
  }
  mark(error) { this.field.setAttribute("aria-invalid", String(!!error)); }
  go(error) {
    const from = this.lines().slice(0, error.line).reduce((sum, line) => sum + line.length + 1, 0) + error.column;
    this.field.focus();
    this.field.setSelectionRange(from, from + error.length);
  }
  focus() { this.field.focus(); }
}
