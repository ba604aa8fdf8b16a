"""From accepted logs a file for Coq, with a theorem about the text of each program: python3 tools/coq NAME LOG .. > MADE.v

The logs are those that `geo_cli check` accepts, which `geo coq` asks first; behind the name that a log has stands its file. docs/COQ.md
says what is made.
"""
# SPDX-License-Identifier: Apache-2.0
import re
import sys
from pathlib import Path

from certificate import Log
from statement import Statement

HEAD = """(* Made by geo coq. Of each log: its program as a text, the theorem about this text, and the same in Coq's words.
   coq/Plane.v, coq/Language.v and coq/Meaning.v say what the words mean; docs/COQ.md says what is believed. *)
From Coq Require Import ZArith List String.
From Jarduzki Require Import Plane Language Meaning Polynomials Chains Rationals Verdicts Words Reals.
Import ListNotations.
Open Scope string_scope.
Open Scope geo_scope.
"""

# Of each verdict: what is said of the text, the lemma that says it, and the theorem in words.
TEXT = {
    "proved": ("text_is_true text values", "proved_ok text the_log"),
    "false": ("text_is_broken text values {number}", "broken_ok text {number} the_log"),
    "impossible": ("text_is_impossible text {number}", "impossible_ok text {number} the_log"),
}


def module_name(name, taken):
    """The name of a log's file as the name of a module."""
    name = re.sub(r"[^A-Za-z0-9_]", "_", Path(name).name.removesuffix(".log"))
    name = name if re.match("[A-Za-z]", name) else f"log_{name}"
    while name in taken:
        name += "_"
    taken.add(name)
    return name


def joined(lines, sign=" /\\"):
    """Conjuncts, one a line, with what is said behind them."""
    shown = []
    for k, (text, note) in enumerate(lines):
        shown.append(f"  {text}{sign if k + 1 < len(lines) else '.'}{f'   (* {note} *)' if note else ''}")
    return "\n".join(shown) or "  True."


def about_text(log):
    said, lemma = (words.format(number=log.number) for words in TEXT[log.verdict])
    program = "\n".join(log.program) + "\n"
    return f"""Definition text : string := "{program}".
Definition values : list Z := [{'; '.join(log.sample)}]%Z.
Definition the_log : log := {log.shown()}.
Theorem about_text : {said}.
Proof. apply ({lemma}). vm_cast_no_check (eq_refl true). Qed.
"""


def definitions(statement):
    binders = statement.binders("K")
    return f"""Definition figure (K : field){binders} : Prop :=
{joined(statement.figure)}
Definition statement (K : field){binders} : Prop :=
{joined([(goal, "") for goal in statement.goals()])}
Definition said : option words := Eval vm_compute in words_of text.
Lemma said_is : words_of text = said.
Proof. vm_cast_no_check (eq_refl said). Qed.
"""


def placing(statement):
    """The placement with the variables as its points and numbers."""
    points = "; ".join(f'("{name}", {statement.names[name]})' for name in statement.points)
    numbers = "; ".join(f'("{name}", {shown})' for name, shown in statement.numbers)
    return f"(placing [{points}] [{numbers}])"


def witnesses(statement):
    shown = [f'(at_name placed "{name}")' for name in statement.points] + [f'(number placed "{name}")' for name, _ in statement.numbers]
    return "exists " + ", ".join(shown) + ". " if shown else ""


def for_all(statement, field):
    return f"forall{statement.binders(field)}, " if statement.variables() else ""


def exists(statement, field):
    return f"exists{statement.binders(field)}, " if statement.variables() else ""


def corollaries(name, said):
    """The same over the rational numbers, and over Coq's real numbers, which have axioms of their own."""
    return "\n".join(
        f"Corollary {name}_{field} : {said(field)}.\nProof. exact ({name} {field}). Qed.{note}"
        for field, note in (("rationals", ""), ("reals", "   (* by the axioms of Coq's real numbers *)"))
    )


def in_words(log, statement):
    """The theorem in Coq's words, for any field, for the rational and for the real numbers."""
    variables = statement.variables()
    universal = f"Proof. intros K{variables}. exact ({{lemma}} K {placing(statement)}). Qed."
    witness = f"Proof. intros K. destruct ({{lemma}} K) as [placed H]. {witnesses(statement)}exact H. Qed."
    arguments = {"proved": "text _ _ about_text said_is", "false": "text _ _ _ about_text said_is", "impossible": "text _ _ about_text said_is"}
    known = arguments[log.verdict]

    def theorem(name, said, proof, lemma):
        whole = f"Theorem {name} : forall K : field, {said('K')}.\n{proof.format(lemma=f'{lemma} {known}')}"
        return f"{whole}\n{corollaries(name, said)}\n"

    def figure(field):
        return f"figure {field}{variables}"

    if log.verdict == "proved":
        holds = theorem("holds", lambda f: f"{for_all(statement, f)}{figure(f)} -> statement {f}{variables}", universal, "true_in_words")
        return holds + theorem("met", lambda f: f"{exists(statement, f)}{figure(f)}", witness, "met_in_words")
    if log.verdict == "false":
        return theorem("breaks", lambda f: f"{exists(statement, f)}{figure(f)} /\\ ~ statement {f}{variables}", witness, "broken_in_words")
    return theorem("never", lambda f: f"{for_all(statement, f)}~ {figure(f)}", universal, "impossible_in_words")


def module(name, text):
    log = Log(text)
    statement = Statement(log.program)
    return f"\nModule {name}.\n{about_text(log)}\n{definitions(statement)}{in_words(log, statement)}End {name}.\n"


def main():
    taken = set()
    made = [HEAD]
    for name, path in zip(sys.argv[1::2], sys.argv[2::2]):
        made.append(module(module_name(name, taken), Path(path).read_text(encoding="latin-1")))
    sys.stdout.write("".join(made))
    return 0


if __name__ == "__main__":
    sys.exit(main())
