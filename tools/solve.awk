# Tells what an answer of solve has besides: awk -f words.awk -f sample.awk -f decide.awk -f solve.awk ANSWER
# An answer has lines of a log, and lines `form`, `auxiliary`, `besides`, `program`, `note`, each with a text behind it, and `cited`.
# SPDX-License-Identifier: Apache-2.0

{ text = substr($0, length($1) + 2) }
$1 == "form" || $1 == "auxiliary" || $1 == "program" { lines[$1] = lines[$1] "    " text "\n" }
$1 == "besides" { lines[$1] = lines[$1] "    " condition_words($0) "\n" }
$1 == "note" { notes = notes "  " text "\n" }
$1 == "cited" { rests = "`cite` and `place`" (NF > 1 ? ", and on the law that what is added may go where a figure has it" : "") }

function section(kind, words) {
  if (kind in lines) printf "  %s\n%s", words, lines[kind]
}

END {
  section("program", "of the program")
  section("form", rests ? "by the formulation" : "proved, and not carried back:")
  section("auxiliary", "cited with the auxiliary points")
  section("besides", "cited where besides")
  printf "%s", notes
  if (rests) print "  it rests on " rests " (docs/LIBRARY.md)"
}
