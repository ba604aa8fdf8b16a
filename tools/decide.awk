# Tells a log in a few lines: the verdict, the conditions in words, and the points of its sample:
#   awk -f words.awk -f sample.awk -f decide.awk LOG
# The environment has the name of the program's file; `again`, where the log was made with the most steps, since the default ones were
# spent; `at`, the figure that was tried and at which the statement fails; `seconds`, those that are over; `ended`, the program's status. An
# answer of solve ends with `open` where no proof was found.
# SPDX-License-Identifier: Apache-2.0
BEGIN { name = ENVIRON["name"] }
$1 == "condition" {
  conditions = $2
  condition[$2] = condition_words($0)
}
$1 == "goal" { goal[$2] = statement_words($0, " is not always") }
$1 == "|" && $2 == "prove" {
  statement = statement_words("goal 1 " substr($0, 11), " is not always")
  open = statement_words("goal 1 " substr($0, 11), " may or may not be")
}
{ last = $0 }

# the sample's points, and its other numbers
function figure(   k, text) {
  if (!read_sample()) return ""
  for (k = 1; k <= points; k++) text = text ", " free[k] " = (" sample[2 * k - 1] ", " sample[2 * k] ")"
  for (k = 1; k <= numbers; k++)
    text = text ", " (made_by[k] == "param" ? number[k] : "t(" number[k] ")") " = " sample[2 * points + k]
  return substr(text, 3)
}

function undecided(word) {
  if (ENVIRON["seconds"] != "") return ENVIRON["seconds"] " seconds are over"
  if (word[1] == "stop" && word[2] == "spent") return "out of steps at line " word[3] " of its log" (again ? ", also with the most steps" : "")
  if (word[1] == "stop") return "a " (word[4] == "degree" ? "degree" : "number") " past the limit at line " word[3] " of its log"
  return "its log is too long"
}

END {
  split(last, word, " ")
  again = ENVIRON["again"]
  by = again ? ", with the most steps" : ""
  if (ENVIRON["at"] != "") {
    print name ": false: " statement ", as a figure shows that was tried; there is no log"
    print "  counterexample " figure()
  } else if (word[1] == "verdict" && word[2] == "proved") {
    print name ": proved" by (conditions ? ", wherever" : "")
    for (k = 1; k <= conditions; k++) print "    " condition[k]
    if (conditions && figure() != "") print "  for example " figure()
  } else if (word[1] == "verdict" && word[2] == "false") {
    print name ": false" by ": " goal[word[3]]
    if (figure() != "") print "  counterexample " figure()
  } else if (word[1] == "verdict") {
    print name ": impossible" by ": it is never so that " condition[word[3]]
  } else if (word[1] == "open") {
    print name ": open: " open
  } else if (word[1] == "syntax") {
    print name ": no program"
  } else if (ENVIRON["ended"] ~ /^(8|9|10|70)$/ || ENVIRON["seconds"] == "" && (last == "too long" || last == "")) {
    print name ": no answer"
  } else {
    print name ": undecided: " undecided(word)
  }
}
