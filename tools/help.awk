# What the manual says of one word, with the options that it takes and its examples: word=WORD awk -f help.awk words geo.1
# SPDX-License-Identifier: Apache-2.0
BEGIN { word = ENVIRON["word"] }

# the words behind a macro of the manual, as they are read; where fonts take turns they stand without blanks between
function spoken(line,   between, text) {
  between = line ~ /^\.[BI] / ? " " : ""
  sub(/^\.[A-Z]+ /, "", line)
  while (line != "") {
    if (match(line, /^"[^"]*"/)) text = text between substr(line, 2, RLENGTH - 2)
    else if (match(line, /^[^ ]+/)) text = text between substr(line, 1, RLENGTH)
    line = substr(line, RLENGTH + 1)
    sub(/^ +/, "", line)
  }
  return substr(text, length(between) + 1)
}

function plain(line) {
  if (line ~ /^\./) line = spoken(line)
  gsub(/\\f[A-Z]|\\&/, "", line)
  gsub(/\\-/, "-", line)
  gsub(/\\\\/, "\\", line)
  return line
}

# a text in lines of at most 100 letters
function fill(text,   count, part, k, line) {
  count = split(text, part, " ")
  for (k = 1; k <= count; k++) {
    if (line != "" && length(line part[k]) >= 100) {
      print line
      line = ""
    }
    line = line (line == "" ? "" : " ") part[k]
  }
  if (line != "") print line
}

FNR == NR {
  split($0, field, "\t")
  if ((field[1] == "word" || field[1] == "tool") && field[2] == word) {
    head = word (field[3] == "-" ? "" : " " field[3])
    takers = field[1] == "tool" && field[4] == "-" ? word : "[*]|" word
  }
  if (field[1] == "option" && field[2] != "--" && field[2] !~ /help|version/ && ("," field[4] ",") ~ (",(" takers "),")) {
    gsub(/ /, ", ", field[2])
    option[++options] = sprintf("  %-14s  %s", field[2] (field[3] == "-" ? "" : " " field[3]), field[5])
  }
  next
}
/^\.SH / { section = $2 }
/^\.(TP|PP|SH)/ {
  tagged = /^\.TP/
  inside = 0
  next
}
tagged {
  tagged = 0
  inside = section == "DESCRIPTION" && plain($0) ~ ("^" word "( |$)")
  next
}
inside { text = text " " plain($0) }
section == "EXAMPLES" && plain($0) ~ ("(^|[|&] *)geo " word "( |$)") { example[++examples] = plain($0) }

END {
  print "usage: geo " head
  print ""
  fill(text)
  if (options) print "\nOptions:"
  for (k = 1; k <= options; k++) print option[k]
  if (examples) print examples == 1 ? "\nExample:" : "\nExamples:"
  for (k = 1; k <= examples; k++) print "  " example[k]
  print "\nAll words and options: geo --help"
}
