# What docs/LANGUAGE.md says of a word of the language: word=WORD awk -f explain_word.awk LANGUAGE.md
# It tells each row of a table whose first cell has the word first, with the heads of the columns.
# SPDX-License-Identifier: Apache-2.0
BEGIN { word = ENVIRON["word"] }

# the cells of a row, without blanks around them and without the marks of code
function cells(line, cell,   k, size) {
  gsub(/`/, "", line)
  size = split(line, cell, "|")
  for (k = 1; k <= size; k++) gsub(/^ +| +$/, "", cell[k])
  return size - 1
}

/^## The program's words/ { exit }
!/^\|/ { head = "" }
/^\|/ && head == "" {
  head = $0
  next
}
/^\|/ {
  size = cells($0, cell)
  if (cell[2] !~ ("^(assume )?" word "( |$)")) next
  cells(head, title)
  print cell[2]
  for (k = 3; k <= size; k++) if (cell[k] != "") print "  " tolower(substr(title[k], 1, 1)) substr(title[k], 2) ": " cell[k]
  found = 1
}
END { exit !found }
