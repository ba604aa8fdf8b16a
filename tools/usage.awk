# The page of geo --help: the text `usage`, with the rows of the table `words` in the places of its lines @words and @options:
#   awk -f usage.awk words usage
# SPDX-License-Identifier: Apache-2.0
BEGIN { FS = "\t" }

function behind(argument) {
  return argument == "-" ? "" : " " argument
}

FNR == NR && ($1 == "word" || $1 == "tool") { word[++words] = sprintf("%-24s  %s", $2 behind($3), $5) }
FNR == NR && $1 == "option" {
  gsub(/ /, ", ", $2)
  option[++options] = sprintf("  %-14s  %s", $2 behind($3), $5 ($4 == "*" ? "" : " (" $4 ")"))
}
FNR == NR { next }
$0 == "@words" {
  for (k = 1; k <= words; k++) print (k == 1 ? "usage: geo " : "       geo ") word[k]
  print ""
  next
}
$0 == "@options" {
  for (k = 1; k <= options; k++) print option[k]
  print ""
  next
}
{ print }
