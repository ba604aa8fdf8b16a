# Says of an input of `cite` why its line 'with' is refused, or which line of the theorem the figure lacks:
#   awk -v line=NUMBER|'' -f cite.awk forms INPUT
# SPDX-License-Identifier: Apache-2.0

# what each command makes, by the letter of its new name
FNR == NR {
  if (/^[a-z]/ && $1 !~ /^(prove|assume)$/) makes[$1] = $2 ~ /^[ab]$/ ? "line" : $2 == "r" ? "parameter" : "point"
  next
}
# the program of the log, and its points and parameters in order
!behind && /^\| / {
  theorem[++lines] = substr($0, 3)
  if ($2 != "assume" && $2 != "prove") {
    named[++due] = $3
    kind[due] = $2 == "param" ? "parameter" : "point"
  }
}
!behind && /^verdict / {
  behind = 1
  next
}
behind == 1 {
  names = $0
  given = split(names, name, " ") - 1
  behind = 2
  next
}
# what the figure declares: the word behind a command's word
behind == 2 {
  sub(/%.*/, "")
  gsub(/[{}\r]/, " ")
  for (k = 1; k <= NF; k++) {
    if ($k == "prove") behind = 3
    if (behind == 2 && last in makes && !($k in declared)) declared[$k] = makes[last]
    last = $k
  }
}

# a line of the theorem with the names of the figure
function replaced(text,   part, size, k, n, result) {
  size = split(text, part, " ")
  for (k = 1; k <= size; k++) {
    for (n = 1; n <= due; n++)
      if (part[k] == named[n]) {
        part[k] = name[n + 1]
        break
      }
    result = result " " part[k]
  }
  return substr(result, 2)
}

function listed(   k, text) {
  for (k = 1; k <= due; k++) text = text " " named[k]
  return text
}

function why_not(   k) {
  if (names !~ /^with /) return "the line behind the log begins with the word with and one blank"
  if (names ~ /\r$/) return "the line ends with a carriage return, as on Windows: this line has a line feed alone"
  if (given != due) return "it has " given " names, and " due " are due, for" listed()
  for (k = 1; k <= due; k++) {
    if (!(name[k + 1] in declared)) return name[k + 1] " is not declared in the figure"
    if (declared[name[k + 1]] != kind[k]) return name[k + 1] " is a " declared[name[k + 1]] ", and " named[k] " is a " kind[k]
  }
  return "one blank stands before each name, and nothing behind the last"
}

END {
  if (line == "") print "  " why_not()
  else if (line in theorem) {
    print "  line " line " of the theorem is: " theorem[line]
    print "  with the names of the figure: " replaced(theorem[line])
  }
}
