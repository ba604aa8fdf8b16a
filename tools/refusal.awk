# Points at the token for which a program is refused, and says what is due there:
#   name=NAME awk -v refusal=NUMBER -v place=BYTES -v meaning=TEXT -v down=LINES -f near.awk -f advice.awk -f refusal.awk forms PROGRAM
# `down` is 1 where the program comes from a log: there it stands one line further down, each line behind '| '. With alone=1 it only says
# what is due.
# It follows the commands up to that token, as docs/LANGUAGE.md has them. Columns are bytes, from 1.
# SPDX-License-Identifier: Apache-2.0

# The kinds of token: N a new name, P a point, L a line, E an expression, n a number that may be left out, S a statement,
# C a condition's word, and each brace for itself.
function kind_of(letter) {
  if (letter ~ /^[A-Z]$/) return "P"
  if (letter ~ /^[ab]$/) return "L"
  if (letter ~ /^[ers]$/ || letter == "f") return "E"
  if (letter ~ /^[mn]$/) return "n"
  return letter
}

function kinds_of(form, from, first,   parts, count, k, kinds) {
  count = split(form, parts, " ")
  kinds = first
  for (k = from; k <= count; k++) kinds = kinds " " kind_of(parts[k])
  return kinds
}

# the kinds that are due, the next one first
function push(kinds) {
  need = kinds (need == "" ? "" : " " need)
  sub(/^ /, "", need)
}

function pop() {
  if (!sub(/^[^ ]+ /, "", need)) need = ""
}

# what a command makes, by the letter of its new name
function declared_kind(word,   part) {
  split(form[word], part, " ")
  return part[2] ~ /^[ab]$/ ? "a line" : part[2] == "r" ? "a parameter" : "a point"
}

function take_expression(token) {
  if (token ~ /^(neg|sum|sub|mult|div)$/) operator = token
  if (token == "neg") push("{ E }")
  else if (token ~ /^(sum|sub|mult|div)$/) push("{ E } { E }")
  else if (token ~ /^(signed_area3|pythagoras_difference3)$/) push("P P P")
  else if (token == "sratio") push("P P P P")
}

function begin(token) {
  command = token
  begun = lines
  shown = form[token]
  if (token == "prove") push("{ S }")
  else if (token == "assume") push("C")
  else push(kinds_of(form[token], 3, "N"))
}

function take(token,   due) {
  if (need == "") {
    if (token in form) begin(token)
    return
  }
  due = substr(need, 1, 1)
  last = token
  if (due == "n" && token !~ /^-?[0-9]/) {
    need = ""
    take(token)
    return
  }
  pop()
  if (due == "N") {
    kind[token] = declared_kind(command)
    line_of[token] = lines
  } else if (due == "E") take_expression(token)
  else if (due == "S" || due == "C") {
    shown = form[command " " token]
    push(kinds_of(shown, 3, ""))
    if (due == "S") shown = "prove { " substr(shown, 7) " }"
  }
}

# the token at the beginning of a text, or nothing
function token_of(text) {
  if (match(text, /^[A-Za-z][A-Za-z0-9_]*/) || match(text, /^-?[0-9]+/) || match(text, /^[{}]/)) return substr(text, 1, RLENGTH)
  return ""
}

function follow(text,   token) {
  sub(/%.*/, "", text)
  for (;;) {
    sub(/^[ \t\r]+/, "", text)
    token = token_of(text)
    if (token == "") return
    take(token)
    text = substr(text, length(token) + 1)
  }
}

function due_words(   due) {
  due = substr(need, 1, 1)
  if (due == "n" || due == "") return "a command or 'prove' is due"
  if (due == "N") return "a new name is due"
  if (due == "P") return "a point is due"
  if (due == "L") return "a line is due"
  if (due == "E") return "an expression is due"
  if (due == "S") return "a statement is due"
  if (due == "C") return "a condition is due: different, not_collinear or not_parallel"
  return "the brace " due " is due"
}

# how an expression with braces is written
function parts_of(operator) {
  return operator (operator == "neg" ? " { e }" : " { e } { f }")
}

function due_here(   words) {
  words = "here " due_words()
  if (need ~ /^\{/ && operator != "" && last == operator) return words ": " parts_of(operator)
  if (need != "" && need !~ /^n/ && shown != "" && shown != "prove" && shown != "assume")
    words = words ": " shown (begun == lines ? "" : ", begun in line " begun + down)
  return words
}

function report(line, column, text,   said) {
  said = advice(substr(text, column), substr(text, 1, column - 1))
  if (alone) {
    if (said != "") print said
    return
  }
  print ENVIRON["name"] ":" line + down ":" column + 2 * down ": refusal " refusal (meaning == "" ? "" : ": " meaning)
  sub(/\r$/, "", text)
  if (text != "") show(text, column)
  if (said != "") print "  " said
}

# the line, and a mark below its column
function show(text, column,   from, before) {
  from = column > 100 ? column - 80 : 1
  before = substr(text, from, column - from)
  text = substr(text, from, 160)
  gsub(/[\001-\010\013-\037\177]|\342\200[\252-\256]|\342\201[\246-\251]/, "?", text)
  gsub(/[^\t]/, " ", before)
  print "  " text
  print "  " before "^"
}

FNR == NR {
  if (!/^[a-z]/) next
  if ($1 == "prove" || $1 == "assume") {
    form[$1] = $1
    form[$1 " " $2] = $0
    if ($1 == "prove") statements = statements " " $2
  } else form[$1] = $0
  next
}

{
  if (!found) lines++
  read_lines++
  if (/\r/) carriage = 1
}
!found && seen + length($0) + 1 > place {
  follow(substr($0, 1, place - seen))
  found = lines
  at = place - seen + 1
  line_text = $0
  missing = token_of(substr($0, at))
  if (refusal != 5) exit
  next
}
found {
  if (!later && $1 in form && $2 == missing) later = read_lines
  next
}
{
  follow($0)
  seen += length($0) + 1
}
END {
  if (found) report(found, at, line_text)
  else report(lines + 1, 1, "")
}
