# Tells an answer of the program as a line of JSON: LC_ALL=C awk -f words.awk -f sample.awk -f json.awk ANSWER EXPLANATION
# ANSWER is what `prove`, `check` or `fixed` wrote, or an answer of solve, EXPLANATION what geo says of a refusal, or empty. docs/verdicts.schema.json has the
# members. The environment has the name of the file, the status, and what else is known: again, at, seconds, proved.
# SPDX-License-Identifier: Apache-2.0

# the length of the character of several bytes that a text begins with, or 0 where it is none of UTF-8
function character(text) {
  if (text ~ /^[\302-\337][\200-\277]/) return 2
  if (text ~ /^(\340[\240-\277]|[\341-\354\356\357][\200-\277]|\355[\200-\237])[\200-\277]/) return 3
  if (text ~ /^(\360[\220-\277]|[\361-\363][\200-\277]|\364[\200-\217])[\200-\277][\200-\277]/) return 4
  return 0
}

# a string of JSON; a byte that is no character of UTF-8 is escaped as Python's surrogateescape has it
function quoted(text,   k, letter, size, result) {
  if (text !~ /[^ !#-\[\]-~]/) return "\"" text "\""
  for (k = 1; k <= length(text); k++) {
    letter = substr(text, k, 1)
    if (letter == "\\" || letter == "\"") result = result "\\" letter
    else if (letter < " " || letter == "\177") result = result sprintf("\\u%04x", code[letter])
    else if (letter < "\200") result = result letter
    else if (size = character(substr(text, k, 4))) {
      result = result substr(text, k, size)
      k += size - 1
    } else result = result sprintf("\\udc%02x", code[letter])
  }
  return "\"" result "\""
}

function member(name, value) {
  return ",\"" name "\":" value
}

function listed(name, values) {
  return member(name, "[" substr(values, 2) "]")
}

# of a line `condition k TEXT`, `goal k TEXT` or `besides k TEXT`: the text, and the same in words
function statement(line, words) {
  sub(/^[a-z]+ [0-9]+ /, "", line)
  return ",{\"text\":" quoted(line) ",\"words\":" quoted(words) "}"
}

# the points and the numbers of the sample
function figure(   k, some, more) {
  for (k = 1; k <= points; k++) some = some "," quoted(free[k]) ":[" quoted(sample[2 * k - 1]) "," quoted(sample[2 * k]) "]"
  for (k = 1; k <= numbers; k++) more = more "," quoted(number[k]) ":" quoted(sample[2 * points + k])
  return "{\"points\":{" substr(some, 2) "},\"numbers\":{" substr(more, 2) "}}"
}

# the refusal, as geo says it, with line, column and what helps; or the reason, behind which the line of the log stands
function explained(   text, hint, k, size, part, placed) {
  size = split(explanation, part, "\n")
  if (match(part[1], /^.*:[0-9]+:[0-9]+: refusal /)) {
    k = split(substr(part[1], 1, RLENGTH - length(": refusal ")), placed, ":")
    text = member("line", placed[k - 1]) member("column", placed[k])
  }
  sub(/^.*: (refusal|reason) [0-9]+(: )?/, "", part[1])
  for (k = 2; k < size && text != ""; k++) {
    if (part[k] ~ /^[ \t]*\^$/) hint = ""
    else hint = hint (hint == "" ? "" : " ") substr(part[k], 3)
  }
  return text member("words", quoted(part[1])) (hint == "" ? "" : member("hint", quoted(hint)))
}

function end_of(word) {
  if (ENVIRON["at"] != "") return member("verdict", "\"false\"") member("tried", "true")
  if (word[1] ~ /^(verdict|accepted|fixed)$/)
    return member("verdict", quoted(word[2])) (word[3] == "" ? "" : member(word[2] == "false" ? "goal" : "condition", word[3]))
  if (word[1] == "syntax") return member("verdict", "null") member("error", "{\"refusal\":" word[2] member("place", word[4]) explained() "}")
  if (word[1] == "rejected")
    return member("verdict", "null") member("rejected", "{\"line\":" word[2] member("reason", word[3]) explained() "}")
  if (word[1] == "open") return member("verdict", "null") member("stop", "{\"why\":\"open\"}")
  if (ENVIRON["seconds"] != "") return member("verdict", "null") member("stop", "{\"why\":\"seconds\"}")
  if (word[1] == "stop")
    return member("verdict", "null") member("stop", "{\"why\":" quoted(word[2] == "spent" ? "spent" : word[4]) member("line", word[3]) "}")
  return member("verdict", "null") (ENVIRON["status"] == 12 ? member("stop", "{\"why\":\"length\"}") : "")
}

BEGIN { for (k = 1; k < 256; k++) code[sprintf("%c", k)] = k }
FILENAME != ARGV[1] {
  explanation = explanation $0 "\n"
  next
}
$1 == "condition" { conditions = conditions statement($0, condition_words($0)) }
$1 == "goal" { goals = goals statement($0, statement_words($0, " is")) }
$1 == "besides" { besides = besides statement($0, condition_words($0)) }
$1 == "form" || $1 == "auxiliary" { made[$1] = made[$1] "," quoted(substr($0, length($1) + 2)) }
$1 == "cited" { is_cited = 1 }
# `check` writes the program first, then the conditions and the verdict
NR == 1 { is_told = !/^(geolog|syntax|rejected|stop|fixed|too long)/ }
is_told && !/^(condition|accepted) / { program = program $0 "\n" }
{ last = $0 }

END {
  split(last, word, " ")
  text = member("file", quoted(ENVIRON["name"])) member("status", ENVIRON["status"]) end_of(word)
  text = text member("most_steps", ENVIRON["again"] == "" ? "false" : "true") member("program_proved", ENVIRON["proved"])
  if (word[1] == "accepted") text = text member("program", quoted(program))
  if (conditions != "" || goals != "" || word[1] ~ /^(verdict|accepted)$/) text = text listed("conditions", conditions)
  if (goals != "" || word[1] == "verdict") text = text listed("goals", goals)
  if (read_sample()) text = text member("figure", figure())
  if (is_cited) text = text member("cited", "{" substr(listed("form", made["form"]) listed("auxiliary", made["auxiliary"]) listed("besides", besides), 2) "}")
  print "{" substr(text, 2) "}"
}
