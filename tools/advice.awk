# Advice for a token for which a program is refused: functions of refusal.awk, which follows the program up to it.
# SPDX-License-Identifier: Apache-2.0

# the word of the language that is nearest to a token, behind "; near is ", or nothing; `front` is "prove " for statements
function near(token, front,   other, found) {
  nearest = ""
  for (other in form)
    if (front == "" ? other !~ / / : other ~ "^" front) weigh(token, substr(other, length(front) + 1))
  found = nearest
  return found == "" ? "" : "; near is " found ": " (found == "point" ? "point A" : form[front found])
}

# words of books and of other tools that are none of the language, and what to write
function other_word(token) {
  token = tolower(token)
  if (token ~ /^(intersect|intersection|meet)$/) return "the meeting point of AB and CD is inter X A B C D, that of two named lines intersec X a b"
  if (token ~ /^(circle|oncirc)$/) return "a circle is its centre and a point of it: oncircle X O A makes another point of it"
  if (token ~ /^(triangle|quadrilateral|polygon)$/) return "a figure is its corners, each by a command: point A"
  if (token ~ /^(segment|length|distance|dist)$/) return "the square of AB is half of pythagoras_difference3 A B A; two lengths are compared by same_length A B C D"
  if (token ~ /^(angle|equal_angles|bis|bisector)$/) return "angles are said by areas and Pythagoras differences: docs/GUIDE.md, How to say it"
  if (token ~ /^(concurrent|meets)$/) return "make the meeting point of two, and prove that it is on the third: inter X A B C D, then collinear E F X"
  if (token ~ /^(and|or|not)$/) return "a program has one statement: write another program for the other"
  return ""
}

# the letters of a word that are points, with blanks between, or nothing
function parted(token,   k, text) {
  if (length(token) < 2 || length(token) > 4) return ""
  for (k = 1; k <= length(token); k++) {
    if (kind[substr(token, k, 1)] != "a point") return ""
    text = text (k > 1 ? " " : "") substr(token, k, 1)
  }
  return text
}

function almost(token,   other) {
  for (other in kind) if (tolower(other) == tolower(token)) return other
  return ""
}

# the last command is complete in this line, and a word more stands behind it
function is_complete() {
  return begun == lines && need ~ /^(n|$)/ && command != ""
}

# what to write for a byte that begins no token; `before` is what stands in front of it in its line
function spelling(rest, before,   first) {
  first = substr(rest, 1, 1)
  if (substr(rest, 1, 3) == "\357\273\277") return "the file begins with a byte order mark: save it as UTF-8 without one"
  if (substr(rest, 1, 2) ~ /^(\377\376|\376\377)/) return "the file is UTF-16: save it as UTF-8 without a byte order mark"
  if (first ~ /[.\/]/ && before ~ /[0-9A-Za-z}] *$/) return "numbers are whole: a half is div { 1 } { 2 }"
  if (first ~ /[#\/]/) return "a comment begins with %"
  if (first == "\047") return "a name has no mark \047: write " (match(before, /[A-Za-z][A-Za-z0-9_]*$/) ? substr(before, RSTART) : "A") "1"
  if (first == ";") return "nothing stands behind a command: the next word begins the next one"
  if (first == ",") return "names are parted by blanks alone"
  if (first == "-") return "the opposite of r is neg { r }, a difference sub { r } { s }"
  if (first ~ /[+*=<>^]/) return "a sum is sum { r } { s }, a product mult { r } { s }, an equation equal { r } { s }"
  if (substr(rest, 1, 2) == "\302\240") return "this blank is a no-break space: type it anew"
  if (first ~ /[\316-\322]/) return "this letter is of another alphabet, though it may look alike: type it anew"
  if (first ~ /[][()]/) return "the statement and the parts of an expression stand in braces { }"
  return "a name has the letters A to Z and a to z, digits and _; a number is whole; blanks part them"
}

# what stands behind a word that is no statement: what to write, the nearest or the longer one, or all that there are
function no_statement(token,   other) {
  if (other_word(token) != "") return ": " other_word(token)
  if (near(token, "prove ") != "") return near(token, "prove ")
  for (other in form)
    if (length(token) > 2 && index(other, "prove " tolower(token)) == 1) return "; near is " substr(other, 7) ": " form[other]
  return "; these are:" statements
}

# one more line about the refusal, or nothing
function advice(rest, before,   token) {
  token = token_of(rest)
  rest_of = substr(rest, length(token) + 1)
  if (token ~ /^[A-Za-z]/ && rest_of ~ /^\047/) return "a name has no mark \047: write " token "1"
  if (refusal == 1) return spelling(rest, before)
  if (refusal == 4 && need ~ /^N/ && token ~ /^[A-Za-z]/) return token " is a word of the language, so it is no name"
  if (refusal == 4 && need == "n" && token != "") return "behind a point's name stand two whole numbers, or none: point A 1 2"
  if (refusal == 4 && need ~ /^(n|$)/ && tolower(token) != token && tolower(token) in form) return "commands have small letters: " tolower(token)
  if (refusal == 4 && is_complete() && command == "point" && token ~ /^[A-Za-z]/) return "one command makes one point: point " token
  if (refusal == 4 && is_complete() && token == "{" && operator ~ /^(sum|sub|mult|div)$/) return operator " has two parts: for three, sum { 1 } { sum { 2 } { r } }"
  if (refusal == 4 && is_complete() && token != "") return "in front of " token " the command is complete: " (command == "point" ? "point A" : shown)
  if (refusal == 4 && need ~ /^(n|$)/ && token ~ /^[A-Za-z]/) return token " is no command" (other_word(token) == "" ? near(token, "") : ": " other_word(token))
  if (refusal == 4 && need ~ /^S/ && ("prove " tolower(token)) in form) return "statements have small letters: " tolower(token)
  if (refusal == 4 && need ~ /^S/ && token ~ /^[A-Za-z]/) return token " is no statement" no_statement(token)
  if (refusal == 4 && command == "prove" && token ~ /^(and|or)$/) return other_word(token)
  if (refusal == 4) return due_here()
  if (refusal == 5 && almost(token) != "") return "declared is " almost(token)
  if (refusal == 5 && later) return token " is declared below, in line " later + down ": put that line above this one"
  if (refusal == 5 && need ~ /^P/ && parted(token) != "") return "points are parted by blanks: " parted(token)
  if (refusal == 5 && need ~ /^E/ && parted(token) != "" && length(token) == 2) return token " is no expression: " other_word("length")
  if (refusal == 5 && need ~ /^E/ && other_word(token) != "") return token " is no expression: " other_word(token)
  if (refusal == 5) return due_here()
  if (refusal == 6) return token " is declared in line " line_of[token] + down (command ~ /^(point|param)$/ ? "" : "; the new name comes first: " shown)
  if (refusal == 7) return token " is " kind[token] " (line " line_of[token] + down "); " due_here()
  if (refusal == 11 && carriage && lines == 1) return "the lines end with carriage returns alone, so a comment takes all that follows: save the file with line feeds"
  if (refusal == 12 && token ~ /^(and|or)$/) return other_word(token)
  if (refusal == 12 && token == "{") return "a program has one statement: write another program for this one"
  if (refusal == 12 && token in form && token != "prove") return "prove is the last line: put this above it"
  if (refusal == 12 && token == "prove") return "a program has one statement: write another program for this one"
  return ""
}
