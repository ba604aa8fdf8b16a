# Conditions and statements of a log in words.
# SPDX-License-Identifier: Apache-2.0

# an expression, from the words part[at], part[at + 1] ..; `at` moves behind it
function expression(   word, left, name) {
  word = part[at++]
  if (word == "neg") return "-" factor(braced())
  if (word == "sum") {
    left = braced()
    return left " + " braced()
  }
  if (word == "sub") {
    left = braced()
    return left " - " summand(braced())
  }
  if (word == "mult") {
    left = factor(braced())
    return left " * " factor(braced())
  }
  if (word == "div") {
    left = factor(braced())
    return left " / " divisor(braced())
  }
  name = part[at]
  if (word == "signed_area3") {
    at += 3
    return "area(" list(name, part[at - 2], part[at - 1]) ")"
  }
  if (word == "pythagoras_difference3") {
    at += 3
    if (part[at - 1] == name) return "2 " segment(name, part[at - 2]) "^2"
    return "P(" list(name, part[at - 2], part[at - 1]) ")"
  }
  if (word == "sratio") {
    at += 4
    return segment(name, part[at - 3]) "/" segment(part[at - 2], part[at - 1])
  }
  return word
}

# an expression in braces
function braced(   text) {
  at++
  text = expression()
  at++
  return text
}

# with parentheses where a sum stands as a summand behind a minus, as a factor, as a divisor
function summand(text) {
  return text ~ /^-| [+-] / ? "(" text ")" : text
}
function factor(text) {
  return summand(text)
}
function divisor(text) {
  return text ~ /^-|[ \/]/ ? "(" text ")" : text
}

function list(a, b, c) {
  return a ", " b ", " c
}
function segment(a, b) {
  return length(a) > 1 || length(b) > 1 ? a " " b : a b
}
function line_of(k) {
  return segment(part[k], part[k + 1])
}

# of a line `condition k TEXT`
function condition_words(text,   word) {
  split(text, part, " ")
  word = part[3]
  if (word == "different") return part[4] " and " part[5] " differ"
  if (word == "not_collinear") return part[4] ", " part[5] " and " part[6] " are not on one line"
  if (word == "not_parallel") return "the lines " line_of(4) " and " line_of(6) " are not parallel"
  if (word == "crossing") return "the lines " part[4] " and " part[5] " are not parallel"
  if (word == "nonzero") {
    at = 4
    return braced() " is not 0"
  }
  return substr(text, length(part[1] part[2]) + 3)
}

# of a line `goal k TEXT`; `be` is " is" or " is not always"
function statement_words(text, be,   word, are) {
  are = be
  sub(/^ is/, " are", are)
  split(text, part, " ")
  word = part[3]
  if (word == "equal") {
    at = 4
    word = braced()
    return word be " equal to " braced()
  }
  if (word == "collinear") return part[4] ", " part[5] " and " part[6] are " on one line"
  if (word == "parallel") return line_of(4) be " parallel to " line_of(6)
  if (word == "perpendicular") return line_of(4) be " perpendicular to " line_of(6)
  if (word == "identical") return part[4] " and " part[5] are " the same point"
  if (word == "midpoint") return part[4] be " the midpoint of " line_of(5)
  if (word == "same_length") return line_of(4) be " as long as " line_of(6)
  if (word == "harmonic") return part[4] ", " part[5] " and " part[6] ", " part[7] are " harmonic"
  if (word == "concyclic") return part[4] ", " part[5] ", " part[6] " and " part[7] are " on one circle or line"
  return substr(text, length(part[1] part[2]) + 3)
}
