# How a program whose log is stopped may be said in a smaller way, with its own names: awk -f other_way.awk forms PROGRAM
# Each line is a remark of docs/GUIDE.md, "When it stops", that fits this program; there are at most three.
# SPDX-License-Identifier: Apache-2.0
FNR == NR {
  if (/^[a-z]/ && $1 !~ /^(prove|assume)$/) is_command[$1] = 1
  next
}
{
  sub(/%.*/, "")
  gsub(/[{}]/, " & ")
  for (k = 1; k <= NF; k++) word[++count] = $k
}

function say(text) {
  if (told++ < 3) print "  " text
}

# takes the words of the program in order: what made each point, where, and the words of the statement
function read_program(   k) {
  for (k = 1; k < count; k++) {
    if (word[k] == "prove") {
      statement = word[k + 2]
      for (k += 3; k <= count && size < 8; k++) part[++size] = word[k]
      return
    }
    if (!(word[k] in is_command)) continue
    made_by[word[k + 1]] = word[k]
    place[word[k + 1]] = k
    if (word[k] == "reflect") mirrors++
    if (word[k] == "circumcenter" && !circle && are_free(k + 2, k + 4)) circle = k + 1
    if (word[k] == "cc" && made_by[word[k + 2]] == "circumcenter" && made_by[word[k + 3]] == "circumcenter") common = word[k + 1]
  }
}

# whether the points that these words name are all free
function are_free(from, to,   k) {
  for (k = from; k <= to; k++) if (made_by[word[k]] != "point") return 0
  return 1
}

# a name that nothing has yet
function new_name(   k, letters) {
  letters = "MNQTLKRUVWXYZSABCDEFGHIJPO"
  for (k = 1; k <= 26; k++) if (!(substr(letters, k, 1) in made_by)) return substr(letters, k, 1)
  return "M0"
}

# midpoint M A B: of M and of the later of the ends the one that was made last is made from the others
function midpoint_way(m, a, b) {
  if (place[a] > place[b]) return midpoint_way(m, b, a)
  if (place[m] > place[b] && made_by[m] != "midpoint")
    say("make " m " by midpoint " m " " a " " b ", and prove what made it (" made_by[m] ")")
  else if (place[m] < place[b] && made_by[b] ~ /^(inter|intersec|foot)$/)
    say("make " b " by symmetric " b " " a " " m ", and prove what made it (" made_by[b] ")")
}

# same_length of two segments with an end in common
function length_way(a, b, c, d,   m) {
  if (b == c || b == d) return length_way(b, a, c, d)
  if (a == d) return length_way(a, b, d, c)
  if (a != c) return
  m = new_name()
  say("with midpoint " m " " b " " d ": prove { perpendicular " a " " m " " b " " d " }")
}

function statement_way() {
  if (statement == "midpoint") midpoint_way(part[1], part[2], part[3])
  if (statement == "same_length") length_way(part[1], part[2], part[3], part[4])
  if (statement == "identical")
    say("leave out " (place[part[1]] > place[part[2]] ? part[1] : part[2]) ", and prove of the other point what makes it")
  if (statement == "concyclic") say("where two of the lines through these four points meet, prove that the products of the parts are equal")
  if (statement == "equal") say("prove an incidence (collinear, parallel, perpendicular) in the place of an equation of lengths or angles")
}

function circle_way(o, a, b, c) {
  say("make the circle first: point " o ", point " a ", oncircle " b " " o " " a ", oncircle " c " " o " " a)
}

END {
  read_program()
  statement_way()
  if (circle) circle_way(word[circle], word[circle + 1], word[circle + 2], word[circle + 3])
  if (common != "") say("make the common point " common " free, then circles through it, and other points by second")
  if (mirrors > 1) say("where mirrored lines halve the angles of a triangle, make the touching points of its incircle first")
}
