# Which of several words is nearest to a token that is none of them. Functions alone, for awk -f near.awk -f ..
# SPDX-License-Identifier: Apache-2.0

# how many letters have to be changed, added or left out to make one word of another
function distance(a, b,   i, j, row, above, aside) {
  for (j = 0; j <= length(b); j++) row[j] = j
  for (i = 1; i <= length(a); i++) {
    aside = row[0]
    row[0] = i
    for (j = 1; j <= length(b); j++) {
      above = row[j]
      row[j] = aside + (substr(a, i, 1) != substr(b, j, 1))
      if (above + 1 < row[j]) row[j] = above + 1
      if (row[j - 1] + 1 < row[j]) row[j] = row[j - 1] + 1
      aside = above
    }
  }
  return row[length(b)]
}

# looks at one word more: `nearest` is the nearest so far, by the alphabet where several are; at most two letters are changed, and one
# of a short word
function weigh(token, word,   far) {
  if (length(token) < 2 || length(token) > 30) return
  far = distance(tolower(token), tolower(word))
  if (far > (length(token) < 5 ? 1 : 2)) return
  if (nearest != "" && (far > least || far == least && word >= nearest)) return
  least = far
  nearest = word
}
