# What is free in the program of a log, and the numbers of its sample. Rules and functions, for awk -f sample.awk -f ..
# SPDX-License-Identifier: Apache-2.0
$1 == "|" && $2 == "point" { free[++points] = $3 }
$1 == "|" && $2 ~ /^(param|online|oncircle)$/ {
  number[++numbers] = $3
  made_by[numbers] = $2
}
$1 == "sample" { sample_line = $0 }
# what an answer of solve knows of itself, as: known again yes
$1 == "known" { ENVIRON[$2] = substr($0, length($1 $2) + 3) }

# Reads the numbers into sample[1], sample[2], ..: those of the figure that was tried, where there is one, else those of the log.
function read_sample(   k, size, part) {
  size = split(ENVIRON["at"] == "" ? sample_line : ENVIRON["at"], part, " ")
  for (k = 2; k <= size; k++) {
    sub(/^.*=/, "", part[k])
    sample[k - 1] = part[k]
  }
  return size > 1
}
