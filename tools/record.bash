# The record of what the gate proved: beside the program a file with its checksum, the toolchain's line, the checksum of the sources
# (find_sum of tools/build.bash), the tree of the repository, and the gate's last line. Sourced by .ci/run, which writes it, and by geo.
# SPDX-License-Identifier: Apache-2.0
# shellcheck shell=bash disable=SC2154

# sum_of FILE
sum_of() {
  sha256sum <"$1" | cut -d ' ' -f 1
}

# write_record PROGRAM [LINE]: the gate has passed, and left this program of the present sources, and this last line
write_record() {
  local tree kit='' sum=''
  find_kit
  find_sum "$home/out/unproved"
  tree=$(git rev-parse 'HEAD^{tree}' 2>/dev/null || echo unknown)
  [ -z "$(git status --porcelain 2>/dev/null)" ] || tree="$tree, and files that differ from it"
  printf '%s\n' "program $(sum_of "$1")" "toolchain $kit" "sources $sum" "tree $tree" >"$1.proved" || return
  [ $# -lt 2 ] || printf 'gate %s\n' "$2" >>"$1.proved"
}

# recorded PROGRAM FIELD: the toolchain, the sources or the tree of the record, where it is one of this program's bytes
recorded() {
  grep -qx "program $(sum_of "$1")" "$1.proved" 2>/dev/null && sed -n "s/^$2 //p" "$1.proved"
}
