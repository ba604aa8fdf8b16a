# The option --version of geo: the version, the toolchain, and which program runs. Sourced by geo.
# SPDX-License-Identifier: Apache-2.0
# shellcheck shell=bash disable=SC2154

. "$home/tools/build.bash"
. "$home/tools/record.bash"

# how the program came to stand where it does
origin() {
  if [ -n "${GEO_PROGRAM-}" ]; then
    echo "as GEO_PROGRAM names it"
  elif [ "$program" = "$home/geo_cli" ]; then
    echo "as it was installed"
  else
    echo "as the toolchain left it"
  fi
}

# what is known of its proofs
standing() {
  local tree
  if ! tree=$(recorded "$program" tree); then
    echo "no record of the gate says that it is proved"
  elif [ "$program" = "$home/crates/geo_cli/out/geo_cli" ] &&
    [ -n "$(find "$home"/crates/*/{specs,proofs} -type f -newer "$program" -print -quit 2>/dev/null)" ]; then
    echo "the gate proved it, of the tree $tree; definitions or proofs are newer"
  else
    echo "the gate proved it, of the tree $tree"
  fi
}

# which program runs, and is not proved; nothing is built
unproved() {
  local kept sum=''
  find_sum "$home/out/unproved"
  kept=$home/out/unproved/$sum/geo_cli
  if [ -x "$kept" ]; then
    echo "program $kept, not proved: built from the present sources without proofs"
  else
    echo "program none: the next call builds one without proving it; 'rt ci' proves it"
  fi
}

tell_version() {
  local kit='' proved_with='' which
  echo "geo $(cat "$home/VERSION" 2>/dev/null || echo without a version)" || return
  if ! is_fresh; then
    which=$(unproved)
  elif [ ! -f "$program" ]; then
    clean "$program"
    which="program none: $cleaned is no file, as GEO_PROGRAM names it"
  else
    proved_with=$(recorded "$program" toolchain)
    clean "$program"
    which="program $cleaned, $(origin); $(standing)"
  fi
  [ -n "$proved_with" ] || find_kit
  kit=${proved_with:-$kit}
  echo "toolchain ${kit:-unknown}" && printf '%s\n' "$which"
}
