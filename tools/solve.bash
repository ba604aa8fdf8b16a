# The word `solve` of geo: decides programs, and searches for another formulation where that stops; and the option --solve of other words.
# Sourced by geo.
# SPDX-License-Identifier: Apache-2.0
# shellcheck shell=bash disable=SC2154

. "$home/tools/decide.bash"
command -v python3 >/dev/null || fail "'solve' needs python3, which is not found"
[ ${#steps[@]} -eq 0 ] || refuse "'solve' takes the most steps by itself, and no --steps"

solving=()
for option in jobs tries; do
  [ -n "${given[$option]+yes}" ] || continue
  [[ ${given[$option]} =~ ^[1-9][0-9]{0,5}$ ]] || refuse "--$option wants a whole number from 1 to 999999, in digits alone"
  solving+=("--$option" "${given[$option]}")
done
unset 'given[jobs]'
[ -z "$seconds" ] || solving+=(--seconds "$seconds")
[ -z "$quiet" ] || solving+=(--quiet)

# run_solver WORD..
run_solver() {
  [ "$fresh" = yes ] || fail "'solve' needs a program that is kept: 'rt ci' proves one"
  run python3 -B "$home/tools/solve" "$program" "$@" </dev/null
}

# search NUMBER FILE FOLDER: the answer to the input of that number, in FILE; what shows it goes into FOLDER, where one is named
search() {
  run_solver --name "${names[$1]}" "${solving[@]}" ${3:+--certificate "$3"} -- "${inputs[$1]}" >"$2"
}

# answer_solve NUMBER
answer_solve() {
  local again='' at='' ended
  search "$1" "$room/log" "${given[certificate]-}"
  ended=$?
  [ ! -s "$room/log" ] || tell "$1" "$ended" || return 9
  return "$ended"
}

# end_solve: how many have which verdict
end_solve() {
  end_decide
}

if [ "$word" = solve ] && [ -n "${given[check]+yes}" ]; then
  [ -d "${given[check]}" ] || refuse "--check wants a folder, and '${given[check]}' is none"
  [ -z "${given[json]-}" ] || refuse "--check tells in words, and takes no --json"
  choose_program
  run_solver --check "${given[check]}" -- "${names[@]}"
  exit
fi
