# The word `latex` of geo: a log as a LaTeX document. Sourced by geo.
# SPDX-License-Identifier: Apache-2.0
# shellcheck shell=bash disable=SC2034,SC2154

[ ${#names[@]} -eq 1 ] || refuse "behind 'latex' the name of one log is due"
command -v python3 >/dev/null || refuse "'latex' needs python3, which is not found"
words=(text)
layout=()
[ -z "${given[body]+yes}" ] || layout+=(--body)
[ -z "${given[terms]+yes}" ] || layout+=("--terms=${given[terms]}")

# answer_latex NUMBER: the program reads the log, and what it makes of it is set
answer_latex() {
  local text=$room/latex.text ended
  answer "$1" >"$text"
  ended=$?
  if [ "$ended" -ne 13 ]; then
    cat "$text"
    return "$ended"
  fi
  python3 -B "$home/tools/latex" "${layout[@]}" "${inputs[$1]}" "$text"
  case $? in 0) return 13 ;; 3) quiet=yes; return 3 ;; 9) return 9 ;; *) quiet=yes; return 70 ;; esac
}
