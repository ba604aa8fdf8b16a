# The word `page` of geo: proves a program, and makes a page of it; with --into a folder of pages and an index. Sourced by geo.
# SPDX-License-Identifier: Apache-2.0
# shellcheck shell=bash disable=SC2034,SC2154

. "$home/tools/figures.bash"
. "$home/tools/record.bash"
words=(prove) making=prove
if [ -n "${given[solve]-}" ]; then
  . "$home/tools/solve.bash"
  making=solve
elif [ -n "${given[tries]+yes}${given[jobs]+yes}" ]; then
  refuse "--tries and --jobs of 'page' are for the search of --solve"
fi
into=${given[into]-}
[ -z "${given[into]+yes}" ] || [ -n "$into" ] || refuse "behind --into the name of a folder is due"
[ ${#names[@]} -eq 1 ] || [ -n "$into" ] || refuse "behind 'page' the name of one file is due; for several files: geo page FILE.. --into FOLDER"
command -v python3 >/dev/null || refuse "'page' needs python3, which is not found"

# asked WORD FILE: the program's answer to this word, on a file that stands as one more input
asked() {
  words=("$1")
  inputs+=("$2")
  answer $((${#inputs[@]} - 1))
}

# prove_for_page NUMBER: the log of that number, in `log`; sets `at` where a figure was tried at which the statement fails
prove_for_page() {
  local ended
  answer "$1" >"$log"
  ended=$?
  case $ended in 6 | 7 | 12 | 124) try_figures "$1" && ended=1 ;; esac
  [ "$ended" -eq 7 ] && [ ${#taken[@]} -eq 0 ] || return "$ended"
  taken=(--steps "$most")
  answer "$1" >"$log"
}

# solve_for_page NUMBER: the answer of solve, in `log`; sets `at`, and `cite` and `proof` where another formulation is cited
solve_for_page() {
  local ended kept=$room/kept.$1
  taken=(--steps "$most")
  search "$1" "$room/answer" "$kept"
  ended=$?
  at=$(sed -n 's/^known at //p' "$room/answer")
  grep -v '^known ' "$room/answer" >"$log"
  for cite in "$kept"/*.cite; do
    [ -f "$cite" ] || { cite=''; continue; }
    proof=$log.proof
    sed '/^with /,$d' "$cite" >"$proof"
  done
  return "$ended"
}

# answer_page NUMBER: the page of the program of that number, or what is due for it in a list
answer_page() {
  local log=$room/page.$1.log text=$room/page.$1.text at='' cite='' proof='' ended page
  "${making}_for_page" "$1"
  ended=$?
  : >"$text"
  case $ended in
    0 | 1 | 2) [ -n "$at" ] || asked text "${proof:-$log}" >"$text" ;;
    6 | 7 | 18 | 124) ;;
    12) grep -q '^geolog' "$log" && echo "too long" >>"$log" || return 12 ;;
    *) return "$ended" ;;
  esac
  words=(prove)
  page=("${typed[$1]}" "${inputs[$1]}" "$log" "$text" "$at" "$cite")
  if [ -n "$into" ]; then
    printf '%s\0' "${page[@]}" >>"$room/pages"
    return "$ended"
  fi
  pages "${page[@]}" && return "$ended"
}

# pages WORD..: the pages for these words; what is wrong is told there, and ends with a status of geo
pages() {
  local ended binary='' record=()
  [ "$fresh" = no ] || binary=$program
  [ -z "$binary" ] || ! recorded "$program" tree >/dev/null || record=(--recorded)
  run python3 -B "$home/tools/page" ${given[short]:+--short} "${record[@]}" -- "$@" "$binary" </dev/null
  case $? in 0) return 0 ;; 3) ended=3 ;; 9) ended=9 ;; *) ended=70 ;; esac
  quiet=yes
  return "$ended"
}

# end_page: the pages of the list, where there is one
end_page() {
  local ended
  [ -f "$room/pages" ] || return 0
  pages "$into" "$room/pages"
  ended=$?
  [ "$ended" -le "$worst" ] || worst=$ended
}
