# The word `decide` of geo: the verdict of each program in a line, with the conditions in words and a figure. Sourced by geo.
# SPDX-License-Identifier: Apache-2.0
# shellcheck shell=bash disable=SC2034,SC2154

. "$home/tools/figures.bash"
words=(prove)

# tell NUMBER STATUS: the log that was made, in a few words
tell() {
  local over=''
  if [ -n "${given[json]-}" ]; then
    tell_json "$1" "$2" "$room/log" "$again" "$at"
    return
  fi
  [ "$2" -ne 124 ] || over=$seconds
  name=${names[$1]} again=$again at=$at seconds=$over ended=$2 \
    awk -f "$home/tools/words.awk" -f "$home/tools/sample.awk" -f "$home/tools/decide.awk" -f "$home/tools/solve.awk" "$room/log"
}

# answer_decide NUMBER: where the steps, the sizes or the length end the work some figures are tried; where the default steps are spent
# it goes on with the most
answer_decide() {
  local again='' at='' ended
  answer "$1" >"$room/log"
  ended=$?
  case $ended in 6 | 7 | 12 | 124) try_figures "$1" && ended=1 ;; esac
  if [ "$ended" -eq 7 ] && [ ${#taken[@]} -eq 0 ]; then
    taken=(--steps "$most")
    again=yes
    [ -n "$quiet" ] || [ ! -t 2 ] || echo "${names[$1]}: out of steps; it goes on with the most, which may take long (Ctrl-C ends it)" >&2
    answer "$1" >"$room/log"
    ended=$?
  fi
  [ "$ended" -gt 2 ] || [ -n "$at" ] || [[ $(tail -n 1 "$room/log") == 'verdict '* ]] || ended=70
  tell "$1" "$ended" || return 9
  return "$ended"
}

# how many of several files have which verdict
end_decide() {
  local counts=(0 0 0 0) status
  [ ${#names[@]} -gt 1 ] && [ -z "$quiet" ] || return 0
  counts[3]=$((${#names[@]} - ${#readable[@]}))
  for status in "${ended[@]}"; do counts[status < 3 ? status : 3]=$((counts[status < 3 ? status : 3] + 1)); done
  echo "${#names[@]} files: ${counts[0]} proved, ${counts[1]} false, ${counts[2]} impossible, ${counts[3]} undecided or no program" >&2
}
