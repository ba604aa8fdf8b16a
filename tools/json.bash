# The option --json of geo: answers as lines of JSON. Sourced by geo.
# SPDX-License-Identifier: Apache-2.0
# shellcheck shell=bash disable=SC2154

. "$home/tools/record.bash"
. "$home/tools/explain.bash"
make_room

# whether the record of the gate, or the want of any, speaks of the program that runs
program_proved() {
  if recorded "$program" tree >/dev/null; then
    echo true
  elif [[ $fresh = no || $program == */unproved/* ]]; then
    echo false
  else
    echo null
  fi
}

# tell_json NUMBER STATUS ANSWER [AGAIN [AT]]: a line of JSON on what the program answered to this input, with this status
tell_json() {
  local over=''
  proved=${proved-$(program_proved)}
  : >"$room/explanation"
  case $2 in
    4 | 11) explain "${names[$1]}" "${inputs[$1]}" "$word" "$2" "$(tail -n 1 "$3")" >"$room/explanation" ;;
    124) over=$seconds ;;
  esac
  name=${typed[$1]} status=$(($2 == 124 ? 7 : $2)) again=${4-} at=${5-} seconds=$over proved=$proved LC_ALL=C \
    awk -f "$home/tools/words.awk" -f "$home/tools/sample.awk" -f "$home/tools/json.awk" "$3" "$room/explanation"
}

# answer_json NUMBER: what the program answers to that input
answer_json() {
  local ended
  answer "$1" >"$room/answer"
  ended=$?
  tell_json "$1" "$ended" "$room/answer" || return 9
  return "$ended"
}
