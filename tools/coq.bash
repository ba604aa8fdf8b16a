# The word `coq` of geo: checks logs, and makes a file for Coq with a theorem about the text of each; with --run Coq checks it. Where a log is
# not accepted its answer is written, and no file. Sourced by geo.
# SPDX-License-Identifier: Apache-2.0
# shellcheck shell=bash disable=SC2034,SC2154

command -v python3 >/dev/null || refuse "'coq' needs python3, which is not found"
[ -z "${given[run]-}" ] || command -v coqc >/dev/null || refuse "'--run' needs Coq, whose command coqc is not found (Debian: apt-get install coq)"
words=(check)
made=$room/made.v
accepted=()

# answer_coq NUMBER: checks the log of that number
answer_coq() {
  local ended
  answer "$1" >"$room/coq.$1"
  ended=$?
  case $ended in
    0 | 1 | 2) accepted+=("$1") ;;
    *) cat "$room/coq.$1" || return 9 ;;
  esac
  return "$ended"
}

# run_coq: Coq checks the made file
run_coq() {
  local library k
  library=$("$home/tools/coq/library") || return 70
  if ! (cd "$room" && coqc -q -noglob -R "$library" Jarduzki made.v) >&2; then
    echo "geo: Coq does not accept the file that was made" >&2
    return 70
  fi
  for k in "${accepted[@]}"; do
    echo "${names[k]}: $(tail -n 1 -- "$room/coq.$k"), also by Coq" || return 9
  done
}

# end_coq: where each log is accepted, the file is made, and written or checked
end_coq() {
  local logs=() k
  [ ${#accepted[@]} -gt 0 ] && [ ${#accepted[@]} -eq ${#names[@]} ] || return 0
  for k in "${accepted[@]}"; do
    logs+=("${names[k]}" "${inputs[k]}")
  done
  python3 -B "$home/tools/coq" "${logs[@]}" >"$made" || { worst=70; return; }
  if [ -n "${given[run]-}" ]; then run_coq; else cat "$made"; fi
  case $? in 0) ;; 70) worst=70 ;; *) worst=9 ;; esac
}
