# Decides many programs at once: --jobs N of them side by side, their answers in the order of the files; --results FILE keeps what was
# decided, and a program that FILE has is not run again. Sourced by geo.
# SPDX-License-Identifier: Apache-2.0
# shellcheck shell=bash disable=SC2034,SC2154

# The first line of a file of results. A line below it is a program: its checksum, that of the prover, the steps that the prover was given
# last, the verdict or what stands in its place, the seconds, and the name of the file. Of several lines of a name the last counts.
columns=$'checksum\tprover\tsteps\tverdict\tseconds\tfile'
results=${given[results]-}
shown=${results//[[:cntrl:]]/?}
jobs=${given[jobs]-1}
shows=''
[ -n "$quiet" ] || [ ! -t 2 ] || shows=yes
# by status; where memory ran out, or a run was cut off, another run may answer otherwise, and nothing is kept
verdict_of=([0]=proved [1]=false [2]=impossible [4]=syntax [6]=too_large [7]=spent [12]=too_long)
declare -A kept=() checksum_of=() number_of=()
said=()

# the words of the call
check_batch() {
  local name
  [[ $jobs =~ ^[1-9][0-9]{0,2}$ ]] || refuse "--jobs wants a whole number from 1 to 999"
  [ -z "${given[results]+yes}" ] || [ -n "$results" ] || refuse "--results wants the name of a file"
  [ -n "$results" ] || return 0
  [ -z "${given[json]-}" ] || refuse "--results and --json do not go together: a program that the table has is not run again"
  [ "$fresh" = yes ] || refuse "--results wants a program that is built already, which 'rt ci' does"
  for name in "${typed[@]}"; do
    case $name in
      -) refuse "--results keeps files by their names, and standard input has none" ;;
      *[$'\t\n']*) refuse "--results keeps no file with a tab or a line feed in its name" ;;
    esac
  done
}

# opens the file of results at `sheet`, for this call alone, and reads what it has
open_results() {
  local first
  [ ! -d "$results" ] && { exec {sheet}>>"$results"; } 2>/dev/null || refuse "cannot write '$shown'"
  flock -n "$sheet" && [ "/proc/self/fd/$sheet" -ef "$results" ] || refuse "another call is writing '$shown'"
  if [ ! -s "$results" ]; then
    printf '%s\n' "$columns" >&"$sheet" || refuse "cannot write '$shown'"
    return
  fi
  read -r first <"$results"
  [ "$first" = "$columns" ] || refuse "'$shown' is another file than one of results: its first line does not name their columns"
  [ -z "$(tail -c 1 -- "$results")" ] || echo >&"$sheet"
  read_results
}

# reads the lines of the file into `kept`, each by the name of its file
read_results() {
  local checksum prover asked verdict seconds name
  while IFS=$'\t' read -r checksum prover asked verdict seconds name; do
    [ -z "$name" ] || kept[$name]="$checksum $prover $asked $verdict"
  done <"$results"
}

# the checksums of the prover and of all inputs
take_checksums() {
  local line k files=("$program")
  for k in "$@"; do files+=("${inputs[k]}"); done
  while IFS= read -r -d '' line; do checksum_of[${line:66}]=${line:0:64}; done < <(sha256sum -z -- "${files[@]}")
}

# is_kept NUMBER: whether its file has not changed since its line was written, and with the steps of this call nothing would change;
# sets `ended` of the number
is_kept() {
  local line=${kept[${typed[$1]}]-} asked status verdict
  [[ $line == "${checksum_of[${inputs[$1]}]-} ${checksum_of[$program]-} "[1-9]*" "* ]] || return 1
  verdict=${line##* }
  asked=${line% *}
  [ "$verdict" != spent ] || [ "${asked##* }" -ge "${steps[1]-$most}" ] || return 1
  for status in "${!verdict_of[@]}"; do
    [ "${verdict_of[status]}" != "$verdict" ] || ended[$1]=$status
  done
  [ -n "${ended[$1]-}" ] && said[$1]="${names[$1]}: $verdict, as $shown has it"$'\n'
}

# start NUMBER: decides it in the background, and keeps its line
start() {
  local begun took
  (
    trap - INT TERM HUP PIPE
    mkdir "$room/job.$1" || exit 70
    [ ! -d "$room/built" ] || ln -s "$room/built" "$room/job.$1"
    room=$room/job.$1
    begun=${EPOCHREALTIME//[.,]/}
    judge "$1" >"$room/out" 2>"$room/err"
    took=$(((${EPOCHREALTIME//[.,]/} - begun) / 1000))
    printf -v took '%d.%03d' $((took / 1000)) $((took % 1000))
    if [ -n "$results" ] && [ -z "$late" ] && [ -n "${verdict_of[status]-}" ]; then
      printf '%s\t%s\t%s\t%s\t%s\t%s\n' "${checksum_of[${inputs[$1]}]}" "${checksum_of[$program]}" "${taken[1]-100000000}" \
        "${verdict_of[status]}" "$took" "${typed[$1]}" >&"$sheet" || status=9
    fi
    exit "$status"
  ) &
  number_of[$!]=$1
}

# wait_for_one: until one of those in the background has ended. `wait -n` tells of none where the last one ends just before it waits,
# or where a signal ended one while it waited for another; then one is waited for by its number, whose status the shell keeps.
wait_for_one() {
  local pid='' status
  wait -n -p pid 2>/dev/null
  status=$?
  if [ -z "${pid-}" ]; then
    for pid in "${!number_of[@]}"; do break; done
    wait "$pid" 2>/dev/null
    status=$?
  fi
  if [ "$status" -ge 128 ]; then
    status=70
    tell_cut_off "${number_of[$pid]}" 2>/dev/null
  fi
  ended[${number_of[$pid]}]=$status
  unset "number_of[$pid]"
}

# tell_cut_off NUMBER: a signal ended the shell of this file before it could tell anything
tell_cut_off() {
  local room=$room/job.$1 again='' at=''
  mkdir -p "$room" && : >"$room/log" && tell "$1" 70 >"$room/out"
}

# stop_all STATUS: ends what runs in the background, and the call
stop_all() {
  local pid
  trap - INT TERM HUP PIPE
  for pid in $(jobs -p); do kill -- "-$pid"; done 2>/dev/null
  wait 2>/dev/null
  [ -z "$shows" ] || echo >&2
  exit "$1"
}

# write_due: writes the answers that are due, in the order of the files
write_due() {
  local k text
  [ -z "$shows" ] || printf '\r\033[K' >&2
  while [ "$told" -lt ${#order[@]} ]; do
    k=${order[told]}
    [ -n "${ended[k]-}" ] || break
    text=${said[k]-}
    [ -n "$text" ] || IFS= read -r -d '' text <"$room/job.$k/out"
    printf '%s' "$text" 2>/dev/null || stop_all 9
    [ ! -s "$room/job.$k/err" ] || cat "$room/job.$k/err" >&2
    unset "said[$k]"
    [ "${ended[k]}" -le "$worst" ] || worst=${ended[k]}
    [ "${ended[k]}" -ne 9 ] || stop_all 9
    told=$((told + 1))
  done
  [ -z "$shows" ] || printf 'geo: %d of %d done' ${#ended[@]} ${#order[@]} >&2
}

# the lines of this call in the order of its files, behind those of other files; of each name the last
put_in_order() {
  local whole
  whole=$(realpath -- "$results")
  printf '%s\n' "${typed[@]}" | awk -F '\t' '
    FNR == NR { if (!($0 in rank)) rank[$0] = ++ranks; next }
    FNR == 1 { print; next }
    NF != 6 { next }
    $6 in rank { mine[rank[$6]] = $0; next }
    { if (!($6 in other)) name[++others] = $6; other[$6] = $0 }
    END {
      for (k = 1; k <= others; k++) print other[name[k]]
      for (k = 1; k <= ranks; k++) if (k in mine) print mine[k]
    }' - "$whole" >"$whole.new" && mv -f -- "$whole.new" "$whole" || { echo "geo: cannot write '$shown'" >&2; worst=9; }
}

# decide_all NUMBER..
decide_all() {
  local order=("$@") told=0 k
  check_batch
  make_room
  if [ -n "$results" ]; then
    open_results
    take_checksums "$@"
  fi
  set -m
  trap 'stop_all 129' HUP
  trap 'stop_all 130' INT
  trap 'stop_all 143' TERM
  trap 'stop_all 9' PIPE
  for k in "$@"; do
    is_kept "$k" || { while [ ${#number_of[@]} -ge "$jobs" ]; do wait_for_one; write_due; done; start "$k"; }
  done
  while [ ${#number_of[@]} -gt 0 ]; do wait_for_one; write_due; done
  write_due
  [ -z "$shows" ] || echo >&2
  [ -z "$results" ] || put_in_order
}
