#!/usr/bin/env bash
# Runs the words of the program on files: ./geo prove FILE.., ./geo decide FILE.., ./geo check LOG..; ./geo --help has them all.
#
# Where `rt ci` has built the program and no source is newer, that one runs. Else one is built without proving it, and kept.
# Standard output has the program's bytes as they are; what they mean is told on standard error. GEO_PROGRAM names another program.
# SPDX-License-Identifier: Apache-2.0
[ -n "${BASH_VERSION-}" ] || exec bash "$0" "$@"
set -u

# the folder of this file, also where links lead to it
self=$0
while [ -L "$self" ]; do
  target=$(readlink -- "$self")
  case $target in /*) self=$target ;; *) self=${self%"${self##*/}"}$target ;; esac
done
home=${self%"${self##*/}"}
home=${home:-./}
home=${home%/}
program=${GEO_PROGRAM:-$home/crates/geo_cli/out/geo_cli}
[[ $program == */* ]] || program=./$program
most=1000000000000
room='' running='' before=''

# refuse TEXT: the call makes no sense
refuse() {
  echo "geo: $1" >&2
  exit 3
}

# fail TEXT: nothing can be run
fail() {
  echo "geo: $1" >&2
  exit 70
}

# end_by NUMBER: this signal ends geo, and what it runs
end_by() {
  trap '' HUP INT TERM
  [ "$running" != starts ] || [ "${!-}" = "$before" ] || running=$!
  [[ $running != [0-9]* ]] || kill "$running" 2>/dev/null
  exit $((128 + $1))
}
trap 'end_by 1' HUP
trap 'end_by 2' INT
trap 'end_by 15' TERM
# a file that may grow no further is a failing write, as a closed pipe is
trap '' XFSZ

# run COMMAND..: runs it so that a signal to geo ends it too; its input is given by redirection
run() {
  local ended
  if [ "$BASH_SUBSHELL" -gt 0 ]; then
    "$@"
    return
  fi
  before=${!-} running=starts
  "$@" <&0 &
  running=$!
  { wait "$running"; } 2>/dev/null
  ended=$?
  running=''
  return "$ended"
}

# run_in_time COMMAND..: the same, for the seconds that are left; 124 where these are over
run_in_time() {
  if [ -n "$seconds" ]; then run timeout -k 1 "$((over > SECONDS ? over - SECONDS : 1))" "$@"; else run "$@"; fi
}

# whether a program runs as it is: it is named, or installed, or has all of the present sources
is_fresh() {
  [ -z "${GEO_PROGRAM-}" ] || return 0
  if [ -x "$home/geo_cli" ]; then
    program=$home/geo_cli
    return
  fi
  [ -x "$program" ] || return
  [ -z "$(find "$home/crates.txt" "$home"/crates/*/src -type f -newer "$program" -print -quit 2>/dev/null)" ] || is_recorded
}

# whether the gate's record says that the program is that of the present sources, whatever the times of the files are
is_recorded() {
  local sum=''
  [ -f "$program.proved" ] || return
  . "$home/tools/record.bash"
  . "$home/tools/build.bash"
  find_sum "$home/out/unproved"
  [ "$(recorded "$program" sources)" = "$sum" ]
}

# sets the program to run: where no fresh one is there, one is built without proving it, and kept. `fresh` is no where none can be kept
choose_program() {
  fresh=yes
  if ! is_fresh; then
    . "$home/tools/build.bash"
    keep_unproved || fresh=no
  elif [ ! -f "$program" ] || [ ! -x "$program" ]; then
    clean "$GEO_PROGRAM"
    fail "GEO_PROGRAM is no program: $cleaned"
  fi
}

# the table of words and options: the kind of each word, and the endings of its files; of each option its name by each spelling, what
# stands behind it, and who takes it
declare -A kind_of=() endings_of=() option_of=() argument_of=() takers_of=() given=()
read_words() {
  local kind name argument takers rest spelling spellings
  while IFS=$'\t' read -r kind name argument takers rest; do
    case $kind in word | tool) kind_of[$name]=$kind endings_of[$name]=$takers ;; esac
    [ "$kind" = option ] && [ "$name" != -- ] || continue
    spellings=$name
    name=${name##* }
    name=${name#--}
    for spelling in $spellings; do option_of[$spelling]=$name; done
    argument_of[$name]=$argument
    takers_of[$name]=$takers
  done <"$home/tools/words"
}

# take_option WORD..: the option that these words of the call begin with; sets `used`, how many of them are it
take_option() {
  local spelling=${1%%=*} joined=${1#*=} name wanted
  [[ $1 != -[a-z]?* ]] || { spelling=${1:0:2} joined=${1:2}; }
  name=${option_of[$spelling]-}
  [ -n "$name" ] || refuse_unlike "no such option" "$spelling" "${!option_of[@]}"
  used=1
  wanted=${argument_of[$name]}
  if [ "$wanted" = - ]; then
    [ "$spelling" = "$1" ] || refuse "nothing stands behind $spelling"
    given[$name]=yes
    return
  fi
  [ -z "${given[$name]+yes}" ] || refuse "$spelling is given twice"
  [ "$spelling" = "$1" ] || { given[$name]=$joined; return; }
  [ "$wanted" != N ] || wanted='a number'
  [ $# -ge 2 ] || refuse "$spelling wants $wanted"
  given[$name]=$2
  used=2
}

# refuse_unlike TEXT WORD KNOWN..: refuses a word, with the known one that is nearest to it
refuse_unlike() {
  local text=$1 word=$2 near
  shift 2
  near=$(printf '%s\n' "$@" | word=$word awk -f "$home/tools/near.awk" -f "$home/tools/nearest.awk")
  clean "$word"
  refuse "$text: $cleaned${near:+; near is $near} (geo --help)"
}

# whether the word is one of the table, and takes each option that is given
check_word() {
  local name
  if [ -z "${kind_of[$word]-}" ]; then
    clean "$word"
    [ ! -f "$word" ] || refuse "a word is due in front of the name of a file, as: geo decide $cleaned"
    refuse_unlike "the program has no such word" "$word" "${!kind_of[@]}"
  fi
  for name in "${!given[@]}"; do
    case ",${takers_of[$name]}," in ',*,' | *",$word,"*) ;; *) refuse "--$name is no option of '$word' (geo $word --help)" ;; esac
  done
}

# set_steps NUMBER
set_steps() {
  if ! [[ $1 =~ ^[1-9][0-9]{0,12}$ ]] || [ "$1" -gt "$most" ]; then
    refuse "--steps wants a whole number from 1 to $most, in digits alone"
  fi
  steps=(--steps "$1")
}

# set_seconds NUMBER
set_seconds() {
  [[ $1 =~ ^[1-9][0-9]{0,5}$ ]] || refuse "--seconds wants a whole number from 1 to 999999, in digits alone"
  command -v timeout >/dev/null || fail "--seconds needs timeout, which is not found"
  seconds=$1
}

# a folder for what has to be kept while this runs
make_room() {
  [ -z "$room" ] || return 0
  room=$(mktemp -d 2>/dev/null) || fail "no folder for temporary files can be made in '${TMPDIR:-/tmp}'"
  trap 'rm -rf "$room"' EXIT
}

# clean NAME: sets `cleaned`, the name as it is printed: with ? for what would move or turn round what stands around it
clean() {
  local LC_ALL=C
  cleaned=${1//[$'\001'-$'\037\177']/?}
  cleaned=${cleaned//$'\342\200'[$'\252'-$'\256']/?}
  cleaned=${cleaned//$'\342\201'[$'\246'-$'\251']/?}
}

# why_not NAME: sets `why`, why this file cannot be read, or nothing
why_not() {
  why=''
  if [ -d "$1" ]; then
    why=": it is a folder; its files are ${cleaned%/}/*.${endings_of[$word]##* }"
  elif [ ! -e "$1" ]; then
    why=": there is no such file"
  elif ! { : <"$1"; } 2>/dev/null; then
    why=": it may not be read"
  fi
}

# keep_input NUMBER FILE: keeps what comes by a pipe, up to one byte past the longest log
keep_input() {
  make_room
  inputs[$1]=$room/input.$1
  head -c 67108865 <"$2" >"${inputs[$1]}" 2>/dev/null || why=": reading failed"
}

# open_input NUMBER: sets the file to read for the name of that number, and how the name is printed. Nothing: it cannot be read
open_input() {
  local name=${names[$1]} why=''
  typed[$1]=$name
  clean "$name"
  names[$1]=$cleaned
  inputs[$1]=$name
  [[ $name == /* ]] || inputs[$1]=./$name
  if [ "$name" = - ]; then
    names[$1]='<stdin>'
    keep_input "$1" /dev/stdin
  else
    why_not "$name"
    if [ -z "$why" ] && { [ -p "$name" ] || [ -c "$name" ]; }; then keep_input "$1" "$name"; fi
  fi
  [ -n "$why" ] || return 0
  echo "geo: cannot read '$cleaned'$why" >&2
  inputs[$1]=''
}

# answer NUMBER: what the program answers to the input of that number, with the steps `taken`; 124 where its seconds are over
answer() {
  local built=$room/built/${taken[1]-default}/$1
  if [ "$fresh" = yes ]; then
    run_in_time "$program" "${words[@]}" "${taken[@]}" <"${inputs[$1]}"
    return
  fi
  [ -f "$built.status" ] || build "$1"
  cat "$built.answer" || return 9
  return "$(cat "$built.status")"
}

# explain_answer NUMBER STATUS: says on standard error what an answer without a verdict means. Where the answer's line has a place, the
# program is asked for it again, which is soon done: it stops there
explain_answer() {
  local line=''
  . "$home/tools/explain.bash"
  case $2:$word in
    4:* | 11:* | 15:* | 16:* | 6:place | 6:figure)
      make_room
      answer "$1" >"$room/again" 2>/dev/null
      line=$(tail -n 1 "$room/again" | head -c 200 | tr -d '\000')
      ;;
  esac
  explain "${names[$1]}" "${inputs[$1]}" "$word" "$2" "$line" >&2
}

# judge NUMBER: answers one input, and says what the answer means; sets `status`, and `late` where its seconds were over
judge() {
  taken=("${steps[@]}") late=''
  [ -z "$seconds" ] || over=$((SECONDS + seconds))
  if declare -F "answer_$word" >/dev/null; then
    "answer_$word" "$1"
  elif [ -n "${given[json]-}" ]; then
    answer_json "$1"
  else
    answer "$1"
  fi
  status=$?
  [ "$status" -lt 128 ] || status=70
  [ "$status" -ne 13 ] || status=0
  [ "$status" -le 2 ] || [ -n "$quiet" ] || explain_answer "$1" "$status"
  [ "$status" -ne 124 ] || { late=yes; status=7; }
}

read_words
command -v awk >/dev/null || fail "awk is needed, and is not found"
word='' names=() steps=() seconds='' over=0
while [ $# -gt 0 ]; do
  used=1
  case $1 in
    --) shift; names+=("$@"); break ;;
    -?*) take_option "$@" ;;
    *) if [ -z "$word" ]; then word=$1; else names+=("$1"); fi ;;
  esac
  shift "$used"
  if [ -n "${given[help]-}" ]; then names=(${word:+"$word"} "$@"); word=help; break; fi
  if [ -n "${given[version]-}" ]; then word=version; break; fi
done
[ "$word:${given[solve]-}" != decide:yes ] || word=solve
quiet=${given[quiet]-}
case $word in
  '') . "$home/tools/help.bash"; tell_help >&2; exit 3 ;;
  help | version | explain)
    # shellcheck source=/dev/null
    . "$home/tools/$word.bash"
    "tell_$word" "${names[@]}"
    case $? in 0) exit 0 ;; 3) exit 3 ;; *) exit 9 ;; esac
    ;;
esac
check_word
[ -z "${given[steps]+yes}" ] || set_steps "${given[steps]}"
[ -z "${given[seconds]+yes}" ] || set_seconds "${given[seconds]}"

words=("$word")
if [ "$word" = bench ]; then
  words=(bench "${names[@]}")
  word="${words[*]}"
  names=(/dev/null)
fi
# a tool's file looks at the call, and has a function answer_WORD for the input of a number; or it does the whole and ends the call
if [ "${kind_of[$word]-}" = tool ] && [ -f "$home/tools/$word.bash" ]; then
  make_room
  # shellcheck source=/dev/null
  . "$home/tools/$word.bash"
fi
[ -z "${given[json]-}" ] || . "$home/tools/json.bash"
[ ${#names[@]} -gt 0 ] || refuse "behind '$word' the name of a file is due, or - for standard input (geo $word --help)"

# these words read figures of other tools too
case $word in decide | solve | page | discover) . "$home/tools/import.bash" ;; *) bring() { :; } ;; esac
inputs=() typed=() readable=() ended=() taken=("${steps[@]}") worst=0 fresh=yes
for k in "${!names[@]}"; do
  status=3
  open_input "$k"
  [ -z "${inputs[k]}" ] || { bring "$k"; status=$?; }
  if [ "$status" -eq 0 ]; then readable+=("$k"); elif [ "$status" -gt "$worst" ]; then worst=$status; fi
done
if [ ${#readable[@]} -gt 0 ]; then
  choose_program
  if [ "$fresh" = no ]; then
    make_room
    build "${readable[@]}"
    [ "$word" != decide ] || [ ${#steps[@]} -gt 0 ] || build_spent "${readable[@]}"
  fi
fi
if [ -n "${given[jobs]+yes}${given[results]+yes}" ]; then
  . "$home/tools/batch.bash"
  decide_all "${readable[@]}"
else
  for k in "${readable[@]}"; do
    judge "$k"
    ended+=("$status")
    [ "$status" -le "$worst" ] || worst=$status
    [ "$status" -ne 9 ] || break
  done
fi
! declare -F "end_$word" >/dev/null || "end_$word"
exit "$worst"
