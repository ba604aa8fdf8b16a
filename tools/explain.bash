# Says in words what an answer means. Sourced by geo where there is something to say.
# SPDX-License-Identifier: Apache-2.0
# shellcheck shell=bash disable=SC2154

# meaning KIND NUMBER: the words of a refusal, a reason or a status, or nothing
meaning() {
  local kind number words
  while IFS=$'\t' read -r kind number words; do
    if [ "$kind" = "$1" ] && [ "$number" = "$2" ]; then
      printf '%s\n' "$words"
      return
    fi
  done <"$home/tools/answers"
}

# hint WORDS: a further line
hint() {
  printf '  %s\n' "$1"
}

# begins FILE TEXT: whether the file begins with the text
begins() {
  [ "$(head -c ${#2} -- "$1" | tr -d '\000')" = "$2" ]
}

# explain_refusal NAME FILE NUMBER PLACE [LINES]: in a log the program stands so many lines further down, behind '| '
explain_refusal() {
  tr '\000' '?' <"$2" | name=$1 LC_ALL=C awk -v refusal="$3" -v place="$4" -v meaning="$(meaning syntax "$3")" -v down="${5-0}" \
    -f "$home/tools/near.awk" -f "$home/tools/advice.awk" -f "$home/tools/refusal.awk" "$home/tools/forms" -
  if [ "$4" = 0 ] && begins "$2" 'geolog '; then
    hint "this file is a log: geo check takes it"
  elif [ "$3" = 13 ] && head -n 1 -- "$2" | head -c 1000 | grep -q $'^at .*\r$'; then
    hint "the line ends with a carriage return, as on Windows: this line has a line feed alone"
  elif [ "$3" = 14 ]; then
    explain_count "$2"
  elif [ "$3" = 15 ]; then
    LC_ALL=C awk -v line='' -f "$home/tools/cite.awk" "$home/tools/forms" "$2"
  fi
}

# explain_count FILE: how many numbers the line 'at' has, and how many the program behind it wants; the words counted are reserved
explain_count() {
  awk '
    FNR == NR { if (/^[a-z]/) word = $1; else if ($1 == "number:") { numbered[++count] = word; has_number[word] }; next }
    FNR == 1 { given = NF - 1; next }
    { sub(/%.*/, ""); gsub(/[^A-Za-z0-9_]/, " "); for (k = 1; k <= NF; k++) due += $k == "point" ? 2 : $k in has_number }
    END {
      for (k = 1; k <= count; k++) words = words (k == 1 ? "" : k == count ? " and " : ", ") numbered[k]
      print "  it has " given ", and " due + 0 " are due: x and y of each point, then one for each " words
    }' "$home/tools/forms" "$1"
}

# explain_unmet FILE NUMBER: the text of the condition, from the log of the program behind the line 'at'
explain_unmet() {
  local condition
  [ "$fresh" = yes ] || return 0
  condition=$(tail -n +2 -- "$1" | "$program" prove 2>/dev/null | grep -m 1 "^condition $2 ")
  [ -z "$condition" ] || hint "condition $2 is: ${condition#condition "$2" }"
}

# explain_program NAME FILE: why the program lines of a log are no canonical text of a program
explain_program() {
  local answer
  [ "$fresh" = yes ] || return 0
  make_room
  sed -n '2,${/^| /!q;s/^| //p}' -- "$2" >"$room/program"
  "$program" prove --steps 1 <"$room/program" >"$room/canonical"
  read -r -a answer < <(tail -n 1 -- "$room/canonical")
  if [ "${answer[0]-}" = syntax ]; then
    explain_refusal "$1" "$room/program" "${answer[1]}" "${answer[3]}" 1
    return
  fi
  sed -n 's/^| //p' -- "$room/canonical" | awk -v other="$room/program" '
    { wanted = $0; line++ }
    (getline written <other) <= 0 || written != wanted { print "  line " line + 1 " is written so: | " wanted; exit }'
}

# explain_rejection NAME FILE LINE REASON
explain_rejection() {
  local words
  words=$(meaning rejected "$4")
  printf '%s\n' "$1:$3: reason $4${words:+: $words}"
  sed -n "$3{p;q}" -- "$2" | tr '\000-\010\013-\037\177' '?' | cut -c1-160 | sed 's/^/  /'
  if [ "$4" = 23 ]; then
    explain_program "$1" "$2"
  elif [ "$3" = 1 ] && ! begins "$2" 'geolog '; then
    hint "a log begins with a line 'geolog'; geo prove writes the log of a program"
  elif [ "$4" = 21 ] && sed -n "$3{p;q}" -- "$2" | grep -q $'\r$'; then
    hint "the line ends with a carriage return, as on Windows: a log has line feeds alone"
  elif [ "$4" = 21 ] && [ "$(wc -l <"$2")" -lt "$3" ]; then
    hint "this last line has no line feed"
  elif [ "$3:$4" = 1:21 ]; then
    hint "this header is neither 'geolog 1' nor 'geolog 2': of a later version, or with a blank too many"
  elif [[ $(tail -n 1 -- "$2" | head -c 100 | tr -d '\000') == 'stop '* ]]; then
    hint "this log ends with a stop: its program was not decided, so there is nothing to accept"
  fi
}

# explain_other_way FILE WORD: how a program that stops may be said
explain_other_way() {
  case $2 in
    prove | decide | page | fixed)
      [ -z "${kind_of[solve]-}" ] || hint "geo solve seeks a smaller way by itself"
      awk -f "$home/tools/other_way.awk" "$home/tools/forms" "$1"
      ;;
  esac
}

# remedy WORD: what helps where the steps are spent
remedy() {
  if [ "${taken[1]-}" = "$most" ]; then
    echo "there are no more steps than these: say it in another way ($guide)"
  elif [ "$1" = check ] || [ "$1" = text ] || [ "$1" = cite ]; then
    echo "a log that was made with more steps needs as many here: give --steps $most, the most"
  else
    echo "try --steps $most, the most: that mostly takes seconds, but it may take hours; --seconds 60 bounds it"
    echo "or say it in another way ($guide)"
  fi
}

# explain_spent NAME FILE WORD: the steps are spent
explain_spent() {
  local limit=${taken[1]-100000000} line
  case $3 in
    decide) echo "$1: its log needs more steps than $limit" ;;
    check | text) echo "$1: the log needs more steps than $limit" ;;
    discover) echo "$1: some candidates are open: their logs need more steps than $limit" ;;
    cite) echo "$1: the log and what is asked of the figure need more steps than $limit" ;;
    *) echo "$1: undecided: its log needs more steps than $limit" ;;
  esac
  remedy "$3" | while read -r line; do hint "$line"; done
  explain_other_way "$2" "$3"
}

# explain_large NAME FILE WORD LINE: a number or a degree would pass its limit, of `place` at that line of the program
explain_large() {
  case $3 in
    place | figure)
      echo "$1: not placed: at line $4 of the program, written as the program writes it, a number does not fit 128 bits"
      hint "smaller numbers in the line 'at' may help"
      ;;
    discover) echo "$1: some candidates are open: in the log of the first a number or a degree would pass the limit" ;;
    *)
      echo "$1: undecided: a number or a degree would pass the limit"
      hint "more steps do not help: say it in another way ($guide)"
      explain_other_way "$2" "$3"
      ;;
  esac
}

# explain_long NAME FILE WORD: the input is too long, or the log would be
explain_long() {
  case $3 in check | text | cite) set -- "$1" "$2" input ;; esac
  [ "$(wc -c <"$2")" -le 1048576 ] || set -- "$1" "$2" input
  case $3 in
    input) echo "$1: too long: a program has at most 1,048,576 bytes, a log at most 67,108,864" ;;
    discover) echo "$1: the text, or the log of the first open candidate, would be longer than 67,108,864 bytes" ;;
    *)
      echo "$1: undecided: its log would be longer than 67,108,864 bytes"
      hint "more steps do not help: say it in another way ($guide)"
      explain_other_way "$2" "$3"
      ;;
  esac
}

# explain_status NAME FILE STATUS LINE WORDS..: what the table of answers says of the status
explain_status() {
  local told
  told=$(meaning status "$3")
  echo "$1: ${4:+$4: }${told:-ended with status $3}"
  [ "$3" -ne 15 ] || explain_unmet "$2" "$6"
  [ "$3" -ne 16 ] || LC_ALL=C awk -v line="$7" -f "$home/tools/cite.awk" "$home/tools/forms" "$2"
}

# explain NAME FILE WORD STATUS LAST-LINE
explain() {
  local words guide=docs/GUIDE.md
  [ ! -x "$home/geo_cli" ] || guide=$(cd -- "$home/../../share/doc/jarduzki/docs" 2>/dev/null && pwd)/GUIDE.md
  read -r -a words <<<"$5"
  case $4:${words[0]-} in
    4:syntax) explain_refusal "$1" "$2" "${words[1]}" "${words[3]}" ;;
    11:rejected) explain_rejection "$1" "$2" "${words[1]}" "${words[2]}" ;;
    3:*)
      echo "geo: the program has no such words: $3 (geo --help)"
      case $3 in bench*) hint "behind 'bench' one number from 1 to 60 is due" ;; esac
      ;;
    6:*) explain_large "$1" "$2" "$3" "${words[2]-}" ;;
    7:*) explain_spent "$1" "$2" "$3" ;;
    12:*) explain_long "$1" "$2" "$3" ;;
    124:*)
      [ "$3" = decide ] || echo "$1: undecided: $seconds seconds are over"
      explain_other_way "$2" "$3"
      ;;
    *) explain_status "$1" "$2" "$4" "$5" "${words[@]}" ;;
  esac
}

# meanings NUMBER: all that has this number
meanings() {
  local kind words
  for kind in syntax rejected status; do
    words=$(meaning "$kind" "$1")
    [ -z "$words" ] || printf '%s %s: %s\n' "$kind" "$1" "$words"
  done
}

# explained KIND NUMBER ..: the words of an answer, of a verdict, of a number alone, or of a word of the language
explained() {
  case $1:${2-} in
    verdict:?* | accepted:?* | fixed:?*) shift; explained "$@" ;;
    syntax:?*) meaning syntax "$2" ;;
    rejected:?*) meaning rejected "${3-$2}" ;;
    status:?*) meaning status "$2" ;;
    proved:*) meaning status 0 ;;
    false:*) meaning status 1 ;;
    impossible:*) meaning status 2 ;;
    undecided:) meaning status 6; meaning status 7; meaning status 12 ;;
    stop:spent | spent:*) meaning status 7 ;;
    stop:too_large | too_large:*) meaning status 6 ;;
    unmet:*) meaning status 15 ;;
    no:instance) meaning status 16 ;;
    too:long) meaning status 12 ;;
    [0-9]*:) meanings "$1" ;;
    [A-Za-z]*:) [[ $1 == *[!A-Za-z0-9_]* ]] || word=$1 awk -f "$home/tools/explain_word.awk" "$home/docs/LANGUAGE.md" ;;
  esac
}

# tell_explain WORD..: the command `geo explain`
tell_explain() {
  local told asked
  read -r -a asked <<<"$*"
  told=$(explained "${asked[@]-}")
  if [ -z "$told" ]; then
    clean "$*"
    echo "geo: no such answer: '$cleaned'; as: geo explain syntax 5, geo explain rejected 27, geo explain tratio" >&2
    return 3
  fi
  printf '%s\n' "$told"
}
