# The word `import` of geo: figures of GeoGebra, GCLC and Kig as programs; and how other words read such files. Sourced by geo.
# SPDX-License-Identifier: Apache-2.0
# shellcheck shell=bash disable=SC2154

choices=()
[ -z "${given[goal]+yes}" ] || choices+=(--goal "${given[goal]}")
[ -z "${given[statement]+yes}" ] || choices+=(--statement "${given[statement]}")
[ -z "${given[no-statement]+yes}" ] || choices+=(--no-statement)
[ -z "${given[needed]+yes}" ] || choices+=(--needed)

# may_be_foreign FILE: whether it begins as no text of ours does, or a line begins with a word that is no command of ours; what stands
# behind the first megabyte is not read
may_be_foreign() {
  head -c 1048577 -- "$1" | LC_ALL=C awk -v forms="$home/tools/forms" '
    BEGIN { while ((getline line <forms) > 0) if (line ~ /^[a-z]/ && split(line, word, " ")) ours[word[1]] = 1 }
    NR == 1 && /^(PK|\037\213|BZh|\357\273\277)|^[ \t]*</ { found = 1; exit }
    /^[ \t]*[a-z]/ && !($1 in ours) { found = 1; exit }
    END { exit !found }'
}

# bring NUMBER: where the input of that number is a figure of another tool, its program takes its place, and a line says what was read.
# Where it is refused, the status says so
bring() {
  local options=("${choices[@]}") ended=20
  if may_be_foreign "${inputs[$1]}" && command -v python3 >/dev/null; then
    make_room
    [ "$word" != discover ] || [ ${#options[@]} -gt 0 ] || options=(--no-statement)
    [ -n "${given[quiet]-}" ] || options+=(--told)
    python3 -B "$home/tools/import" "${options[@]}" --if-known --name "${names[$1]}" -- "${inputs[$1]}" >"$room/brought.$1"
    ended=$?
  fi
  case $ended in
    0) inputs[$1]=$room/brought.$1 ;;
    20) [ ${#choices[@]} -eq 0 ] || ended=3 ;;
  esac
  [ "$ended" -ne 3 ] || echo "geo: ${names[$1]}: it is no figure of another tool, and ${choices[0]} is for these" >&2
  [ "$ended" -eq 20 ] || return "$ended"
}

if [ "$word" = import ]; then
  command -v python3 >/dev/null || refuse "'import' needs python3, which is not found"
  [ ${#names[@]} -gt 0 ] || refuse "behind 'import' the name of a file is due, or - for standard input (geo --help)"
  python3 -B "$home/tools/import" "${choices[@]}" -- "${names[@]}"
  exit
fi
