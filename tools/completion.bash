# Completion of words, options and files for geo and prove in bash: source this file. It reads the table of words beside it, or where
# `make install` puts it.
# SPDX-License-Identifier: Apache-2.0
# shellcheck shell=bash
_geo_table=${BASH_SOURCE[0]%/*}/words
[ -f "$_geo_table" ] || _geo_table=${BASH_SOURCE[0]%/*}/../../../lib/jarduzki/tools/words

# all words
_geo_words() {
  awk -F '\t' '$1 == "word" || $1 == "tool" { print $2 }' "$_geo_table"
}

# _geo_options WORD: the options that it takes; all without a word
_geo_options() {
  awk -F '\t' -v word="$1" '$1 == "option" && (word == "" || $4 == "*" || index("," $4 ",", "," word ",")) { print $2 }' "$_geo_table"
}

# _geo_endings WORD: the endings of its files
_geo_endings() {
  awk -F '\t' -v word="$1" '($1 == "word" || $1 == "tool") && $2 == word { print $4 }' "$_geo_table"
}

# _geo_valued OPTION: whether something stands behind it
_geo_valued() {
  awk -F '\t' -v option="$1" '$1 == "option" && $3 != "-" && index(" " $2 " ", " " option " ") { found = 1 } END { exit !found }' "$_geo_table"
}

_geo_complete() {
  local current=${COMP_WORDS[COMP_CWORD]} word='' endings ending k
  COMPREPLY=()
  [ "${COMP_WORDS[0]##*/}" = prove ] && word=prove
  for ((k = 1; k < COMP_CWORD && ${#word} == 0; k++)); do
    case ${COMP_WORDS[k]} in
      -*) ! _geo_valued "${COMP_WORDS[k]}" || k=$((k + 1)) ;;
      *) word=${COMP_WORDS[k]} ;;
    esac
  done
  case $current:$word in
    -*:*) mapfile -t COMPREPLY < <(compgen -W "$(_geo_options "$word")" -- "$current") ;;
    *: | *:help) mapfile -t COMPREPLY < <(compgen -W "$(_geo_words)" -- "$current") ;;
    *:explain)
      mapfile -t COMPREPLY < <(compgen -W "syntax rejected status stop proved false impossible undecided \
        $(awk '/^(prove|assume) / { print $2; next } /^[a-z]/ { print $1 }' "${_geo_table%words}forms")" -- "$current")
      ;;
    *)
      endings=$(_geo_endings "$word")
      case ${endings:=geo log} in
        -) ;;
        '*') mapfile -t COMPREPLY < <(compgen -f -- "$current") ;;
        *) mapfile -t COMPREPLY < <(for ending in $endings; do compgen -f -X "!*.$ending" -- "$current"; done; compgen -d -- "$current") ;;
      esac
      ;;
  esac
}
complete -o filenames -F _geo_complete geo ./geo prove ./prove
