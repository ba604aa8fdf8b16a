# The word `help` of geo: all words and options, or what the manual says of one word. Sourced by geo.
# SPDX-License-Identifier: Apache-2.0
# shellcheck shell=bash disable=SC2034,SC2154

# tell_help [WORD]
tell_help() {
  if [ $# -eq 0 ]; then
    awk -f "$home/tools/usage.awk" "$home/tools/words" "$home/tools/usage"
  else
    word=$1
    check_word
    word=$1 LC_ALL=C awk -f "$home/tools/help.awk" "$home/tools/words" "$home/man/geo.1"
  fi
}
