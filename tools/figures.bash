# Figures that are tried where the work on a program is ended. Sourced by the tools of geo that try them.
# SPDX-License-Identifier: Apache-2.0
# shellcheck shell=bash disable=SC2034,SC2154

# try_figures NUMBER: seeks among some figures one at which the statement fails, as the program says; sets `at` to its numbers
try_figures() {
  at=''
  [ "$fresh" = yes ] && command -v python3 >/dev/null || return
  [ "$(wc -c <"${inputs[$1]}")" -le 1048576 ] || return
  run_in_time python3 -B "$home/tools/figures.py" "$program" "${inputs[$1]}" </dev/null >"$room/at"
  [ $? -eq 1 ] || return
  cat -- "${inputs[$1]}" >>"$room/at"
  run "$program" place <"$room/at" >"$room/placed"
  [ "$(tail -n 1 "$room/placed")" = fails ] && at=$(head -n 1 "$room/at")
}
