# Where no proved program of the present sources is there: one is built without proving it, and kept. Sourced by geo.
# SPDX-License-Identifier: Apache-2.0
# shellcheck shell=bash disable=SC2154

# list_sources HOW: the files that the program is made of, printed by find
list_sources() {
  cd -- "$home" && find crates.txt crates/*/src -type f "$@"
}

# find_kit: sets `kit`, the toolchain's line, or nothing; `rt version` has it too, and takes longer
find_kit() {
  kit=''
  hash rt 2>/dev/null || return 0
  kit=$(readlink -f -- "${BASH_CMDS[rt]}")
  { read -r kit <"${kit%/bin/rt}/KIT-ID"; } 2>/dev/null || kit=$(rt version 2>/dev/null)
}

# find_sum FOLDER: sets `sum`, a checksum of the sources and of the toolchain's line. The folder keeps the last one, with this line and the
# names, the sizes and the times that the sources had, so that they are read again only where one of these is another
find_sum() {
  local kit now was=''
  find_kit
  now=$kit$'\n'$(list_sources -printf '%p %s %T@\n')
  if { read -r sum && IFS= read -r -d '' was; [ "$was" = "$now" ]; } 2>/dev/null <"$1/last"; then return; fi
  sum=$({ echo "$kit"; list_sources -print0 | LC_ALL=C sort -z | (cd -- "$home" && xargs -0 sha256sum); } | sha256sum)
  sum=${sum%% *}
  { printf '%s\n%s' "$sum" "$now" >"$1/last"; } 2>/dev/null || return 0
}

# keep_unproved: sets `program` to the one of the present sources that is kept, and builds it first where it is missing. It fails where
# none can be kept
keep_unproved() {
  local folder=$home/out/unproved
  command -v rt >/dev/null || fail "there is no built program, and 'rt', which builds it, is not found"
  [ -d "$folder" ] || mkdir -p "$folder" 2>/dev/null
  if [ ! -w "$folder" ]; then
    make_room
    folder=$room
  fi
  find_sum "$folder"
  program=$folder/$sum/geo_cli
  if [ ! -x "$program" ]; then
    if ! command -v python3 >/dev/null; then
      echo "geo: no program is kept: python3 is not found" >&2
      return 1
    fi
    echo "geo: building the program without proving it, which takes some minutes; it is kept until a source changes" >&2
    run python3 -B "$home/tools/native.py" "$home" "$program" </dev/null || return
    find "$folder" -mindepth 1 -maxdepth 1 -type d -mtime +30 -exec rm -rf {} +
  fi
  echo "geo: the program that answers is not proved; 'rt ci' proves it and keeps it" >&2
}

# build NUMBER..: where none can be kept, answers the inputs of these numbers with the steps `taken`, as files
# $room/built/STEPS/NUMBER.answer and .status. An input that got no answer has the status 70.
build() {
  local cases=$room/cases folder=$room/built/${taken[1]-default} k
  rm -rf "$cases"
  mkdir -p "$cases" "$folder"
  for k in "$@"; do
    cp -- "${inputs[k]}" "$cases/$k"
    echo 70 >"$folder/$k.status"
    : >"$folder/$k.answer"
  done
  echo "geo: building the program without proving it, which takes some minutes, at each call; 'rt ci' proves it and keeps it" >&2
  run env -C "$home/crates/geo_cli" rt try --seconds 600 --cases "$cases" -- "${words[@]}" "${taken[@]}" \
    </dev/null >"$room/report.out" 2>"$room/report"
  grep -q '^case=' "$room/report" || cat "$room/report" >&2
  awk -v folder="$folder" '/^== [0-9]+$/ { file = folder "/" $2 ".answer"; next } file != "" { print >file }' "$room/report.out"
  awk -v folder="$folder" 'match($0, /^case=[0-9]+ run=ended status=[0-9]+ /) {
    split($1, name, "="); split($3, status, "="); print status[2] >(folder "/" name[2] ".status") }' "$room/report"
}

# build_spent NUMBER..: builds once more, with the most steps, for those of these inputs that were out of steps
build_spent() {
  local k spent=()
  for k in "$@"; do
    [ "$(cat "$room/built/default/$k.status")" -ne 7 ] || spent+=("$k")
  done
  [ ${#spent[@]} -gt 0 ] || return 0
  taken=(--steps "$most")
  build "${spent[@]}"
}
