# The word `studio` of geo: a studio in the browser, for one user of this machine. Sourced by geo.
# SPDX-License-Identifier: Apache-2.0
# shellcheck shell=bash disable=SC2154

command -v python3 >/dev/null || refuse "'studio' needs python3, which is not found"
# where no program is built, the studio asks for one by this same word: it is built, and its path is written
if [ "${GEO_STUDIO-}" = builds ]; then
  choose_program
  [ "$fresh" = yes ] || refuse "none can be kept here: 'rt ci' proves it and keeps it"
  printf '%s\n' "$program"
  exit
fi
if is_fresh; then
  choose_program
  . "$home/tools/record.bash"
  studio=(--program "$program")
  ! recorded "$program" tree >/dev/null || studio+=(--recorded)
else
  export GEO_STUDIO=builds
  studio=(--build "$home/geo")
fi
trap - EXIT
rm -rf "$room"
for option in port steps seconds; do [ -z "${given[$option]+yes}" ] || studio+=("--$option" "${given[$option]}"); done
exec python3 -SsEB "$home/tools/studio/studio.py" "${studio[@]}" ${given[no-open]:+--no-open} -- "${names[@]}"
