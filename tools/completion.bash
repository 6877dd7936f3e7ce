# Completion in bash for geo and its tools. tools/install puts it where bash looks for it; in a clone: . tools/completion.bash
# shellcheck shell=bash

_geo_questions="check guards hull inside kernel pair path reach round see sights tree"

# The options of a tool are those that its --help names. The first word of geo-exact is a command, which has options of its own.
_geo_tool() {
  local current=${COMP_WORDS[COMP_CWORD]} before=${COMP_WORDS[COMP_CWORD - 1]} tool=("$1") name=${1##*[-/]}
  COMPREPLY=()
  if [ "$name" = exact ]; then
    if [ "$COMP_CWORD" -eq 1 ]; then
      mapfile -t COMPREPLY < <(compgen -W "records geojson draw explore batch --help" -- "$current")
      return
    fi
    name=${COMP_WORDS[1]}
    tool+=("$name")
  fi
  case $name$before in
    batch--ask) mapfile -t COMPREPLY < <(compgen -W "guards kernel sights" -- "$current") ;;
    *--ask)
      compopt -o nospace
      mapfile -t COMPREPLY < <(compgen -W "$_geo_questions" -S , -- "$current")
      ;;
    *--only) mapfile -t COMPREPLY < <(compgen -W "polygon $_geo_questions" -- "$current") ;;
    *--batch | *--digits | *--origin | *--port | *--processes | *--scale | *--scheduler | *--thin | *--token) ;;
    *)
      if [[ $current == -* ]]; then
        mapfile -t COMPREPLY < <(compgen -W "$("${tool[@]}" --help 2> /dev/null | sed -n 's/^  \(-h, \)\{0,1\}\(--[a-z-]*\).*/\2/p')" -- "$current")
      else
        compopt -o filenames
        mapfile -t COMPREPLY < <(compgen -f -- "$current")
      fi
      ;;
  esac
}

_geo() {
  COMPREPLY=()
  if [ "$COMP_CWORD" -eq 1 ]; then
    COMPREPLY=(--comb)
  fi
}

complete -F _geo geo crates/geo/out/geo
complete -F _geo_tool geo-records geo-geojson geo-draw geo-explore geo-exact tools/records tools/geojson tools/draw tools/explore
