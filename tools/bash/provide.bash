# shellcheck shell=bash
# Finds the built program, for ./console and for the examples and benches that run it.

# program_of TOP: prints the path of the program: the one that PGROUP names, or else the one that
# ./run of the repository TOP provides. In a package `run` is a link to the program itself. Where
# there is none, or it does not run, it says so, and returns 2.
program_of() {
  local program=${PGROUP:-}
  if [ -z "$program" ]; then
    "$1/run" --help > /dev/null || return 2
    program=$1/crates/pgroup/out/pgroup
    [ ! -L "$1/run" ] || program=$1/run
  elif [ ! -f "$program" ] || [ ! -x "$program" ]; then
    echo "${0##*/}: there is no program $program: PGROUP names it" >&2
    return 2
  fi
  # Without a slash in it bash would look for it on PATH.
  program=$(realpath -- "$program")
  if ! "$program" --help > /dev/null; then
    echo "${0##*/}: $program cannot be run" >&2
    return 2
  fi
  printf '%s\n' "$program"
}
