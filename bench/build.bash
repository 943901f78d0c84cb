# shellcheck shell=bash
# What the benches of crates share. A bench sets `here` to its folder, sources this file, and has
# `proved.rattle`, a Rattle program. With the word --help a bench prints its first comment.
case ${1-} in
  --help | -h)
    sed -n '2,/^set/s/^# \{0,1\}//p' "$0"
    exit
    ;;
esac
top=$here/../..
# shellcheck source=tools/bash/sources.bash
. "$top/tools/bash/sources.bash"
work=$(mktemp -d)
trap 'rm -rf "$work"' EXIT

# need COMMAND WHAT: ends the bench with status 2 if a command is missing.
need() {
  if ! command -v "$1" > /dev/null; then
    echo "bench/${here##*/}/run: there is no $2: put the folder of its command '$1' on PATH" >&2
    exit 2
  fi
}

# build_proved CRATE..: proves and builds the bench's program over these crates, as $work/bench. It
# is built in a separate repository, with the crates that these depend on, since the gate would
# take it for one of this repository's crates.
build_proved() {
  local crate crates
  need rt 'Rattle toolchain'
  mkdir -p "$work/crates/bench/src"
  mapfile -t crates < <(cd "$top" && for crate in "$@"; do crates_up_to "$crate"; done | sort -u)
  # What was kept of their proofs too.
  copy_crates "$top" "$work" '' "${crates[@]}"
  echo "bench: $*" >> "$work/crates.txt"
  cp "$here/proved.rattle" "$work/crates/bench/src/main.rt"
  if ! (cd "$work/crates/bench" && rt run) < /dev/null > "$work/log" 2>&1; then
    tail -n 20 "$work/log" >&2
    exit 1
  fi
  cp "$work/crates/bench/out/bench" "$work/bench"
}
