# shellcheck shell=bash
# Functions of ./run, ./test, tools/package and benches: the crates that another depends on, copies
# of them, what the program is made of, the kit, and the recorded program.

# Prints the crate $1 and all crates of crates.txt that it depends on, lowest first, one a line. The
# tree is the current folder.
crates_up_to() {
  awk -v top="$1" '
    function visit(name,   words, i, n) {
      if (!(name in below) || seen[name]++) return
      n = split(below[name], words)
      for (i = 1; i <= n; i++) visit(words[i])
      print name
    }
    { sub(/#.*/, ""); gsub(/,/, " ") }
    /^[a-z_0-9]/ {
      name = $0
      sub(/[ :].*/, "", name)
      sub(/^[^:]*:?/, "")
      below[name] = $0
    }
    END { visit(top) }
  ' crates.txt
}

# copy_crates TOP TREE LEFT CRATE..: copies crates of the repository TOP into TREE, with their lines
# of crates.txt and with HANDLES. LEFT has the names of those parts of a crate that are left out.
copy_crates() {
  local top=$1 tree=$2 left=" $3 " crate part
  shift 3
  if [ -f "$top/HANDLES" ]; then
    cp "$top/HANDLES" "$tree"
  fi
  for crate in "$@"; do
    grep "^${crate}[ :]" "$top/crates.txt" >> "$tree/crates.txt"
    mkdir -p "$tree/crates/$crate"
    for part in "$top/crates/$crate"/*; do
      if [[ $left != *" ${part##*/} "* ]]; then
        cp -R "$part" "$tree/crates/$crate"
      fi
    done
  done
}

# Prints one sum over the sources of pgroup in the tree $1: of pgroup and each crate that it depends
# on, the line of crates.txt, and the path and the sum of each file in src/, specs/ and proofs/.
# Crates that only test do not count.
sum_of_sources() (
  local name names folders=() part
  export LC_ALL=C
  cd "$1" || exit
  mapfile -t names < <(crates_up_to pgroup)
  [ ${#names[@]} -gt 0 ] || exit
  for name in "${names[@]}"; do
    for part in src specs proofs; do
      if [ -d "crates/$name/$part" ]; then
        folders+=("crates/$name/$part")
      fi
    done
  done
  {
    for name in "${names[@]}"; do echo "^${name}[ :]"; done | grep -f - crates.txt | sort
    find "${folders[@]}" -type f -print0 | sort -z | xargs -0 sha256sum
  } | sha256
)

# Prints the sha256 sum of standard input.
sha256() { sha256sum | cut -c1-64; }

# Prints the kit's line as `rt version` does, but without the sixth of a second that it takes;
# nothing where `rt` is not on PATH.
line_of_kit() {
  local rt file
  rt=$(command -v rt) || return 0
  file=$(dirname "$(dirname "$(readlink -f "$rt")")")/KIT-ID
  if [ -f "$file" ]; then
    cat "$file"
  else
    rt version
  fi
}

# value NAME FILE: the value of NAME in a record or a note.
value() { sed -n "s/^$1 //p" "$2"; }

# unpack TOP FILE: unpacks the recorded program of the repository TOP to a file. It fails where the
# packed program, or what comes out of it, has another sum than the record says.
unpack() {
  local record=$1/program/record packed=$1/program/pgroup.gz
  [ -f "$packed" ] && [ "$(sha256 < "$packed")" = "$(value packed "$record")" ] \
    && gzip -dc < "$packed" > "$2" && [ "$(sha256 < "$2")" = "$(value program "$record")" ]
}

# made_of PROGRAM TOP: prints two lines, `kit ..` and `sources ..`, of what a program was made with
# and of. They are those of the record in the repository TOP where it is of this program, by its
# sum, and otherwise those of the note beside the program, if it is. Of any other program they are
# not known.
made_of() {
  local file sum
  sum=$(sha256 < "$1")
  for file in "$2/program/record" "$1.sources"; do
    if [ -f "$file" ] && [ "$(value program "$file")" = "$sum" ]; then
      printf '%s\n' "kit $(value kit "$file")" "sources $(value sources "$file")"
      return
    fi
  done
  printf '%s\n' 'kit not known' 'sources not known'
}
