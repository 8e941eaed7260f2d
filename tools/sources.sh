# shellcheck shell=bash
# Shell functions that tell whether a program or library was made of the sources as they stand; scripts at the top, in tools/ and in
# tests/ read them by 'source'. What changed is found by looking at files alone, and never by asking the toolchain.

top=$(cd "$(dirname "${BASH_SOURCE[0]}")/.." && pwd)
# the library for C, as tools/c_library leaves it
library=$top/crates/nerthogal_c/out/libnerthogal_c.a
# what was proved and built on this machine, each with the sum of what it was made of beside it
kept=$top/out/proved
# what was compiled on this machine and isn't proved, likewise
# shellcheck disable=SC2034
tried=$top/out/tried

# prints a crate and the crates of this repository below it, each behind those that it stands on, as crates.txt has them:
# crates_of NAME
crates_of() {
  awk -v wanted="$1" '
    function walk(name, deps, many, i) {
      if (!(name in below) || name in seen) return
      seen[name] = 1
      many = split(below[name], deps, " ")
      for (i = 1; i <= many; i++) walk(deps[i])
      print name
    }
    { sub(/#.*/, ""); colon = index($0, ":") }
    colon { name = $1; sub(/:.*/, "", name); below[name] = substr($0, colon + 1) }
    END { walk(wanted) }
  ' "$top/crates.txt"
}

# prints one sum over the sources of a crate and of those below it, their names and crates.txt: sum_of NAME
sum_of() {
  local parts=() crate part
  for crate in $(crates_of "$1"); do
    for part in src specs proofs; do
      [ -d "$top/crates/$crate/$part" ] && parts+=("crates/$crate/$part")
    done
  done
  (cd "$top" && { echo crates.txt; find "${parts[@]}" -type f | LC_ALL=C sort; } | tr '\n' '\0' | xargs -0 sha256sum | sha256sum)
}

# whether a folder has a program that was made of sources with this sum: has_program FOLDER NAME SUM
has_program() {
  [ -x "$1/$2" ] && [ -e "$1/$2.sum" ] && [ "$(cat "$1/$2.sum")" = "$3" ]
}

# whether a program is kept that was proved and built of the sources as they stand: is_proved NAME
is_proved() {
  has_program "$kept" "$1" "$(sum_of "$1")"
}

# keeps a program that was made of sources with this sum, in a folder; where it breaks off, none is kept: put FOLDER PROGRAM NAME SUM
put() {
  [ -x "$2" ] && [ "$4" = "$(sum_of "$3")" ] || return 1
  mkdir -p "$1" && rm -f "$1/$3.sum" && cp "$2" "$1/$3.$$" && mv "$1/$3.$$" "$1/$3" &&
    echo "$4" >"$1/$3.sum.$$" && mv "$1/$3.sum.$$" "$1/$3.sum"
}

# keeps a program that was proved and built of sources with this sum: keep NAME SUM
keep() {
  put "$kept" "$top/crates/$1/out/$1" "$1" "$2"
}

# prints one sum over the sources of a crate and of those below it, and over the libraries that are built of the latter; nothing where
# one isn't built: sum_over_built NAME
sum_over_built() {
  local crate formats=()
  for crate in $(crates_of "$1"); do
    [ "$crate" = "$1" ] || formats+=("crates/$crate/out/rlib/$crate.rlib/format")
  done
  (cd "$top" && cat "${formats[@]}" >/dev/null 2>&1) || return
  { sum_of "$1" && cd "$top" && sha256sum "${formats[@]}"; } | sha256sum
}

# notes that the libraries below a crate were proved and built of sources with this sum: keep_below NAME SUM
keep_below() {
  [ "$2" = "$(sum_of "$1")" ] && mkdir -p "$kept" && sum_over_built "$1" >"$kept/$1.below"
}

# whether the libraries below a crate stand as they were noted, of the sources as they stand: is_below_built NAME
is_below_built() {
  [ -s "$kept/$1.below" ] && [ "$(cat "$kept/$1.below")" = "$(sum_over_built "$1")" ]
}

# whether the library for C stands as it was proved and built of the sources as they stand
is_c_library_built() {
  [ -e "$library" ] && [ -e "${library%.a}.sum" ] && [ "$(cat "${library%.a}.sum")" = "$(sum_of nerthogal_c)" ]
}

# prints where stands what joins the library for C to the C library's malloc, realloc and free
heap() {
  echo "$(dirname "$(rt doc)")/c/liblibc_c.a"
}

# builds a program in C of these sources and flags, and the library for C: build_c PROGRAM WORD..
build_c() {
  local program=$1
  shift
  cc -std=c99 -I"$top/include" -pthread -o "$program" "$@" "$library" "$(heap)"
}

# whether the toolchain is there, and these other commands; says the first that isn't, in a line of this script: has_tools SCRIPT COMMAND..
has_tools() {
  local script=$1 it
  shift
  if ! command -v rt >/dev/null 2>&1; then
    echo "$script: there is no command 'rt' on PATH: install the Rattle toolchain (README.md)" >&2
    return 1
  fi
  for it in "$@"; do
    command -v "$it" >/dev/null 2>&1 && continue
    [ "$it" = cc ] && it="cc' on PATH, a C compiler" || it="$it' on PATH"
    echo "$script: there is no command '$it" >&2
    return 1
  done
}

# prints the folder of the toolchain's programs
tools() {
  echo "$(dirname "$(rt doc)")/bin"
}
