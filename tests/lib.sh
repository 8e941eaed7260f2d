# shellcheck shell=bash
# What the tests in bash share. One begins with: source "$(dirname "$0")/lib.sh". It then stands at the top of the repository, and has
# the empty folder $room, which is gone once it ends. It counts by 'tell', and ends by 'finish' with the line 'N passed, M failed'.

source "$(dirname "${BASH_SOURCE[0]}")/../tools/sources.sh"
cd "$top" || exit 3
passed=0
failed=0
room=$(mktemp -d) || exit 3
trap 'rm -rf "$room"' EXIT

# the program that is tested, and the files whose ends are printed behind a line that failed
program=
shown=()
# flags of the C compiler
# shellcheck disable=SC2034
warnings=(-Wall -Wextra -Werror -pedantic)
# shellcheck disable=SC2034
sanitizers=(-g "-fsanitize=address,undefined" -fno-sanitize-recover=all)

# counts a line by the status of the command before it, and returns that: tell NAME
tell() {
  local status=$? file
  if [ "$status" -eq 0 ]; then
    echo "$1: ok"
    passed=$((passed + 1))
  else
    echo "$1: FAILED, with status $status"
    for file in "${shown[@]}"; do
      [ ! -s "$file" ] || tail -n 12 "$file" | cut -c 1-300
    done
    failed=$((failed + 1))
  fi
  return "$status"
}

# ends the test, with what was counted
finish() {
  echo "$passed passed, $failed failed"
  [ "$failed" -eq 0 ]
  exit
}

# ends the test where it can't go on, which counts as a line that failed: stop WHY
stop() {
  echo "$1: FAILED"
  failed=$((failed + 1))
  finish
}

# prints where the program of a crate stands, as 'rt ci' and ./prove leave it: program_of NAME
program_of() {
  echo "$top/crates/$1/out/$1"
}

# builds the programs of these crates that aren't built: built NAME..
built() {
  local name
  for name in "$@"; do
    [ -x "$(program_of "$name")" ] || (cd "crates/$name" && rt run -- --help) </dev/null >"$room/build" 2>&1
    [ -x "$(program_of "$name")" ] && continue
    tail -n 5 "$room/build"
    stop "$name was not built"
  done
}

# proves and builds the library for C, with the option only where it isn't built of the sources as they stand; where that fails the test
# ends: c_library NAME [--if-changed]
c_library() {
  tools/c_library "${@:2}" >"$room/log" 2>&1 && [ -e "$library" ] && [ -e "$(heap)" ]
  tell "$1" || finish
}

# whether $program prints this to standard output and to standard error, and ends with this status: prints OUT ERR STATUS WORD..
prints() {
  local out=$1 err=$2 status=$3 ended
  shift 3
  "$program" "$@" >"$room/out" 2>"$room/err"
  ended=$?
  cmp -s "$out" "$room/out" && cmp -s "$err" "$room/err" && [ "$ended" -eq "$status" ] && return
  echo "${program##*/} $*: it ended with status $ended, where $status is wanted; what is printed (>) and what is wanted (<):" | cut -c 1-300
  diff "$out" "$room/out" | head -n 5 | cut -c 1-300
  diff "$err" "$room/err" | head -n 5 | cut -c 1-300
  return 1
}

# the same, as a line: compare NAME OUT ERR STATUS WORD..
compare() {
  prints "${@:2}"
  tell "$1"
}

# the same for a fault, of which standard error has one line and standard output nothing: fault NAME LINE STATUS WORD..
fault() {
  local name=$1
  echo "$2" >"$room/line"
  compare "$name" /dev/null "$room/line" "${@:3}"
}

# with --explain, behind the line of a fault stand its reasons, which begin with this one: reason NAME LINE REASON STATUS WORD..
reason() {
  local name=$1 line=$2 reason=$3 status=$4 ended
  shift 4
  "$program" --explain "$@" >"$room/out" 2>"$room/err" </dev/null
  ended=$?
  [ ! -s "$room/out" ] && [ "$ended" -eq "$status" ] && diff <(printf '%s\n%s\n' "$line" "$reason") <(head -n 2 "$room/err")
  tell "$name, explained"
}

# words that are no command line, of which standard error says what is wrong with them, by a line of this pattern:
# bad_words NAME PATTERN WORD..
bad_words() {
  local name=$1 pattern=$2 ended
  shift 2
  "$program" "$@" >"$room/out" 2>"$room/err" </dev/null
  ended=$?
  # shellcheck disable=SC2053
  [ "$ended" -eq 2 ] && [ ! -s "$room/out" ] && [ "$(sed -n 1p "$room/err")" = "${program##*/}: bad command line" ] &&
    [[ $(sed -n 2p "$room/err") == $pattern ]]
  tell "$name"
}

# prints a run file with rings of bytes in place of its rings of samples, each of 532: over_bytes RUN
over_bytes() {
  awk '/^caps = / { gsub(/[0-9]+/, "532"); print "ring = \"bytes\"" } { print }' "$1"
}

# the thread sanitizer doesn't see the atomics of the library for C, so what it finds inside of its calls, or of the functions that these
# call, it can't know: it passes over that
pass_over_atomics() {
  printf 'race:%s\n' '^ng_' '::' >"$room/suppressions"
  export TSAN_OPTIONS="suppressions=$room/suppressions print_suppressions=0"
}
