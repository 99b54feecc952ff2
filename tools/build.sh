#!/bin/sh
# build.sh NAME..: proves, compiles and links programs, with all crates below them, and leaves each at target/bin/NAME if it then writes what is stored
# beside it (crates/NAME/stdout, of the files args, stdin and data/). What rt says stands in target/log/NAME.out. A program that is proved and built already
# is only run again. Anything that fails ends it with 1, and leaves no target/bin/NAME.
set -eu
cd "$(dirname "$0")/.."
top=$(pwd)
die() { printf '%s\n' "build.sh: $1" >&2; exit "${2:-1}"; }

[ $# -gt 0 ] || die "it takes the names of programs" 2
command -v rt >/dev/null || die "The Rattle toolchain's command 'rt' is not on the PATH." 2
run=$(tests/emulator.sh)
mkdir -p target/bin target/log

# Runs a program as the gate does, in its folder data/ if it has one: stored NAME
stored() {
  program=$top/target/log/$1.program
  cd "$top/crates/$1"
  shift
  [ ! -f args ] || while IFS= read -r word || [ -n "$word" ]; do set -- "$@" "$word"; done <args
  input=/dev/null
  [ ! -f stdin ] || input=$PWD/stdin
  if [ -d data ]; then cd data; else cd "$top/target/log"; fi
  # shellcheck disable=SC2086
  $run "$program" "$@" <"$input"
}

for name; do
  [ -f "crates/$name/src/main.rt" ] || die "there is no program crates/$name" 2
  log=target/log/$name.out
  rm -f "target/bin/$name" "target/log/$name.program"
  echo "build.sh: proving and building $name" >&2
  # rt has no command that links a program and does not run it. With no input and no arguments it does little; its status hides that of rt, so the line
  # that rt writes before it starts a program that it proved is what counts.
  (cd "crates/$name" && rt run) </dev/null >/dev/null 2>"$log" || true
  if ! grep -q "^rt: running out/$name;" "$log"; then
    grep -E '^rt|^rattle|error|no proof|^logic=' "$log" | tail -n 20 >&2 || true
    die "$name is not proved or not built: see $log"
  fi
  cp "crates/$name/out/$name" "target/log/$name.program"
  want=/dev/null
  [ ! -f "crates/$name/stdout" ] || want=crates/$name/stdout
  (stored "$name") >"target/log/$name.stdout" 2>>"$log" || die "$name fails on what is stored beside it: see $log"
  cmp "target/log/$name.stdout" "$want" >&2 || die "$name writes something else than $want: see target/log/$name.stdout"
  mv "target/log/$name.program" "target/bin/$name"
done
