#!/usr/bin/env bash
# Both sides in one run, on the same kernels and questions, as Markdown tables: x86-64 instructions, times on this machine, and the stack of our entry
# points. RUNS=n says how many times each time is taken (default 7).
set -eu
here=$(cd "$(dirname "$0")" && pwd)
cd "$here"
../tests/oracle/setup.sh > /dev/null
../tools/build.sh replay_measure
python3 scenarios.py target/scenarios
rust=../tests/oracle/target/x86_64-unknown-linux-gnu/release/bench
ours=../target/bin/replay_measure object=../crates/replay_measure/out/replay_measure.o

files() { echo "target/scenarios/$1.kernel target/scenarios/$1.questions"; }
# Our side says on the error output where a question or a kernel is refused: then nothing is counted. Sixteen passes ask each question once; a kernel of
# 4,096 segments that is opened in each pass is opened twice.
answers() {
  times=16
  [ "$2" != open-4096 ] || times=2
  # shellcheck disable=SC2046
  said=$(qemu-x86_64 "$ours" "$1" $(files "$2") "$times" 2>&1 > /dev/null)
  [ -z "$said" ] || { echo "$2: $said" >&2; exit 1; }
}
# The passes of the shorter of two runs: an opening is long.
passes() { case $1 in open-4096) echo 2 ;; open-*) echo 20 ;; *) echo 200 ;; esac; }
# The instructions of a pass of a program in a mode on a scenario, less those of the loop itself.
per_pass() {
  # shellcheck disable=SC2046
  awk -v a="$(PASSES=$(passes "$3") ./count.sh "$1" "$2" $(files "$3"))" -v b="$4" 'BEGIN { printf "%.0f", a - b }'
}
# The same of our side. A pass that opens into a lent table makes its 4,096 places first: that is what opening no segments costs.
of_ours() {
  answers "$1" "$2"
  n=$(per_pass "$ours" "$1" "$2" "$ours_loop")
  case $1 in open | indexed-open) n=$((n - $(per_pass "$ours" "$1" open-0 "$ours_loop"))) ;; esac
  echo "$n"
}
# shellcheck disable=SC2046
rust_loop=$(./count.sh "$rust" nothing $(files remembered-1))
# shellcheck disable=SC2046
ours_loop=$(./count.sh "$ours" nothing $(files remembered-1))

echo "x86-64 instructions, counted under an emulator. Of the loops around them: ours $ours_loop, the Rust's $rust_loop, subtracted."
echo
echo "| question | lent table | through an index | table by value | the Rust | lent beside the Rust | through an index beside the Rust |"
echo "|---|---|---|---|---|---|---|"
while IFS=$'\t' read -r name mode what; do
  r=$(per_pass "$rust" "$mode" "$name" "$rust_loop")
  o=$(of_ours "$mode" "$name")
  # the index of a PCK has no mode, and the table by value has 256 places
  x='' v=''
  [ "$mode" = orient ] || x=$(of_ours "indexed-$mode" "$name")
  case $name in *-4096) ;; *) v=$(of_ours "by-$mode" "$name") ;; esac
  awk -v w="$what" -v a="$o" -v x="$x" -v v="$v" -v b="$r" 'BEGIN {
    printf "| %s | %d | %s | %s | %d | %.2f | %s |\n", w, a, x, v, b, a / b, x == "" ? "" : sprintf("%.2f", x / b) }'
done < target/scenarios/list.tsv

echo
echo "| 8,192 usage records of 512 suppliers | instructions a record |"
echo "|---|---|"
while IFS=$'\t' read -r name what; do
  answers add "$name"
  # shellcheck disable=SC2046
  awk -v a="$(PASSES=20 ./count.sh "$ours" add $(files "$name"))" -v w="$what" 'BEGIN { printf "| %s | %.0f |\n", w, a / 8192 }'
done < target/scenarios/usage.tsv

machine=$(uname -m)
echo
echo "Nanoseconds on this machine ($machine, $(sed -n 's/^model name[^:]*: //p' /proc/cpuinfo | head -n 1)), both sides compiled for it."
echo
timed=yes
if ./native.sh target/native; then
  python3 times.py target/native ../tests/oracle/target/release/bench target/scenarios
else
  timed=no
  echo "No times: there is no program of ours for this machine."
fi

echo
echo "Stack, from the x86-64 machine code; on another machine the frames differ, and this run does not measure them."
echo
python3 stack.py "$object"
[ "$timed" = yes ]
