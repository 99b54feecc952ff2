#!/bin/sh
# Lists the segments of the sample kernel and answers its questions, without a matrix and with one, in words and decimals with the exact bits beside
# them (tools/readable.py); proves and builds the two programs if they are missing. Without python3 the programs' lines are shown as they are.
set -eu
cd "$(dirname "$0")"

if [ ! -x target/bin/listing ] || [ ! -x target/bin/ask ]; then
  if ! command -v rt >/dev/null; then
    echo "The Rattle toolchain's command 'rt' is not on the PATH." >&2
    exit 2
  fi
  echo "proving and building listing and ask: some minutes" >&2
  tools/build.sh listing ask
fi
run=$(tests/emulator.sh)
kernel=tests/sample/de405.bsp questions=tests/sample/de405.questions matrix=tests/sample/eclipj2000.matrix
lines=$(mktemp)
trap 'rm -f "$lines"' EXIT

# Shows the lines that a program wrote: show COMMAND WORDS, the words being for tools/readable.py.
show() {
  command=$1
  shift
  if command -v python3 >/dev/null; then
    echo "\$ $command | tools/readable.py${*:+ $*}"
    python3 tools/readable.py "$@" "$lines"
  else
    echo "\$ $command"
    cat "$lines"
  fi
  echo
}

if command -v python3 >/dev/null; then
  echo "The programs are proved; tools/readable.py, which puts their lines into words and decimals, is not. The bits stand as the programs wrote them."
else
  echo "There is no python3 here to put the lines into words and decimals: they are shown as the programs write them."
fi
echo

$run target/bin/listing <$kernel >"$lines"
show "listing <$kernel"

$run target/bin/ask $kernel $questions >"$lines"
show "ask $kernel $questions" --questions $questions --frame J2000

$run target/bin/ask $kernel $questions $matrix >"$lines"
show "ask $kernel $questions $matrix" --questions $questions --frame ECLIPJ2000
