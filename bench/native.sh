#!/usr/bin/env bash
# native.sh OUT: our program `replay_measure` for the machine at hand, so that its times mean something. On x86-64 that is the proved program itself.
# Elsewhere there is none: the toolchain compiles for x86-64 alone. Then this says so and fails.
set -euo pipefail
project=$(cd "$(dirname "$0")/.." && pwd)
out=$1
machine=$(uname -m)
if [ "$machine" != x86_64 ]; then
  echo "The toolchain makes programs for x86-64 alone, and this machine is $machine: our program has no times here." >&2
  exit 1
fi
"$project/tools/build.sh" replay_measure
cp "$project/target/bin/replay_measure" "$out"
