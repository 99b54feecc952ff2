#!/usr/bin/env bash
# The comparison from nothing: the given Rust built, our programs proved and built, the cases made, all held together.
# SPICEKIT names the Rust's checkout (see setup.sh); SEED and SCALE choose the cases (defaults 1 and 3).
set -eu
here=$(cd "$(dirname "$0")" && pwd)
cd "$here"
./setup.sh
../../tools/build.sh ask orient listing replay_cases replay_wide
run=$(../emulator.sh)
bin=$here/../../target/bin
python3 departures.py --run "$run" --ask "$bin/ask" --orient "$bin/orient"
python3 gen.py target/cases "${SEED:-1}" "${SCALE:-3}"
python3 compare.py target/cases --run "$run" --ask "$bin/ask" --orient "$bin/orient" --listing "$bin/listing" --cases "$bin/replay_cases" --wide "$bin/replay_wide"
