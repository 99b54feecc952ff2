#!/usr/bin/env bash
# The second program: its own tests, then the kernels of tests/oracle, where its lines and the Rust's must be the same. SEED and SCALE choose the cases
# (defaults 1 and 1). Needs what tests/oracle/setup.sh built.
set -eu
here=$(cd "$(dirname "$0")" && pwd)
cd "$here"
python3 test_second.py
../oracle/setup.sh
python3 ../oracle/gen.py ../oracle/target/second "${SEED:-1}" "${SCALE:-1}"
python3 ../oracle/compare.py ../oracle/target/second --ask "python3 $here/second.py ask" --orient "python3 $here/second.py orient" \
  --listing "python3 $here/second.py listing" --cases "python3 $here/cases.py"
(cd ../../crates/replay_cases/data && xargs python3 "$here/cases.py" <../args) | cmp - ../../crates/replay_cases/stdout
echo "the stored cases: the same lines"
