#!/bin/sh
# Tests tools/questions.py and tools/readable.py; seconds. Needs python3 alone.
set -eu
exec python3 -B "$(dirname "$0")/test_tools.py"
