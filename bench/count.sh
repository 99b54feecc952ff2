#!/usr/bin/env bash
# count.sh PROGRAM ARGUMENTS... : x86-64 instructions of one pass through a loop. The last argument
# of PROGRAM is its number of passes; two runs are compared, of PASSES (default 200) and six times as many, so that starting up doesn't
# count.
set -eu
here=$(cd "$(dirname "$0")" && pwd)
plugin=$here/target/libcount.so
if [ ! -e "$plugin" ] || [ "$here/count.c" -nt "$plugin" ]; then
  mkdir -p "$here/target"
  gcc -shared -fPIC -O2 -o "$plugin" "$here/count.c"
fi
# the C library copies with its vector loop: a `rep movsb` would be counted once for each byte
export GLIBC_TUNABLES=glibc.cpu.x86_rep_movsb_threshold=1000000000:glibc.cpu.x86_rep_stosb_threshold=1000000000
count() { qemu-x86_64 -plugin "$plugin" "$@" 2>&1 >/dev/null | sed -n 's/^instructions //p'; }
n=${PASSES:-200}
few=$(count "$@" "$n")
many=$(count "$@" $((6 * n)))
awk -v a="$few" -v b="$many" -v n="$n" 'BEGIN { printf "%.1f\n", (b - a) / (5 * n) }'
