#!/bin/sh
# Prints the words that start a program for x86-64 here: none on x86-64; elsewhere qemu-x86_64, of the path, with the toolchain's loader and C library.
set -eu
die() { printf '%s\n' "$1" >&2; exit 2; }

[ "$(uname -m)" != x86_64 ] || exit 0
command -v rt >/dev/null || die "This machine is no x86-64: the Rattle toolchain's command 'rt' is needed on the PATH, for its loader and C library."
command -v qemu-x86_64 >/dev/null || die "This machine is no x86-64: the emulator qemu-x86_64 is needed on the PATH (Debian's qemu-user)."
library=$(dirname "$(rt doc)")/toolchain/lib
[ -x "$library/ld-linux-x86-64.so.2" ] || die "This machine is no x86-64, and the toolchain has no loader for it at $library/ld-linux-x86-64.so.2."
echo "qemu-x86_64 $library/ld-linux-x86-64.so.2 --library-path $library"
