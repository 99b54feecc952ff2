#!/usr/bin/env bash
# Builds the given Rust unchanged with our drivers around it, from nothing: Debian packages, pinned
# sums, natively and for x86-64. SPICEKIT names the checkout's src folder. Needs root only to install.
set -eu
here=$(cd "$(dirname "$0")" && pwd)
cd "$here"
SPICEKIT=${SPICEKIT:-$here/../../../shared/docs/src/crates/spicekit/src}
CARGO=${CARGO:-/usr/bin/cargo}
RUSTC=${RUSTC:-/usr/bin/rustc}
export RUSTC RUSTC_BOOTSTRAP=1 # Debian's compiler is older than the text: two features are named in lib.rs

packages="python3 gcc rustc cargo librust-memmap2-dev librust-thiserror-dev librust-rustc-hash-dev librust-bytemuck-dev qemu-user"
if [ "$(dpkg --print-architecture)" != amd64 ]; then
  packages="$packages libstd-rust-dev:amd64 gcc-x86-64-linux-gnu libc6-dev-amd64-cross"
fi
missing=""
for p in $packages; do
  dpkg-query -W -f '${Status}' "$p" 2>/dev/null | grep -q 'ok installed' || missing="$missing $p"
done
if [ -n "$missing" ]; then
  case $missing in *:amd64*) dpkg --add-architecture amd64 ;; esac
  apt-get update -qq
  # shellcheck disable=SC2086
  DEBIAN_FRONTEND=noninteractive apt-get install -y -qq --no-install-recommends $missing
fi

if [ ! -d "$SPICEKIT" ]; then
  echo "no checkout of the given Rust at $SPICEKIT: SPICEKIT names its src folder" >&2
  exit 1
fi
if ! (cd "$SPICEKIT" && sha256sum --check --quiet "$here/given.sha256"); then
  echo "the checkout at $SPICEKIT is not the pinned text: see given.sha256" >&2
  exit 1
fi
mkdir -p target
ln -sfn "$(cd "$SPICEKIT" && pwd)" target/given
for m in spk frame; do
  cat "target/given/$m.rs" "src/reach_$m.rs" | cmp -s - "target/${m}_and_reach.rs" ||
    cat "target/given/$m.rs" "src/reach_$m.rs" > "target/${m}_and_reach.rs"
done

"$CARGO" build --offline --release --quiet
"$CARGO" build --offline --release --quiet --target x86_64-unknown-linux-gnu
echo "native:  $here/target/release"
echo "x86-64:  $here/target/x86_64-unknown-linux-gnu/release"
