#!/bin/sh
# Puts Debian's Rust 1.85, the least version that the crate is for, into a folder, with the libraries for x86-64 and aarch64:
# ci/least_rust.sh FOLDER. `FOLDER/rustc` is the compiler. It downloads 125 MB, and installs nothing.
set -eu
rm -rf "$1"
mkdir -p "$1/lists/partial" "$1/cache/archives/partial"
cd "$1"
trap 'rm -rf "$PWD"' EXIT
own="-o APT::Architecture=arm64 -o APT::Architectures=arm64 -o Dir::State::lists=$PWD/lists -o Dir::Cache=$PWD/cache"
apt-get -qq $own -o Dir::State::status=/dev/null update
apt-get -qq $own -o Dir::State::status=/dev/null download libstd-rust-web-dev/bookworm
apt-get -qq download rustc-web/bookworm libstd-rust-web-dev/bookworm libstd-rust-web-1.85 libllvm19
for it in *.deb; do dpkg -x "$it" . && rm "$it"; done
rm -rf lists cache usr/share
printf '#!/bin/sh\nLD_LIBRARY_PATH=%s exec %s --sysroot %s "$@"\n' "$PWD/usr/lib/x86_64-linux-gnu" "$PWD/usr/bin/rustc" "$PWD/usr" >rustc
chmod +x rustc
./rustc --version
trap - EXIT
