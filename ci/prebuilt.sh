#!/bin/sh
# Checks or renews the built files that the repository has: the program prebuilt/mailbox, and two archives for two targets each.
#
#   ci/prebuilt.sh             checks, without the kit, that each has the hashes of itself and its sources in its text
#   ci/prebuilt.sh --compare   builds all anew, and compares them with these byte by byte
#   ci/prebuilt.sh --place     builds all anew, and replaces them and their texts. The crates have to be committed.
#
# With `--proved` after that, right after `rt ci`, it takes the program that `rt ci` left, and builds the archives from the
# libraries that `rt ci` left, in two minutes. (`rt lib` would prove each of them once more, in up to 40.)
set -eu
cd "$(dirname -- "$0")/.."
mode=${1-} proved=${2-} faults=0

tell() {
    echo "$1"
    faults=$((faults + 1))
}

# Prints the lines of the text beside a built file. The kit links a program with glibc. By itself it compiles for x86-64-v2,
# or for any aarch64.
facts() {
    libc=$(grep -aoE 'GLIBC_[0-9]+\.[0-9]+' "$1" | sort -V | tail -n 1 | sed 's/GLIBC_\(.*\)/glibc \1, /')
    echo "sha256: $(sha256sum <"$1" | cut -d' ' -f1)"
    echo "sources: $(sh ci/sources.sh "$2")"
    case $1 in
    */aarch64-*) echo "needs: aarch64 Linux" ;;
    *) echo "needs: x86_64 Linux, ${libc}x86-64-v2" ;;
    esac
}

# look FILE TEXT CRATE BUILT FOLDER COMMAND..: checks FILE by TEXT. COMMAND, run in FOLDER, builds it anew, as BUILT
look() {
    file=$1 text=$2 crate=$3 built=$4 folder=$5 began=$(date +%s)
    shift 5
    case $mode$proved in
    --place | --compare) (cd "$folder" && "$@") ;;
    *--proved) [ "$1" != rt ] || (shift 2 && python3 ci/kit.py --archive "$crate" "$@") ;;
    esac
    if [ "$mode" = --place ]; then
        cp "$built" "$file"
        { echo "commit: $(git rev-parse HEAD)" && echo "kit: $(rt version)" && facts "$file" "$crate"; } >"$text"
    fi
    [ -f "$file" ] && [ -f "$text" ] || { tell "there is no $file or no $text" && return; }
    false=$(facts "$file" "$crate" | grep -vxFf "$text") &&
        tell "$text does not hold of $file. It would have to say (ci/prebuilt.sh --place): $false"
    grep -Eqx 'commit: [0-9a-f]{40}' "$text" && grep -q '^kit: .' "$text" || tell "$text names no commit or no kit"
    [ -z "$mode" ] || echo "$file: built anew in $(($(date +%s) - began)) s"
    [ "$mode" != --compare ] || cmp "$built" "$file" ||
        tell "$file is not what the sources build. It was built by $(sed -n 's/^kit: //p' "$text"), and now by $(rt version)"
}

if [ "$mode" = --place ] && [ -n "$(git status --porcelain -- crates crates.txt)" ]; then
    echo "commit the crates first: the texts name the commit that the files are of" >&2
    exit 1
fi
left=crates/mailbox_main/out/mailbox_main
newer() { find crates.txt crates/*/src crates/*/specs crates/*/proofs -type f -newer $left 2>/dev/null | head -n 1; }
if [ "$proved" = --proved ] && { [ ! -f $left ] || [ -n "$(newer)" ]; }; then
    echo "run rt ci first: there is no $left, or $(newer) is newer" >&2
    exit 1
fi
look prebuilt/mailbox prebuilt/mailbox.txt mailbox_main $left . ./mailbox --build
for target in aarch64-unknown-linux-gnu x86_64-unknown-linux-gnu; do
    for crate in hazbultra hazbultra_channel; do
        archive=bindings/rust/prebuilt/$target/lib$crate
        look $archive.a $archive.txt $crate crates/$crate/out/lib$crate.a crates/$crate rt lib --target $target
    done
done
echo "5 files, $faults faults"
[ "$faults" = 0 ]
