#!/bin/sh
# Builds the crate in all places where users may have it: moved, copied, packed, as a git dependency, vendored. It prints a
# line for each case, and its status is 0 if all builds do as they have to. It needs cargo and git, and no network.
# packing.sh TARGET does so for another target, whose programs cargo has to be told how to link and run.
set -u
crate=$(cd "$(dirname "$0")/.." && pwd) && room=$(mktemp -d) || exit 2
trap 'rm -rf "$room"' EXIT
trap 'exit 2' HUP INT TERM
unset CARGO_TARGET_DIR CARGO_BUILD_TARGET_DIR CARGO_BUILD_TARGET HAZBULTRA_LIB
export CARGO_HOME="$room/home" GIT_CONFIG_GLOBAL=/dev/null
[ $# = 0 ] || export CARGO_BUILD_TARGET="$1"
built=target/${1:+$1/}debug failed=0
letter=$built/examples/one_letter

try() { # NAME FUNCTION: runs the function in a folder of its own, and prints whether it succeeded
    mkdir "$room/$2" && cd "$room/$2" || exit 2
    if "$2" >"$room/said" 2>&1; then
        echo "$1: holds"
    else
        echo "$1: FAILED" && sed 's/^/    /' "$room/said"
        failed=1
    fi
}

# FOLDER: copies the crate into it. There the example one_letter also sends through a channel, so that it links both archives.
place() {
    mkdir -p "$1" && for it in Cargo.toml Cargo.lock README.md build.rs src examples tests prebuilt; do
        cp -R "$crate/$it" "$1" || return
    done
    sed -i 's/^    Ok(())/    hazbultra::channel::unbounded().0.send(7)?;\n&/' "$1/examples/one_letter.rs"
}

prints() { # FOLDER WORDS..: whether `cargo run WORDS..` there prints what the example one_letter prints
    printed=$(cd "$1" && shift && cargo run --quiet --offline "$@") && echo "$printed" &&
        [ "$printed" = "$(printf 'Some("a letter")\nLost(0)\n0 left')" ]
}
prints_letter() { prints "$1" --example one_letter; }

# Changes a word in a comment of the archives. The linker keeps it, so it shows which archives a program has.
mark() { LC_ALL=C sed -i 's/rattle logic=/marked logic=/' "$1"/prebuilt/*/*.a; }
has() { [ "$(LC_ALL=C grep -ao '[a-z]* logic=' "$2" | sort -u)" = "$1 logic=" ]; }

built() { place here && prints_letter here && grep -q hz_put "here/$letter" && grep -q hz_channel_send "here/$letter"; }
moved() { built && mv here there && prints_letter there; }
copied() { # whether each copy links its own archives, and not those of the other
    built && cp -a here there && mark here && touch there/src/lib.rs && prints_letter there && prints_letter here &&
        has rattle "there/$letter" && has marked "here/$letter" && mark there && prints_letter there &&
        has marked "there/$letter"
}
packed() { # `cargo package` builds the packed crate, too. Yet the crate itself links its own archives after that
    place here && (cd here && cargo package --quiet --offline) && tar -xzf here/target/package/hazbultra-*.crate &&
        prints_letter hazbultra-* && mark here && prints_letter here && has marked "here/$letter"
}
depended_on() {
    place repository/bindings/rust && mark repository/bindings/rust && cd repository && git init --quiet && git add . &&
        git -c user.name=a -c user.email=a@b commit --quiet --message=a && mkdir -p ../user/src && cd ../user &&
        cp ../repository/bindings/rust/examples/one_letter.rs src/main.rs && {
        printf '[package]\nname = "user"\nedition = "2021"\n[workspace]\n[dependencies]\n'
        echo "hazbultra = { git = \"file://$room/depended_on/repository\" }"
    } >Cargo.toml && cargo fetch --quiet && prints . && has marked $built/user
}
vendored() { # whether it builds after its sources outside the vendored folder were removed
    mv ../depended_on/user . && cd user && mkdir .cargo && cargo vendor --offline >.cargo/config.toml &&
        rm -r ../../depended_on "$CARGO_HOME" target && prints . && has marked $built/user
}
fails() { # REASON WORDS..: whether a build fails with this error, and without a panic
    reason=$1 && shift && ! cargo build --quiet --offline "$@" 2>../why && cat ../why &&
        grep -q "^error: hazbultra@.*$reason" ../why && ! grep -q panicked ../why
}
refused() {
    place here && cd here && mv prebuilt .. && fails 'libhazbultra.a: No such file' || return
    (export HAZBULTRA_LIB="../prebuilt/${CARGO_BUILD_TARGET-x86_64-unknown-linux-gnu}" && prints_letter . &&
        rm "$HAZBULTRA_LIB/libhazbultra_channel.a" && fails 'libhazbultra_channel.a: No such file') || return
    for it in riscv64gc-unknown-linux-gnu aarch64_be-unknown-linux-gnu x86_64-unknown-linux-gnux32 aarch64-apple-darwin; do
        fails "x86_64-unknown-linux-gnu and aarch64-unknown-linux-gnu, and none for ${it%%[-_g]*}" --target $it || return
    done
}

try 'built' built
try 'moved' moved
try 'copied, and each has its own archives' copied
try 'packed' packed
try 'a git dependency' depended_on
try 'vendored' vendored
try 'refused without an archive, and on other machines' refused
exit $failed
