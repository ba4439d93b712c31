//! Links the shell in C of the channel for C, which this compiles. The crate `hazbultra` links the archive of its proved
//! calls.
use std::env;
use std::process::Command;

fn main() {
    let out = env::var("OUT_DIR").expect("cargo names it");
    let c = "../../bindings/c";
    let object = format!("{out}/channel.o");
    let run = |program: &str, words: &[&str]| {
        let ran = Command::new(program).args(words).status();
        assert!(ran.is_ok_and(|it| it.success()), "{program} failed");
    };
    run(
        "cc",
        &[
            "-std=c11",
            "-O2",
            "-c",
            &format!("{c}/channel.c"),
            "-o",
            &object,
        ],
    );
    run(
        "ar",
        &["rcs", &format!("{out}/libchannel_shell.a"), &object],
    );
    println!("cargo::rustc-link-search=native={out}");
    println!("cargo::rustc-link-lib=static=channel_shell");
    println!("cargo::rerun-if-changed={c}");
}
