//! Links the archives of proved code: those of this package for the target, or those in the folder that the variable
//! `HAZBULTRA_LIB` names.
use std::error::Error;
use std::path::PathBuf;
use std::process::ExitCode;
use std::{env, fs};

const ARCHIVES: [&str; 2] = ["hazbultra", "hazbultra_channel"];
/// The targets of this package's archives. They stand in folders of `prebuilt` with the names of their targets.
const TARGETS: [&str; 2] = ["x86_64-unknown-linux-gnu", "aarch64-unknown-linux-gnu"];

fn main() -> ExitCode {
    match link() {
        Ok(()) => ExitCode::SUCCESS,
        Err(why) => {
            println!("cargo::error={why}");
            ExitCode::FAILURE
        }
    }
}

/// Copies the archives to cargo's folder for this build, and links the copies. If a package was moved or copied with its
/// `target`, cargo names its new folder. The linker gets no other path. So no package links the archive of another.
fn link() -> Result<(), Box<dyn Error>> {
    let of_package = PathBuf::from("prebuilt").join(fitting()?);
    println!("cargo::rerun-if-env-changed=HAZBULTRA_LIB");
    // Cargo runs this program in the package's folder. So a relative path begins there.
    let folder = env::var_os("HAZBULTRA_LIB").map_or(of_package, PathBuf::from);
    let out = PathBuf::from(env::var_os("OUT_DIR").ok_or("cargo names no OUT_DIR")?);
    println!("cargo::rustc-link-search=native={}", out.display());
    for name in ARCHIVES {
        let file = format!("lib{name}.a");
        let archive = folder.join(&file);
        println!("cargo::rerun-if-changed={}", archive.display());
        let bytes = fs::read(&archive).map_err(|why| {
            let archive = archive.display();
            format!("{archive}: {why}. HAZBULTRA_LIB may name another folder of {file}")
        })?;
        fs::write(out.join(&file), bytes)?;
        println!("cargo::rustc-link-lib=static={name}");
    }
    Ok(())
}

/// The target whose archive fits the one that cargo builds for. An archive calls no C library but for `malloc` and the
/// like, so it is for musl too.
fn fitting() -> Result<&'static str, String> {
    let target = |part: &str| env::var(format!("CARGO_CFG_TARGET_{part}")).unwrap_or_default();
    let (arch, os) = (target("ARCH"), target("OS"));
    let (endian, width) = (target("ENDIAN"), target("POINTER_WIDTH"));
    let is_known = os == "linux" && endian == "little" && width == "64";
    let of_arch = TARGETS
        .into_iter()
        .find(|it| it.split('-').next() == Some(arch.as_str()));
    of_arch.filter(|_| is_known).ok_or_else(|| {
        let all = TARGETS.join(" and ");
        format!("there are proved archives for {all}, and none for {arch} {os}, {endian}-endian, of {width} bits")
    })
}
