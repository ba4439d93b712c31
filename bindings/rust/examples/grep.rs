//! A parallel grep: it prints `path:line:text` of each line that has the text, in the order of the paths. The main thread
//! walks the folders, and workers sleep until it sends them a file to search.
//!
//! `cargo run --release --example grep -- unbounded src README.md`
//!
//! As `grep -rnF` does, it passes over links and pipes in a folder, and only names a binary file that has the text. The
//! status is 0 if the text was found, 1 if it was not, and 2 after an error.
use hazbultra::channel::{Sender, bounded, unbounded};
use std::collections::BTreeMap;
use std::io::{self, BufWriter, Write};
use std::path::{Path, PathBuf};
use std::{env, ffi::OsString, fs, process::ExitCode, thread};

/// Sends each file at or below a path to the workers. It sleeps while a hundred files wait.
fn walk(path: PathBuf, files: &Sender<PathBuf>) {
    let entries = fs::read_dir(&path).and_then(Iterator::collect::<io::Result<Vec<_>>>);
    let Ok(entries) = entries else {
        // It is a file, or a worker finds out why it cannot be read.
        return files.send(path).expect("the workers are there");
    };
    for it in entries {
        match it.file_type() {
            Ok(kind) if !kind.is_dir() && !kind.is_file() => {} // a link, a pipe or a device
            _ => walk(it.path(), files),
        }
    }
}

/// Returns the lines to print for a file, or why it cannot be read.
fn search(path: &Path, text: &str) -> Result<Vec<String>, String> {
    let name = path.display();
    let bytes = fs::read(path).map_err(|why| format!("{name}: {why}"))?;
    let content = String::from_utf8_lossy(&bytes);
    let found = (1..).zip(content.lines()).filter(|it| it.1.contains(text));
    Ok(if bytes.contains(&0) {
        let told = |_| format!("grep: {name}: binary file matches");
        found.take(1).map(told).collect()
    } else {
        let told = |(number, line)| format!("{name}:{number}:{line}");
        found.map(told).collect()
    })
}

/// Prints what was found, and returns the status.
fn print(searched: &BTreeMap<PathBuf, Result<Vec<String>, String>>) -> io::Result<u8> {
    let (mut out, mut status) = (BufWriter::new(io::stdout()), 1);
    for line in searched.values().flatten().flatten() {
        writeln!(out, "{line}")?;
        status = 0;
    }
    out.flush()?;
    for why in searched.values().filter_map(|it| it.as_ref().err()) {
        eprintln!("grep: {why}");
        status = 2;
    }
    Ok(status)
}

fn main() -> ExitCode {
    let mut words = env::args_os().skip(1);
    let (Some(Ok(text)), 1..) = (words.next().map(OsString::into_string), words.len()) else {
        eprintln!("usage: grep TEXT PATH..");
        return ExitCode::from(2);
    };
    let (files, queue) = bounded::<PathBuf>(100);
    let (done, searched) = unbounded();
    for (queue, done, text) in vec![(queue, done, text); 4] {
        thread::spawn(move || {
            for path in queue {
                let lines = search(&path, &text);
                done.send((path, lines)).expect("the main thread waits");
            }
        });
    }
    words.for_each(|it| walk(it.into(), &files));
    drop(files); // the workers end when no file is left, and `searched` ends after them
    ExitCode::from(print(&searched.iter().collect()).unwrap_or(2))
}
