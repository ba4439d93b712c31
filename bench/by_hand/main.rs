//! The mailboxes of `bench_loops` in hand-written Rust, with which the proved ones are compared.
//!
//! usage: by_hand LOOP TABLE CONSUMERS TIMES [SHAPE]. `bench_loops` takes the same words. It prints the same lines.

// Notes are made and counted, but nothing reads them.
#![allow(dead_code)]

mod claim;
mod exchange;
mod layout;
mod mailbox;
mod source;
mod straight;

use layout::{Layout, MAX_CONSUMERS, Shape, Table};

/// How many pairs of a conciliator and a ratifier each cell has, but in the shape `exchange`.
const PAIRS: u32 = 4;

const USAGE: &str = "usage: by_hand mailboxes|puts|mailbox|taken|passed bits|unary|middle CONSUMERS TIMES [plain|fast|last|fastlast|exchange]";

fn main() {
    let words: Vec<String> = std::env::args().skip(1).collect();
    let ([name, table, consumers, times] | [name, table, consumers, times, _]) = &words[..] else {
        eprintln!("{USAGE}");
        std::process::exit(2);
    };
    let shape = words.get(4).map_or("plain", String::as_str);
    let number = |text: &String| text.parse::<u64>().expect("a number");
    let (consumers, times) = (number(consumers), number(times));
    assert!((1..=MAX_CONSUMERS as u64).contains(&consumers), "1 to {MAX_CONSUMERS} consumers");
    let its_table = Table::of(table).expect("a table");
    let its_shape = Shape::of(shape).expect("a shape");
    let pairs = if shape == "exchange" { 0 } else { PAIRS };
    let layout = Layout::new(consumers as u32, pairs, its_table, its_shape);
    let post = match name.as_str() {
        "mailboxes" => mailbox::mailboxes_alone(&layout, times),
        "puts" => mailbox::puts(&layout, times),
        "mailbox" => mailbox::mailboxes(&layout, times),
        "taken" => mailbox::taken(&layout, times),
        "passed" => mailbox::passed(&layout, times),
        _ => panic!("no such loop"),
    };
    println!("{post}");
}
