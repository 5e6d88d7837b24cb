//! What the program is measured against: plain Rust, without contracts. It has the data layout that a careful engineer would choose, one
//! thread, and the standard library alone. bench/ratio builds it with `rustc -O`.
//!
//! usage: plain flatten ORIG FLAT
//!        plain validate ORIG HARD CERT
//!        plain harden ORIG HARD CERT SIZE
//!        plain guard ORIG GUARDED
//!        plain to-aag ORIG AAG
//!        plain report ORIG HARD CERT
//!
//! It saves and prints what tmr does. It refuses what tmr refuses, but with one line for all faults, and it looks for no limits.
mod blif;
mod certificate;
mod design;
mod flat;
mod graph;
mod guard;
mod harden;
mod names;
mod partitions;
mod report;
mod rows;
mod rules;
mod words;

use blif::library;
use certificate::{cert, Cert};
use design::{design, Net};
use names::Fault;
use rules::Check;
use std::fs::{self, File};
use std::io::{self, Write};
use std::process::{self, exit};

fn load(file: &str) -> Vec<u8> {
    fs::read(file).unwrap_or_else(|_| {
        println!("fault: load {file}");
        exit(3)
    })
}

/// Saves a file whole or not at all, as tmr does: it is written beside, synced, and renamed.
fn save(file: &str, bytes: &[u8]) {
    save_pieces(file, |out| out.write_all(bytes))
}

/// The same, of a text that is written while it is made.
fn save_pieces(file: &str, write: impl FnOnce(&mut File) -> io::Result<()>) {
    let beside = format!("{file}.{}", process::id());
    let written = File::create(&beside).and_then(|mut it| {
        write(&mut it)?;
        it.sync_all()
    });
    written.and_then(|()| fs::rename(&beside, file)).unwrap_or_else(|_| {
        let _ = fs::remove_file(&beside);
        println!("fault: save {file}");
        exit(3)
    })
}

fn or_refuse<T>(file: &str, result: Result<T, Fault>) -> T {
    result.unwrap_or_else(|why| {
        println!("refused {file}: {why}");
        exit(4)
    })
}

/// Reads a design and gives it to a function.
fn with_design<T>(original: &str, act: impl FnOnce(&Net) -> T) -> T {
    let text = load(original);
    let models = or_refuse(original, library(&text));
    let net = or_refuse(original, design(&models));
    act(&net)
}

/// Reads a pair, checks the eight rules, and gives it to a function.
fn with_pair(original: &str, hardened: &str, certificate: &str, act: impl FnOnce(&Net, &Net, &Cert)) {
    let (a, b, c) = (load(original), load(hardened), load(certificate));
    let (n, h) = (or_refuse(original, library(&a)), or_refuse(hardened, library(&b)));
    let (n, h) = (or_refuse(original, design(&n)), or_refuse(hardened, design(&h)));
    let c = or_refuse(certificate, cert(&c, &n, &h));
    if let Some((rule, at)) = (Check { n: &n, h: &h, c: &c }).all() {
        println!("not accepted: rule {rule} at {at}");
        exit(1)
    }
    act(&n, &h, &c)
}

fn flatten(original: &str, flat: &str) {
    with_design(original, |n| {
        save(flat, &flat::flat_text(n));
        println!("flat inputs {} outputs {} nodes {} registers {} assumed {}", n.inputs, n.outputs.len(), n.nodes.len(), n.register_count(), n.open_count());
    })
}

fn validate(original: &str, hardened: &str, certificate: &str) {
    with_pair(original, hardened, certificate, |n, h, c| {
        let word = if c.version == 2 { "free" } else { "assumed" };
        let depth = c.depths.iter().max().unwrap_or(&0);
        println!("accepted partitions {} depth {depth} {word} {} {}", c.depths.len(), n.open_count(), h.open_count());
    })
}

fn harden(original: &str, hardened: &str, certificate: &str, size: u32) {
    with_design(original, |n| {
        let made = harden::harden(n, size);
        save_pieces(hardened, |out| made.form.write_design(n, out));
        save_pieces(certificate, |out| made.form.write_certificate(n, out));
        print!("{}", made.told);
    })
}

fn guard(original: &str, guarded: &str) {
    with_design(original, |n| {
        save_pieces(guarded, |out| guard::write_guarded(n, out));
        let (nodes, outputs) = (n.nodes.len(), n.outputs.len());
        println!("guard nodes {nodes} to {} outputs {outputs} assumed {}", 2 * nodes + outputs + 1, n.open_count());
    })
}

fn to_aag(original: &str, file: &str) {
    with_design(original, |n| {
        let made = graph::graph(n);
        save(file, &made.text);
        println!("aag inputs {} outputs {} latches {} ands {} free {}", n.inputs, n.outputs.len(), n.register_count(), made.gates, n.open_count());
    })
}

fn report(original: &str, hardened: &str, certificate: &str) {
    with_pair(original, hardened, certificate, |n, h, c| std::io::stdout().write_all(&report::report(n, h, c)).unwrap())
}

fn main() {
    let words: Vec<String> = std::env::args().skip(1).collect();
    let words: Vec<&str> = words.iter().map(String::as_str).collect();
    match words[..] {
        ["flatten", original, flat] => flatten(original, flat),
        ["validate", original, hardened, certificate] => validate(original, hardened, certificate),
        ["harden", original, hardened, certificate, size] => harden(original, hardened, certificate, size.parse().unwrap_or(64)),
        ["guard", original, guarded] => guard(original, guarded),
        ["to-aag", original, file] => to_aag(original, file),
        ["report", original, hardened, certificate] => report(original, hardened, certificate),
        _ => exit(2),
    }
}
