//! The guarded design: two copies, comparators and an alarm.
use crate::design::{Net, NodeKind};
use crate::words::{put, put_rows, turn};
use std::fs::File;
use std::io::{self, Write};

const COPIES: [&[u8]; 2] = [b"~0", b"~1"];

fn put_copy(out: &mut Vec<u8>, n: &Net, y: usize, copy: &[u8]) {
    let pins = n.pins_of(n.inputs + y);
    out.extend_from_slice(if matches!(n.nodes[y].kind, NodeKind::Table { .. }) { b".names" } else { b".latch" });
    for x in pins {
        put(out, &[b" ", n.names[*x as usize], copy]);
    }
    put(out, &[b" ", n.names[n.inputs + y], copy]);
    match &n.nodes[y].kind {
        NodeKind::Table { rows, count, on } => {
            out.push(b'\n');
            put_rows(out, rows, *count, pins.len(), *on);
        }
        NodeKind::Register { start } => {
            if let Some((rises, clock)) = n.clock {
                put(out, &[if rises { b" re " } else { b" fe " }, clock, b"~k"]);
            }
            out.extend_from_slice(if *start == 1 { b" 1\n" } else { b" 0\n" });
        }
    }
}

pub fn write_guarded(n: &Net, file: &mut File) -> io::Result<()> {
    let mut out = Vec::new();
    put(&mut out, &[b".model ", n.model, b"\n.inputs"]);
    for name in &n.names[..n.inputs] {
        put(&mut out, &[b" ", name, b"~0 ", name, b"~1"]);
    }
    if let Some((_, clock)) = n.clock {
        put(&mut out, &[b" ", clock, b"~k"]);
    }
    out.extend_from_slice(b"\n.outputs");
    let outputs: Vec<&[u8]> = n.outputs.iter().map(|x| n.names[*x as usize]).collect();
    for name in &outputs {
        put(&mut out, &[b" ", name, b"~0 ", name, b"~1"]);
    }
    out.extend_from_slice(b" alarm~z\n");
    for y in 0..n.nodes.len() {
        COPIES.iter().for_each(|copy| put_copy(&mut out, n, y, copy));
        turn(&mut out, file)?;
    }
    for name in &outputs {
        put(&mut out, &[b".names ", name, b"~0 ", name, b"~1 ", name, b"~e\n10 1\n01 1\n"]);
        turn(&mut out, file)?;
    }
    out.extend_from_slice(b".names");
    outputs.iter().for_each(|name| put(&mut out, &[b" ", name, b"~e"]));
    out.extend_from_slice(b" alarm~z\n");
    if !outputs.is_empty() {
        out.resize(out.len() + outputs.len(), b'0');
        out.extend_from_slice(b" 0\n");
    }
    out.extend_from_slice(b".end\n");
    file.write_all(&out)
}
