//! The hardened form, plain, with version 1 and without a bound on depth.
use crate::design::{Net, NodeKind};
use crate::partitions::{partitions, Partitions};
use crate::words::{put, put_number, put_rows, turn};
use std::fs::File;
use std::io::{self, Write};

/// What is voted, and the labels.
pub struct Form {
    parts: Partitions,
    /// Of each pin of the design.
    voted: Vec<bool>,
    labels: Vec<u32>,
    depths: Vec<u32>,
    /// The partitions for which each net has voters, ascending: those of net x stand from `starts[x]` on.
    needs: Vec<u32>,
    starts: Vec<u32>,
}

pub struct Hardened {
    pub form: Form,
    pub told: String,
}

const NEW: u8 = 0;
const OPEN: u8 = 1;
const DONE: u8 = 2;

/// Votes the pins that close loops inside partitions, and finds the labels.
fn cut(n: &Net, voted: &mut [bool]) -> Vec<u32> {
    let nodes = n.nodes.len();
    let mut state = vec![NEW; nodes];
    let mut labels = vec![0; nodes];
    let mut path: Vec<(u32, u32)> = Vec::new();
    for root in 0..nodes {
        if state[root] != NEW {
            continue;
        }
        state[root] = OPEN;
        path.push((root as u32, 0));
        while let Some((y, j)) = path.last_mut() {
            let at = *y as usize;
            let Some(pin) = n.pins_of(n.inputs + at).get(*j as usize) else {
                labels[at] += u32::from(matches!(n.nodes[at].kind, NodeKind::Register { .. }));
                state[at] = DONE;
                path.pop();
                continue;
            };
            let number = n.nodes[at].pins as usize + *j as usize;
            if voted[number] || (*pin as usize) < n.inputs {
                *j += 1;
                continue;
            }
            let x = *pin as usize - n.inputs;
            match state[x] {
                NEW => {
                    state[x] = OPEN;
                    path.push((x as u32, 0));
                    continue;
                }
                OPEN => voted[number] = true,
                _ => labels[at] = labels[at].max(labels[x]),
            }
            *j += 1;
        }
    }
    labels
}

/// The partitions for which each net has voters.
fn needs_of(n: &Net, of: &[u32], voted: &[bool]) -> (Vec<u32>, Vec<u32>) {
    let mut pairs = Vec::new();
    for (y, p) in of.iter().enumerate() {
        let first = n.nodes[y].pins as usize;
        for (j, x) in n.pins_of(n.inputs + y).iter().enumerate() {
            if voted[first + j] {
                pairs.push(u64::from(*x) << 32 | u64::from(*p));
            }
        }
    }
    pairs.sort_unstable();
    pairs.dedup();
    let mut starts = Vec::with_capacity(n.names.len() + 1);
    let mut at = 0;
    for x in 0..n.names.len() as u64 {
        starts.push(at as u32);
        while at < pairs.len() && pairs[at] >> 32 == x {
            at += 1;
        }
    }
    starts.push(at as u32);
    (pairs.into_iter().map(|it| it as u32).collect(), starts)
}

fn form(n: &Net, size: u32) -> Form {
    let parts = partitions(n, size);
    let mut voted = vec![false; n.pins.len()];
    for (y, p) in parts.of.iter().enumerate() {
        let first = n.nodes[y].pins as usize;
        for (j, x) in n.pins_of(n.inputs + y).iter().enumerate() {
            voted[first + j] = *x as usize >= n.inputs && parts.of[*x as usize - n.inputs] != *p;
        }
    }
    let labels = cut(n, &mut voted);
    let mut depths = vec![0; parts.count];
    for (label, p) in labels.iter().zip(&parts.of) {
        depths[*p as usize] = depths[*p as usize].max(*label);
    }
    let (needs, starts) = needs_of(n, &parts.of, &voted);
    Form { parts, voted, labels, depths, needs, starts }
}

const COPIES: [&[u8]; 3] = [b"~0", b"~1", b"~2"];
const LETTERS: [&[u8]; 3] = [b"~a", b"~b", b"~c"];

impl Form {
    fn needs_of(&self, x: usize) -> &[u32] {
        &self.needs[self.starts[x] as usize..self.starts[x + 1] as usize]
    }

    fn put_node(&self, out: &mut Vec<u8>, n: &Net, y: usize) {
        let name = n.names[n.inputs + y];
        let pins = n.pins_of(n.inputs + y);
        let first = n.nodes[y].pins as usize;
        let mut part = Vec::new();
        put_number(&mut part, u64::from(self.parts.of[y]));
        for c in 0..3 {
            out.extend_from_slice(if matches!(n.nodes[y].kind, NodeKind::Table { .. }) { b".names" } else { b".latch" });
            for (j, x) in pins.iter().enumerate() {
                let read = n.names[*x as usize];
                if self.voted[first + j] {
                    put(out, &[b" ", read, b"~", &part, LETTERS[c]]);
                } else {
                    put(out, &[b" ", read, COPIES[c]]);
                }
            }
            put(out, &[b" ", name, COPIES[c]]);
            match &n.nodes[y].kind {
                NodeKind::Table { rows, count, on } => {
                    out.push(b'\n');
                    put_rows(out, rows, *count, pins.len(), *on);
                }
                NodeKind::Register { start } => {
                    if let Some((rises, clock)) = n.clock {
                        put(out, &[if rises { b" re " } else { b" fe " }, clock, b"~k"]);
                    }
                    out.extend_from_slice(if *start == 1 { b" 1\n" } else { b" 0\n" });
                }
            }
        }
    }

    fn put_voters(&self, out: &mut Vec<u8>, n: &Net, x: usize) {
        let name = n.names[x];
        for p in self.needs_of(x) {
            for letter in LETTERS {
                put(out, &[b".names ", name, b"~0 ", name, b"~1 ", name, b"~2 ", name, b"~"]);
                put_number(out, u64::from(*p));
                put(out, &[letter, b"\n11- 1\n1-1 1\n-11 1\n"]);
            }
        }
    }

    pub fn write_design(&self, n: &Net, file: &mut File) -> io::Result<()> {
        let mut out = Vec::new();
        put(&mut out, &[b".model ", n.model, b"\n.inputs"]);
        for name in &n.names[..n.inputs] {
            COPIES.iter().for_each(|copy| put(&mut out, &[b" ", name, copy]));
        }
        if let Some((_, clock)) = n.clock {
            put(&mut out, &[b" ", clock, b"~k"]);
        }
        out.extend_from_slice(b"\n.outputs");
        for x in &n.outputs {
            COPIES.iter().for_each(|copy| put(&mut out, &[b" ", n.names[*x as usize], copy]));
        }
        out.push(b'\n');
        for x in 0..n.names.len() {
            if x >= n.inputs {
                self.put_node(&mut out, n, x - n.inputs);
            }
            self.put_voters(&mut out, n, x);
            turn(&mut out, file)?;
        }
        out.extend_from_slice(b".end\n");
        file.write_all(&out)
    }

    pub fn write_certificate(&self, n: &Net, file: &mut File) -> io::Result<()> {
        let mut out = b"tmr-cert 1\nparts ".to_vec();
        put_number(&mut out, self.parts.count as u64);
        for (p, depth) in self.depths.iter().enumerate() {
            out.extend_from_slice(b"\npart ");
            put_number(&mut out, p as u64);
            out.extend_from_slice(b" depth ");
            put_number(&mut out, u64::from(*depth));
            turn(&mut out, file)?;
        }
        for (y, label) in self.labels.iter().enumerate() {
            let name = n.names[n.inputs + y];
            put(&mut out, &[b"\nnode ", name, b" "]);
            put_number(&mut out, u64::from(self.parts.of[y]));
            COPIES.iter().for_each(|copy| put(&mut out, &[b" ", name, copy]));
            for _ in 0..3 {
                out.push(b' ');
                put_number(&mut out, u64::from(*label));
            }
            turn(&mut out, file)?;
        }
        for (x, name) in n.names.iter().enumerate() {
            for p in self.needs_of(x) {
                for (copy, letter) in [b" 0", b" 1", b" 2"].iter().zip(LETTERS) {
                    put(&mut out, &[b"\nvoter ", name, b"~"]);
                    put_number(&mut out, u64::from(*p));
                    put(&mut out, &[letter, b" ", name, b" "]);
                    put_number(&mut out, u64::from(*p));
                    out.extend_from_slice(*copy);
                }
            }
            turn(&mut out, file)?;
        }
        out.extend_from_slice(b"\nend\n");
        file.write_all(&out)
    }
}

pub fn harden(n: &Net, size: u32) -> Hardened {
    let form = form(n, size);
    let voters = 3 * form.needs.len();
    let nodes = n.nodes.len();
    let parts = &form.parts;
    let told = format!(
        "nodes {nodes} to {}\npartitions {} cost {} plain {} minimal {}\nvoters {voters}\ndepth {}\nassumed {}\n",
        3 * nodes + voters, parts.count, parts.cost, parts.plain, if parts.minimal { "yes" } else { "no" },
        form.depths.iter().max().unwrap_or(&0), n.open_count(),
    );
    Hardened { form, told }
}
