//! The text of a flat design.
use crate::design::{Net, NodeKind};
use crate::words::{put_rows, put_words};

pub fn flat_text(n: &Net) -> Vec<u8> {
    let mut out = Vec::new();
    put_words(&mut out, b".model", [n.model].iter());
    put_words(&mut out, b"\n.inputs", n.names[..n.inputs].iter().chain(n.clock.as_ref().map(|(_, name)| name)));
    put_words(&mut out, b"\n.outputs", n.outputs.iter().map(|x| n.names[*x as usize]));
    out.push(b'\n');
    for (y, node) in n.nodes.iter().enumerate() {
        let x = n.inputs + y;
        let pins = n.pins_of(x);
        match &node.kind {
            NodeKind::Table { rows, count, on } => {
                put_words(&mut out, b".names", pins.iter().map(|it| n.names[*it as usize]));
                put_words(&mut out, b"", [n.names[x]].iter());
                out.push(b'\n');
                put_rows(&mut out, rows, *count, pins.len(), *on);
            }
            NodeKind::Register { start } => {
                put_words(&mut out, b".latch", [n.names[pins[0] as usize], n.names[x]].iter());
                if let Some((rises, name)) = n.clock {
                    put_words(&mut out, if rises { b" re" } else { b" fe" }, [name].iter());
                }
                out.extend_from_slice(if *start == 1 { b" 1\n" } else { b" 0\n" });
            }
        }
    }
    out.extend_from_slice(b".end\n");
    out
}
