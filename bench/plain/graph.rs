//! And-inverter graphs.
use crate::design::{Net, NodeKind};
use crate::words::{put, put_number};

/// Literal 2v is variable v, and 2v + 1 its negation.
type Literal = u32;

const FALSE: Literal = 0;

struct Gates {
    first: u32,
    /// The literals of each gate, the greater one first.
    list: Vec<(Literal, Literal)>,
}

impl Gates {
    fn and(&mut self, a: Literal, b: Literal) -> Literal {
        self.list.push((a.max(b), a.min(b)));
        2 * (self.first + self.list.len() as u32 - 1)
    }

    fn row(&mut self, marks: &[u8], pins: &[Literal]) -> Literal {
        let mut all = None;
        for (mark, pin) in marks.iter().zip(pins) {
            let literal = match mark {
                b'0' => pin ^ 1,
                b'1' => *pin,
                _ => continue,
            };
            all = Some(all.map_or(literal, |it| self.and(it, literal)));
        }
        all.unwrap_or(FALSE ^ 1)
    }

    fn table(&mut self, rows: &[u8], count: usize, on: bool, pins: &[Literal]) -> Literal {
        let mut any = None;
        for k in 0..count {
            let row = self.row(&rows[k * pins.len()..(k + 1) * pins.len()], pins);
            any = Some(any.map_or(row, |it: Literal| self.and(it ^ 1, row ^ 1) ^ 1));
        }
        any.unwrap_or(FALSE) ^ u32::from(!on)
    }
}

/// An order in which each table stands behind the tables that it reads.
fn order(n: &Net) -> Vec<u32> {
    let mut entered = vec![false; n.names.len()];
    let mut order = Vec::with_capacity(n.nodes.len());
    let mut path: Vec<(u32, u32)> = Vec::new();
    for root in n.inputs as u32..n.names.len() as u32 {
        if entered[root as usize] || !n.is_table(root) {
            continue;
        }
        entered[root as usize] = true;
        path.push((root, 0));
        while let Some((x, j)) = path.last_mut() {
            match n.pins_of(*x as usize).get(*j as usize) {
                None => {
                    order.push(*x);
                    path.pop();
                }
                Some(pin) => {
                    *j += 1;
                    if !entered[*pin as usize] && n.is_table(*pin) {
                        entered[*pin as usize] = true;
                        path.push((*pin, 0));
                    }
                }
            }
        }
    }
    order
}

pub struct Graph {
    pub text: Vec<u8>,
    pub gates: usize,
}

pub fn graph(n: &Net) -> Graph {
    let mut literals = vec![FALSE; n.names.len()];
    let mut next = 1;
    for (x, literal) in literals.iter_mut().enumerate() {
        if !n.is_table(x as u32) {
            *literal = 2 * next;
            next += 1;
        }
    }
    let mut gates = Gates { first: next, list: Vec::new() };
    let mut pins = Vec::new();
    for x in order(n) {
        pins.clear();
        pins.extend(n.pins_of(x as usize).iter().map(|it| literals[*it as usize]));
        if let NodeKind::Table { rows, count, on } = &n.nodes[x as usize - n.inputs].kind {
            literals[x as usize] = gates.table(rows, *count, *on, &pins);
        }
    }
    Graph { text: text(n, &literals, &gates), gates: gates.list.len() }
}

fn put_line(out: &mut Vec<u8>, numbers: &[u32]) {
    for (k, number) in numbers.iter().enumerate() {
        if k > 0 {
            out.push(b' ');
        }
        put_number(out, u64::from(*number));
    }
    out.push(b'\n');
}

fn put_symbol(out: &mut Vec<u8>, letter: &[u8], k: usize, name: &[u8]) {
    out.extend_from_slice(letter);
    put_number(out, k as u64);
    put(out, &[b" ", name, b"\n"]);
}

fn text(n: &Net, literals: &[Literal], gates: &Gates) -> Vec<u8> {
    let registers: Vec<usize> = (n.inputs..n.names.len()).filter(|x| !n.is_table(*x as u32)).collect();
    let mut out = b"aag ".to_vec();
    let numbers = [n.inputs, registers.len(), n.outputs.len(), gates.list.len()].map(|it| it as u32);
    put_line(&mut out, &[numbers[0] + numbers[1] + numbers[3], numbers[0], numbers[1], numbers[2], numbers[3]]);
    literals[..n.inputs].iter().for_each(|it| put_line(&mut out, &[*it]));
    for x in &registers {
        let (own, read) = (literals[*x], literals[n.pins_of(*x)[0] as usize]);
        match n.nodes[*x - n.inputs].kind {
            NodeKind::Register { start: 1 } => put_line(&mut out, &[own, read, 1]),
            NodeKind::Register { start: 2 | 3 } => put_line(&mut out, &[own, read, own]),
            _ => put_line(&mut out, &[own, read]),
        }
    }
    n.outputs.iter().for_each(|x| put_line(&mut out, &[literals[*x as usize]]));
    for (k, (left, right)) in gates.list.iter().enumerate() {
        put_line(&mut out, &[2 * (gates.first + k as u32), *left, *right]);
    }
    for (k, name) in n.names[..n.inputs].iter().enumerate() {
        put_symbol(&mut out, b"i", k, name);
    }
    for (k, x) in registers.iter().enumerate() {
        put_symbol(&mut out, b"l", k, n.names[*x]);
    }
    for (k, x) in n.outputs.iter().enumerate() {
        put_symbol(&mut out, b"o", k, n.names[*x as usize]);
    }
    out
}
