//! The report on a pair that is accepted.
use crate::certificate::{Cert, Role};
use crate::design::{Net, NodeKind};
use crate::partitions::cost;
use crate::rows::{sources_of, turned};
use std::fmt::Write;

const NONE: u32 = u32::MAX;

/// How many components of each partition have a loop.
fn loops(n: &Net, c: &Cert) -> Vec<u32> {
    let nodes = n.nodes.len();
    let mut loops = vec![0; c.depths.len()];
    let mut number = vec![NONE; nodes];
    let mut low = vec![0; nodes];
    let mut is_open = vec![false; nodes];
    let mut open: Vec<u32> = Vec::new();
    let mut path: Vec<(u32, u32)> = Vec::new();
    let mut next = 0;
    for root in 0..nodes as u32 {
        if number[root as usize] == NONE {
            path.push((root, 0));
        }
        while let Some((y, j)) = path.last_mut() {
            let at = *y as usize;
            if *j == 0 && number[at] == NONE {
                (number[at], low[at], is_open[at]) = (next, next, true);
                next += 1;
                open.push(*y);
            }
            if let Some(pin) = n.pins_of(n.inputs + at).get(*j as usize) {
                *j += 1;
                let Some(x) = (*pin as usize).checked_sub(n.inputs).filter(|x| c.parts[*x] == c.parts[at]) else { continue };
                if number[x] == NONE {
                    path.push((x as u32, 0));
                } else if is_open[x] {
                    low[at] = low[at].min(number[x]);
                }
                continue;
            }
            path.pop();
            if low[at] == number[at] {
                let start = open.iter().rposition(|x| *x as usize == at).unwrap();
                let reads_itself = || n.pins_of(n.inputs + at).contains(&((n.inputs + at) as u32));
                if open.len() - start > 1 || reads_itself() {
                    loops[c.parts[at] as usize] += 1;
                }
                open.drain(start..).for_each(|x| is_open[x as usize] = false);
            }
            if let Some((above, _)) = path.last() {
                low[*above as usize] = low[*above as usize].min(low[at]);
            }
        }
    }
    loops
}

/// Longest walks of copies in the hardened design.
struct Walks<'a> {
    n: &'a Net<'a>,
    h: &'a Net<'a>,
    c: &'a Cert,
    /// The most registers of a walk that ends in each node, and the last register before the node on such a walk.
    reach: Vec<u32>,
    before: Vec<u32>,
}

impl Walks<'_> {
    fn copy(&self, g: u32) -> Option<(u8, u32)> {
        match self.c.roles[g as usize] {
            Role::Copy { of, copy } => Some((copy, of)),
            _ => None,
        }
    }

    fn is_register(&self, g: u32) -> bool {
        matches!(self.h.nodes[g as usize].kind, NodeKind::Register { .. })
    }

    fn last(&self, g: u32) -> u32 {
        if self.copy(g).is_some() && self.is_register(g) { g } else { self.before[g as usize] }
    }

    /// The one that is the lower copy, or of the lower node.
    fn first_of(&self, a: u32, b: u32) -> u32 {
        if a == NONE || (b != NONE && self.copy(b) < self.copy(a)) { b } else { a }
    }

    /// The copies that copy g reads.
    fn reads(&self, g: u32) -> impl Iterator<Item = u32> + '_ {
        let pins = if self.copy(g).is_some() { self.h.pins_of(self.h.inputs + g as usize) } else { &[] };
        pins.iter().filter_map(|pin| pin.checked_sub(self.h.inputs as u32)).filter(|x| self.copy(*x).is_some())
    }

    fn finish(&mut self, g: u32) {
        let most = self.reads(g).map(|x| self.reach[x as usize]).max().unwrap_or(0);
        let last = self.reads(g).filter(|x| self.reach[*x as usize] == most).fold(NONE, |best, x| self.first_of(best, self.last(x)));
        self.reach[g as usize] = most + u32::from(self.copy(g).is_some() && self.is_register(g));
        self.before[g as usize] = last;
    }

    fn fill(&mut self) {
        let mut entered = vec![false; self.h.nodes.len()];
        let mut path: Vec<(u32, u32)> = Vec::new();
        for root in 0..self.h.nodes.len() as u32 {
            if self.copy(root).is_none() || std::mem::replace(&mut entered[root as usize], true) {
                continue;
            }
            path.push((root, 0));
            while let Some((g, j)) = path.last_mut() {
                let (at, k) = (*g, *j as usize);
                *j += 1;
                match self.h.pins_of(self.h.inputs + at as usize).get(k) {
                    None => {
                        path.pop();
                        self.finish(at);
                    }
                    Some(pin) => {
                        let Some(x) = pin.checked_sub(self.h.inputs as u32).filter(|x| self.copy(*x).is_some()) else { continue };
                        if !std::mem::replace(&mut entered[x as usize], true) {
                            path.push((x, 0));
                        }
                    }
                }
            }
        }
    }

    /// The least depth of each partition, and the last register of a longest chain.
    fn tops(&self) -> Vec<(u32, u32)> {
        let mut tops = vec![(0, NONE); self.c.depths.len()];
        for g in 0..self.h.nodes.len() as u32 {
            let Some((_, of)) = self.copy(g) else { continue };
            let reach = self.reach[g as usize];
            let (depth, top) = tops[self.c.parts[of as usize - self.n.inputs] as usize];
            if reach >= depth {
                let best = if reach > depth { NONE } else { top };
                tops[self.c.parts[of as usize - self.n.inputs] as usize] = (reach, self.first_of(best, self.last(g)));
            }
        }
        tops
    }

    fn chain(&self, depth: u32, top: u32) -> Vec<u32> {
        let mut chain = Vec::with_capacity(depth as usize);
        let mut register = top;
        for _ in 0..depth {
            chain.extend(self.copy(register).map(|(_, of)| of));
            register = self.before[register as usize];
        }
        chain.reverse();
        chain
    }
}

pub fn report(n: &Net, h: &Net, c: &Cert) -> Vec<u8> {
    let nodes = n.nodes.len();
    let registers = n.register_count();
    let (mut border, mut feedback, mut inputs) = (0, 0, 0);
    for role in &c.roles {
        if let Role::Voter { of, part, .. } = role {
            match (*of as usize).checked_sub(n.inputs) {
                None => inputs += 1,
                Some(x) if c.parts[x] == *part => feedback += 1,
                Some(_) => border += 1,
            }
        }
    }
    let readers = turned(&sources_of(n), nodes);
    let mut told = format!("nodes {nodes}\nregisters {registers}\ncopies {}\nvoters border {border} feedback {feedback}", 3 * nodes);
    if c.version == 2 {
        write!(told, " inputs {inputs}").unwrap();
    }
    write!(told, "\npartitions {} cost {}\n", c.depths.len(), cost(&readers, &c.parts, c.depths.len())).unwrap();
    let mut counts = vec![(0, 0); c.depths.len()];
    for (node, p) in n.nodes.iter().zip(&c.parts) {
        counts[*p as usize].0 += 1;
        counts[*p as usize].1 += u32::from(matches!(node.kind, NodeKind::Register { .. }));
    }
    drop(readers);
    let loops = loops(n, c);
    let mut walks = Walks { n, h, c, reach: vec![0; h.nodes.len()], before: vec![NONE; h.nodes.len()] };
    walks.fill();
    let mut out = told.into_bytes();
    for (p, (depth, top)) in walks.tops().into_iter().enumerate() {
        let line = format!("part {p} nodes {} registers {} loops {} depth {} least {depth} chain", counts[p].0, counts[p].1, loops[p], c.depths[p]);
        out.extend_from_slice(line.as_bytes());
        for x in walks.chain(depth, top) {
            out.push(b' ');
            out.extend_from_slice(n.names[x as usize]);
        }
        out.push(b'\n');
    }
    out
}
