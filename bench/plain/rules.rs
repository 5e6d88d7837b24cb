//! The eight rules.
use crate::certificate::{Cert, Role};
use crate::design::{Net, NodeKind};

pub struct Check<'a> {
    pub n: &'a Net<'a>,
    pub h: &'a Net<'a>,
    pub c: &'a Cert,
}

impl Check<'_> {
    pub fn copy_of(&self, x: u32, k: u8) -> u32 {
        if (x as usize) < self.n.inputs { 3 * x + u32::from(k) } else { self.c.copies[x as usize - self.n.inputs][k as usize] }
    }

    /// Whether net g reads x for this partition and copy.
    pub fn reads(&self, g: u32, x: u32, part: u32, copy: u8) -> bool {
        if (g as usize) < self.h.inputs {
            return self.c.version == 1 && (x as usize) < self.n.inputs && g == 3 * x + u32::from(copy);
        }
        match self.c.roles[g as usize - self.h.inputs] {
            Role::Copy { of, copy: k } => of == x && k == copy && self.c.parts[of as usize - self.n.inputs] == part,
            Role::Voter { of, part: p, copy: k } => of == x && k == copy && p == part,
            Role::None => false,
        }
    }

    pub fn is_copy_right(&self, g: usize, of: u32, copy: u8) -> u8 {
        let (x, part) = (of as usize, self.c.parts[of as usize - self.n.inputs]);
        let (ours, theirs) = (self.h.pins_of(g), self.n.pins_of(x));
        let same_pins = || ours.len() == theirs.len() && ours.iter().zip(theirs).all(|(g, x)| self.reads(*g, *x, part, copy));
        match (&self.h.nodes[g - self.h.inputs].kind, &self.n.nodes[x - self.n.inputs].kind) {
            (NodeKind::Table { rows, count, on }, NodeKind::Table { rows: r, count: k, on: o }) => {
                if rows == r && count == k && (on == o || *count == 0) && same_pins() { 0 } else { 3 }
            }
            (NodeKind::Register { start }, NodeKind::Register { start: s }) => {
                let same = if self.c.version == 1 { (*start == 1) == (*s == 1) } else { (*start).min(2) == (*s).min(2) };
                if same && same_pins() { 0 } else { 4 }
            }
            (_, NodeKind::Table { .. }) => 3,
            (_, NodeKind::Register { .. }) => 4,
        }
    }

    pub fn is_voter_right(&self, g: usize, of: u32) -> bool {
        let NodeKind::Table { rows, count, on } = &self.h.nodes[g - self.h.inputs].kind else { return false };
        let pins = self.h.pins_of(g);
        if pins.len() != 3 || (0..3).any(|k| pins[k as usize] != self.copy_of(of, k)) {
            return false;
        }
        if rows == b"11-1-1-11" && *on {
            return true;
        }
        (0..8u8).all(|bits| {
            let bit = |j: usize| b'0' + (bits >> j & 1);
            let hit = (0..*count).any(|k| (0..3).all(|j| rows[3 * k + j] == b'-' || rows[3 * k + j] == bit(j)));
            (*count > 0 && hit == *on) == (bits.count_ones() >= 2)
        })
    }

    pub fn label_of(&self, g: u32) -> u32 {
        if (g as usize) < self.h.inputs {
            return 0;
        }
        match self.c.roles[g as usize - self.h.inputs] {
            Role::Copy { of, copy } => self.c.labels[of as usize - self.n.inputs][copy as usize],
            _ => 0,
        }
    }

    /// The least rule that fails, and where.
    pub fn all(&self) -> Option<(u8, usize)> {
        if self.h.inputs != 3 * self.n.inputs {
            return Some((1, 0));
        }
        if self.n.clock.map(|it| it.0) != self.h.clock.map(|it| it.0) {
            return Some((2, 0));
        }
        let mut least: Option<(u8, usize)> = None;
        let mut fails = |rule: u8, at: usize| {
            if least.is_none_or(|it| (rule, at) < it) {
                least = Some((rule, at));
            }
        };
        for y in 0..self.h.nodes.len() {
            let g = self.h.inputs + y;
            match self.c.roles[y] {
                Role::Copy { of, copy } => {
                    let rule = self.is_copy_right(g, of, copy);
                    if rule > 0 {
                        fails(rule, y);
                    }
                    let x = of as usize - self.n.inputs;
                    let label = self.c.labels[x][copy as usize];
                    let step = u32::from(matches!(self.n.nodes[x].kind, NodeKind::Register { .. }));
                    if self.h.pins_of(g).iter().any(|pin| self.label_of(*pin).checked_add(step).is_none_or(|it| it > label)) {
                        fails(6, y);
                    }
                    if label > self.c.depths[self.c.parts[x] as usize] {
                        fails(7, y);
                    }
                }
                Role::Voter { of, .. } => {
                    if !self.is_voter_right(g, of) {
                        fails(5, y);
                    }
                }
                Role::None => fails(5, y),
            }
        }
        if self.h.outputs.len() != 3 * self.n.outputs.len() {
            fails(8, 0);
        } else {
            for (k, x) in self.n.outputs.iter().enumerate() {
                for copy in 0..3u8 {
                    if self.h.outputs[3 * k + copy as usize] != self.copy_of(*x, copy) {
                        fails(8, 3 * k + copy as usize);
                    }
                }
            }
        }
        least
    }
}
