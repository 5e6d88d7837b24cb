//! Rows of numbers, one behind the other.
use crate::design::Net;

pub struct Rows {
    starts: Vec<u32>,
    items: Vec<u32>,
}

impl Rows {
    pub fn row(&self, x: usize) -> &[u32] {
        &self.items[self.starts[x] as usize..self.starts[x + 1] as usize]
    }
}

/// For each node the other nodes that it reads, each once.
pub fn sources_of(n: &Net) -> Rows {
    let mut starts = Vec::with_capacity(n.nodes.len() + 1);
    let mut items: Vec<u32> = Vec::with_capacity(n.pins.len());
    starts.push(0);
    for y in 0..n.nodes.len() {
        let start = items.len();
        items.extend(n.pins_of(n.inputs + y).iter().filter(|it| **it as usize >= n.inputs && **it as usize != n.inputs + y).map(|it| it - n.inputs as u32));
        items[start..].sort_unstable();
        let mut kept = start;
        for at in start..items.len() {
            if kept == start || items[kept - 1] != items[at] {
                items[kept] = items[at];
                kept += 1;
            }
        }
        items.truncate(kept);
        starts.push(items.len() as u32);
    }
    Rows { starts, items }
}

/// For each number the rows in which it stands.
pub fn turned(rows: &Rows, count: usize) -> Rows {
    let mut starts = vec![0u32; count + 1];
    for x in &rows.items {
        starts[*x as usize + 1] += 1;
    }
    for x in 0..count {
        starts[x + 1] += starts[x];
    }
    let mut next = starts.clone();
    let mut items = vec![0; rows.items.len()];
    for y in 0..rows.starts.len() - 1 {
        for x in rows.row(y) {
            items[next[*x as usize] as usize] = y as u32;
            next[*x as usize] += 1;
        }
    }
    Rows { starts, items }
}
