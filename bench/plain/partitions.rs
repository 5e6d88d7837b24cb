//! Partitions: in the order of the file, and refined in eight passes.
use crate::design::Net;
use crate::rows::{sources_of, turned, Rows};

/// A node that more than this many nodes read has a list of the partitions that read it.
const NARROW: usize = 16;

pub struct Partitions {
    pub of: Vec<u32>,
    pub count: usize,
    pub cost: u64,
    pub plain: u64,
    pub minimal: bool,
}

/// Which of the lists of partitions a node has; none where few nodes read it.
const NO_LIST: u32 = u32::MAX;

struct Refining {
    sources: Rows,
    readers: Rows,
    of: Vec<u32>,
    held: Vec<u32>,
    most: u64,
    list: Vec<u32>,
    /// Partitions that read a node, with how many of its readers each has.
    lists: Vec<Vec<(u32, u32)>>,
    /// What a node gains in each partition, and the partitions where that is not 0.
    gain: Vec<u32>,
    met: Vec<u32>,
    /// The turn in which a partition was counted last.
    counted: Vec<u64>,
    turn: u64,
    /// When something changed at each net, and when each node was found content.
    changed: Vec<u32>,
    content: Vec<u32>,
    moves: u32,
}

/// How many pairs of a node and another partition there are in which it is read.
pub fn cost(readers: &Rows, of: &[u32], count: usize) -> u64 {
    let mut last = vec![u32::MAX; count];
    let mut cost = 0;
    for x in 0..of.len() {
        last[of[x] as usize] = x as u32;
        for y in readers.row(x) {
            let p = of[*y as usize] as usize;
            if last[p] != x as u32 {
                last[p] = x as u32;
                cost += 1;
            }
        }
    }
    cost
}

impl Refining {
    fn new(sources: Rows, readers: Rows, of: Vec<u32>, count: usize, size: u32) -> Refining {
        let nodes = of.len();
        let mut held = vec![0; count];
        of.iter().for_each(|p| held[*p as usize] += 1);
        let mut list = vec![NO_LIST; nodes];
        let mut lists = Vec::new();
        for x in 0..nodes {
            if readers.row(x).len() > NARROW {
                list[x] = lists.len() as u32;
                let mut parts: Vec<u32> = readers.row(x).iter().map(|y| of[*y as usize]).collect();
                parts.sort_unstable();
                lists.push(parts.chunk_by(|a, b| a == b).map(|it| (it[0], it.len() as u32)).collect());
            }
        }
        let most = u64::from(size) + u64::from(size / 4);
        Refining {
            sources, readers, of, held, most, list, lists,
            gain: vec![0; count], met: Vec::new(), counted: vec![0; count], turn: 0,
            changed: vec![1; nodes], content: vec![0; nodes], moves: 1,
        }
    }

    fn count_once(&mut self, p: u32) {
        let p = p as usize;
        if self.counted[p] != self.turn {
            self.counted[p] = self.turn;
            if self.gain[p] == 0 {
                self.met.push(p as u32);
            }
            self.gain[p] += 1;
        }
    }

    /// Counts one more in each partition in which another node than i reads x.
    fn count_readers(&mut self, x: usize, i: usize) {
        if self.list[x] == NO_LIST {
            for k in 0..self.readers.row(x).len() {
                let y = self.readers.row(x)[k] as usize;
                if y != i {
                    self.count_once(self.of[y]);
                }
            }
        } else {
            let list = self.list[x] as usize;
            for k in 0..self.lists[list].len() {
                let (p, count) = self.lists[list][k];
                if count > 1 || x == i || p != self.of[i] {
                    self.count_once(p);
                }
            }
        }
    }

    /// Where node i goes: the partition where it gains most, if that is more than in its own.
    fn best(&mut self, i: usize) -> u32 {
        let own = self.of[i];
        if self.changed[i] <= self.content[i] && self.sources.row(i).iter().all(|x| self.changed[*x as usize] <= self.content[i]) {
            return own;
        }
        self.turn += 1;
        self.count_readers(i, i);
        for k in 0..self.sources.row(i).len() {
            let x = self.sources.row(i)[k] as usize;
            self.turn += 1;
            self.count_once(self.of[x]);
            self.count_readers(x, i);
        }
        let (mut best, mut most) = (own, self.gain[own as usize]);
        let mut is_content = true;
        for p in &self.met {
            let gain = self.gain[*p as usize];
            is_content &= gain <= self.gain[own as usize];
            let leads = gain > most || (gain == most && best != own && *p < best);
            if leads && *p != own && u64::from(self.held[*p as usize]) < self.most {
                (best, most) = (*p, gain);
            }
        }
        if is_content {
            self.content[i] = self.moves;
        }
        for p in self.met.drain(..) {
            self.gain[p as usize] = 0;
        }
        best
    }

    fn go(&mut self, i: usize, to: u32) {
        let from = self.of[i];
        self.of[i] = to;
        self.held[from as usize] -= 1;
        self.held[to as usize] += 1;
        self.moves += 1;
        self.changed[i] = self.moves;
        for x in self.sources.row(i) {
            self.changed[*x as usize] = self.moves;
            if self.list[*x as usize] != NO_LIST {
                let list = &mut self.lists[self.list[*x as usize] as usize];
                let at = list.iter().position(|it| it.0 == from).unwrap();
                list[at].1 -= 1;
                if list[at].1 == 0 {
                    list.swap_remove(at);
                }
                match list.iter_mut().find(|it| it.0 == to) {
                    Some(it) => it.1 += 1,
                    None => list.push((to, 1)),
                }
            }
        }
    }

    fn has_room(&self) -> bool {
        self.held.len() > 1 && self.held.iter().any(|it| u64::from(*it) < self.most)
    }

    /// Whether some node moved.
    fn pass(&mut self) -> bool {
        let before = self.moves;
        for i in 0..self.of.len() {
            let to = self.best(i);
            if to != self.of[i] {
                self.go(i, to);
            }
        }
        self.moves != before
    }

    /// Makes eight passes at most, and says whether no single move of a node lowers the cost.
    fn refine(&mut self) -> bool {
        for _ in 0..8 {
            if !self.has_room() || !self.pass() {
                return true;
            }
        }
        (0..self.of.len()).all(|i| self.best(i) == self.of[i])
    }
}

pub fn partitions(n: &Net, size: u32) -> Partitions {
    let nodes = n.nodes.len();
    let count = nodes.div_ceil(size as usize);
    let of: Vec<u32> = (0..nodes as u32).map(|i| i / size).collect();
    let sources = sources_of(n);
    let readers = turned(&sources, nodes);
    let plain = cost(&readers, &of, count);
    let mut refining = Refining::new(sources, readers, of, count, size);
    let minimal = refining.refine();
    let cost = cost(&refining.readers, &refining.of, count);
    Partitions { of: refining.of, count, cost, plain, minimal }
}
