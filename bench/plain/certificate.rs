//! Certificates.
use crate::design::Net;
use crate::names::Fault;

#[derive(Clone, Copy)]
pub enum Role {
    None,
    Copy { of: u32, copy: u8 },
    Voter { of: u32, part: u32, copy: u8 },
}

pub struct Cert {
    pub version: u32,
    pub depths: Vec<u32>,
    pub parts: Vec<u32>,
    pub copies: Vec<[u32; 3]>,
    pub labels: Vec<[u32; 3]>,
    pub roles: Vec<Role>,
}

pub fn number(word: &[u8]) -> Option<u32> {
    if word.is_empty() || word.len() > 10 || (word[0] == b'0' && word.len() > 1) {
        return None;
    }
    let mut value = 0u64;
    for b in word {
        if !b.is_ascii_digit() {
            return None;
        }
        value = value * 10 + u64::from(b - b'0');
    }
    u32::try_from(value).ok()
}

pub struct Lines<'a> {
    pub rest: &'a [u8],
    pub line: usize,
    pub words: Vec<&'a [u8]>,
}

impl Lines<'_> {
    pub fn next(&mut self) -> Result<(), Fault> {
        self.line += 1;
        let Some(end) = self.rest.iter().position(|b| *b == b'\n') else { return Err(self.bad("bad line")) };
        self.words.clear();
        self.words.extend(self.rest[..end].split(|b| *b == b' '));
        self.rest = &self.rest[end + 1..];
        Ok(())
    }

    pub fn bad(&self, what: &str) -> Fault {
        format!("line {}: {what}", self.line)
    }

    pub fn number(&self, i: usize) -> Result<u32, Fault> {
        number(self.words[i]).ok_or_else(|| self.bad("bad line"))
    }

    pub fn must(&self, fact: bool, what: &str) -> Result<(), Fault> {
        if fact { Ok(()) } else { Err(self.bad(what)) }
    }
}

pub fn cert(text: &[u8], n: &Net, h: &Net) -> Result<Cert, Fault> {
    let mut it = Lines { rest: text, line: 0, words: Vec::new() };
    it.next()?;
    it.must(it.words.len() == 2 && it.words[0] == b"tmr-cert", "bad line")?;
    let version = it.number(1)?;
    it.must(version == 1 || version == 2, "bad line")?;
    it.next()?;
    it.must(it.words.len() == 2 && it.words[0] == b"parts", "bad line")?;
    let count = it.number(1)?;
    let mut depths = Vec::new();
    for p in 0..count {
        it.next()?;
        it.must(it.words.len() == 4 && it.words[0] == b"part" && it.words[2] == b"depth" && it.number(1)? == p, "bad line")?;
        depths.push(it.number(3)?);
    }
    let mut c = Cert { version, depths, parts: Vec::with_capacity(n.nodes.len()), copies: Vec::with_capacity(n.nodes.len()), labels: Vec::with_capacity(n.nodes.len()), roles: vec![Role::None; h.nodes.len()] };
    let node_in = |net: &Net, word: &[u8]| net.numbers.get(word).copied().filter(|x| *x as usize >= net.inputs);
    for x in n.inputs..n.names.len() {
        it.next()?;
        it.must(it.words.len() == 9 && it.words[0] == b"node", "bad line")?;
        let part = it.number(2)?;
        let labels = [it.number(6)?, it.number(7)?, it.number(8)?];
        let own = node_in(n, it.words[1]);
        let copies = [node_in(h, it.words[3]), node_in(h, it.words[4]), node_in(h, it.words[5])];
        it.must(own.is_some() && copies.iter().all(|h| h.is_some()), "unknown net")?;
        it.must(own == Some(x as u32), "order")?;
        it.must(part < count, "range")?;
        for (k, copy) in copies.iter().enumerate() {
            let role = &mut c.roles[copy.unwrap() as usize - h.inputs];
            if !matches!(role, Role::None) {
                return Err(it.bad("doubled"));
            }
            *role = Role::Copy { of: x as u32, copy: k as u8 };
        }
        c.parts.push(part);
        c.copies.push(copies.map(|it| it.unwrap()));
        c.labels.push(labels);
    }
    for y in 0..h.nodes.len() {
        if !matches!(c.roles[y], Role::None) {
            continue;
        }
        it.next()?;
        it.must(it.words.len() == 5 && it.words[0] == b"voter", "bad line")?;
        let part = it.number(3)?;
        let copy = it.number(4)?;
        it.must(copy < 3, "bad line")?;
        let of = if version == 1 { node_in(n, it.words[2]) } else { n.numbers.get(it.words[2]).copied() };
        let voter = node_in(h, it.words[1]);
        it.must(of.is_some() && voter.is_some(), "unknown net")?;
        it.must(voter == Some((h.inputs + y) as u32), "order")?;
        it.must(part < count, "range")?;
        c.roles[y] = Role::Voter { of: of.unwrap(), part, copy: copy as u8 };
    }
    it.next()?;
    it.must(it.words.len() == 1 && it.words[0] == b"end" && it.rest.is_empty(), "bad line")?;
    Ok(c)
}
