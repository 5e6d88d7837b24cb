//! Netlists as they stand in the text.
use crate::names::{is_name, Fault, Map};

#[derive(Clone, PartialEq, Eq)]
pub enum Kind<'a> {
    /// Pins, rows as they stand (marks one behind the other), how many, and the output.
    Table { rows: Vec<u8>, count: usize, on: bool },
    Register { start: u8, control: Option<(bool, &'a [u8])> },
    Placed { bound: Vec<(&'a [u8], &'a [u8])> },
}

pub struct Element<'a> {
    /// The output of a table or register, or the model that is placed.
    pub out: &'a [u8],
    pub pins: Vec<&'a [u8]>,
    pub kind: Kind<'a>,
}

#[derive(Default)]
pub struct Model<'a> {
    pub name: &'a [u8],
    pub inputs: Vec<&'a [u8]>,
    pub ports: Vec<&'a [u8]>,
    pub clocks: Vec<&'a [u8]>,
    pub outputs: Vec<&'a [u8]>,
    pub elements: Vec<Element<'a>>,
}

/// The tokens of the next joined line: true where there is one.
pub struct Statements<'a> {
    pub text: &'a [u8],
    pub at: usize,
    pub line: usize,
}

impl<'a> Statements<'a> {
    /// Reads the next statement's tokens, and answers the number of its first line.
    pub fn next(&mut self, tokens: &mut Vec<&'a [u8]>) -> Option<usize> {
        tokens.clear();
        let mut first = 0;
        let mut joins = false;
        while self.at < self.text.len() {
            let rest = &self.text[self.at..];
            let end = rest.iter().position(|b| *b == b'\n').unwrap_or(rest.len());
            self.at += end + 1;
            self.line += 1;
            if !joins {
                first = self.line;
            }
            let mut line = &rest[..end];
            if let [front @ .., b'\r'] = line {
                line = front;
            }
            if let Some(hash) = line.iter().position(|b| *b == b'#') {
                line = &line[..hash];
            }
            while let [front @ .., b' ' | b'\t'] = line {
                line = front;
            }
            joins = line.last() == Some(&b'\\');
            if joins {
                line = &line[..line.len() - 1];
            }
            let mut start = 0;
            for at in 0..line.len() {
                if line[at] == b' ' || line[at] == b'\t' {
                    if at > start {
                        tokens.push(&line[start..at]);
                    }
                    start = at + 1;
                }
            }
            if line.len() > start {
                tokens.push(&line[start..]);
            }
            if !joins && !tokens.is_empty() {
                return Some(first);
            }
        }
        if joins { None } else if tokens.is_empty() { None } else { Some(first) }
    }
}

pub fn has_twice(names: &[&[u8]]) -> bool {
    let mut seen: Map<&[u8], ()> = Map::default();
    names.iter().any(|name| seen.insert(name, ()).is_some())
}

pub fn start_of(rest: &[&[u8]]) -> Option<u8> {
    match rest.len() {
        3 | 5 => match rest[rest.len() - 1] {
            [digit @ b'0'..=b'3'] => Some(digit - b'0'),
            _ => None,
        },
        _ => Some(3),
    }
}

pub fn add_row(model: &mut Model, words: &[&[u8]]) -> bool {
    let Some(Element { pins, kind: Kind::Table { rows, count, on }, .. }) = model.elements.last_mut() else { return false };
    let (marks, output): (&[u8], &[u8]) = match words {
        [output] if pins.is_empty() => (&[], output),
        [marks, output] if !pins.is_empty() => (marks, output),
        _ => return false,
    };
    let is_on = output == b"1";
    if marks.len() != pins.len() || !marks.iter().all(|b| matches!(b, b'0' | b'1' | b'-')) || (output != b"0" && !is_on) || (*count > 0 && *on != is_on) {
        return false;
    }
    *on = is_on;
    *count += 1;
    rows.extend_from_slice(marks);
    true
}

pub fn library(text: &[u8]) -> Result<Vec<Model<'_>>, Fault> {
    let mut models: Vec<Model> = Vec::new();
    let mut names: Map<&[u8], ()> = Map::default();
    let mut lines = Statements { text, at: 0, line: 0 };
    let mut words = Vec::new();
    let (mut is_open, mut is_row) = (false, false);
    while let Some(line) = lines.next(&mut words) {
        let bad = |what: &str| Err(format!("line {line}: {what}"));
        let rest = &words[1..];
        let dotted = words[0][0] == b'.';
        if !is_open && words[0] != b".model" {
            return bad("no model");
        }
        if !dotted {
            if !is_row || !add_row(models.last_mut().unwrap(), &words) {
                return bad("bad row");
            }
            continue;
        }
        is_row = words[0] == b".names";
        match words[0] {
            b".model" => {
                if rest.len() != 1 || !is_name(rest[0]) || names.insert(rest[0], ()).is_some() {
                    return bad("bad model");
                }
                models.push(Model { name: rest[0], ..Model::default() });
                is_open = true;
                continue;
            }
            b".end" => {
                is_open = false;
                continue;
            }
            _ => {}
        }
        let model = models.last_mut().unwrap();
        match words[0] {
            b".names" => {
                if rest.is_empty() || !rest.iter().all(|it| is_name(it)) {
                    return bad("bad name");
                }
                let (out, pins) = rest.split_last().unwrap();
                model.elements.push(Element { out, pins: pins.to_vec(), kind: Kind::Table { rows: Vec::new(), count: 0, on: true } });
            }
            b".latch" => {
                if !(2..=5).contains(&rest.len()) || !is_name(rest[0]) || !is_name(rest[1]) {
                    return bad("bad latch");
                }
                let control = if rest.len() > 3 {
                    if (rest[2] != b"re" && rest[2] != b"fe") || !is_name(rest[3]) {
                        return bad("bad latch");
                    }
                    (rest[3] != b"NIL").then(|| (rest[2] == b"re", rest[3]))
                } else {
                    None
                };
                let Some(start) = start_of(rest) else { return bad("bad latch") };
                model.elements.push(Element { out: rest[1], pins: vec![rest[0]], kind: Kind::Register { start, control } });
            }
            b".subckt" => {
                if rest.is_empty() || !is_name(rest[0]) {
                    return bad("bad name");
                }
                let mut bound = Vec::with_capacity(rest.len() - 1);
                for it in &rest[1..] {
                    match it.iter().position(|b| *b == b'=') {
                        Some(at) if is_name(&it[..at]) && is_name(&it[at + 1..]) => bound.push((&it[..at], &it[at + 1..])),
                        _ => return bad("bad binding"),
                    }
                }
                model.elements.push(Element { out: rest[0], pins: Vec::new(), kind: Kind::Placed { bound } });
            }
            b".inputs" | b".outputs" | b".clock" => {
                if !rest.iter().all(|it| is_name(it)) {
                    return bad("bad name");
                }
                let list = match words[0] {
                    b".inputs" => &mut model.inputs,
                    b".outputs" => &mut model.outputs,
                    _ => &mut model.clocks,
                };
                list.extend_from_slice(rest);
                if words[0] != b".outputs" {
                    model.ports.extend_from_slice(rest);
                }
            }
            _ => return bad("unsupported"),
        }
    }
    if models.is_empty() {
        return Err("line 1: no model".to_string());
    }
    for model in &mut models {
        if has_twice(&model.inputs) || has_twice(&model.outputs) || has_twice(&model.clocks) {
            return Err("duplicate port".to_string());
        }
        if !model.clocks.is_empty() {
            let mut seen: Map<&[u8], ()> = Map::default();
            model.ports.retain(|it| seen.insert(it, ()).is_none());
        }
    }
    Ok(models)
}
