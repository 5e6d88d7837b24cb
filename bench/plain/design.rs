//! Flat designs, whose nets are numbers.
use crate::blif::{Element, Kind, Model};
use crate::names::{Fault, Map};

pub struct Node<'a> {
    /// Where its pins begin in the design's list of pins.
    pub pins: u32,
    pub kind: NodeKind<'a>,
}

pub enum NodeKind<'a> {
    Table { rows: &'a [u8], count: usize, on: bool },
    Register { start: u8 },
}

pub struct Net<'a> {
    pub model: &'a [u8],
    pub inputs: usize,
    pub names: Vec<&'a [u8]>,
    pub numbers: Map<&'a [u8], u32>,
    pub nodes: Vec<Node<'a>>,
    pub pins: Vec<u32>,
    pub outputs: Vec<u32>,
    pub clock: Option<(bool, &'a [u8])>,
}

impl<'a> Net<'a> {
    pub fn pins_of(&self, x: usize) -> &[u32] {
        let y = x - self.inputs;
        let end = self.nodes.get(y + 1).map_or(self.pins.len(), |it| it.pins as usize);
        &self.pins[self.nodes[y].pins as usize..end]
    }

    pub fn register_count(&self) -> usize {
        self.nodes.iter().filter(|it| matches!(it.kind, NodeKind::Register { .. })).count()
    }

    /// How many registers have an open initial value.
    pub fn open_count(&self) -> usize {
        self.nodes.iter().filter(|it| matches!(it.kind, NodeKind::Register { start: 2 | 3 })).count()
    }

    pub fn is_table(&self, x: u32) -> bool {
        x as usize >= self.inputs && matches!(self.nodes[x as usize - self.inputs].kind, NodeKind::Table { .. })
    }
}

/// A flat element by full names.
pub struct Flat<'a> {
    pub element: &'a Element<'a>,
    pub out: &'a [u8],
    pub pins: Vec<&'a [u8]>,
    pub control: Option<(bool, &'a [u8])>,
}

/// Names of placed nets live as long as the program.
pub fn kept(path: &str, name: &[u8]) -> &'static [u8] {
    let mut full = path.as_bytes().to_vec();
    full.extend_from_slice(name);
    full.leak()
}

pub struct Walk<'a> {
    pub models: &'a [Model<'a>],
    pub by_name: Map<&'a [u8], usize>,
    pub flats: Vec<Flat<'a>>,
}

impl<'a> Walk<'a> {
    pub fn go(&mut self, model: &'a Model<'a>, path: &str, bound: &Map<&'a [u8], &'a [u8]>, depth: usize) -> Result<(), Fault> {
        if depth > 1000 {
            return Err("recursive".to_string());
        }
        let net = |name: &'a [u8]| -> &'a [u8] {
            if path.is_empty() { name } else { bound.get(name).copied().unwrap_or_else(|| kept(path, name)) }
        };
        let mut count = 0;
        for element in &model.elements {
            match &element.kind {
                Kind::Placed { bound: bindings } => {
                    let Some(inner) = self.by_name.get(element.out) else { return Err("unknown model".to_string()) };
                    let models = self.models;
                    let mut map = Map::default();
                    for (formal, actual) in bindings {
                        map.insert(*formal, net(actual));
                    }
                    self.go(&models[*inner], &format!("{path}u{count}/"), &map, depth + 1)?;
                    count += 1;
                }
                Kind::Register { control, .. } => {
                    let control = control.map(|(edge, name)| (edge, net(name)));
                    self.flats.push(Flat { element, out: net(element.out), pins: vec![net(element.pins[0])], control });
                }
                Kind::Table { .. } => {
                    let pins = if path.is_empty() { element.pins.clone() } else { element.pins.iter().map(|it| net(it)).collect() };
                    self.flats.push(Flat { element, out: net(element.out), pins, control: None });
                }
            }
        }
        Ok(())
    }
}

pub fn is_ordered(n: &Net) -> bool {
    let total = n.names.len();
    let mut wait = vec![0u32; total];
    let mut starts = vec![0u32; total + 1];
    for x in n.inputs..total {
        if n.is_table(x as u32) {
            for pin in n.pins_of(x) {
                if n.is_table(*pin) {
                    wait[x] += 1;
                    starts[*pin as usize + 1] += 1;
                }
            }
        }
    }
    for x in 0..total {
        starts[x + 1] += starts[x];
    }
    let mut readers = vec![0u32; starts[total] as usize];
    let mut next = starts.clone();
    for x in n.inputs..total {
        if n.is_table(x as u32) {
            for pin in n.pins_of(x) {
                if n.is_table(*pin) {
                    readers[next[*pin as usize] as usize] = x as u32;
                    next[*pin as usize] += 1;
                }
            }
        }
    }
    let mut todo: Vec<u32> = (n.inputs as u32..total as u32).filter(|x| n.is_table(*x) && wait[*x as usize] == 0).collect();
    let mut done = 0;
    while let Some(x) = todo.pop() {
        done += 1;
        for y in &readers[starts[x as usize] as usize..starts[x as usize + 1] as usize] {
            wait[*y as usize] -= 1;
            if wait[*y as usize] == 0 {
                todo.push(*y);
            }
        }
    }
    done == (n.inputs..total).filter(|x| n.is_table(*x as u32)).count()
}

pub fn design<'a>(models: &'a [Model<'a>]) -> Result<Net<'a>, Fault> {
    let main = &models[0];
    let mut walk = Walk { models, by_name: models.iter().enumerate().map(|(k, it)| (it.name, k)).collect(), flats: Vec::with_capacity(main.elements.len()) };
    walk.go(main, "", &Map::default(), 0)?;
    let flats = walk.flats;
    let mut clock = None;
    let mut first = true;
    for it in &flats {
        if matches!(it.element.kind, Kind::Register { .. }) {
            if first {
                clock = it.control;
                first = false;
            } else if clock != it.control {
                return Err("mixed clock".to_string());
            }
        }
    }
    let mut names: Vec<&[u8]> = main.ports.iter().copied().filter(|it| clock.is_none_or(|(_, name)| name != *it)).collect();
    if clock.is_some() && names.len() == main.ports.len() {
        return Err("clock use".to_string());
    }
    let inputs = names.len();
    names.extend(flats.iter().map(|it| it.out));
    let mut numbers: Map<&[u8], u32> = Map::with_capacity_and_hasher(names.len(), Default::default());
    for (x, name) in names.iter().enumerate() {
        if numbers.insert(name, x as u32).is_some() {
            return Err("double driven".to_string());
        }
    }
    let mut pins = Vec::new();
    let mut nodes = Vec::with_capacity(flats.len());
    for it in &flats {
        let kind = match &it.element.kind {
            Kind::Table { rows, count, on } => NodeKind::Table { rows, count: *count, on: *on },
            Kind::Register { start, .. } => NodeKind::Register { start: *start },
            Kind::Placed { .. } => unreachable!(),
        };
        nodes.push(Node { pins: pins.len() as u32, kind });
        for pin in &it.pins {
            match numbers.get(pin) {
                Some(x) => pins.push(*x),
                None => return Err("undriven".to_string()),
            }
        }
    }
    let mut outputs = Vec::with_capacity(main.outputs.len());
    for name in &main.outputs {
        match numbers.get(name) {
            Some(x) => outputs.push(*x),
            None => return Err("undriven".to_string()),
        }
    }
    let net = Net { model: main.name, inputs, names, numbers, nodes, pins, outputs, clock };
    if is_ordered(&net) { Ok(net) } else { Err("combinational loop".to_string()) }
}
