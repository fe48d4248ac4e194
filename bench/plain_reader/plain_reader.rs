//! The yardstick of `bench/read.sh`: a plain reader of names, levels and expressions, unproved.
//!
//! It reads the lines `#NS #NI #US #ES #EV #EL #EP` of `docs/FORMAT.md` from standard input, keeps what they define,
//! and writes what `leancheck check` writes of a file without declarations: the line of the first fault (status 3), or
//! `units 0 yes 0 no 0 memory 0`. Every other tag is `UnknownTag` here.

use std::collections::hash_map::Entry;
use std::collections::HashMap;
use std::hash::Hash;
use std::io::{self, BufRead, BufReader};
use std::process::ExitCode;

const PIECE: usize = 1 << 16;
const LONGEST_LINE: u64 = 1 << 24;
const LONGEST_INPUT: u64 = 1 << 40;
const MOST_ITEMS: u64 = (1 << 32) - 1;
const SMALL: u64 = u32::MAX as u64;

#[derive(Debug, PartialEq)]
enum Fault {
    BadVersion,
    BadNumber,
    UnknownTag,
    MissingField,
    ExtraField,
    IndexTaken,
    IndexUnknown,
    LineTooLong,
    InputTooLong,
    TooManyItems,
    BadUtf8,
    NumberTooLarge,
    BadWord,
}

use Fault::*;

/// Fields between runs of spaces.
struct Fields<'a> {
    rest: &'a [u8],
}

impl<'a> Fields<'a> {
    fn next(&mut self) -> Result<&'a [u8], Fault> {
        let start = self.rest.iter().position(|&b| b != b' ').ok_or(MissingField)?;
        let rest = &self.rest[start..];
        let end = rest.iter().position(|&b| b == b' ').unwrap_or(rest.len());
        let (field, rest) = rest.split_at(end);
        self.rest = rest;
        Ok(field)
    }

    fn number(&mut self) -> Result<u32, Fault> {
        Ok(number(self.next()?, SMALL)? as u32)
    }

    fn end(&self) -> Result<(), Fault> {
        if self.rest.iter().all(|&b| b == b' ') { Ok(()) } else { Err(ExtraField) }
    }
}

fn is_digits(field: &[u8]) -> bool {
    !field.is_empty() && field.iter().all(u8::is_ascii_digit)
}

fn number(field: &[u8], most: u64) -> Result<u64, Fault> {
    if !is_digits(field) {
        return Err(BadNumber);
    }
    let mut value: u64 = 0;
    for &digit in field {
        value = value
            .checked_mul(10)
            .and_then(|v| v.checked_add(u64::from(digit - b'0')))
            .filter(|&v| v <= most)
            .ok_or(NumberTooLarge)?;
    }
    Ok(value)
}

/// Three numbers joined by dots: whether the first is 2.
fn version(field: &[u8]) -> Option<bool> {
    let mut parts = field.split(|&b| b == b'.');
    let (major, minor, patch) = (parts.next()?, parts.next()?, parts.next()?);
    if parts.next().is_some() || ![major, minor, patch].into_iter().all(is_digits) {
        return None;
    }
    Some(number(major, 2) == Ok(2))
}

#[allow(dead_code)]
enum Component {
    Text(String),
    Number(u64),
}

#[derive(Clone, Copy, PartialEq, Eq, Hash)]
enum Level {
    Zero,
    Succ(u32),
}

#[derive(Clone, Copy, PartialEq, Eq, Hash)]
enum Tree {
    Var(u32),
    Sort(u32),
    Lam(u32, u32),
    Pi(u32, u32),
}

/// Each node once.
struct Nodes<N> {
    rows: Vec<N>,
    places: HashMap<N, u32>,
}

impl<N: Copy + Eq + Hash> Nodes<N> {
    fn new() -> Self {
        Nodes { rows: Vec::new(), places: HashMap::new() }
    }

    fn place(&mut self, node: N) -> u32 {
        match self.places.entry(node) {
            Entry::Occupied(found) => *found.get(),
            Entry::Vacant(free) => {
                let place = self.rows.len() as u32;
                self.rows.push(node);
                *free.insert(place)
            }
        }
    }
}

type Numbering = HashMap<u32, u32>;

/// The own number is looked at before what it refers to, which `make` says.
fn define(
    numbering: &mut Numbering,
    own: u32,
    items: &mut u64,
    make: impl FnOnce() -> Option<u32>,
) -> Result<(), Fault> {
    match numbering.entry(own) {
        Entry::Occupied(_) => Err(IndexTaken),
        Entry::Vacant(free) => {
            free.insert(make().ok_or(IndexUnknown)?);
            *items += 1;
            if *items > MOST_ITEMS { Err(TooManyItems) } else { Ok(()) }
        }
    }
}

struct Library {
    started: bool,
    items: u64,
    name_numbers: Numbering,
    level_numbers: Numbering,
    tree_numbers: Numbering,
    names: Vec<(u32, Component)>,
    levels: Nodes<Level>,
    trees: Nodes<Tree>,
}

impl Library {
    fn new() -> Self {
        let mut levels = Nodes::new();
        let zero = levels.place(Level::Zero);
        Library {
            started: false,
            items: 0,
            name_numbers: HashMap::from([(0, 0)]),
            level_numbers: HashMap::from([(0, zero)]),
            tree_numbers: HashMap::new(),
            // The anonymous name stands behind no other.
            names: vec![(0, Component::Text(String::new()))],
            levels,
            trees: Nodes::new(),
        }
    }

    fn line(&mut self, line: &[u8]) -> Result<(), Fault> {
        let mut fields = Fields { rest: line };
        let Ok(first) = fields.next() else { return Ok(()) };
        if !self.started {
            self.started = true;
            if let (Some(is_read), Ok(())) = (version(first), fields.end()) {
                return if is_read { Ok(()) } else { Err(BadVersion) };
            }
        }
        if first[0] == b'#' {
            return Err(UnknownTag);
        }
        let own = number(first, SMALL)? as u32;
        match fields.next()? {
            b"#NS" => self.text_name(own, fields),
            b"#NI" => self.number_name(own, fields),
            b"#US" => self.succ(own, fields),
            b"#ES" => self.sort(own, fields),
            b"#EV" => self.var(own, fields),
            b"#EL" => self.binder(own, fields, Tree::Lam),
            b"#EP" => self.binder(own, fields, Tree::Pi),
            _ => Err(UnknownTag),
        }
    }

    fn text_name(&mut self, own: u32, mut fields: Fields) -> Result<(), Fault> {
        let parent = fields.number()?;
        let text = fields.rest.get(1..).unwrap_or_default();
        let text = std::str::from_utf8(text).map_err(|_| BadUtf8)?;
        self.name(own, parent, Component::Text(text.to_owned()))
    }

    fn number_name(&mut self, own: u32, mut fields: Fields) -> Result<(), Fault> {
        let parent = fields.number()?;
        let component = number(fields.next()?, u64::MAX)?;
        fields.end()?;
        self.name(own, parent, Component::Number(component))
    }

    fn name(&mut self, own: u32, parent: u32, component: Component) -> Result<(), Fault> {
        let parent = self.name_numbers.get(&parent).copied();
        let names = &mut self.names;
        define(&mut self.name_numbers, own, &mut self.items, || {
            let place = names.len() as u32;
            names.push((parent?, component));
            Some(place)
        })
    }

    fn succ(&mut self, own: u32, mut fields: Fields) -> Result<(), Fault> {
        let of = fields.number()?;
        fields.end()?;
        let of = self.level_numbers.get(&of).copied();
        let levels = &mut self.levels;
        define(&mut self.level_numbers, own, &mut self.items, || Some(levels.place(Level::Succ(of?))))
    }

    fn sort(&mut self, own: u32, mut fields: Fields) -> Result<(), Fault> {
        let level = fields.number()?;
        fields.end()?;
        let level = self.level_numbers.get(&level).copied();
        let trees = &mut self.trees;
        define(&mut self.tree_numbers, own, &mut self.items, || Some(trees.place(Tree::Sort(level?))))
    }

    fn var(&mut self, own: u32, mut fields: Fields) -> Result<(), Fault> {
        let index = fields.number()?;
        fields.end()?;
        let trees = &mut self.trees;
        define(&mut self.tree_numbers, own, &mut self.items, || Some(trees.place(Tree::Var(index))))
    }

    fn binder(&mut self, own: u32, mut fields: Fields, make: fn(u32, u32) -> Tree) -> Result<(), Fault> {
        if !matches!(fields.next()?, b"#BD" | b"#BI" | b"#BS" | b"#BC") {
            return Err(BadWord);
        }
        let name = fields.number()?;
        let domain = fields.number()?;
        let body = fields.number()?;
        fields.end()?;
        let name = self.name_numbers.get(&name);
        let domain = self.tree_numbers.get(&domain).copied();
        let body = self.tree_numbers.get(&body).copied();
        let trees = &mut self.trees;
        define(&mut self.tree_numbers, own, &mut self.items, || {
            name?;
            Some(trees.place(make(domain?, body?)))
        })
    }
}

/// The line and word of the first fault, or `None`.
fn read(mut input: impl BufRead, library: &mut Library) -> io::Result<Option<(u64, Fault)>> {
    let mut number: u64 = 1;
    let mut taken: u64 = 0;
    // Of a line that no piece holds whole: its bytes so far, up to the longest, and how many they are.
    let mut held: Vec<u8> = Vec::new();
    let mut length: u64 = 0;
    loop {
        let piece = input.fill_buf()?;
        let (part, used) = match piece.iter().position(|&b| b == b'\n') {
            Some(end) => (&piece[..end], end + 1),
            None => (piece, piece.len()),
        };
        let ends = used == 0 || used > part.len();
        if used == 0 && length == 0 {
            return Ok(None);
        }
        taken += used as u64;
        length += part.len() as u64;
        if taken > LONGEST_INPUT {
            return Ok(Some((number, InputTooLong)));
        }
        let whole = ends && held.is_empty();
        if !whole && length <= LONGEST_LINE {
            held.extend_from_slice(part);
        }
        if ends {
            let line = if whole { part } else { &held };
            let told = if length > LONGEST_LINE { Err(LineTooLong) } else { library.line(line) };
            if let Err(fault) = told {
                return Ok(Some((number, fault)));
            }
            held.clear();
            length = 0;
            number += 1;
        }
        input.consume(used);
    }
}

fn main() -> ExitCode {
    let mut library = Library::new();
    match read(BufReader::with_capacity(PIECE, io::stdin().lock()), &mut library) {
        Err(_) => ExitCode::from(4),
        Ok(Some((line, fault))) => {
            println!("bad line {line} {fault:?}");
            ExitCode::from(3)
        }
        Ok(None) => {
            println!("units 0 yes 0 no 0 memory 0");
            ExitCode::SUCCESS
        }
    }
}
