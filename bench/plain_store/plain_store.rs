//! What `store_bench` does, by a plain store and plain walks with std alone: something to measure against.
//!
//! usage: plain_store WORK N, with the works of `crates/store_bench/src/main.rt`
use std::collections::HashMap;

#[derive(Clone, Copy, PartialEq, Eq, Hash)]
enum Node {
    Var(u32),
    Sort,
    App(u32, u32),
    Lam(u32, u32),
    Local(u32, u32),
}

struct Cell {
    node: Node,
    loose: u32,
    local: u32,
}

#[derive(Default)]
struct Store {
    cells: Vec<Cell>,
    index: HashMap<Node, u32>,
}

impl Store {
    fn make(&mut self, node: Node) -> u32 {
        if let Some(e) = self.index.get(&node) {
            return *e;
        }
        let (loose, local) = match node {
            Node::Var(i) => (i + 1, 0),
            Node::Sort => (0, 0),
            Node::App(f, a) => {
                let (f, a) = (&self.cells[f as usize], &self.cells[a as usize]);
                (f.loose.max(a.loose), f.local.max(a.local))
            }
            Node::Lam(t, b) => {
                let (t, b) = (&self.cells[t as usize], &self.cells[b as usize]);
                (t.loose.max(b.loose.saturating_sub(1)), t.local.max(b.local))
            }
            Node::Local(k, t) => (0, self.cells[t as usize].local.max(k + 1)),
        };
        let e = self.cells.len() as u32;
        self.cells.push(Cell { node, loose, local });
        self.index.insert(node, e);
        e
    }
}

enum Turn {
    Visit(u32, u32),
    Build(u32, u32),
}

/// What `leaf` makes of the nodes where it answers, and else of the children; each pair of a number and a depth once.
fn walk(store: &mut Store, e: u32, leaf: impl Fn(&mut Store, u32, u32) -> Option<u32>) -> u32 {
    let mut made: HashMap<(u32, u32), u32> = HashMap::new();
    let mut turns = vec![Turn::Visit(e, 0)];
    let mut built = Vec::new();
    while let Some(turn) = turns.pop() {
        match turn {
            Turn::Visit(e, depth) => {
                if let Some(r) = leaf(store, e, depth) {
                    built.push(r);
                } else if let Some(r) = made.get(&(e, depth)) {
                    built.push(*r);
                } else {
                    turns.push(Turn::Build(e, depth));
                    match store.cells[e as usize].node {
                        Node::App(f, a) => {
                            turns.push(Turn::Visit(a, depth));
                            turns.push(Turn::Visit(f, depth));
                        }
                        Node::Lam(t, b) => {
                            turns.push(Turn::Visit(b, depth + 1));
                            turns.push(Turn::Visit(t, depth));
                        }
                        _ => unreachable!(),
                    }
                }
            }
            Turn::Build(e, depth) => {
                let second = built.pop().unwrap();
                let first = built.pop().unwrap();
                let r = match store.cells[e as usize].node {
                    Node::App(..) => store.make(Node::App(first, second)),
                    _ => store.make(Node::Lam(first, second)),
                };
                made.insert((e, depth), r);
                built.push(r);
            }
        }
    }
    built.pop().unwrap()
}

fn open(store: &mut Store, body: u32, value: u32) -> u32 {
    walk(store, body, |store, e, depth| {
        let cell = &store.cells[e as usize];
        if cell.loose <= depth {
            return Some(e);
        }
        match cell.node {
            Node::Var(i) if i == depth => Some(value),
            Node::Var(i) => Some(store.make(Node::Var(i - 1))),
            _ => None,
        }
    })
}

fn close(store: &mut Store, e: u32, number: u32) -> u32 {
    walk(store, e, |store, e, depth| {
        let cell = &store.cells[e as usize];
        if cell.local <= number {
            return Some(e);
        }
        match cell.node {
            Node::Local(k, _) if k == number => Some(store.make(Node::Var(depth))),
            Node::Local(..) => Some(e),
            _ => None,
        }
    })
}

fn distinct(store: &mut Store, n: u32) -> u32 {
    let mut last = store.make(Node::Sort);
    for i in 0..n {
        last = store.make(Node::App(last, i / 2));
    }
    last
}

fn opened_and_closed(store: &mut Store, body: u32) -> u32 {
    let sort = store.make(Node::Sort);
    let local = store.make(Node::Local(0, sort));
    let inside = open(store, body, local);
    close(store, inside, 0)
}

fn main() {
    let words: Vec<String> = std::env::args().collect();
    let n: u32 = words[2].parse().unwrap();
    let mut store = Store::default();
    let e = match words[1].as_str() {
        "make" => distinct(&mut store, n),
        "repeat" => {
            distinct(&mut store, n);
            distinct(&mut store, n)
        }
        "binders" => {
            let sort = store.make(Node::Sort);
            let mut body = store.make(Node::Var(n));
            for _ in 0..n {
                body = store.make(Node::Lam(sort, body));
            }
            opened_and_closed(&mut store, body)
        }
        "applications" => {
            let sort = store.make(Node::Sort);
            let mut body = store.make(Node::Var(0));
            for _ in 0..n {
                body = store.make(Node::App(body, sort));
            }
            opened_and_closed(&mut store, body)
        }
        _ => {
            let mut body = store.make(Node::Var(0));
            for _ in 0..n {
                body = store.make(Node::App(body, body));
            }
            let sort = store.make(Node::Sort);
            let local = store.make(Node::Local(0, sort));
            open(&mut store, body, local)
        }
    };
    println!("{e}");
}
