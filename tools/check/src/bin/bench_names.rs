//! `bench_names`: what it would cost to hand the prover's names down by value, a
//! struct of 256 bindings and a length, where they are lent: the same fold of a
//! sum of names both ways, in one run.

use check::timing::measure;
use std::hint::black_box;

const ROOM: usize = 256;
const NODES: usize = 4_095;

#[derive(Clone, Copy, Default)]
struct Binding {
    name: u64,
    _sort: u64,
    payload: u64,
}

#[derive(Clone, Copy)]
struct Names {
    slots: [Binding; ROOM],
    len: usize,
}

enum Node {
    Name(u64),
    Sum(usize, usize),
}

fn lookup(names: &[Binding], name: u64) -> u64 {
    names.iter().rev().find(|b| b.name == name).map_or(0, |b| b.payload)
}

#[inline(never)]
fn lent(nodes: &[Node], names: &[Binding], n: usize) -> u64 {
    match nodes[n] {
        Node::Name(name) => lookup(names, name),
        Node::Sum(l, r) => lent(nodes, names, l).wrapping_add(lent(nodes, names, r)),
    }
}

#[inline(never)]
fn by_value(nodes: &[Node], names: Names, n: usize) -> u64 {
    match nodes[n] {
        Node::Name(name) => lookup(&names.slots[..names.len], name),
        Node::Sum(l, r) => by_value(nodes, names, l).wrapping_add(by_value(nodes, names, r)),
    }
}

fn main() {
    // a heap: the children of node n are 2n + 1 and 2n + 2
    let node = |n: usize| {
        if 2 * n + 2 < NODES {
            Node::Sum(2 * n + 1, 2 * n + 2)
        } else {
            Node::Name(n as u64 % 4)
        }
    };
    let nodes: Vec<Node> = (0..NODES).map(node).collect();
    let mut names = Names { slots: [Binding::default(); ROOM], len: 4 };
    for (n, slot) in names.slots.iter_mut().take(4).enumerate() {
        *slot = Binding { name: n as u64, payload: n as u64 + 1, ..*slot };
    }
    let borrowed = &names.slots[..names.len];
    assert_eq!(lent(&nodes, borrowed, 0), by_value(&nodes, names, 0));
    let mut ours = || _ = black_box(lent(black_box(&nodes), black_box(borrowed), 0));
    let mut other = || _ = black_box(by_value(black_box(&nodes), black_box(names), 0));
    let [ours, other] = measure([&mut ours, &mut other]).map(|time| time / NODES as f64);
    println!("a fold of {NODES} nodes under 4 names; ns a node");
    println!("{:<28}{ours:>8.1}", "lent");
    println!("{:<28}{other:>8.1}", "256 bindings by value");
}
