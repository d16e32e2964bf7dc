//! The arenas that inputs begin with.

use model::arena::*;

use super::{LENGTH, WORKERS};

/// As it is laid.
pub fn fresh(nodes: u16) -> Vec<u16> {
    let shape = Shape::new(WORKERS, nodes).expect("good counts");
    let mut arena = vec![0; shape.total()];
    init(&mut arena, WORKERS, nodes).expect("words enough");
    arena
}

/// An arena whose chain holds the keys 2, 4, 6, and so on.
pub fn with_keys(nodes: u16, keys: u16) -> Vec<u16> {
    let label = |place| Label {
        key: 2 * place,
        length: LENGTH,
    };
    with_labels(nodes, (1..=keys).map(label))
}

/// The same with as many keys as there is room for.
pub fn full(nodes: u16) -> Vec<u16> {
    with_keys(nodes, nodes - 2)
}

/// An arena whose chain holds these labels.
pub fn with_labels(nodes: u16, labels: impl Iterator<Item = Label>) -> Vec<u16> {
    let mut arena = fresh(nodes);
    let shape = shape_of(&arena);
    let mut last = HEAD;
    for (node, label) in (2..).zip(labels) {
        let at = shape.node_at(node);
        let record = [label.key, TAIL, 0, 0, label.length];
        arena[at..at + NODE_WORDS].copy_from_slice(&record);
        arena[shape.node_at(last) + NEXT] = node;
        arena[COUNT] += 1;
        last = node;
    }
    arena
}

/// Of an arena of layout 2.
pub fn shape_of(arena: &[u16]) -> Shape {
    check_header(arena).expect("a good header")
}
