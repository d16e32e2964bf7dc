//! Arenas of either layout: headers and converters alone know the old one.

use model::arena::*;
use model::rng::Rng;

/// Layout and counts of an arena.
#[derive(Clone, Copy, Debug, PartialEq, Eq)]
pub struct AnyShape {
    pub layout: u16,
    pub workers: u16,
    pub nodes: u16,
}

impl<const LAYOUT: u16> From<ShapeIn<LAYOUT>> for AnyShape {
    fn from(shape: ShapeIn<LAYOUT>) -> AnyShape {
        AnyShape {
            layout: LAYOUT,
            workers: shape.workers,
            nodes: shape.nodes,
        }
    }
}

impl AnyShape {
    /// A header test that takes both layouts: refusals 1 and 2.
    pub fn check(words: &[u16]) -> Result<AnyShape, u16> {
        let old = check_layout(words).map(|shape: OldShape| shape.into());
        old.or_else(|_| check_layout(words).map(|shape: Shape| shape.into()))
    }

    pub fn is_old(self) -> bool {
        self.layout == LAYOUT_1
    }

    fn new_shape(self) -> Shape {
        let AnyShape { workers, nodes, .. } = self;
        Shape { workers, nodes }
    }

    fn old_shape(self) -> OldShape {
        self.new_shape().in_layout()
    }

    /// The same counts in the other layout.
    pub fn other(self) -> AnyShape {
        if self.is_old() {
            self.new_shape().into()
        } else {
            self.old_shape().into()
        }
    }

    pub fn worker_at(self, worker: u16) -> usize {
        self.new_shape().worker_at(worker)
    }

    pub fn node_at(self, node: u16) -> usize {
        if self.is_old() {
            self.old_shape().node_at(node)
        } else {
            self.new_shape().node_at(node)
        }
    }

    pub fn total(self) -> usize {
        self.node_at(self.nodes)
    }

    pub fn max_count(self) -> u16 {
        if self.is_old() {
            self.old_shape().max_count()
        } else {
            self.new_shape().max_count()
        }
    }

    pub fn header(self, count: u16) -> [u16; HEADER_WORDS] {
        if self.is_old() {
            self.old_shape().header(count)
        } else {
            self.new_shape().header(count)
        }
    }

    /// In layout 1 the length is 0.
    pub fn label(self, words: &[u16], node: u16) -> Label {
        let at = self.node_at(node);
        if self.is_old() {
            let (key, length) = (words[at + KEY], 0);
            Label { key, length }
        } else {
            Label::read(words, at)
        }
    }
}

/// An arena in the old layout: another header, and no node has a fifth word.
pub fn old_words(new: &[u16]) -> Vec<u16> {
    let shape = Shape::read(new).expect("a good header");
    let mut words = shape.in_layout::<LAYOUT_1>().header(0).to_vec();
    words.extend(&new[HEADER_WORDS..shape.node_at(0)]);
    for node in 0..shape.nodes {
        words.extend(&new[shape.node_at(node)..][..LENGTH]);
    }
    words.extend(&new[shape.total()..]);
    words
}

/// And back: every length is 1, and the count is 0.
pub fn new_words(old: &[u16]) -> Vec<u16> {
    let shape = OldShape::read(old).expect("a good header of layout 1");
    let mut words = shape.in_layout::<LAYOUT_2>().header(0).to_vec();
    words.extend(&old[HEADER_WORDS..shape.node_at(0)]);
    for node in 0..shape.nodes {
        words.extend(&old[shape.node_at(node)..][..LENGTH]);
        words.push(1);
    }
    words.extend(&old[shape.total()..]);
    words
}

/// Brings an arena into the old layout, every other time with an odd header, and now and then with too
/// few words.
pub fn age(rng: &mut Rng, words: &mut Vec<u16>) {
    *words = old_words(words);
    if rng.chance(50) {
        make_odd(rng, words);
    }
    if rng.chance(8) {
        words.truncate(usize::from(words[5]).saturating_sub(1 + rng.index(20)));
    }
}

/// Changes one word of a header of layout 1, or its counts to some outside their ranges. There are words
/// enough for what it says then.
fn make_odd(rng: &mut Rng, words: &mut Vec<u16>) {
    let shape = OldShape::read(words).expect("a good header of layout 1");
    let OldShape { workers, nodes } = shape;
    let total = shape.total() as u16;
    match rng.range(0, 9) {
        0..=2 => words[COUNT] = *rng.pick(&[1, nodes - 2, NONE]),
        3 => words[7] = *rng.pick(&[1, NONE]),
        4 => words[5] = shape.in_layout::<LAYOUT_2>().total() as u16,
        5 => words[5] = *rng.pick(&[0, total - 1, total + 1]),
        6 => words[*rng.pick(&[3, 4])] ^= 1,
        7 => words[*rng.pick(&[1, 2])] ^= 1,
        8 => words[0] = *rng.pick(&[0, 3, 257]),
        _ => {
            let workers = *rng.pick(&[workers, 0, 9]);
            let nodes = if workers == shape.workers {
                *rng.pick(&[2, MAX_NODES + 1])
            } else {
                nodes
            };
            let header = OldShape { workers, nodes }.header(0);
            words[..HEADER_WORDS].copy_from_slice(&header);
        }
    }
    words.resize(words.len().max(words[5].into()), 0);
}
