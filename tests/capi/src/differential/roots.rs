//! The roots of a search and what they lead to: to tell what a search met.

use model::arena::*;

use crate::library::Values;

/// Words of a worker's record that are roots.
pub const ROOTS: [usize; 3] = [PRED, CURR, SPARE];

// Kinds of roots, a bit each.
pub const FROM_HEAD: u8 = 1;
pub const FROM_TAIL: u8 = 2;
pub const FROM_ENDS: u8 = FROM_HEAD | FROM_TAIL;
/// In the order of `ROOTS`.
pub const FROM_BUSY: [u8; 3] = [4, 8, 16];
pub const FROM_IDLE: [u8; 3] = [32, 64, 128];

/// A worker's word that is a root.
pub struct Root {
    pub worker: u16,
    pub is_idle: bool,
    /// In `ROOTS`.
    pub place: usize,
    /// Any number.
    pub node: u16,
}

pub fn worker_roots(words: &[u16], shape: Shape) -> impl Iterator<Item = Root> + '_ {
    (0..shape.workers).flat_map(move |worker| {
        let at = shape.worker_at(worker);
        let root = move |place: usize| Root {
            worker,
            is_idle: words[at + STAGE] == 0,
            place,
            node: words[at + ROOTS[place]],
        };
        (0..ROOTS.len()).map(root)
    })
}

/// An arena's nodes, and the kinds of roots that lead to each.
pub struct Rooted<'a> {
    words: &'a [u16],
    pub shape: Shape,
    /// 0 for a free node.
    kinds: Vec<u8>,
}

impl<'a> Rooted<'a> {
    /// None if the header is not good.
    pub fn of(words: &'a [u16]) -> Option<Rooted<'a>> {
        let shape = check_header(words).ok()?;
        let kinds = vec![0; shape.nodes as usize];
        let mut rooted = Rooted {
            words,
            shape,
            kinds,
        };
        rooted.lead(HEAD, FROM_HEAD);
        rooted.lead(TAIL, FROM_TAIL);
        for root in worker_roots(words, shape) {
            let kinds = if root.is_idle { FROM_IDLE } else { FROM_BUSY };
            rooted.lead(root.node, kinds[root.place]);
        }
        Some(rooted)
    }

    /// Each kind goes its own way to the end, so that no node lacks one that leads to it.
    fn lead(&mut self, root: u16, kind: u8) {
        let mut node = root;
        while node < self.shape.nodes && self.kinds[node as usize] & kind == 0 {
            self.kinds[node as usize] |= kind;
            node = self.next(node);
        }
    }

    pub fn next(&self, node: u16) -> u16 {
        self.words[self.shape.node_at(node) + NEXT]
    }

    pub fn is_marked(&self, node: u16) -> bool {
        self.words[self.shape.node_at(node) + MARK] != 0
    }

    pub fn kinds(&self, node: u16) -> u8 {
        self.kinds[node as usize]
    }

    /// Whether there is such a node among those that are not free, by number and kinds.
    pub fn keeps(&self, is_such: impl Fn(u16, u8) -> bool) -> bool {
        let mut nodes = (0..).zip(&self.kinds);
        nodes.any(|(node, &kinds)| kinds != 0 && is_such(node, kinds))
    }

    /// What the workers' words name.
    pub fn named(&self) -> Vec<u16> {
        let roots = worker_roots(self.words, self.shape);
        roots.map(|root| root.node).collect()
    }

    pub fn has_words_past_total(&self) -> bool {
        self.words.len() > self.shape.total()
    }

    /// What a search must answer.
    pub fn found(&self) -> Values {
        let free = self.kinds.iter().position(|&kinds| kinds == 0);
        let others = self.kinds.iter().filter(|&&kinds| kinds != 0);
        Values {
            first: free.map_or(NONE, |node| node as u16),
            second: others.count() as u16,
            ..Values::default()
        }
    }

    /// A node of the circle that the links lead into from here: after N of them some node was met
    /// twice.
    pub fn circle(&self, from: u16) -> Option<u16> {
        let mut node = from;
        for _ in 0..self.shape.nodes {
            if node >= self.shape.nodes {
                return None;
            }
            node = self.next(node);
        }
        (node < self.shape.nodes).then_some(node)
    }
}
