//! The chain of an arena as a snapshot meets it: to choose room and cells by, and to tell what was
//! met.

use model::arena::*;

use super::layouts::AnyShape;

/// Where the nodes of a chain end.
#[derive(Clone, Copy, Debug, PartialEq, Eq)]
pub enum End {
    Tail,
    /// The last link leads to no node.
    Link,
    /// The last link leads to this node, whose key is not above the one before.
    Key(u16),
}

/// The nodes between Head and Tail, marked or not, up to the first fault.
pub struct Chain<'a> {
    words: &'a [u16],
    pub shape: AnyShape,
    pub nodes: Vec<u16>,
    pub end: End,
}

impl<'a> Chain<'a> {
    /// None if the header is not good, or an old one.
    pub fn of(words: &'a [u16]) -> Option<Chain<'a>> {
        let shape = check_header(words).ok()?;
        Some(Chain::of_shape(words, shape.into()))
    }

    /// The same in either layout, for sources of a converter.
    pub fn of_any(words: &'a [u16]) -> Option<Chain<'a>> {
        let shape = AnyShape::check(words).ok()?;
        Some(Chain::of_shape(words, shape))
    }

    fn of_shape(words: &'a [u16], shape: AnyShape) -> Chain<'a> {
        let mut chain = Chain {
            words,
            shape,
            nodes: Vec::new(),
            end: End::Tail,
        };
        let mut last = HEAD;
        loop {
            let node = chain.word(last, NEXT);
            if node == TAIL {
                return chain;
            }
            if node >= shape.nodes {
                chain.end = End::Link;
                return chain;
            }
            if chain.word(node, KEY) <= chain.word(last, KEY) {
                chain.end = End::Key(node);
                return chain;
            }
            chain.nodes.push(node);
            last = node;
        }
    }

    pub fn word(&self, node: u16, place: usize) -> u16 {
        self.words[self.shape.node_at(node) + place]
    }

    pub fn label(&self, node: u16) -> Label {
        self.shape.label(self.words, node)
    }

    pub fn is_marked(&self, node: u16) -> bool {
        self.word(node, MARK) != 0
    }

    /// How many nodes are not marked.
    pub fn listed(&self) -> usize {
        let nodes = self.nodes.iter();
        nodes.filter(|&&node| !self.is_marked(node)).count()
    }

    /// Those nodes, in chain order.
    pub fn listed_nodes(&self) -> Vec<u16> {
        let mut nodes = self.nodes.clone();
        nodes.retain(|&node| !self.is_marked(node));
        nodes
    }

    /// By number, which nodes of the arena are among these.
    pub fn row_of(&self, nodes: &[u16]) -> Vec<bool> {
        let mut row = vec![false; self.shape.nodes.into()];
        for &node in nodes {
            row[usize::from(node)] = true;
        }
        row
    }

    /// The node before this place in the chain.
    pub fn before(&self, place: usize) -> u16 {
        place
            .checked_sub(1)
            .map_or(HEAD, |before| self.nodes[before])
    }

    /// The last node that is not marked, or Head.
    pub fn last_listed(&self) -> u16 {
        let mut nodes = self.nodes.iter().rev();
        let listed = nodes.find(|&&node| !self.is_marked(node));
        listed.copied().unwrap_or(HEAD)
    }
}
