//! What must have been met of searches: roots and links of every kind, and all that a count of
//! reads can go wrong with.

use model::arena::*;

use super::met::Met;
use super::roots::*;

const NONE_FREE: &str = "searches that find none";
const NONE_OF_1024: &str = "searches of 1,024 nodes that find none";
const FREE_BELOW: &str = "searches: a free node below one that is not";
const LAST_FREE: &str = "searches: the last node is free, no other";
const BY_BUSY: [&str; 3] = [
    "searches: kept by a busy worker's pred alone",
    "searches: kept by a busy worker's curr alone",
    "searches: kept by a busy worker's spare alone",
];
const BY_IDLE: [&str; 3] = [
    "searches: kept by an idle worker's pred alone",
    "searches: kept by an idle worker's curr alone",
    "searches: kept by an idle worker's spare alone",
];
const BY_TAIL: &str = "searches: kept by Tail's link alone";
const REMOVED: &str = "searches from fresh: a removed node is kept";
const LED_TO: &str = "searches from fresh: by another removed one";
const SAME_ROOT: &str = "searches: two roots are one node off the chain";
const CIRCLE: &str = "searches: a worker leads to a circle of its own";
const SELF_LOOP: &str = "searches: a node off the chain leads to itself";
const FREE_CIRCLE: &str = "searches: a free node leads to a free circle";
const LINK_N: &str = "searches: a link of N is read";
const LINK_NONE: &str = "searches: a link of 65,535 is read";
const LINK_OFF: &str = "searches: a link of N or more off the chain";
const ROOT_N: &str = "searches: a root is N";
const PAST_TOTAL: &str = "searches with words past the total";

/// In the order in which they are printed.
pub const ALL: [&str; 22] = [
    NONE_FREE,
    NONE_OF_1024,
    FREE_BELOW,
    LAST_FREE,
    BY_BUSY[0],
    BY_BUSY[1],
    BY_BUSY[2],
    BY_IDLE[0],
    BY_IDLE[1],
    BY_IDLE[2],
    BY_TAIL,
    REMOVED,
    LED_TO,
    SAME_ROOT,
    CIRCLE,
    SELF_LOOP,
    FREE_CIRCLE,
    LINK_N,
    LINK_NONE,
    LINK_OFF,
    ROOT_N,
    PAST_TOTAL,
];

/// Neither Head nor Tail leads there.
fn is_off_chain(kinds: u8) -> bool {
    kinds & FROM_ENDS == 0
}

impl Met {
    /// Notes an accepted search; `reached` is for arenas reached from a fresh one.
    pub fn note_search(&mut self, rooted: &Rooted, reached: bool) {
        let (shape, found) = (rooted.shape, rooted.found());
        let (node, reads) = (found.first, found.second);
        self.add(NONE_FREE, node == NONE);
        self.add(NONE_OF_1024, node == NONE && shape.nodes == MAX_NODES);
        self.add(FREE_BELOW, node < reads);
        self.add(LAST_FREE, node == shape.nodes - 1);
        self.add(PAST_TOTAL, rooted.has_words_past_total());
        let is_free = |node: u16| rooted.kinds(node) == 0;
        self.add(FREE_CIRCLE, rooted.circle(node).is_some_and(is_free));
        self.note_kept(rooted);
        self.note_links(rooted);
        let named = rooted.named();
        self.note_roots(rooted, &named);
        if reached {
            let is_removed = |node, kinds| is_off_chain(kinds) && rooted.is_marked(node);
            self.add(REMOVED, rooted.keeps(is_removed));
            let is_led_to = |node, kinds| is_removed(node, kinds) && !named.contains(&node);
            self.add(LED_TO, rooted.keeps(is_led_to));
        }
    }

    /// Nodes that would be free without one kind of roots.
    fn note_kept(&mut self, rooted: &Rooted) {
        let is_kept_by = |kind| rooted.keeps(|_, kinds| kinds == kind);
        for place in 0..ROOTS.len() {
            self.add(BY_BUSY[place], is_kept_by(FROM_BUSY[place]));
            self.add(BY_IDLE[place], is_kept_by(FROM_IDLE[place]));
        }
        let is_behind_tail = |node, kinds| node != TAIL && kinds == FROM_TAIL;
        self.add(BY_TAIL, rooted.keeps(is_behind_tail));
    }

    fn note_links(&mut self, rooted: &Rooted) {
        let nodes = rooted.shape.nodes;
        let has_link = |link| rooted.keeps(|node, _| rooted.next(node) == link);
        self.add(LINK_N, has_link(nodes));
        self.add(LINK_NONE, has_link(NONE));
        let leads_out = |node, kinds| is_off_chain(kinds) && rooted.next(node) >= nodes;
        self.add(LINK_OFF, rooted.keeps(leads_out));
        let is_loop = |node, kinds| is_off_chain(kinds) && rooted.next(node) == node;
        self.add(SELF_LOOP, rooted.keeps(is_loop));
    }

    fn note_roots(&mut self, rooted: &Rooted, named: &[u16]) {
        let nodes = rooted.shape.nodes;
        self.add(ROOT_N, named.contains(&nodes));
        let is_off = |node: u16| is_off_chain(rooted.kinds(node));
        let is_in_circle = |node: u16| is_off(node) && rooted.next(node) != node;
        let (mut is_same, mut is_circle) = (false, false);
        for (place, &root) in named.iter().enumerate() {
            if root < nodes && is_off(root) {
                is_same |= named[..place].contains(&root);
                is_circle |= rooted.circle(root).is_some_and(is_in_circle);
            }
        }
        self.add(SAME_ROOT, is_same);
        self.add(CIRCLE, is_circle);
    }
}
