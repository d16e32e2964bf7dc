//! What must have been met of marked nodes on the chain, which a snapshot passes over and checks.

use model::arena::*;

use super::chain::{Chain, End};
use super::met::Met;
use super::requests::Request;
use crate::library::Values;

const PASSED: &str = "snapshots past a marked node";
const FROM_FRESH: &str = "snapshots from fresh past a marked node";
const SEVERAL: &str = "snapshots past several marked nodes";
const OTHER_MARK: &str = "snapshots past a mark above 1";
const MARKED_ALONE: &str = "snapshots of marked nodes alone";
const MARKED_LAST: &str = "snapshots: a marked node last, words to spare";
const ROOM_FOR_LISTED: &str = "snapshots: room for keys, not for all nodes";
const NO_ROOM_PAST: &str = "snapshots refused 8 past a marked node";
const MARKED_LINK: &str = "snapshots refused for a marked node's link";
const MARKED_KEY: &str = "snapshots refused for a marked node's key";
const BEHIND_MARKED: &str = "snapshots refused right behind a marked node";
const MARKED_HEAD: &str = "snapshots with Head marked";

/// In the order in which they are printed.
pub const ALL: [&str; 12] = [
    PASSED,
    FROM_FRESH,
    SEVERAL,
    OTHER_MARK,
    MARKED_ALONE,
    MARKED_LAST,
    ROOM_FOR_LISTED,
    NO_ROOM_PAST,
    MARKED_LINK,
    MARKED_KEY,
    BEHIND_MARKED,
    MARKED_HEAD,
];

impl Met {
    /// Notes what stood on the chain of a snapshot; `reached` is for arenas reached from a fresh one.
    pub fn note_roll(&mut self, words: &[u16], request: &Request, reply: u64, reached: bool) {
        let (&Request::Snapshot { room }, Some(chain)) = (request, Chain::of(words)) else {
            return;
        };
        let marked = chain.nodes.len() - chain.listed();
        if Values::read(reply).is_some() {
            self.add(MARKED_HEAD, chain.is_marked(HEAD));
            if marked != 0 {
                self.add(PASSED, true);
                self.add(FROM_FRESH, reached);
                self.note_passed(&chain, marked, room);
            }
        } else if reply == u64::from(NO_ROOM) {
            self.add(NO_ROOM_PAST, marked != 0);
        } else {
            self.note_broken(&chain);
        }
    }

    fn note_passed(&mut self, chain: &Chain, marked: usize, room: usize) {
        let last = chain.before(chain.nodes.len());
        let has_other_mark = chain.nodes.iter().any(|&node| chain.word(node, MARK) > 1);
        self.add(SEVERAL, marked > 1);
        self.add(OTHER_MARK, has_other_mark);
        self.add(MARKED_ALONE, chain.listed() == 0);
        self.add(MARKED_LAST, chain.is_marked(last) && room > chain.listed());
        self.add(ROOM_FOR_LISTED, room < chain.nodes.len());
    }

    fn note_broken(&mut self, chain: &Chain) {
        let last = chain.before(chain.nodes.len());
        let is_behind_marked = last != HEAD && chain.is_marked(last);
        match chain.end {
            End::Link => self.add(MARKED_LINK, is_behind_marked),
            End::Key(node) => {
                self.add(MARKED_KEY, chain.is_marked(node));
                // Above the last key that is listed, so that only the marked one's refuses it.
                let last_listed = chain.word(chain.last_listed(), KEY);
                let is_above_listed = chain.word(node, KEY) > last_listed;
                self.add(BEHIND_MARKED, is_behind_marked && is_above_listed);
            }
            End::Tail => {}
        }
    }
}
