//! Arenas (document 01: boards): a slice of 16-bit words of any content.
//!
//! Every function is total: whatever the words are, it returns, and a refusal writes nothing.

// Refusal numbers, with document 01's words for them.
pub const SHORT_ARENA: u16 = 1; // short board
pub const ODD_HEADER: u16 = 2; // odd header
pub const NO_SUCH_WORKER: u16 = 3; // no such worker
pub const BUSY: u16 = 4; // busy
pub const BAD_CALL: u16 = 5; // bad call
pub const BROKEN_RECORD: u16 = 6; // broken record
pub const BROKEN_CHAIN: u16 = 7; // broken chain
pub const NO_ROOM: u16 = 8; // no room
pub const BAD_SCHEDULE: u16 = 9; // bad schedule
pub const BAD_COUNTS: u16 = 10; // bad counts
pub const OLD_LAYOUT: u16 = 12; // old layout
pub const BROKEN_COUNT: u16 = 14; // broken count

/// Withdrawn: the header test and the converters alone know it.
pub const LAYOUT_1: u16 = 1;
/// Nodes have a fifth word, the length, and the header has a count.
pub const LAYOUT_2: u16 = 2;

pub const HEAD: u16 = 0;
pub const TAIL: u16 = 1;
pub const NONE: u16 = 65_535;
pub const HEAD_KEY: u16 = 0;
pub const TAIL_KEY: u16 = 65_535;

pub const ADD: u16 = 1;
pub const REMOVE: u16 = 2;
pub const CONTAINS: u16 = 3;

pub const HEADER_WORDS: usize = 8;
/// The place of the count in the header, the size of the set; in layout 1 always 0.
pub const COUNT: usize = 6;
pub const WORKER_WORDS: usize = 8;
pub const NODE_WORDS: usize = 5;
pub const MAX_WORKERS: u16 = 8;
pub const MAX_NODES: u16 = 1_024;
/// Words of the largest arena.
pub const MAX_WORDS: usize =
    HEADER_WORDS + WORKER_WORDS * MAX_WORKERS as usize + NODE_WORDS * MAX_NODES as usize;
/// Key and length of a label together.
pub const MAX_END: u32 = 65_535;

// Places of the words in a worker record.
pub const STAGE: usize = 0;
pub const OPERATION: usize = 1;
pub const CALL_KEY: usize = 2;
pub const PRED: usize = 3;
pub const CURR: usize = 4;
pub const SPARE: usize = 5;
pub const ANSWER: usize = 6;
pub const CALL_LENGTH: usize = 7;

// Places of the words in a node record; layout 1 has no length.
pub const KEY: usize = 0;
pub const NEXT: usize = 1;
pub const MARK: usize = 2;
pub const OWNER: usize = 3;
pub const LENGTH: usize = 4;

pub const IDLE_WORKER: [u16; WORKER_WORDS] = [0, 0, 0, NONE, NONE, NONE, 0, 0];

/// Counts of an arena; with the layout they fix where everything stands.
#[derive(Clone, Copy, Debug, Default, PartialEq, Eq)]
pub struct ShapeIn<const LAYOUT: u16> {
    pub workers: u16,
    pub nodes: u16,
}

pub type Shape = ShapeIn<LAYOUT_2>;
pub type OldShape = ShapeIn<LAYOUT_1>;

impl<const LAYOUT: u16> ShapeIn<LAYOUT> {
    pub const NODE_WORDS: usize = if LAYOUT == LAYOUT_1 {
        NODE_WORDS - 1
    } else {
        NODE_WORDS
    };

    /// None for counts outside document 01's ranges.
    pub fn new(workers: u16, nodes: u16) -> Option<Self> {
        let good = (1..=MAX_WORKERS).contains(&workers) && (3..=MAX_NODES).contains(&nodes);
        good.then_some(ShapeIn { workers, nodes })
    }

    /// None if the first eight words are not a header of this layout.
    pub fn read(arena: &[u16]) -> Option<Self> {
        let header = arena.get(..HEADER_WORDS)?;
        let shape = ShapeIn::new(header[1], header[2])?;
        shape.is_header(header).then_some(shape)
    }

    /// The same counts in another layout.
    pub fn in_layout<const OTHER: u16>(self) -> ShapeIn<OTHER> {
        let ShapeIn { workers, nodes } = self;
        ShapeIn { workers, nodes }
    }

    pub fn worker_at(self, worker: u16) -> usize {
        HEADER_WORDS + WORKER_WORDS * worker as usize
    }

    pub fn node_at(self, node: u16) -> usize {
        self.worker_at(self.workers) + Self::NODE_WORDS * node as usize
    }

    pub fn total(self) -> usize {
        self.node_at(self.nodes)
    }

    /// The greatest count that a header may hold: every node but Head and Tail may be stored. Layout 1
    /// counts nothing.
    pub fn max_count(self) -> u16 {
        if LAYOUT == LAYOUT_1 {
            0
        } else {
            self.nodes - 2
        }
    }

    /// The header with this count, which of a fresh arena is 0.
    pub fn header(self, count: u16) -> [u16; HEADER_WORDS] {
        let workers_at = HEADER_WORDS as u16;
        let nodes_at = self.node_at(0) as u16;
        let total = self.total() as u16;
        [
            LAYOUT,
            self.workers,
            self.nodes,
            workers_at,
            nodes_at,
            total,
            count,
            0,
        ]
    }

    /// Whether these are the header with some count that it may hold.
    pub fn is_header(self, words: &[u16]) -> bool {
        let count = words[COUNT];
        count <= self.max_count() && *words == self.header(count)
    }
}

/// The header test: refusals 1, 2, 12. The count is not compared with the chain.
pub fn check_header(arena: &[u16]) -> Result<Shape, u16> {
    check_layout(arena).map_err(|refusal| refusal_of(arena, refusal))
}

/// What a header is refused with that is not one of layout 2. Set apart, so that the test of a good one
/// stays short.
#[cold]
fn refusal_of(arena: &[u16], refusal: u16) -> u16 {
    match OldShape::read(arena) {
        Some(_) if refusal == ODD_HEADER => OLD_LAYOUT,
        _ => refusal,
    }
}

/// The header test of one layout, in which the other one is odd: refusals 1 and 2. For 1, word 5 is
/// believed before the rest is looked at.
pub fn check_layout<const LAYOUT: u16>(arena: &[u16]) -> Result<ShapeIn<LAYOUT>, u16> {
    if arena.len() < HEADER_WORDS || arena.len() < arena[5] as usize {
        return Err(SHORT_ARENA);
    }
    ShapeIn::read(arena).ok_or(ODD_HEADER)
}

/// Writes a fresh arena (document 01: lay). Refusals 10, 1.
pub fn init(arena: &mut [u16], workers: u16, nodes: u16) -> Result<(), u16> {
    let shape = Shape::new(workers, nodes).ok_or(BAD_COUNTS)?;
    if arena.len() < shape.total() {
        return Err(SHORT_ARENA);
    }
    arena[..HEADER_WORDS].copy_from_slice(&shape.header(0));
    for worker in 0..workers {
        let at = shape.worker_at(worker);
        arena[at..at + WORKER_WORDS].copy_from_slice(&IDLE_WORKER);
    }
    arena[shape.node_at(0)..shape.total()].fill(0);
    arena[shape.node_at(HEAD) + KEY] = HEAD_KEY;
    arena[shape.node_at(HEAD) + NEXT] = TAIL;
    arena[shape.node_at(TAIL) + KEY] = TAIL_KEY;
    arena[shape.node_at(TAIL) + NEXT] = TAIL;
    Ok(())
}

/// Keys that a call may have.
pub fn is_call_key(key: u16) -> bool {
    key != HEAD_KEY && key != TAIL_KEY
}

/// Lengths that a call may have: an add has one, and every other start has 0.
pub fn is_call_length(operation: u16, key: u16, length: u16) -> bool {
    if operation == ADD {
        let end = u32::from(key) + u32::from(length);
        (1..=65_534).contains(&length) && end <= MAX_END
    } else {
        length == 0
    }
}

/// Starts a call on a worker. Refusals 1, 2, 12, 3, 6, 4, 5.
pub fn start(
    arena: &mut [u16],
    worker: u16,
    operation: u16,
    key: u16,
    length: u16,
) -> Result<(), u16> {
    let shape = check_header(arena)?;
    if worker >= shape.workers {
        return Err(NO_SUCH_WORKER);
    }
    let at = shape.worker_at(worker);
    let first_stage = if operation == CONTAINS { 22 } else { 1 };
    match arena[at + STAGE] {
        0 => {}
        1..=25 => return Err(BUSY),
        _ => return Err(BROKEN_RECORD),
    }
    let is_good = (ADD..=CONTAINS).contains(&operation)
        && is_call_key(key)
        && is_call_length(operation, key, length);
    if !is_good {
        return Err(BAD_CALL);
    }
    let record = [first_stage, operation, key, NONE, NONE, NONE, 0, length];
    arena[at..at + WORKER_WORDS].copy_from_slice(&record);
    Ok(())
}

/// Writes the keys of the set in rising order (document 01: the roll) and gives their count. Keys are
/// gathered aside, since a refusal writes nothing. Refusals 1, 2, 12, 7, 8.
pub fn snapshot(arena: &[u16], out: &mut [u16]) -> Result<usize, u16> {
    let shape = check_header(arena)?;
    let mut keys = [0; MAX_NODES as usize];
    let mut count = 0;
    walk_set(arena, shape, |at| {
        keys[count] = arena[at + KEY];
        count += 1;
    })?;
    let room = out.get_mut(..count).ok_or(NO_ROOM)?;
    room.copy_from_slice(&keys[..count]);
    Ok(count)
}

/// Goes along the chain and shows where the record of each node of the set stands, in rising order:
/// marked nodes are passed over, but their links and keys must be as good as the others'. A refusal
/// may come after some nodes have been shown. Refusal 7.
pub fn walk_set<const LAYOUT: u16>(
    arena: &[u16],
    shape: ShapeIn<LAYOUT>,
    mut show: impl FnMut(usize),
) -> Result<(), u16> {
    let mut last_key = arena[shape.node_at(HEAD) + KEY];
    let mut node = arena[shape.node_at(HEAD) + NEXT];
    // Keys must go up, so no node is met twice, and this ends on any arena.
    while node != TAIL {
        if node >= shape.nodes {
            return Err(BROKEN_CHAIN);
        }
        let at = shape.node_at(node);
        let key = arena[at + KEY];
        if key <= last_key {
            return Err(BROKEN_CHAIN);
        }
        if arena[at + MARK] == 0 {
            show(at);
        }
        last_key = key;
        node = arena[at + NEXT];
    }
    Ok(())
}

/// What a set holds of a label; membership goes by the key alone.
#[derive(Clone, Copy, Debug, PartialEq, Eq, Hash)]
pub struct Label {
    pub key: u16,
    pub length: u16,
}

impl Label {
    /// The label of the node whose record stands here.
    pub fn read(arena: &[u16], at: usize) -> Label {
        Label {
            key: arena[at + KEY],
            length: arena[at + LENGTH],
        }
    }
}

/// The length that a set holds with a key, if it holds the key.
pub fn length_in(set: &[Label], key: u16) -> Option<u16> {
    let found = set.iter().find(|label| label.key == key);
    found.map(|label| label.length)
}

/// The set that the arena stands for: labels of the unmarked nodes on the chain, Head and Tail left
/// out, in chain order. On an arena whose header is refused the set is empty.
pub fn set(arena: &[u16]) -> Vec<Label> {
    let places = check_header(arena).map(|shape| set_places(arena, shape));
    let places = places.unwrap_or_default().into_iter();
    places.map(|at| Label::read(arena, at)).collect()
}

/// Where the records of those nodes stand.
pub fn set_places<const LAYOUT: u16>(arena: &[u16], shape: ShapeIn<LAYOUT>) -> Vec<usize> {
    let mut places = Vec::new();
    let mut met = vec![false; shape.nodes as usize];
    met[HEAD as usize] = true;
    let mut node = arena[shape.node_at(HEAD) + NEXT];
    while node != TAIL && node < shape.nodes && !met[node as usize] {
        met[node as usize] = true;
        let at = shape.node_at(node);
        if arena[at + MARK] == 0 {
            places.push(at);
        }
        node = arena[at + NEXT];
    }
    places
}
