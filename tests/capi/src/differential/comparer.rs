//! Asks a library and the model the same, each on its own copy of the lent words.

use super::lent::{difference, Difference, Lent};
use super::requests::Request;
use crate::library::{Library, Model, Run};

/// More words than any request lends besides the arena.
const MOST_WORDS: usize = 30_000;

/// What one library is lent.
#[derive(Default)]
struct Desk {
    arena: Lent,
    keys: Lent,
    lengths: Lent,
    target: Lent,
    schedule: Lent,
    history: Lent,
    waits: Lent,
    totals: Lent,
}

/// What a run wrote besides the arena.
pub struct Written<'a> {
    pub history: &'a [u16],
    pub waits: &'a [u16],
    pub totals: &'a [u16],
}

pub struct Comparer<'a> {
    library: &'a dyn Library,
    tested: Desk,
    model: Desk,
    /// For what else the model is asked.
    aside: Desk,
    /// What lent words hold before a library writes them: no two neighbours alike.
    background: Vec<u16>,
}

pub struct Outcome {
    pub tested_reply: u64,
    pub model_reply: u64,
    pub difference: Option<Difference>,
}

impl Outcome {
    pub fn is_same(&self) -> bool {
        self.tested_reply == self.model_reply && self.difference.is_none()
    }
}

impl<'a> Comparer<'a> {
    pub fn new(library: &'a dyn Library) -> Comparer<'a> {
        Comparer {
            library,
            tested: Desk::default(),
            model: Desk::default(),
            aside: Desk::default(),
            background: (0..MOST_WORDS).map(|place| 40_000 - place as u16).collect(),
        }
    }

    /// Compares replies and all lent words: also those that are only lent for reading.
    pub fn compare(&mut self, arena: &[u16], request: &Request) -> Outcome {
        let tested_reply = self
            .tested
            .ask(self.library, arena, request, &self.background);
        let model_reply = self.model.ask(&Model, arena, request, &self.background);
        let tested = self.tested.lent(request);
        let mut both = tested.into_iter().zip(self.model.lent(request));
        let first = both.find_map(|((name, tested), (_, model))| difference(name, tested, model));
        Outcome {
            tested_reply,
            model_reply,
            difference: first,
        }
    }

    /// The model's reply alone; what it left in the last comparison stays.
    pub fn model_reply(&mut self, arena: &[u16], request: &Request) -> u64 {
        self.aside.ask(&Model, arena, request, &self.background)
    }

    /// The arena as the model left it.
    pub fn last_arena(&self) -> &[u16] {
        self.model.arena.words()
    }

    /// The target as the model left it in the last conversion.
    pub fn last_target(&self) -> &[u16] {
        self.model.target.words()
    }

    /// The words in which the model wrote the keys of the last snapshot.
    pub fn last_keys(&self) -> &[u16] {
        self.model.keys.words()
    }

    /// What the model wrote in the last run.
    pub fn last_run(&self) -> Written<'_> {
        Written {
            history: self.model.history.words(),
            waits: self.model.waits.words(),
            totals: self.model.totals.words(),
        }
    }
}

impl Desk {
    fn ask(
        &mut self,
        library: &dyn Library,
        arena: &[u16],
        request: &Request,
        background: &[u16],
    ) -> u64 {
        self.arena.lend(arena);
        self.lend_rows(request, background);
        match *request {
            Request::Init { workers, nodes } => {
                library.init(self.arena.words_mut(), workers, nodes)
            }
            Request::Start { worker, call } => library.start(self.arena.words_mut(), worker, call),
            Request::Turn { worker } => library.turn(self.arena.words_mut(), worker),
            Request::Snapshot { .. } => library.snapshot(self.arena.words(), self.keys.words_mut()),
            Request::FindFree => library.find_free(self.arena.words()),
            Request::LongestFreeRun { last_cell } => {
                library.longest_free_run(self.arena.words(), last_cell)
            }
            Request::Stored => library.stored(self.arena.words()),
            Request::ToLayout2 { .. } => library.to_layout_2(
                self.arena.words_mut(),
                self.lengths.words_mut(),
                self.target.words_mut(),
            ),
            Request::ToLayout1 { .. } => {
                library.to_layout_1(self.arena.words_mut(), self.target.words_mut())
            }
            Request::Run { workers, nodes, .. } => self.run(library, workers, nodes),
        }
    }

    /// The words besides the arena.
    fn lend_rows(&mut self, request: &Request, background: &[u16]) {
        match request {
            Request::Snapshot { room } => self.keys.lend(&background[..*room]),
            Request::ToLayout2 { lengths, target } => {
                self.lengths.lend(lengths);
                self.target.lend(target);
            }
            Request::ToLayout1 { target } => self.target.lend(target),
            Request::Run {
                schedule,
                history_length,
                waits_length,
                ..
            } => {
                self.schedule.lend(schedule);
                self.history.lend(&background[..*history_length]);
                self.waits.lend(&background[..*waits_length]);
                self.totals.lend(&background[..4]);
            }
            _ => {}
        }
    }

    /// All that was lent, by name.
    fn lent(&self, request: &Request) -> Vec<(&'static str, &Lent)> {
        let arena = ("arena", &self.arena);
        match request {
            Request::Snapshot { .. } => vec![arena, ("keys", &self.keys)],
            Request::ToLayout2 { .. } => {
                vec![arena, ("lengths", &self.lengths), ("target", &self.target)]
            }
            Request::ToLayout1 { .. } => vec![arena, ("target", &self.target)],
            Request::Run { .. } => vec![
                arena,
                ("schedule", &self.schedule),
                ("history", &self.history),
                ("waits", &self.waits),
                ("totals", &self.totals),
            ],
            _ => vec![arena],
        }
    }

    fn run(&mut self, library: &dyn Library, workers: u16, nodes: u16) -> u64 {
        library.run(Run {
            arena: self.arena.words_mut(),
            workers,
            nodes,
            schedule: self.schedule.words(),
            history: self.history.words_mut(),
            waits: self.waits.words_mut(),
            totals: self.totals.words_mut().try_into().expect("four words"),
        })
    }
}
