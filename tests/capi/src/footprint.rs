//! How much stack each call takes. It runs on a stack of its own that has been painted; as far as the
//! paint is gone, the stack was used. What a call keeps free and does not write is not seen, so it gets
//! the largest arenas, which fill its rows.

use std::arch::asm;
use std::sync::Mutex;

use model::arena::{HEADER_WORDS, STAGE, WORKER_WORDS};

use crate::benchmark::inputs::{calls, runs, turns};
use crate::benchmark::measure::Workload;
use crate::library::{Library, Run, Start};

/// The calls that are told apart. A turn at stage 14 makes the search for a free node.
#[derive(Clone, Copy)]
enum Kind {
    Init,
    Start,
    Turn,
    TurnAt14,
    FindFree,
    Snapshot,
    Stored,
    LongestFreeRun,
    ToLayout2,
    ToLayout1,
    Run,
}

/// What they are called, in their order.
pub const KINDS: [&str; 11] = [
    "init",
    "start",
    "turn, but for stage 14",
    "turn at stage 14",
    "find_free",
    "snapshot",
    "stored",
    "longest_free_run",
    "to_layout_2",
    "to_layout_1",
    "run",
];

/// Bytes of stack, in the order of `KINDS`.
pub type Depths = [usize; KINDS.len()];

/// Whether plain C has calls of this kind.
pub fn is_in_c(kind: usize) -> bool {
    [Kind::Start, Kind::Turn, Kind::TurnAt14]
        .map(|kind| kind as usize)
        .contains(&kind)
}

/// How much each call of a library takes at most, from its return address down.
pub fn depths(library: &dyn Library) -> Depths {
    let (used, before) = (depths_with_ours(library), depths_with_ours(&Nothing));
    std::array::from_fn(|kind| used[kind] - before[kind])
}

/// The same with what is on the painted stack before the call.
fn depths_with_ours(library: &dyn Library) -> Depths {
    let painted = Painted {
        library,
        stack: Mutex::new(vec![PAINT; STACK_PIECES]),
        deepest: Mutex::default(),
    };
    painted.pass(&turns::mixed(64, 100));
    painted.pass(&turns::stage_14(1_024, 1_022));
    painted.pass(&calls::inits(1_024));
    painted.pass(&calls::searches(1_024));
    painted.pass(&calls::snapshots(1_024));
    painted.pass(&calls::counts(1_024));
    painted.pass(&calls::free_runs(1_022));
    painted.pass(&calls::to_layout_2_of(1_022));
    painted.pass(&calls::to_layout_1_of(1_022));
    painted.pass(&runs::runs(1_024, 4_000, 100));
    painted.deepest.into_inner().expect("nobody panicked")
}

/// A stack goes by steps of 16 bytes.
type Piece = u128;
const PIECE: usize = size_of::<Piece>();
const PAINT: Piece = 0xa55a_c33c_9669_5aa5_3cc3_6996_a55a_c33c;
/// 32 kB.
const STACK_PIECES: usize = 2_048;

/// A library that runs on a painted stack.
struct Painted<'a> {
    library: &'a dyn Library,
    stack: Mutex<Vec<Piece>>,
    deepest: Mutex<Depths>,
}

impl Painted<'_> {
    fn pass(&self, work: &impl Workload) {
        work.pass(self, &mut work.words().clone(), |_| ());
    }

    fn call(&self, kind: Kind, call: &mut dyn FnMut() -> u64) -> u64 {
        let mut stack = self.stack.lock().expect("nobody panicked");
        stack.fill(PAINT);
        let mut reply = 0;
        run_on(&mut stack, &mut || reply = call());
        let unused = stack.iter().take_while(|&&piece| piece == PAINT).count();
        assert_ne!(unused, 0, "the stack is too short");
        let deepest = &mut self.deepest.lock().expect("nobody panicked")[kind as usize];
        *deepest = (*deepest).max(PIECE * (stack.len() - unused));
        reply
    }
}

/// Calls with the stack pointer at the end of these pieces.
fn run_on(stack: &mut [Piece], mut call: &mut dyn FnMut()) {
    extern "sysv64" fn enter(call: &mut &mut dyn FnMut()) {
        call();
    }
    // The call keeps r12 and r13, by the C convention of this system.
    unsafe {
        asm!(
            "mov r12, rsp",
            "mov rsp, r13",
            "call {enter}",
            "mov rsp, r12",
            enter = sym enter,
            in("rdi") &mut call,
            in("r13") stack.as_mut_ptr_range().end,
            out("r12") _,
            clobber_abi("sysv64"),
        );
    }
}

impl Library for Painted<'_> {
    fn init(&self, arena: &mut [u16], workers: u16, nodes: u16) -> u64 {
        let library = self.library;
        self.call(Kind::Init, &mut || library.init(arena, workers, nodes))
    }

    fn start(&self, arena: &mut [u16], worker: u16, call: Start) -> u64 {
        let library = self.library;
        self.call(Kind::Start, &mut || library.start(arena, worker, call))
    }

    fn turn(&self, arena: &mut [u16], worker: u16) -> u64 {
        let stage = arena[HEADER_WORDS + WORKER_WORDS * worker as usize + STAGE];
        let kind = if stage == 14 {
            Kind::TurnAt14
        } else {
            Kind::Turn
        };
        self.call(kind, &mut || self.library.turn(arena, worker))
    }

    fn snapshot(&self, arena: &[u16], keys: &mut [u16]) -> u64 {
        self.call(Kind::Snapshot, &mut || self.library.snapshot(arena, keys))
    }

    fn find_free(&self, arena: &[u16]) -> u64 {
        self.call(Kind::FindFree, &mut || self.library.find_free(arena))
    }

    fn longest_free_run(&self, arena: &[u16], last_cell: u16) -> u64 {
        let library = self.library;
        self.call(Kind::LongestFreeRun, &mut || {
            library.longest_free_run(arena, last_cell)
        })
    }

    fn stored(&self, arena: &[u16]) -> u64 {
        self.call(Kind::Stored, &mut || self.library.stored(arena))
    }

    fn to_layout_2(&self, source: &mut [u16], lengths: &mut [u16], target: &mut [u16]) -> u64 {
        self.call(Kind::ToLayout2, &mut || {
            self.library.to_layout_2(source, lengths, target)
        })
    }

    fn to_layout_1(&self, source: &mut [u16], target: &mut [u16]) -> u64 {
        self.call(Kind::ToLayout1, &mut || {
            self.library.to_layout_1(source, target)
        })
    }

    fn run(&self, mut run: Run) -> u64 {
        self.call(Kind::Run, &mut || self.library.run(run.again()))
    }
}

/// Takes no stack but for the return address.
struct Nothing;

impl Library for Nothing {
    fn init(&self, _: &mut [u16], _: u16, _: u16) -> u64 {
        0
    }

    fn start(&self, _: &mut [u16], _: u16, _: Start) -> u64 {
        0
    }

    fn turn(&self, _: &mut [u16], _: u16) -> u64 {
        0
    }

    fn snapshot(&self, _: &[u16], _: &mut [u16]) -> u64 {
        0
    }

    fn find_free(&self, _: &[u16]) -> u64 {
        0
    }

    fn longest_free_run(&self, _: &[u16], _: u16) -> u64 {
        0
    }

    fn stored(&self, _: &[u16]) -> u64 {
        0
    }

    fn to_layout_2(&self, _: &mut [u16], _: &mut [u16], _: &mut [u16]) -> u64 {
        0
    }

    fn to_layout_1(&self, _: &mut [u16], _: &mut [u16]) -> u64 {
        0
    }

    fn run(&self, _: Run) -> u64 {
        0
    }
}
