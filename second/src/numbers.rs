//! The numbers all other modules share: sizes, reserved nodes, refusals, answers.

/// The most workers a table can have.
pub const WORKERS: usize = 8;
/// Vertex nodes, head and tail included.
pub const VERTICES: usize = 256;
/// Edge nodes, the common tail included.
pub const EDGES: usize = 2048;
/// The least length of an output.
pub const OUTPUT: usize = 65_536;
/// The greatest length of a script.
pub const SCRIPT: usize = 49_152;

/// The vertex every walk starts from.
pub const HEAD: u8 = 0;
/// The vertex every vertex list ends with.
pub const TAIL: u8 = 1;
/// The edge every edge list ends with.
pub const EDGE_TAIL: u16 = 0;

/// The first vertex number that is ever handed out.
pub const FIRST_VERTEX: u8 = 2;
/// The first edge number that is ever handed out.
pub const FIRST_EDGE: u16 = 1;

/// Whether a key belongs to head or tail alone.
pub fn reserved(key: i32) -> bool {
    key == i32::MIN || key == i32::MAX
}

/// Why a call did nothing.
#[derive(Clone, Copy, Debug, PartialEq, Eq)]
pub enum Refusal {
    Room,
    Worker,
    Busy,
    Idle,
    Code,
    Key,
    Torn,
    /// A bad script, with the number of its first bad line.
    Script(usize),
}

impl Refusal {
    /// The number this refusal is known by.
    pub fn number(self) -> u8 {
        match self {
            Refusal::Room => 20,
            Refusal::Worker => 21,
            Refusal::Busy => 22,
            Refusal::Idle => 23,
            Refusal::Code => 24,
            Refusal::Key => 25,
            Refusal::Torn => 26,
            Refusal::Script(_) => 27,
        }
    }
}

/// What a taking-up or a step answers.
#[derive(Clone, Copy, Debug, PartialEq, Eq)]
pub enum Answer {
    /// The request is not finished; `met` counts the vertices its trial has met.
    GoingOn { met: u32 },
    /// The request is finished with this reply.
    Reply(u8),
}

impl Answer {
    /// The met count that goes with the answer: a reply always has none.
    pub fn met(self) -> u32 {
        match self {
            Answer::GoingOn { met } => met,
            Answer::Reply(_) => 0,
        }
    }
}

pub const DONE: u8 = 1;
pub const VERTEX_OTHERWISE: u8 = 2;
pub const VERTEX_NOT_PRESENT: u8 = 3;
pub const EDGE_ALREADY_PRESENT: u8 = 4;
pub const EDGE_NOT_PRESENT: u8 = 5;
pub const CYCLE_DETECTED: u8 = 6;
pub const EDGE_ON_TRIAL: u8 = 7;
pub const VERTEX_OR_EDGE_NOT_PRESENT: u8 = 8;
pub const NO_ROOM: u8 = 9;
