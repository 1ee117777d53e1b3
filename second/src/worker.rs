//! Workers: where each one stands, what its trial has met, and their table.

use crate::numbers::{reserved, Refusal, WORKERS};

/// The two keys of an edge request: source and target.
#[derive(Clone, Copy, Debug, PartialEq, Eq)]
pub struct Pair {
    pub k: i32,
    pub l: i32,
}

/// Which of the edge calls a worker is on while it still looks for vertices.
#[derive(Clone, Copy, Debug, PartialEq, Eq)]
pub enum EdgeCall {
    Add,
    Remove,
    Contains,
}

/// Between two neighbours of the vertex list.
#[derive(Clone, Copy, Debug, PartialEq, Eq)]
pub struct VertexSpot {
    pub key: i32,
    pub p: u8,
    pub c: u8,
}

/// What comes before c in an edge list.
#[derive(Clone, Copy, Debug, PartialEq, Eq)]
pub enum Previous {
    /// The source's first-edge link.
    First,
    /// An edge node.
    Edge(u16),
}

/// Between two neighbours of u's edge list.
#[derive(Clone, Copy, Debug, PartialEq, Eq)]
pub struct EdgeSpot {
    pub keys: Pair,
    pub u: u8,
    pub v: u8,
    pub p: Previous,
    pub c: u16,
}

/// What is unchanged during a trial.
#[derive(Clone, Copy, Debug, PartialEq, Eq)]
pub struct TrialSpot {
    pub keys: Pair,
    pub u: u8,
    pub v: u8,
    pub own: u16,
}

/// Every place a worker can stand at.
#[derive(Clone, Copy, Debug, PartialEq, Eq)]
pub enum Place {
    Idle,
    AddV(VertexSpot),
    RemV(VertexSpot),
    ConV {
        key: i32,
        c: u8,
    },
    FindSource {
        call: EdgeCall,
        keys: Pair,
        c: u8,
    },
    FindTarget {
        call: EdgeCall,
        keys: Pair,
        u: u8,
        c: u8,
    },
    AddE(EdgeSpot),
    RemE(EdgeSpot),
    ConE {
        keys: Pair,
        u: u8,
        v: u8,
        c: u16,
    },
    /// On trial with no vertex open.
    Trial(TrialSpot),
    /// On trial with vertex x open and c the edge to look at next.
    TrialOpen {
        trial: TrialSpot,
        x: u8,
        c: u16,
    },
}

impl Place {
    /// Whether the request at this place has a key that no request may have.
    pub(crate) fn has_reserved_key(&self) -> bool {
        match self {
            Place::Idle => false,
            Place::AddV(VertexSpot { key, .. })
            | Place::RemV(VertexSpot { key, .. })
            | Place::ConV { key, .. } => reserved(*key),
            Place::FindSource { keys, .. }
            | Place::FindTarget { keys, .. }
            | Place::AddE(EdgeSpot { keys, .. })
            | Place::RemE(EdgeSpot { keys, .. })
            | Place::ConE { keys, .. }
            | Place::Trial(TrialSpot { keys, .. })
            | Place::TrialOpen { trial: TrialSpot { keys, .. }, .. } => {
                reserved(keys.k) || reserved(keys.l)
            }
        }
    }
}

/// One worker: its place, and beside it what a trial gathers.
///
/// Only trial places use the met set and the queue. At other places garbage in
/// them is neither read nor kept: the next record has zeros there.
#[derive(Clone, Copy, Debug, PartialEq, Eq)]
pub struct Record {
    pub place: Place,
    pub met: [u64; 4],
    pub queue: [u8; 256],
    pub front: u16,
    pub back: u16,
}

impl Record {
    /// A record at a place outside any trial.
    pub fn at(place: Place) -> Self {
        Record { place, met: [0; 4], queue: [0; 256], front: 0, back: 0 }
    }

    pub fn idle() -> Self {
        Record::at(Place::Idle)
    }

    /// The same trial, at another place.
    pub(crate) fn moved(mut self, place: Place) -> Self {
        self.place = place;
        self
    }

    pub(crate) fn is_idle(&self) -> bool {
        self.place == Place::Idle
    }

    /// The met count this record answers with.
    pub fn met_count(&self) -> u32 {
        match self.place {
            Place::Trial(_) | Place::TrialOpen { .. } => {
                self.met.iter().map(|word| word.count_ones()).sum()
            }
            _ => 0,
        }
    }

    pub(crate) fn has_met(&self, vertex: u8) -> bool {
        self.met[usize::from(vertex / 64)] >> (vertex % 64) & 1 == 1
    }

    /// Notes a vertex as met and puts it at the end of the queue.
    pub(crate) fn meet(&mut self, vertex: u8) -> Result<(), Refusal> {
        let slot = self.queue.get_mut(usize::from(self.back)).ok_or(Refusal::Torn)?;
        *slot = vertex;
        self.back += 1;
        self.met[usize::from(vertex / 64)] |= 1 << (vertex % 64);
        Ok(())
    }

    pub(crate) fn check_queue(&self) -> Result<(), Refusal> {
        if self.front > self.back || usize::from(self.back) > self.queue.len() {
            return Err(Refusal::Torn);
        }
        Ok(())
    }

    /// The vertex whose turn it is, or none if the queue is empty.
    pub(crate) fn front_vertex(&self) -> Option<u8> {
        if self.front >= self.back {
            return None;
        }
        self.queue.get(usize::from(self.front)).copied()
    }

    /// Moves past the front; the queue keeps the number taken.
    pub(crate) fn take_front(mut self) -> Self {
        self.front += 1;
        self
    }
}

/// The workers' records and how many of them count.
#[derive(Clone, Debug, PartialEq, Eq)]
pub struct Table {
    pub records: [Record; WORKERS],
    pub count: usize,
}

impl Table {
    /// All idle.
    pub fn new(count: usize) -> Self {
        Table { records: [Record::idle(); WORKERS], count }
    }

    pub(crate) fn check_count(&self) -> Result<(), Refusal> {
        if self.count == 0 || self.count > WORKERS {
            return Err(Refusal::Worker);
        }
        Ok(())
    }

    /// The record of a worker that exists.
    pub(crate) fn record(&self, worker: usize) -> Result<&Record, Refusal> {
        self.check_count()?;
        if worker >= self.count {
            return Err(Refusal::Worker);
        }
        self.records.get(worker).ok_or(Refusal::Worker)
    }

    /// Whether any worker is busy; records past the count do not matter.
    pub(crate) fn any_busy(&self) -> bool {
        self.records.iter().take(self.count).any(|record| !record.is_idle())
    }
}
