//! Taking up a request, and one step: first the checks, then the choice of the
//! rule by the worker's place, then storing the outcome.

use crate::catalogue::{Catalogue, Change};
use crate::edge_look;
use crate::numbers::{reserved, Answer, Refusal, HEAD};
use crate::trial;
use crate::vertex_look;
use crate::worker::{EdgeCall, Pair, Place, Record, Table, VertexSpot};

/// What a step would do. The rules only compute one of these and touch nothing,
/// so a refusal anywhere on the way changes nothing.
pub(crate) struct Outcome {
    pub change: Change,
    pub record: Record,
    pub answer: Answer,
}

impl Outcome {
    pub(crate) fn going_on(change: Change, record: Record) -> Self {
        let answer = Answer::GoingOn { met: record.met_count() };
        Outcome { change, record, answer }
    }

    /// Going on at another place, with nothing changed but the record.
    pub(crate) fn at(place: Place) -> Self {
        Outcome::going_on(Change::Nothing, Record::at(place))
    }

    pub(crate) fn reply(change: Change, reply: u8) -> Self {
        Outcome { change, record: Record::idle(), answer: Answer::Reply(reply) }
    }
}

/// Gives an idle worker a request; codes 1 to 3 do not look at `l`.
pub fn take_up(
    catalogue: &Catalogue,
    table: &mut Table,
    worker: usize,
    code: u32,
    k: i32,
    l: i32,
) -> Result<Answer, Refusal> {
    catalogue.check_room()?;
    if !table.record(worker)?.is_idle() {
        return Err(Refusal::Busy);
    }
    check_request(code, k, l)?;
    let c = catalogue.vertex_link(HEAD)?.next;
    let spot = VertexSpot { key: k, p: HEAD, c };
    let keys = Pair { k, l };
    let place = match code {
        1 => Place::AddV(spot),
        2 => Place::RemV(spot),
        3 => Place::ConV { key: k, c },
        4 => Place::FindSource { call: EdgeCall::Add, keys, c },
        5 => Place::FindSource { call: EdgeCall::Remove, keys, c },
        6 => Place::FindSource { call: EdgeCall::Contains, keys, c },
        _ => return Err(Refusal::Code),
    };
    table.records[worker] = Record::at(place);
    Ok(Answer::GoingOn { met: 0 })
}

/// Refuses what no worker may be asked for.
pub(crate) fn check_request(code: u32, k: i32, l: i32) -> Result<(), Refusal> {
    if !(1..=6).contains(&code) {
        return Err(Refusal::Code);
    }
    if reserved(k) || (code >= 4 && reserved(l)) {
        return Err(Refusal::Key);
    }
    Ok(())
}

/// Makes one busy worker do one step.
pub fn step(
    catalogue: &mut Catalogue,
    table: &mut Table,
    worker: usize,
) -> Result<Answer, Refusal> {
    catalogue.check_room()?;
    let outcome = decide(catalogue, table.record(worker)?)?;
    catalogue.apply(outcome.change);
    table.records[worker] = outcome.record;
    Ok(outcome.answer)
}

fn decide(catalogue: &Catalogue, record: &Record) -> Result<Outcome, Refusal> {
    if record.place.has_reserved_key() {
        return Err(Refusal::Torn);
    }
    match record.place {
        Place::Idle => Err(Refusal::Idle),
        Place::AddV(spot) => vertex_look::add(catalogue, spot),
        Place::RemV(spot) => vertex_look::remove(catalogue, spot),
        Place::ConV { key, c } => vertex_look::contains(catalogue, key, c),
        Place::FindSource { call, keys, c } => vertex_look::source(catalogue, call, keys, c),
        Place::FindTarget { call, keys, u, c } => vertex_look::target(catalogue, call, keys, u, c),
        Place::AddE(spot) => edge_look::add(catalogue, spot),
        Place::RemE(spot) => edge_look::remove(catalogue, spot),
        Place::ConE { keys, u, v, c } => edge_look::contains(catalogue, keys, u, v, c),
        Place::Trial(trial) => trial::step(catalogue, record, trial, None),
        Place::TrialOpen { trial, x, c } => trial::step(catalogue, record, trial, Some((x, c))),
    }
}
