//! The trial of a new edge: a search from its target for its source.

use crate::catalogue::{Catalogue, Change, EdgeLink, EdgeTag};
use crate::numbers::{Refusal, CYCLE_DETECTED, DONE, EDGE_TAIL, VERTEX_NOT_PRESENT};
use crate::step::Outcome;
use crate::worker::{Place, Record, TrialSpot};

/// One step of a trial; `open` is the open vertex with the edge to look at.
pub(crate) fn step(
    catalogue: &Catalogue,
    record: &Record,
    trial: TrialSpot,
    open: Option<(u8, u16)>,
) -> Result<Outcome, Refusal> {
    record.check_queue()?;
    if catalogue.is_marked(trial.u)? || catalogue.is_marked(trial.v)? {
        return finish(catalogue, trial, EdgeTag::Marked, VERTEX_NOT_PRESENT);
    }
    if let Some((x, c)) = open {
        return look_on(catalogue, record, trial, x, c);
    }
    match record.front_vertex() {
        None => finish(catalogue, trial, EdgeTag::Added, DONE),
        Some(x) => take(catalogue, record, trial, x),
    }
}

/// Gives the own edge its last tag. The tag before may be any that an edge may
/// have, since the rule names no condition on it.
fn finish(
    catalogue: &Catalogue,
    trial: TrialSpot,
    tag: EdgeTag,
    reply: u8,
) -> Result<Outcome, Refusal> {
    if trial.own == EDGE_TAIL {
        return Err(Refusal::Torn);
    }
    let next = catalogue.edge_link(trial.own)?.next;
    Ok(Outcome::reply(Change::EdgeLink(trial.own, EdgeLink { next, tag }), reply))
}

/// One edge of the open vertex x, or its closing.
fn look_on(
    catalogue: &Catalogue,
    record: &Record,
    trial: TrialSpot,
    x: u8,
    c: u16,
) -> Result<Outcome, Refusal> {
    if catalogue.is_marked(x)? || c == EDGE_TAIL {
        return Ok(Outcome::going_on(Change::Nothing, record.moved(Place::Trial(trial))));
    }
    let link = catalogue.edge_link(c)?;
    let mut after = record.moved(Place::TrialOpen { trial, x, c: link.next });
    if link.tag != EdgeTag::Marked {
        let target = catalogue.edge_target(c)?;
        if !catalogue.is_marked(target)? && !record.has_met(target) {
            after.meet(target)?;
        }
    }
    Ok(Outcome::going_on(Change::Nothing, after))
}

/// Takes x from the front of the queue.
fn take(
    catalogue: &Catalogue,
    record: &Record,
    trial: TrialSpot,
    x: u8,
) -> Result<Outcome, Refusal> {
    if x == trial.u {
        return finish(catalogue, trial, EdgeTag::Marked, CYCLE_DETECTED);
    }
    let taken = record.take_front();
    if catalogue.is_marked(x)? {
        return Ok(Outcome::going_on(Change::Nothing, taken));
    }
    let c = catalogue.first_edge(x)?;
    let place = Place::TrialOpen { trial, x, c };
    Ok(Outcome::going_on(Change::Nothing, taken.moved(place)))
}
