//! Looks along one vertex's edge list: AddE up to its insertion, RemE, ConE.

use crate::catalogue::{Catalogue, Change, EdgeLink, EdgeTag, Lead};
use crate::numbers::{
    Refusal, DONE, EDGES, EDGE_ALREADY_PRESENT, EDGE_NOT_PRESENT, EDGE_ON_TRIAL, EDGE_TAIL,
    NO_ROOM, VERTEX_NOT_PRESENT, VERTEX_OR_EDGE_NOT_PRESENT,
};
use crate::step::Outcome;
use crate::worker::{EdgeSpot, Pair, Place, Previous, Record, TrialSpot};

/// What one look of AddE or RemE comes to.
enum Look {
    /// One of the two vertices is marked.
    Gone,
    /// Another look is needed; the spot to look at next.
    On(Change, EdgeSpot),
    /// p leads to c, and c is not below the key. No link means the tail.
    Settle(Lead, Option<EdgeLink>),
}

pub(crate) fn add(catalogue: &Catalogue, spot: EdgeSpot) -> Result<Outcome, Refusal> {
    match look(catalogue, spot)? {
        Look::Gone => Ok(Outcome::reply(Change::Nothing, VERTEX_NOT_PRESENT)),
        Look::On(change, spot) => Ok(Outcome { change, ..Outcome::at(Place::AddE(spot)) }),
        Look::Settle(lead, link) => settle_add(catalogue, spot, lead, link),
    }
}

fn settle_add(
    catalogue: &Catalogue,
    spot: EdgeSpot,
    lead: Lead,
    link: Option<EdgeLink>,
) -> Result<Outcome, Refusal> {
    let EdgeSpot { keys, u, v, c, .. } = spot;
    if let Some(link) = link {
        if catalogue.edge_key(c)? == keys.l {
            let on_trial = link.tag == EdgeTag::Transit;
            let reply = if on_trial { EDGE_ON_TRIAL } else { EDGE_ALREADY_PRESENT };
            return Ok(Outcome::reply(Change::Nothing, reply));
        }
    }
    let Some(own) = catalogue.next_edge()? else {
        return Ok(Outcome::reply(Change::Nothing, NO_ROOM));
    };
    let change = Change::NewEdge { number: own, key: keys.l, target: v, lead, c };
    let mut record = Record::at(Place::Trial(TrialSpot { keys, u, v, own }));
    record.meet(v)?;
    Ok(Outcome::going_on(change, record))
}

pub(crate) fn remove(catalogue: &Catalogue, spot: EdgeSpot) -> Result<Outcome, Refusal> {
    match look(catalogue, spot)? {
        Look::Gone => Ok(Outcome::reply(Change::Nothing, VERTEX_NOT_PRESENT)),
        Look::On(change, spot) => Ok(Outcome { change, ..Outcome::at(Place::RemE(spot)) }),
        Look::Settle(_, Some(EdgeLink { next, tag: EdgeTag::Added }))
            if catalogue.edge_key(spot.c)? == spot.keys.l =>
        {
            let link = EdgeLink { next, tag: EdgeTag::Marked };
            Ok(Outcome::reply(Change::EdgeLink(spot.c, link), DONE))
        }
        Look::Settle(..) => Ok(Outcome::reply(Change::Nothing, EDGE_NOT_PRESENT)),
    }
}

fn look(catalogue: &Catalogue, spot: EdgeSpot) -> Result<Look, Refusal> {
    let EdgeSpot { keys, u, v, c, .. } = spot;
    // A marked u settles it: v is not read then, here and in every such test.
    if catalogue.is_marked(u)? || catalogue.is_marked(v)? {
        return Ok(Look::Gone);
    }
    let Some(lead) = lead_to_c(catalogue, spot)? else {
        let restart = EdgeSpot { p: Previous::First, c: catalogue.first_edge(u)?, ..spot };
        return Ok(Look::On(Change::Nothing, restart));
    };
    if c == EDGE_TAIL {
        return Ok(Look::Settle(lead, None));
    }
    let link = catalogue.edge_link(c)?;
    if link.tag == EdgeTag::Marked {
        let onward = EdgeSpot { c: link.next, ..spot };
        return Ok(Look::On(Change::Redirect(lead, link.next), onward));
    }
    if link.tag == EdgeTag::Added && catalogue.is_marked(catalogue.edge_target(c)?)? {
        let marked = EdgeLink { next: link.next, tag: EdgeTag::Marked };
        return Ok(Look::On(Change::EdgeLink(c, marked), spot));
    }
    if catalogue.edge_key(c)? < keys.l {
        let onward = EdgeSpot { p: Previous::Edge(c), c: link.next, ..spot };
        return Ok(Look::On(Change::Nothing, onward));
    }
    Ok(Look::Settle(lead, Some(link)))
}

/// p with its tag if it is unmarked and leads to c, else none.
fn lead_to_c(catalogue: &Catalogue, spot: EdgeSpot) -> Result<Option<Lead>, Refusal> {
    let (lead, next) = match spot.p {
        Previous::First => (Lead::First(spot.u), catalogue.first_edge(spot.u)?),
        Previous::Edge(EDGE_TAIL) => return Err(Refusal::Torn),
        Previous::Edge(edge) => {
            let link = catalogue.edge_link(edge)?;
            if link.tag == EdgeTag::Marked {
                return Ok(None);
            }
            (Lead::Edge(edge, link.tag), link.next)
        }
    };
    // Comparing reads the record's c, so a c outside its pool is torn rather
    // than merely different from where p leads.
    if usize::from(spot.c) >= EDGES {
        return Err(Refusal::Torn);
    }
    Ok((next == spot.c).then_some(lead))
}

pub(crate) fn contains(
    catalogue: &Catalogue,
    keys: Pair,
    u: u8,
    v: u8,
    c: u16,
) -> Result<Outcome, Refusal> {
    let key = catalogue.edge_key(c)?;
    if key < keys.l {
        let next = catalogue.edge_link(c)?.next;
        return Ok(Outcome::at(Place::ConE { keys, u, v, c: next }));
    }
    // Taken from left to right: the first condition that fails ends the reading.
    let present = key == keys.l
        && catalogue.edge_link(c)?.tag == EdgeTag::Added
        && catalogue.edge_target(c)? == v
        && !catalogue.is_marked(u)?
        && !catalogue.is_marked(v)?;
    let reply = if present { DONE } else { VERTEX_OR_EDGE_NOT_PRESENT };
    Ok(Outcome::reply(Change::Nothing, reply))
}
