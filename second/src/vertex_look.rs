//! Looks along the vertex list: the three vertex calls, and the search for the
//! two ends of an edge.

use crate::catalogue::{Catalogue, Change, VertexLink};
use crate::numbers::{
    Refusal, DONE, HEAD, NO_ROOM, TAIL, VERTEX_NOT_PRESENT, VERTEX_OR_EDGE_NOT_PRESENT,
    VERTEX_OTHERWISE,
};
use crate::step::Outcome;
use crate::worker::{EdgeCall, EdgeSpot, Pair, Place, Previous, VertexSpot};

/// What one look of AddV or RemV comes to.
enum Look {
    /// Another look is needed; the spot to look at next.
    On(Change, VertexSpot),
    /// c is unmarked and not below the key.
    Settle,
}

pub(crate) fn add(catalogue: &Catalogue, spot: VertexSpot) -> Result<Outcome, Refusal> {
    if let Look::On(change, spot) = look(catalogue, spot)? {
        return Ok(Outcome { change, ..Outcome::at(Place::AddV(spot)) });
    }
    let VertexSpot { key, p, c } = spot;
    if catalogue.vertex_key(c) == key {
        return Ok(Outcome::reply(Change::Nothing, VERTEX_OTHERWISE));
    }
    match catalogue.next_vertex()? {
        None => Ok(Outcome::reply(Change::Nothing, NO_ROOM)),
        Some(number) => Ok(Outcome::reply(Change::NewVertex { number, key, p, c }, DONE)),
    }
}

pub(crate) fn remove(catalogue: &Catalogue, spot: VertexSpot) -> Result<Outcome, Refusal> {
    if let Look::On(change, spot) = look(catalogue, spot)? {
        return Ok(Outcome { change, ..Outcome::at(Place::RemV(spot)) });
    }
    if catalogue.vertex_key(spot.c) != spot.key {
        return Ok(Outcome::reply(Change::Nothing, VERTEX_OTHERWISE));
    }
    let next = catalogue.vertex_link(spot.c)?.next;
    let link = VertexLink { next, marked: true };
    Ok(Outcome::reply(Change::VertexLink(spot.c, link), DONE))
}

fn look(catalogue: &Catalogue, spot: VertexSpot) -> Result<Look, Refusal> {
    let VertexSpot { key, p, c } = spot;
    if p == TAIL {
        return Err(Refusal::Torn);
    }
    let expected = VertexLink { next: c, marked: false };
    if catalogue.vertex_link(p)? != expected {
        let c = catalogue.vertex_link(HEAD)?.next;
        return Ok(Look::On(Change::Nothing, VertexSpot { key, p: HEAD, c }));
    }
    // The tail is unmarked and above every key: nothing of it needs reading.
    if c == TAIL {
        return Ok(Look::Settle);
    }
    let link = catalogue.vertex_link(c)?;
    if link.marked {
        let around = VertexLink { next: link.next, marked: false };
        return Ok(Look::On(Change::VertexLink(p, around), VertexSpot { key, p, c: link.next }));
    }
    if catalogue.vertex_key(c) < key {
        return Ok(Look::On(Change::Nothing, VertexSpot { key, p: c, c: link.next }));
    }
    Ok(Look::Settle)
}

/// What one look of ConV comes to.
enum Sight {
    Further(u8),
    Found,
    Missing,
}

// A higher key decides by itself, so c's link is not read then and may be
// garbage. The condition "equal key and unmarked" is read from left to right.
fn sight(catalogue: &Catalogue, key: i32, c: u8) -> Result<Sight, Refusal> {
    let here = catalogue.vertex_key(c);
    if here < key {
        return Ok(Sight::Further(catalogue.vertex_link(c)?.next));
    }
    if here == key && !catalogue.is_marked(c)? {
        return Ok(Sight::Found);
    }
    Ok(Sight::Missing)
}

pub(crate) fn contains(catalogue: &Catalogue, key: i32, c: u8) -> Result<Outcome, Refusal> {
    Ok(match sight(catalogue, key, c)? {
        Sight::Further(c) => Outcome::at(Place::ConV { key, c }),
        Sight::Found => Outcome::reply(Change::Nothing, DONE),
        Sight::Missing => Outcome::reply(Change::Nothing, VERTEX_OTHERWISE),
    })
}

pub(crate) fn source(
    catalogue: &Catalogue,
    call: EdgeCall,
    keys: Pair,
    c: u8,
) -> Result<Outcome, Refusal> {
    Ok(match sight(catalogue, keys.k, c)? {
        Sight::Further(c) => Outcome::at(Place::FindSource { call, keys, c }),
        Sight::Found => {
            let start = catalogue.vertex_link(HEAD)?.next;
            Outcome::at(Place::FindTarget { call, keys, u: c, c: start })
        }
        Sight::Missing => missing(call),
    })
}

pub(crate) fn target(
    catalogue: &Catalogue,
    call: EdgeCall,
    keys: Pair,
    u: u8,
    c: u8,
) -> Result<Outcome, Refusal> {
    Ok(match sight(catalogue, keys.l, c)? {
        Sight::Further(c) => Outcome::at(Place::FindTarget { call, keys, u, c }),
        Sight::Found => {
            let first = catalogue.first_edge(u)?;
            let spot = EdgeSpot { keys, u, v: c, p: Previous::First, c: first };
            Outcome::at(match call {
                EdgeCall::Add => Place::AddE(spot),
                EdgeCall::Remove => Place::RemE(spot),
                EdgeCall::Contains => Place::ConE { keys, u, v: c, c: first },
            })
        }
        Sight::Missing => missing(call),
    })
}

fn missing(call: EdgeCall) -> Outcome {
    let reply = match call {
        EdgeCall::Add | EdgeCall::Remove => VERTEX_NOT_PRESENT,
        EdgeCall::Contains => VERTEX_OR_EDGE_NOT_PRESENT,
    };
    Outcome::reply(Change::Nothing, reply)
}
