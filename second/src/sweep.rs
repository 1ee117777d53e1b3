//! The survey of a whole catalogue, and the sweep built on it.

use crate::catalogue::{Catalogue, EdgeLink, EdgeTag};
use crate::numbers::{Refusal, EDGES, EDGE_TAIL, FIRST_EDGE, FIRST_VERTEX, HEAD, TAIL, VERTICES};
use crate::worker::Table;

/// The live graph of a catalogue that was found sound.
pub(crate) struct Survey {
    /// Live vertices, by rising key.
    pub vertices: Vec<u8>,
    /// Live edges as source and target, by source key and then target key.
    pub edges: Vec<(u8, u8)>,
    /// ADDED edges in the lists of live vertices, those to marked targets too.
    pub added: usize,
}

/// Walks all that can be reached and refuses what is not sound.
///
/// Only what the walk reads is judged. Nodes it does not reach, the edge lists
/// of marked vertices, the head's first-edge link and the handed-out counts may
/// hold anything.
pub(crate) fn survey(catalogue: &Catalogue, transit_allowed: bool) -> Result<Survey, Refusal> {
    let (vertices, walked) = walk_vertices(catalogue)?;
    let mut survey = Survey { vertices: Vec::new(), edges: Vec::new(), added: 0 };
    for source in &vertices {
        walk_edges(catalogue, *source, &walked, transit_allowed, &mut survey)?;
    }
    survey.vertices = vertices;
    Ok(survey)
}

/// The live vertices in order, and which numbers come after the head at all.
fn walk_vertices(catalogue: &Catalogue) -> Result<(Vec<u8>, [bool; VERTICES]), Refusal> {
    let mut live = Vec::new();
    let mut walked = [false; VERTICES];
    let mut key = catalogue.vertex_key(HEAD);
    let mut link = catalogue.vertex_link(HEAD)?;
    // The head's tag must be PLAIN; its first-edge link belongs to no list.
    if link.marked {
        return Err(Refusal::Torn);
    }
    loop {
        let vertex = link.next;
        let next_key = catalogue.vertex_key(vertex);
        // Strictly rising keys also make sure that the walk comes to an end.
        if next_key <= key {
            return Err(Refusal::Torn);
        }
        if vertex == TAIL {
            return Ok((live, walked));
        }
        key = next_key;
        link = catalogue.vertex_link(vertex)?;
        walked[usize::from(vertex)] = true;
        if !link.marked {
            live.push(vertex);
        }
    }
}

fn walk_edges(
    catalogue: &Catalogue,
    source: u8,
    walked: &[bool; VERTICES],
    transit_allowed: bool,
    survey: &mut Survey,
) -> Result<(), Refusal> {
    let mut edge = catalogue.first_edge(source)?;
    while edge != EDGE_TAIL {
        let link = catalogue.edge_link(edge)?;
        if link.tag == EdgeTag::Transit && !transit_allowed {
            return Err(Refusal::Torn);
        }
        if catalogue.edge_key(link.next)? <= catalogue.edge_key(edge)? {
            return Err(Refusal::Torn);
        }
        let (target, live_target) = check_target(catalogue, edge, walked)?;
        if link.tag == EdgeTag::Added {
            survey.added += 1;
            if live_target {
                survey.edges.push((source, target));
            }
        }
        // Lists that share nodes can hold more edges than there are nodes.
        if survey.edges.len() >= EDGES {
            return Err(Refusal::Torn);
        }
        edge = link.next;
    }
    Ok(())
}

/// An edge's target and whether it is live. Every edge is tested, marked ones
/// too, and its key must be the target's even if the target is marked.
fn check_target(
    catalogue: &Catalogue,
    edge: u16,
    walked: &[bool; VERTICES],
) -> Result<(u8, bool), Refusal> {
    let target = catalogue.edge_target(edge)?;
    let marked = catalogue.is_marked(target)?;
    let known = marked || walked[usize::from(target)];
    if !known || catalogue.vertex_key(target) != catalogue.edge_key(edge)? {
        return Err(Refusal::Torn);
    }
    Ok((target, !marked))
}

/// Writes the first catalogue's live graph, and nothing else of it, into the second.
pub fn sweep(first: &Catalogue, second: &mut Catalogue, table: &Table) -> Result<(), Refusal> {
    first.check_room()?;
    second.check_room()?;
    table.check_count()?;
    if table.any_busy() {
        return Err(Refusal::Busy);
    }
    let survey = survey(first, false)?;
    *second = Catalogue::default();
    let numbers = write_vertices(first, second, &survey.vertices);
    write_edges(first, second, &survey.edges, &numbers);
    Ok(())
}

/// Numbers the vertices anew; returns the new number of each old one.
fn write_vertices(first: &Catalogue, second: &mut Catalogue, vertices: &[u8]) -> [u8; VERTICES] {
    let mut numbers = [HEAD; VERTICES];
    let mut previous = HEAD;
    for (number, vertex) in (FIRST_VERTEX..=u8::MAX).zip(vertices) {
        numbers[usize::from(*vertex)] = number;
        second.put_vertex(number, first.vertex_key(*vertex), TAIL);
        second.lead_vertex(previous, number);
        second.vertices_out += 1;
        previous = number;
    }
    numbers
}

fn write_edges(
    first: &Catalogue,
    second: &mut Catalogue,
    edges: &[(u8, u8)],
    numbers: &[u8; VERTICES],
) {
    let mut previous = None;
    for (number, (source, target)) in (FIRST_EDGE..).zip(edges) {
        let link = EdgeLink { next: EDGE_TAIL, tag: EdgeTag::Added };
        let key = first.vertex_key(*target);
        second.put_edge(number, key, numbers[usize::from(*target)], link);
        match previous {
            Some((before, same)) if same == source => second.lead_edge(before, number),
            _ => second.put_first_edge(numbers[usize::from(*source)], number),
        }
        second.edges_out += 1;
        previous = Some((number, source));
    }
}
