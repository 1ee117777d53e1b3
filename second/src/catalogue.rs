//! The catalogue's memory, the guarded ways to read it and the changes a step
//! can make to it.

use crate::numbers::{Refusal, EDGES, EDGE_TAIL, FIRST_EDGE, FIRST_VERTEX, HEAD, TAIL, VERTICES};

const PLAIN: u32 = 0;
const MARKED: u32 = 1;
const TRANSIT: u32 = 2;
const ADDED: u32 = 3;

/// Plain memory: any of these numbers may be garbage, and so may the lengths.
#[derive(Clone, Debug, PartialEq, Eq)]
pub struct Catalogue {
    pub vertex_keys: Vec<i32>,
    pub vertex_links: Vec<u32>,
    pub first_edges: Vec<u32>,
    pub edge_keys: Vec<i32>,
    pub edge_targets: Vec<u32>,
    pub edge_links: Vec<u32>,
    /// How many vertex nodes are handed out.
    pub vertices_out: u32,
    /// How many edge nodes are handed out.
    pub edges_out: u32,
}

/// Makes a lent catalogue fresh, whatever it held.
pub fn fresh(catalogue: &mut Catalogue) -> Result<(), Refusal> {
    catalogue.check_room()?;
    *catalogue = Catalogue::default();
    Ok(())
}

/// A vertex link that was found sound.
#[derive(Clone, Copy, Debug, PartialEq, Eq)]
pub(crate) struct VertexLink {
    pub next: u8,
    pub marked: bool,
}

/// The three tags an edge node can have.
#[derive(Clone, Copy, Debug, PartialEq, Eq)]
pub(crate) enum EdgeTag {
    Marked,
    Transit,
    Added,
}

/// An edge node's link that was found sound.
#[derive(Clone, Copy, Debug, PartialEq, Eq)]
pub(crate) struct EdgeLink {
    pub next: u16,
    pub tag: EdgeTag,
}

/// The link before an edge. A redirect keeps its tag.
#[derive(Clone, Copy, Debug, PartialEq, Eq)]
pub(crate) enum Lead {
    First(u8),
    Edge(u16, EdgeTag),
}

/// What one step changes: never more than one link that others can reach.
#[derive(Clone, Copy, Debug, PartialEq, Eq)]
pub(crate) enum Change {
    Nothing,
    VertexLink(u8, VertexLink),
    EdgeLink(u16, EdgeLink),
    Redirect(Lead, u16),
    NewVertex { number: u8, key: i32, p: u8, c: u8 },
    NewEdge { number: u16, key: i32, target: u8, lead: Lead, c: u16 },
}

impl Default for Catalogue {
    /// The fresh catalogue: a head that leads to the tail, zeros elsewhere.
    fn default() -> Self {
        let mut catalogue = Catalogue {
            vertex_keys: vec![0; VERTICES],
            vertex_links: vec![0; VERTICES],
            first_edges: vec![0; VERTICES],
            edge_keys: vec![0; EDGES],
            edge_targets: vec![0; EDGES],
            edge_links: vec![0; EDGES],
            vertices_out: 0,
            edges_out: 0,
        };
        catalogue.vertex_keys[usize::from(HEAD)] = i32::MIN;
        catalogue.lead_vertex(HEAD, TAIL);
        catalogue
    }
}

/// Reading. The lengths were checked before, so a vertex number is always in
/// range. An edge number may not be: it is then outside its pool.
impl Catalogue {
    pub(crate) fn check_room(&self) -> Result<(), Refusal> {
        let vertices = [self.vertex_keys.len(), self.vertex_links.len(), self.first_edges.len()];
        let edges = [self.edge_keys.len(), self.edge_targets.len(), self.edge_links.len()];
        if vertices != [VERTICES; 3] || edges != [EDGES; 3] {
            return Err(Refusal::Room);
        }
        Ok(())
    }

    pub(crate) fn vertex_key(&self, vertex: u8) -> i32 {
        if vertex == TAIL {
            return i32::MAX;
        }
        self.vertex_keys[usize::from(vertex)]
    }

    /// The whole link, node number and tag, even if only one is needed.
    pub(crate) fn vertex_link(&self, vertex: u8) -> Result<VertexLink, Refusal> {
        let link = self.vertex_links[usize::from(vertex)];
        let next = u8::try_from(link / 4).map_err(|_| Refusal::Torn)?;
        match link % 4 {
            PLAIN => Ok(VertexLink { next, marked: false }),
            MARKED => Ok(VertexLink { next, marked: true }),
            _ => Err(Refusal::Torn),
        }
    }

    /// Does not read the tail's memory.
    pub(crate) fn is_marked(&self, vertex: u8) -> Result<bool, Refusal> {
        if vertex == TAIL {
            return Ok(false);
        }
        Ok(self.vertex_link(vertex)?.marked)
    }

    pub(crate) fn first_edge(&self, vertex: u8) -> Result<u16, Refusal> {
        let link = self.first_edges[usize::from(vertex)];
        if link % 4 != PLAIN {
            return Err(Refusal::Torn);
        }
        edge_number(link / 4)
    }

    pub(crate) fn edge_key(&self, edge: u16) -> Result<i32, Refusal> {
        if edge == EDGE_TAIL {
            return Ok(i32::MAX);
        }
        self.edge_keys.get(usize::from(edge)).copied().ok_or(Refusal::Torn)
    }

    pub(crate) fn edge_target(&self, edge: u16) -> Result<u8, Refusal> {
        let target = self.edge_targets.get(usize::from(edge)).ok_or(Refusal::Torn)?;
        u8::try_from(*target).map_err(|_| Refusal::Torn)
    }

    pub(crate) fn edge_link(&self, edge: u16) -> Result<EdgeLink, Refusal> {
        let link = *self.edge_links.get(usize::from(edge)).ok_or(Refusal::Torn)?;
        let next = edge_number(link / 4)?;
        let tag = match link % 4 {
            MARKED => EdgeTag::Marked,
            TRANSIT => EdgeTag::Transit,
            ADDED => EdgeTag::Added,
            _ => return Err(Refusal::Torn),
        };
        Ok(EdgeLink { next, tag })
    }

    /// The next vertex number to hand out, if any is left.
    pub(crate) fn next_vertex(&self) -> Result<Option<u8>, Refusal> {
        let number = u64::from(FIRST_VERTEX) + u64::from(self.vertices_out);
        if number > VERTICES as u64 {
            return Err(Refusal::Torn);
        }
        Ok(u8::try_from(number).ok())
    }

    /// The next edge number to hand out, if any is left.
    pub(crate) fn next_edge(&self) -> Result<Option<u16>, Refusal> {
        let number = u64::from(FIRST_EDGE) + u64::from(self.edges_out);
        if number > EDGES as u64 {
            return Err(Refusal::Torn);
        }
        Ok(u16::try_from(number).ok().filter(|edge| usize::from(*edge) < EDGES))
    }
}

/// Writing. Only numbers that came through the readers above arrive here.
impl Catalogue {
    pub(crate) fn apply(&mut self, change: Change) {
        match change {
            Change::Nothing => {}
            Change::VertexLink(vertex, link) => self.put_vertex_link(vertex, link),
            Change::EdgeLink(edge, link) => self.put_edge_link(edge, link),
            Change::Redirect(lead, next) => self.redirect(lead, next),
            Change::NewVertex { number, key, p, c } => self.insert_vertex(number, key, p, c),
            Change::NewEdge { number, key, target, lead, c } => {
                self.put_edge(number, key, target, EdgeLink { next: c, tag: EdgeTag::Transit });
                self.redirect(lead, number);
                self.edges_out += 1;
            }
        }
    }

    // The new node is complete before p leads to it. In sound memory this order
    // does not show. In garbage the new node may be p itself, and p's link wins.
    // The same order holds for edges.
    fn insert_vertex(&mut self, number: u8, key: i32, p: u8, c: u8) {
        self.put_vertex(number, key, c);
        self.lead_vertex(p, number);
        self.vertices_out += 1;
    }

    /// A live vertex with no edges.
    pub(crate) fn put_vertex(&mut self, vertex: u8, key: i32, next: u8) {
        self.vertex_keys[usize::from(vertex)] = key;
        self.lead_vertex(vertex, next);
        self.put_first_edge(vertex, EDGE_TAIL);
    }

    pub(crate) fn put_edge(&mut self, edge: u16, key: i32, target: u8, link: EdgeLink) {
        self.edge_keys[usize::from(edge)] = key;
        self.edge_targets[usize::from(edge)] = u32::from(target);
        self.put_edge_link(edge, link);
    }

    /// Makes one live vertex lead to another.
    pub(crate) fn lead_vertex(&mut self, vertex: u8, next: u8) {
        self.put_vertex_link(vertex, VertexLink { next, marked: false });
    }

    /// Makes one added edge lead to another.
    pub(crate) fn lead_edge(&mut self, edge: u16, next: u16) {
        self.put_edge_link(edge, EdgeLink { next, tag: EdgeTag::Added });
    }

    fn put_vertex_link(&mut self, vertex: u8, link: VertexLink) {
        let tag = if link.marked { MARKED } else { PLAIN };
        self.vertex_links[usize::from(vertex)] = 4 * u32::from(link.next) + tag;
    }

    pub(crate) fn put_first_edge(&mut self, vertex: u8, edge: u16) {
        self.first_edges[usize::from(vertex)] = 4 * u32::from(edge) + PLAIN;
    }

    fn put_edge_link(&mut self, edge: u16, link: EdgeLink) {
        let tag = match link.tag {
            EdgeTag::Marked => MARKED,
            EdgeTag::Transit => TRANSIT,
            EdgeTag::Added => ADDED,
        };
        self.edge_links[usize::from(edge)] = 4 * u32::from(link.next) + tag;
    }

    fn redirect(&mut self, lead: Lead, next: u16) {
        match lead {
            Lead::First(vertex) => self.put_first_edge(vertex, next),
            Lead::Edge(edge, tag) => self.put_edge_link(edge, EdgeLink { next, tag }),
        }
    }
}

/// An edge number taken from memory, which must lie in its pool.
fn edge_number(number: u32) -> Result<u16, Refusal> {
    if number as usize >= EDGES {
        return Err(Refusal::Torn);
    }
    u16::try_from(number).map_err(|_| Refusal::Torn)
}
