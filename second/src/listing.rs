//! The listing: contents line, replies, live vertices, live edges.

use std::fmt::Write;

use crate::catalogue::Catalogue;
use crate::numbers::{Refusal, OUTPUT};
use crate::sweep::{survey, Survey};

/// One reply of a script, with its position, its worker and its code.
#[derive(Clone, Copy, Debug, PartialEq, Eq)]
pub(crate) struct ReplyLine {
    pub position: usize,
    pub worker: usize,
    pub code: u32,
    pub reply: u8,
}

/// Lists a catalogue by itself; returns the number of bytes written.
pub fn listing(catalogue: &Catalogue, output: &mut [u8]) -> Result<usize, Refusal> {
    check_output(output)?;
    catalogue.check_room()?;
    write_listing(catalogue, &[], output)
}

pub(crate) fn check_output(output: &[u8]) -> Result<(), Refusal> {
    if output.len() < OUTPUT {
        return Err(Refusal::Room);
    }
    Ok(())
}

/// Writes at the start of the output and keeps the rest of it. A catalogue can
/// be listed during trials, so edges in transit are allowed.
pub(crate) fn write_listing(
    catalogue: &Catalogue,
    replies: &[ReplyLine],
    output: &mut [u8],
) -> Result<usize, Refusal> {
    let survey = survey(catalogue, true)?;
    let text = text(catalogue, replies, &survey).map_err(|_| Refusal::Room)?;
    let room = output.get_mut(..text.len()).ok_or(Refusal::Room)?;
    room.copy_from_slice(text.as_bytes());
    Ok(text.len())
}

// The contents line counts all ADDED edges in live lists, while the body only
// has those to live targets. The two differ while an edge to a removed vertex
// is still in a list.
fn text(
    catalogue: &Catalogue,
    replies: &[ReplyLine],
    survey: &Survey,
) -> Result<String, std::fmt::Error> {
    let mut text = String::new();
    writeln!(text, "{} {} {}", replies.len(), survey.vertices.len(), survey.added)?;
    for line in replies {
        writeln!(text, "{} {} {} {}", line.position, line.worker, line.code, line.reply)?;
    }
    for vertex in &survey.vertices {
        writeln!(text, "{}", catalogue.vertex_key(*vertex))?;
    }
    for (source, target) in &survey.edges {
        writeln!(text, "{} {}", catalogue.vertex_key(*source), catalogue.vertex_key(*target))?;
    }
    Ok(text)
}
