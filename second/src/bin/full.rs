//! Fills a catalogue until neither pool has a node left. Then lists it, sweeps it,
//! thins it out, sweeps it again and fills it again.

mod asking;

use asking::{key, on_vertices, perform, Tally};
use second::numbers::OUTPUT;
use second::{listing, sweep, Catalogue, Refusal, Table};

/// Makes the same request on the edges of every by-th vertex: one to each
/// fourteenth vertex below it, which is more edges than fit.
fn on_edges(catalogue: &mut Catalogue, code: u32, by: usize) -> Result<Tally, Refusal> {
    let mut tally = Tally::default();
    for n in (0..254).step_by(by) {
        for target in (0..n).rev().skip(13).step_by(14) {
            tally.count(perform(catalogue, (code, key(n), key(target)))?);
        }
    }
    Ok(tally)
}

// Never inlined, since its cost is measured under its name.
#[inline(never)]
fn print_listing(catalogue: &Catalogue) -> Result<(), Refusal> {
    let mut output = vec![0; OUTPUT];
    let written = listing(catalogue, &mut output)?;
    print!("{}", String::from_utf8_lossy(&output[..written]));
    Ok(())
}

fn fill(catalogue: &mut Catalogue) -> Result<(), Refusal> {
    on_vertices(catalogue, 1, 0, 1)?.print();
    on_edges(catalogue, 4, 1)?.print();
    print_listing(catalogue)
}

fn thin_out(catalogue: &mut Catalogue) -> Result<(), Refusal> {
    on_vertices(catalogue, 2, 5, 10)?.print();
    on_edges(catalogue, 5, 8)?.print();
    Ok(())
}

fn sweep_and_list(catalogue: &Catalogue, swept: &mut Catalogue) -> Result<(), Refusal> {
    sweep(catalogue, swept, &Table::new(1))?;
    println!("0");
    print_listing(swept)
}

fn main() -> Result<(), Refusal> {
    let (mut catalogue, mut swept) = (Catalogue::default(), Catalogue::default());
    fill(&mut catalogue)?;
    sweep_and_list(&catalogue, &mut swept)?;
    thin_out(&mut catalogue)?;
    sweep_and_list(&catalogue, &mut swept)?;
    fill(&mut swept)
}
