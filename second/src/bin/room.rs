//! The pool of vertices runs out, and a sweep makes room again.

mod asking;

use asking::{on_vertices, perform, Request};
use second::{sweep, Catalogue, Refusal, Table};

fn ask(catalogue: &mut Catalogue, request: Request) -> Result<(), Refusal> {
    let (reply, _) = perform(catalogue, request)?;
    println!("{reply}");
    Ok(())
}

fn main() -> Result<(), Refusal> {
    let mut catalogue = Catalogue::default();
    on_vertices(&mut catalogue, 1, 0, 1)?.print();
    ask(&mut catalogue, (1, 254, 0))?;
    ask(&mut catalogue, (1, 0, 0))?;
    ask(&mut catalogue, (2, 0, 0))?;
    ask(&mut catalogue, (1, 254, 0))?;
    let mut swept = Catalogue::default();
    sweep(&catalogue, &mut swept, &Table::new(1))?;
    println!("0");
    ask(&mut swept, (1, 254, 0))
}
