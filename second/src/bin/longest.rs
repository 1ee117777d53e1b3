//! Calls that come close to their bounds, on a full catalogue.

mod asking;

use asking::{key, on_vertices, perform, Request};
use second::{Catalogue, Refusal};

fn ask(catalogue: &mut Catalogue, request: Request) -> Result<(), Refusal> {
    let (reply, steps) = perform(catalogue, request)?;
    println!("{reply}\n{steps}");
    Ok(())
}

fn main() -> Result<(), Refusal> {
    let mut catalogue = Catalogue::default();
    on_vertices(&mut catalogue, 1, 0, 1)?.print();
    ask(&mut catalogue, (3, 254, 0))?;
    for (apart, end) in (1..9).map(|apart| (apart, 254 - apart)).chain([(9, 59)]) {
        for n in 1..end {
            perform(&mut catalogue, (4, key(n), key(n + apart)))?;
        }
    }
    ask(&mut catalogue, (4, key(0), key(1)))
}
