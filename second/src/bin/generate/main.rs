//! Scripts to compare two programs with: each seed always gives the same one.
//!
//! `generate DIR FIRST COUNT` writes DIR/SEED.script for COUNT seeds from FIRST.

mod damage;
mod dice;
mod draft;
mod sound;

use std::path::Path;
use std::process::ExitCode;
use std::{env, fs};

use dice::Dice;
use sound::SOUND;

/// Of this many seeds in a row, those after the sound kinds give damaged scripts.
const KINDS: u64 = 13;

fn main() -> ExitCode {
    let arguments: Vec<String> = env::args().skip(1).collect();
    let done = match arguments.as_slice() {
        [dir, first, count] => write_scripts(dir, first, count),
        _ => Err("usage: generate DIR FIRST COUNT".to_string()),
    };
    match done {
        Ok(()) => ExitCode::SUCCESS,
        Err(message) => {
            eprintln!("generate: {message}");
            ExitCode::FAILURE
        }
    }
}

fn write_scripts(dir: &str, first: &str, count: &str) -> Result<(), String> {
    let first: u64 = first.parse().map_err(|_| format!("no seed: {first}"))?;
    let count: u64 = count.parse().map_err(|_| format!("no count: {count}"))?;
    let end = first.checked_add(count).ok_or("seeds end at 2^64")?;
    for seed in first..end {
        let path = Path::new(dir).join(format!("{seed}.script"));
        fs::write(&path, script(seed)).map_err(|e| format!("{}: {e}", path.display()))?;
    }
    Ok(())
}

fn script(seed: u64) -> Vec<u8> {
    let mut dice = Dice::new(seed);
    let (kind, round) = (seed % KINDS, seed / KINDS);
    match SOUND.get(kind as usize) {
        Some(make) => make(&mut dice).bytes(),
        None => {
            // The damaged kinds go through all forms of damage in turn.
            let sound = SOUND.len() as u64;
            damage::script(&mut dice, round * (KINDS - sound) + kind - sound)
        }
    }
}
