//! Runs examples/batches.toml over its records, and compares the report with the one that is stored.

use bevelrose::{check, Ended, Network};
use std::error::Error;
use std::path::PathBuf;
use std::{env, fs};

fn main() -> Result<(), Box<dyn Error>> {
    let folder = PathBuf::from(env::args().nth(1).unwrap_or_else(|| format!("{}/..", env!("CARGO_MANIFEST_DIR"))));
    let refusal = check(b"format = 2").expect_err("there is no format 2");
    println!("format 2 is refused: {refusal}");

    let mut network = Network::open(&fs::read(folder.join("batches.toml"))?)?;
    let (ended, report) = network.run(&fs::read(folder.join("batches.csv"))?, u64::MAX)?;
    if ended != Ended::Quiet || report != fs::read_to_string(folder.join("batches.report"))? {
        return Err("the report is not the one that is stored".into());
    }
    println!("a report of {} bytes, as it is stored", report.len());
    Ok(())
}
