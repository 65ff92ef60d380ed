//! A ramp meter by documents 01 and 02 (requests A1 to A8): `simulator SITE < RECORDS`.
//!
//! It reads a site file, and from standard input the tick records of a run from power-up. Of each accepted tick it writes a byte for each
//! metered lane, 0 dark, 1 red, 2 yellow or 3 green, and then the sign's, 1 on or 0 off. It stops at the first refusal. At the end
//! standard error has `accepted A refusal N`, N being 0 where nothing was refused. A refused site gives `refused N at P` there instead,
//! and nothing else.

mod bypass;
mod calendar;
mod controller;
mod group;
mod lanes;
mod periods;
mod plan;
mod record;
mod site;
mod wanted;

use controller::Controller;
use record::Record;
use site::Site;
use std::ffi::OsString;
use std::io::{Error, ErrorKind, Read, Result, Write};
use std::path::Path;
use std::process::ExitCode;

/// How many records are read at a time.
const RECORDS: usize = 1024;

/// What became of some records: how many were accepted, and the refusal that ended them, 0 for none.
struct Outcome {
    accepted: usize,
    refusal: u8,
}

/// Runs the records of the input from a power-up, and lays each tick's indications behind those of the tick before.
fn run(site: &Site, mut input: impl Read, mut output: impl Write) -> Result<Outcome> {
    let record_size = record::size(site);
    let shown_size = site.timings.lanes + 1;
    let mut bytes = vec![0; RECORDS * record_size];
    let mut shown = vec![0; RECORDS * shown_size];
    let mut controller = Controller::power_up(site);
    let mut filled = 0;
    let mut total = Outcome { accepted: 0, refusal: 0 };
    while total.refusal == 0 {
        let read = read_some(&mut input, &mut bytes[filled..]).map_err(|error| named("standard input", error))?;
        if read == 0 {
            // what is left is less than a record
            total.refusal = if filled == 0 { 0 } else { record::WRONG_RECORD };
            break;
        }
        filled += read;
        let Outcome { accepted, refusal } = run_whole(site, &mut controller, &bytes[..filled], &mut shown);
        output.write_all(&shown[..accepted * shown_size]).map_err(|error| named("standard output", error))?;
        total = Outcome { accepted: total.accepted + accepted, refusal };
        bytes.copy_within(accepted * record_size..filled, 0);
        filled -= accepted * record_size;
    }
    output.flush().map_err(|error| named("standard output", error))?;
    Ok(total)
}

/// Runs the whole records at the front of the bytes, up to a refusal.
fn run_whole(site: &Site, controller: &mut Controller, bytes: &[u8], shown: &mut [u8]) -> Outcome {
    let mut record = Record::default();
    let mut accepted = 0;
    for (bytes, shown) in bytes.chunks_exact(record::size(site)).zip(shown.chunks_exact_mut(site.timings.lanes + 1)) {
        if let Err(refusal) = record.parse(bytes, site) {
            return Outcome { accepted, refusal };
        }
        controller.tick(site, &record);
        controller.show(site, shown);
        accepted += 1;
    }
    Outcome { accepted, refusal: 0 }
}

/// Reads what there is, at least a byte unless the input has ended.
fn read_some(input: &mut impl Read, bytes: &mut [u8]) -> Result<usize> {
    loop {
        match input.read(bytes) {
            Err(error) if error.kind() == ErrorKind::Interrupted => {}
            result => return result,
        }
    }
}

/// The error with what it is about.
fn named(what: &str, error: Error) -> Error {
    Error::new(error.kind(), format!("{what}: {error}"))
}

fn simulate(file: &Path) -> Result<()> {
    let bytes = std::fs::read(file).map_err(|error| named(&file.to_string_lossy(), error))?;
    match Site::read(&bytes) {
        Ok(site) => {
            let Outcome { accepted, refusal } = run(&site, std::io::stdin().lock(), std::io::stdout().lock())?;
            eprintln!("accepted {accepted} refusal {refusal}");
        }
        Err(refused) => eprintln!("refused {} at {}", refused.number, refused.place),
    }
    Ok(())
}

fn main() -> ExitCode {
    let arguments: Vec<OsString> = std::env::args_os().skip(1).collect();
    let [file] = &arguments[..] else {
        eprintln!("usage: simulator SITE < RECORDS");
        return ExitCode::from(2);
    };
    match simulate(Path::new(file)) {
        Ok(()) => ExitCode::SUCCESS,
        Err(error) => {
            eprintln!("simulator: {error}");
            ExitCode::FAILURE
        }
    }
}
