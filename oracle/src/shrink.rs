//! Cuts a script down to the fewest records on which two commands differ.

use crate::commands::{hex, record_line};
use crate::script::{decode, REPLY_LENGTH};
use crate::writer::RESET_RECORD;
use std::fs::{self, File};
use std::path::PathBuf;
use std::process::{Command, Stdio};

struct Pair<'a> {
    commands: [&'a str; 2],
    input: PathBuf,
    runs: u64,
}

impl Pair<'_> {
    fn outputs(&mut self, script: &[u8]) -> Result<[Vec<u8>; 2], String> {
        self.runs += 1;
        fs::write(&self.input, script).map_err(|error| error.to_string())?;
        let mut outputs = [Vec::new(), Vec::new()];
        for (output, command) in outputs.iter_mut().zip(self.commands) {
            let input = File::open(&self.input).map_err(|error| error.to_string())?;
            let done = Command::new("sh")
                .args(["-c", command])
                .stdin(Stdio::from(input))
                .stderr(Stdio::null())
                .output()
                .map_err(|error| format!("{command}: {error}"))?;
            *output = done.stdout;
        }
        Ok(outputs)
    }

    /// The number of the first record whose replies differ, if any does.
    fn first_difference(&mut self, records: &[&[u8]]) -> Result<Option<usize>, String> {
        let [a, b] = self.outputs(&records.concat())?;
        if a == b {
            return Ok(None);
        }
        let common = a.iter().zip(&b).take_while(|(x, y)| x == y).count();
        Ok(Some((common / REPLY_LENGTH).min(records.len().saturating_sub(1))))
    }
}

pub fn shrink(a: &str, b: &str, file: &str) -> Result<u8, String> {
    let script = fs::read(file).map_err(|error| format!("{file}: {error}"))?;
    let input = std::env::temp_dir().join(format!("oracle-shrink-{}.bin", std::process::id()));
    let mut pair = Pair { commands: [a, b], input, runs: 0 };
    let shrunk = shrink_records(&mut pair, &split(&script));
    let printed = shrunk.and_then(|records| match records {
        None => {
            println!("# no difference");
            Ok(0)
        }
        Some(records) => print_result(&mut pair, &records).map(|()| 1),
    });
    let _ = fs::remove_file(&pair.input);
    printed
}

/// The records of a script; a rest that can't be read is the last of them.
fn split(script: &[u8]) -> Vec<&[u8]> {
    let mut records = Vec::new();
    let mut rest = script;
    while !rest.is_empty() {
        let length = decode(rest).map_or(rest.len(), |(_, length)| length);
        records.push(&rest[..length]);
        rest = &rest[length..];
    }
    records
}

/// Removes ever smaller runs of records while the outputs still differ.
fn shrink_records<'a>(pair: &mut Pair, records: &[&'a [u8]]) -> Result<Option<Vec<&'a [u8]>>, String> {
    let last = match pair.first_difference(records)? {
        Some(last) => last,
        None => return Ok(None),
    };
    let mut kept = records[..records.len().min(last + 1)].to_vec();
    let mut run = (kept.len() / 2).max(1);
    loop {
        let removed = remove_runs(pair, &mut kept, run)?;
        if run == 1 && !removed {
            return Ok(Some(kept));
        }
        run = (run / 2).max(1);
    }
}

/// One pass from the end; true if anything could go. A reset at the start
/// stays, so that both sides begin alike.
fn remove_runs(pair: &mut Pair, kept: &mut Vec<&[u8]>, run: usize) -> Result<bool, String> {
    let mut removed = false;
    let mut end = kept.len();
    let pinned = kept.first().map_or(false, |record| **record == RESET_RECORD) as usize;
    while end > pinned {
        let start = end.saturating_sub(run).max(pinned);
        let mut candidate = kept.clone();
        candidate.drain(start..end);
        if let Some(last) = pair.first_difference(&candidate)? {
            candidate.truncate(last + 1);
            *kept = candidate;
            removed = true;
        }
        end = start.min(kept.len());
    }
    Ok(removed)
}

fn print_result(pair: &mut Pair, records: &[&[u8]]) -> Result<(), String> {
    for record in records {
        match decode(record) {
            Ok((step, _)) => println!("{}", record_line(record, step)),
            Err(unreadable) => println!("{:<48} # {}", hex(record), unreadable.in_words()),
        }
    }
    let outputs = pair.outputs(&records.concat())?;
    for (name, output) in ["A", "B"].iter().zip(&outputs) {
        let from = (records.len().max(1) - 1) * REPLY_LENGTH;
        let last = output.get(from..).unwrap_or_default();
        println!("# {name} replies {}", if last.is_empty() { "nothing".into() } else { hex(last) });
    }
    println!("# {} records, {} pairs of runs", records.len(), pair.runs);
    Ok(())
}
