//! Times two commands on one script, turn by turn.

use crate::script::decode;
use std::fs::{self, File};
use std::process::{Command, Stdio};
use std::time::Instant;

/// Prints the shortest, the middle and the longest time of each command, the
/// quartiles, between which half of its times lie, and the rate of the shortest
/// time; then the ratios of A to B, and the quartiles of the ratios by round.
pub fn race(a: &str, b: &str, file: &str, rounds: u64) -> Result<u8, String> {
    let records = count_records(&fs::read(file).map_err(|error| format!("{file}: {error}"))?);
    let (mut of_a, mut of_b, mut ratios) = (Vec::new(), Vec::new(), Vec::new());
    for _ in 0..rounds.max(1) {
        let (time_a, time_b) = (milliseconds(a, file)?, milliseconds(b, file)?);
        of_a.push(time_a);
        of_b.push(time_b);
        ratios.push(time_a / time_b);
    }
    let (of_a, of_b, ratios) = (quarters(of_a), quarters(of_b), quarters(ratios));
    for (name, [shortest, low, middle, high, longest]) in [("A", of_a), ("B", of_b)] {
        let spread = 100.0 * (high - low) / middle;
        let rate = records as f64 / shortest / 1e3;
        println!(
            "{name}: shortest {shortest:.1} ms, middle {middle:.1}, longest {longest:.1}; half of them from {low:.1} \
             to {high:.1} ({spread:.1}% of the middle); {rate:.2} million records a second"
        );
    }
    println!(
        "A to B: {:.2} by the shortest, {:.2} by the middle time; half of the rounds from {:.2} to {:.2}",
        of_a[0] / of_b[0],
        of_a[2] / of_b[2],
        ratios[1],
        ratios[3]
    );
    Ok(0)
}

/// The least, the three quartiles and the greatest.
fn quarters(mut numbers: Vec<f64>) -> [f64; 5] {
    numbers.sort_by(f64::total_cmp);
    [0, 1, 2, 3, 4].map(|quarter| numbers[(numbers.len() - 1) * quarter / 4])
}

fn count_records(script: &[u8]) -> u64 {
    let (mut rest, mut records) = (script, 0);
    while let Ok((_, length)) = decode(rest) {
        rest = &rest[length..];
        records += 1;
    }
    records
}

fn milliseconds(command: &str, file: &str) -> Result<f64, String> {
    let input = File::open(file).map_err(|error| format!("{file}: {error}"))?;
    let mut words = command.split_whitespace();
    let program = words.next().ok_or("no command")?;
    let mut run = Command::new(program);
    run.args(words).stdin(Stdio::from(input)).stdout(Stdio::null()).stderr(Stdio::null());
    let start = Instant::now();
    run.status().map_err(|error| format!("{command}: {error}"))?;
    Ok(start.elapsed().as_secs_f64() * 1e3)
}
