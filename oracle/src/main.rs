//! A second implementation of the bench controller of document 01, with a
//! generator of scripts and the tools to compare another one with it.
#![allow(unexpected_cfgs)]

mod bad_lines;
#[cfg_attr(not(linked), allow(dead_code))]
mod block;
#[cfg(test)]
mod block_tests;
mod broken_replies;
#[cfg_attr(not(linked), allow(dead_code))]
mod call_difference;
#[cfg_attr(not(linked), allow(dead_code))]
mod call_tally;
#[cfg_attr(not(linked), allow(dead_code))]
mod calls;
mod can_frame;
mod commands;
mod comparisons;
mod controller;
#[cfg(coverage)]
mod coverage;
mod encode;
mod expects;
mod fields;
mod fifo;
mod filter;
mod generate;
mod lesson;
mod lesson_lines;
mod lesson_text;
#[cfg(linked)]
mod linked;
mod mailbox;
mod malformed;
mod openings;
mod probe;
mod race;
#[cfg_attr(not(linked), allow(dead_code))]
mod random_blocks;
#[cfg_attr(not(linked), allow(dead_code))]
mod random_calls;
mod registers;
mod replies;
mod requests;
mod rng;
mod script;
mod shrink;
#[cfg(wrong)]
mod tell_apart;
#[cfg(test)]
mod tests;
mod text_reader;
#[cfg(test)]
mod text_tests;
mod text_writer;
mod words;
mod writer;

use std::process::ExitCode;

const USAGE: &str = "usage:
  oracle replay [--lesson]               script on standard input, replies on standard output
  oracle check                           as replay, with the request book; 1 if demand 3 is violated
  oracle compared [--bound]              script on standard input, how many filters each search compares, or at most may
  oracle encode                          requests to write a record on standard input, answers on standard output
  oracle replies                         replies on standard input, one line for each
  oracle write                           a lesson's text on standard input, the bytes of its script on standard output
  oracle text [FILE..]                   script on standard input, or in files, a lesson's text on standard output
  oracle expects                         a lesson's text on standard input; 1 if a step answers otherwise than expected
  oracle generate SEED RECORDS [KIND]    a script by seed
  oracle malformed SEED COUNT DIR        COUNT broken scripts as files in DIR
  oracle encode-requests SEED COUNT      requests for encode: all fields at their limits, then by seed
  oracle broken-replies SEED COUNT DIR   COUNT files of replies in DIR, broken and whole
  oracle openings DIR                    lessons in DIR that open well and otherwise
  oracle lesson-lines SEED COUNT         a lesson's text by seed
  oracle bad-lines SEED COUNT            lines that no lesson may have, by seed
  oracle edge-texts DIR                  lessons' texts in DIR, good and bad, at the edges of the grammar
  oracle shrink A B SCRIPT               the fewest records on which commands A and B differ
  oracle race A B SCRIPT ROUNDS          the times of commands A and B, and their ratio
  oracle words                           script on standard input, in words
  oracle wrong-list                      the wrong variants by number
 built with --cfg linked and an archive:
  oracle-calls calls SEED COUNT          COUNT random calls on blocks, the archive against the second implementation
 built with --cfg wrong:
  oracle-wrong replay [--lesson]|check|compared|encode|replies|write|text|expects --wrong K  a wrong variant
  oracle-wrong tell-apart SEEDS RECORDS  where each variant differs from the right one
 built with --cfg coverage:
  oracle-coverage coverage SEEDS RECORDS [KIND]  which branches the generated scripts reach";

fn main() -> ExitCode {
    let arguments: Vec<String> = std::env::args().skip(1).collect();
    let words: Vec<&str> = arguments.iter().map(String::as_str).collect();
    match commands::run(&words) {
        Ok(status) => ExitCode::from(status),
        Err(message) => {
            eprintln!("{message}");
            ExitCode::from(64)
        }
    }
}
