//! The work of `compare/` over Rust's crate `prometheus`. Each program of the comparison has the same words:
//!
//! - `torn SCRAPES`: scrapes while another thread counts without rest, each behind a line `---`;
//! - `updates ROUNDS`: the nanoseconds of updates, a line `NAME THREADS NANOSECONDS` each;
//! - `gather ROUNDS SIZE`: the nanoseconds of a scrape with its text; SIZE is `small` or `large`;
//! - `serve PORT SIZE`: serves such scrapes, after a line `listening PORT`, until it is killed;
//! - `page SCRAPES one`, or `whole`: the series of a page of one board, or of 40: registering, scrapes and increments.
//!
//! This program alone has `bare PORT SIZE`, which serves a text that was made before.

mod chain;
mod page;
mod server;
mod service;
mod updates;

use std::process::ExitCode;

/// Does what the words say; nothing if they say nothing.
fn run(words: &[&str]) -> Option<()> {
    match words {
        ["torn", scrapes] => chain::torn(scrapes.parse().ok()?),
        ["updates", rounds] => updates::measure(rounds.parse().ok()?),
        ["gather", rounds, size] => service::measure(service::of(size)?, rounds.parse().ok()?),
        ["serve", port, size] => server::serve(port.parse().ok()?, service::of(size)?, false),
        ["bare", port, size] => server::serve(port.parse().ok()?, service::of(size)?, true),
        ["page", scrapes, how] => page::measure(page::of(how)?, scrapes.parse().ok()?),
        _ => return None,
    }
    Some(())
}

fn main() -> ExitCode {
    let words: Vec<String> = std::env::args().skip(1).collect();
    match run(&words.iter().map(String::as_str).collect::<Vec<_>>()) {
        Some(()) => ExitCode::SUCCESS,
        None => {
            eprintln!("usage: peer torn SCRAPES | updates ROUNDS | gather ROUNDS SIZE | serve PORT SIZE | bare PORT SIZE | page SCRAPES one|whole");
            ExitCode::from(2)
        }
    }
}
