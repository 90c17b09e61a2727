//! Compares the proved library with the original Rust, answer by answer.
mod campaign;
mod coding;
mod damage;
mod form;
mod framing;
mod grammar;
mod layout;
mod library;
mod refusal;
mod rng;
mod runs;
mod said;
mod shrink;
mod source;
mod subject;
mod survey;
mod tally;
mod vectors;
mod verdict;

use campaign::{Campaign, Size};
use std::process::ExitCode;
use std::time::Instant;

const USAGE: &str = "cargo run --release -- [--payloads N] [--seed S] [--bytes B] [--vectors FILE]";

struct Options {
    size: Size,
    seed: u64,
    vectors: Option<String>,
}

fn options() -> Result<Options, String> {
    let size = Size {
        payloads: 1_000_000,
        bytes: 2,
    };
    let mut options = Options {
        size,
        seed: 1,
        vectors: None,
    };
    let mut arguments = std::env::args().skip(1);
    while let Some(name) = arguments.next() {
        let value = arguments
            .next()
            .ok_or_else(|| format!("{name} lacks its value"))?;
        let number = || {
            value
                .parse::<u64>()
                .map_err(|e| format!("{name} {value}: {e}"))
        };
        match name.as_str() {
            "--payloads" => options.size.payloads = number()?,
            "--seed" => options.seed = number()?,
            "--bytes" if number()? > 3 => return Err("--bytes is 3 at most".into()),
            "--bytes" => options.size.bytes = number()? as usize,
            "--vectors" => options.vectors = Some(value),
            _ => return Err(format!("{name} is not known")),
        }
    }
    Ok(options)
}

fn main() -> ExitCode {
    let options = match options() {
        Ok(options) => options,
        Err(why) => {
            eprintln!("{why}\n{USAGE}");
            return ExitCode::from(2);
        }
    };
    verdict::hush();
    if let Some(file) = options.vectors {
        return match vectors::write(&file, options.seed) {
            Ok(lines) => {
                println!("{file}: {lines} lines");
                ExitCode::SUCCESS
            }
            Err(why) => {
                eprintln!("{file}: {why}");
                ExitCode::FAILURE
            }
        };
    }
    compare(&options)
}

fn compare(options: &Options) -> ExitCode {
    let start = Instant::now();
    println!(
        "every payload of 0 to {} bytes, and {} generated with seed {}",
        options.size.bytes, options.size.payloads, options.seed
    );
    let tally = Campaign::new(options.seed).run(options.size);
    print!("{}", tally.table());
    println!(
        "{} differences, {:.1} seconds",
        tally.differences(),
        start.elapsed().as_secs_f64()
    );
    if tally.differences() == 0 {
        return ExitCode::SUCCESS;
    }
    println!("{}", tally.findings());
    ExitCode::FAILURE
}
