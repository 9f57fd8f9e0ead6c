//! The reference: a second program for the index, written from the documents alone.

mod call;
mod digest;
mod index;
mod judge;
mod memory;
mod node;
mod oracle;
mod order;
mod random;
mod scenario;
mod tape;
mod tape_maker;
mod tape_text;
mod totals;
mod trial;

use std::error::Error;
use std::fs;
use std::io::{self, Read, Write};
use std::path::Path;
use std::process::ExitCode;

use judge::{Judge, Setting};
use scenario::Scenario;
use tape_maker::TapeMaker;
use totals::Totals;
use trial::Nobody;

const USAGE: &str = "usage:
  reference tape < TAPE                plays a tape
  reference encode < TEXT > TAPE       makes a tape from text
  reference decode < TAPE              shows a tape as text
  reference trials < SCENARIOS         runs scenarios
  reference judge < SCENARIOS          runs scenarios and judges them by the laws
  reference tapes SEED COUNT DIR       writes generated tapes";

type Done = Result<(), Box<dyn Error>>;

fn main() -> ExitCode {
    let arguments: Vec<String> = std::env::args().skip(1).collect();
    let words: Vec<&str> = arguments.iter().map(String::as_str).collect();
    let done = match words.as_slice() {
        ["tape"] => play_tape(),
        ["encode"] => encode(),
        ["decode"] => decode(),
        ["trials"] => run_trials(),
        ["judge"] => judge_trials(),
        ["tapes", seed, count, directory] => write_tapes(seed, count, directory),
        _ => Err(USAGE.into()),
    };
    match done {
        Ok(()) => ExitCode::SUCCESS,
        Err(fault) => {
            eprintln!("{fault}");
            ExitCode::FAILURE
        }
    }
}

fn input() -> io::Result<Vec<u8>> {
    let mut bytes = Vec::new();
    io::stdin().lock().read_to_end(&mut bytes)?;
    Ok(bytes)
}

fn play_tape() -> Done {
    let mut out = io::stdout().lock();
    for line in tape::play(&input()?) {
        writeln!(out, "{line}")?;
    }
    Ok(())
}

fn encode() -> Done {
    let text = String::from_utf8(input()?)?;
    io::stdout().write_all(&tape_text::encode(&text)?)?;
    Ok(())
}

fn decode() -> Done {
    io::stdout().write_all(tape_text::decode(&input()?).as_bytes())?;
    Ok(())
}

/// The scenarios of the input with their numbers.
fn scenarios() -> io::Result<Vec<(usize, Option<Scenario>)>> {
    Ok((1..).zip(scenario::parse_all(&input()?)).collect())
}

fn run_trials() -> Done {
    let mut out = io::stdout().lock();
    for (number, scenario) in scenarios()? {
        match scenario {
            Some(scenario) => writeln!(
                out,
                "{}",
                trial::run(&scenario, &mut Nobody)?.tally.line(number)
            )?,
            None => writeln!(out, "{number} bad")?,
        }
    }
    Ok(())
}

fn judge_trials() -> Done {
    let mut totals = Totals::default();
    for (number, scenario) in scenarios()? {
        let scenario = scenario.ok_or_else(|| format!("scenario {number} is bad"))?;
        judge_trial(number, &scenario, &mut totals)
            .map_err(|fault| format!("scenario {number}: {fault}"))?;
    }
    totals.print();
    Ok(())
}

fn judge_trial(number: usize, scenario: &Scenario, totals: &mut Totals) -> Result<(), String> {
    let memory = scenario.make_memory();
    let setting = Setting {
        order: scenario.order,
        top: memory.top_word(),
        cells: memory.length(),
    };
    let mut judge = Judge::new(setting);
    let mut outcome = trial::run(scenario, &mut judge)?;
    let counts = judge.counts();
    let shape = oracle::examine(&mut outcome.index, &mut judge)?;
    println!(
        "{number} steps {} finds {} puts {} turned back {} abandons {} nodes {} levels {} pairs {}",
        counts.steps,
        counts.finds,
        counts.puts,
        counts.turned_back,
        counts.abandons,
        shape.nodes,
        shape.levels,
        shape.pairs
    );
    totals.add(scenario, &outcome.tally, counts, shape);
    Ok(())
}

fn write_tapes(seed: &str, count: &str, directory: &str) -> Done {
    let count: usize = count.parse()?;
    let mut maker = TapeMaker::new(seed.parse()?);
    fs::create_dir_all(directory)?;
    for number in 0..count {
        fs::write(
            Path::new(directory).join(format!("{number:04}.tape")),
            maker.make(),
        )?;
    }
    Ok(())
}
