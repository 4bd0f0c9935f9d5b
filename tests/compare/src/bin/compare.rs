//! `compare [SEED [FIXTURES]]`: compares the archive with the second program, group by group, and
//! on the real segments of a folder; nonzero on the first difference, with the seed and the case.

use compare::rng::Rng;
use compare::{bodies, checkpoint, checksums, feed, fixtures, index, names, replay, report};
use compare::{resume, rows, segments, versions, Group, Outcome};
use std::io::Write;
use std::path::Path;
use std::process::ExitCode;

fn main() -> ExitCode {
    let words: Vec<String> = std::env::args().skip(1).collect();
    let Ok(seed) = words.first().map_or(Ok(1), |word| word.parse()) else {
        eprintln!("usage: compare [SEED [FIXTURES]]");
        return ExitCode::FAILURE;
    };
    println!("seed {seed}");
    match compare_all(seed, words.get(1)) {
        Ok(cases) => {
            println!("compare: {cases} cases, all equal");
            ExitCode::SUCCESS
        }
        Err(case) => {
            println!("differs");
            eprintln!("compare: seed {seed}, {case}");
            ExitCode::FAILURE
        }
    }
}

fn compare_all(seed: u64, folder: Option<&String>) -> Outcome {
    let mut total = 0;
    for (name, group) in groups() {
        total += run(name, || group(&mut Rng::new(seed)))?;
    }
    if let Some(folder) = folder {
        let folder = Path::new(folder);
        total += run("fixtures", || compare_fixtures(&mut Rng::new(seed), folder))?;
        total += run("fixtures' entries", || compare_rows(folder))?;
    }
    Ok(total)
}

/// Runs a group and prints its line; the name first, so that a crash shows it.
fn run(name: &str, group: impl FnOnce() -> Outcome) -> Outcome {
    print!("{name}: ");
    let _ = std::io::stdout().flush();
    let cases = group().map_err(|case| format!("{name}: {case}"))?;
    println!("{cases}");
    Ok(cases)
}

fn groups() -> Vec<Group> {
    [
        checksums::groups(),
        segments::groups(),
        feed::groups(),
        bodies::groups(),
        replay::groups(),
        report::groups(),
        resume::groups(),
        checkpoint::groups(),
        index::groups(),
        versions::groups(),
        names::groups(),
    ]
    .concat()
}

/// Each real segment through the calls.
fn compare_fixtures(rng: &mut Rng, folder: &Path) -> Outcome {
    let mut cases = 0;
    for fixture in fixtures::read_folder(folder)? {
        cases += compare_file(rng, &fixture.bytes)
            .map_err(|case| format!("{}: {case}", fixture.path.display()))?;
    }
    Ok(cases)
}

/// Each real segment, entry by entry as Prometheus' own decoder read it.
fn compare_rows(folder: &Path) -> Outcome {
    let mut lines = 0;
    for fixture in fixtures::read_folder(folder)? {
        let Some(text) = &fixture.rows else { continue };
        lines += rows::compare_file(&fixture.bytes, text)
            .map_err(|case| format!("{}: {case}", fixture.path.display()))?;
    }
    match lines {
        0 => Err(format!("{}: no entries", folder.display())),
        _ => Ok(lines),
    }
}

fn compare_file(rng: &mut Rng, bytes: &[u8]) -> Outcome {
    let sums = checksums::compare_data(rng, bytes)?;
    let reads = segments::compare_file(rng, bytes)?;
    let feeds = feed::compare_file(rng, bytes)?;
    let bodies = bodies::compare_file(rng, bytes)?;
    let replays = replay::compare_file(rng, bytes)?;
    let reports = report::compare_file(rng, bytes)?;
    let cuts = resume::compare_file(rng, bytes)?;
    let checkpoints = checkpoint::compare_file(rng, bytes)?;
    let indexes = index::compare_file(rng, bytes)?;
    Ok(sums + reads + feeds + bodies + replays + reports + cuts + checkpoints + indexes)
}
