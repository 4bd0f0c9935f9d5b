//! `listing PROGRAM [FIXTURES [SEED]]`: gives generated segments, and the files of a folder, to the
//! listing program on standard input, and compares its output with the second program's listing.

use compare::fixtures::{read_folder, Fixture};
use compare::generate::{self, Splitting};
use compare::rng::Rng;
use reference::listing::{list_segment, text, INPUT_MAX};
use reference::segment::{self, FRAGMENT_MAX, LAST, MIDDLE, PAGE, RECORD_MAX};
use reference::version::Version;
use std::io::{self, Read, Write};
use std::path::Path;
use std::process::{Child, Command, ExitCode, Stdio};

/// Generated segments of up to two pages, and of many.
const SHORT: u64 = 2_500;
const LONG: u64 = 80;

/// Bytes that the input comes in at once.
const AT_ONCE: usize = 1 << 20;

fn main() -> ExitCode {
    let words: Vec<String> = std::env::args().skip(1).collect();
    let Some(program) = words.first() else {
        eprintln!("usage: listing PROGRAM [FIXTURES [SEED]]");
        return ExitCode::FAILURE;
    };
    let seed = words.get(2).and_then(|word| word.parse().ok()).unwrap_or(1);
    println!("seed {seed}");
    match compare_all(program, words.get(1), seed) {
        Ok(cases) => {
            println!("listing: {cases} cases, all equal");
            ExitCode::SUCCESS
        }
        Err(case) => {
            eprintln!("listing: seed {seed}, {case}");
            ExitCode::FAILURE
        }
    }
}

fn compare_all(program: &str, fixtures: Option<&String>, seed: u64) -> Result<u64, String> {
    let mut total = 0;
    if let Some(folder) = fixtures {
        total += print("fixtures", compare_fixtures(program, Path::new(folder))?);
    }
    let mut rng = Rng::new(seed);
    total += print("short", compare_short(program, &mut rng)?);
    total += print("many pages", compare_long(program, &mut rng)?);
    total += print("at the limit", compare_limit(program)?);
    Ok(total)
}

fn print(group: &str, cases: u64) -> u64 {
    println!("{group}: {cases}");
    cases
}

/// Each file that has a `.listing` beside it.
fn compare_fixtures(program: &str, folder: &Path) -> Result<u64, String> {
    let fixtures = read_folder(folder)?;
    for Fixture {
        path,
        bytes,
        listing,
        ..
    } in &fixtures
    {
        let name = path.display();
        if list_segment(bytes) != *listing {
            return Err(format!("{name}: the second program differs"));
        }
        compare_input(program, bytes, AT_ONCE).map_err(|why| format!("{name}: {why}"))?;
    }
    Ok(fixtures.len() as u64)
}

// ---- Generated inputs ----

fn compare_short(program: &str, rng: &mut Rng) -> Result<u64, String> {
    for case in 0..SHORT {
        let input = short_input(rng, case);
        compare_input(program, &input, AT_ONCE).map_err(|why| format!("short {case}: {why}"))?;
    }
    Ok(SHORT)
}

/// A segment of at most two pages; the first is empty.
fn short_input(rng: &mut Rng, case: u64) -> Vec<u8> {
    let mut bytes = Vec::new();
    match (case, case % 4) {
        (0, _) => return bytes,
        (_, 0) => generate::noise(rng, &mut bytes),
        (_, 1) => bytes = generate::foreign_from_0(rng, Splitting::Short).bytes,
        _ => bytes = generate::written(rng, 2).bytes,
    }
    if rng.once_in(3) {
        bytes.truncate(rng.below(bytes.len() + 1));
    }
    if rng.once_in(5) {
        bytes.resize(bytes.len() + rng.below(4 * PAGE), 0);
    }
    bytes.truncate(2 * PAGE);
    // The listing reads version 1.
    if rng.once_in(12) {
        generate::resum(Version::Two, &mut bytes);
    }
    if rng.once_in(4) && !bytes.is_empty() {
        let place = rng.below(bytes.len());
        bytes[place] = rng.byte();
    }
    bytes
}

/// These come in pieces of any size, so that a page comes in several.
fn compare_long(program: &str, rng: &mut Rng) -> Result<u64, String> {
    for case in 0..LONG {
        let input = long_input(rng, case);
        let at_once = 1_000 + rng.below(100_000);
        compare_input(program, &input, at_once).map_err(|why| format!("long {case}: {why}"))?;
    }
    Ok(LONG)
}

/// A segment of several pages or megabytes; most are cut or damaged in their last pages, or end
/// with zeros.
fn long_input(rng: &mut Rng, case: u64) -> Vec<u8> {
    let pages = match case % 4 {
        0 => 3 + rng.below(200),
        _ => 3 + rng.below(12),
    };
    let mut bytes = match case % 8 {
        1 => generate::foreign_from_0(rng, Splitting::Long).bytes,
        3 => filled(pages * PAGE, 37),
        _ => generate::written_by(rng, pages, 8 * pages).bytes,
    };
    let late = bytes.len() - rng.below(2 * PAGE).min(bytes.len());
    match rng.below(4) {
        0 => bytes.truncate(late),
        1 if late < bytes.len() => bytes[late] ^= 1 << rng.below(8),
        2 => bytes.resize(bytes.len() + rng.below(3 * PAGE), 0),
        _ => {}
    }
    bytes
}

/// A segment of so many bytes, whole pages, full of records of one length.
fn filled(bytes: usize, record: usize) -> Vec<u8> {
    let mut segment = vec![0; bytes];
    let mut place = 0;
    while let Ok(next) = segment::write(Version::One, &mut segment, place, &RECORD[..record]) {
        place = next;
    }
    segment
}

/// What records are taken from.
static RECORD: [u8; RECORD_MAX] = [37; RECORD_MAX];

// ---- The limit ----

const LAST_PAGE: usize = INPUT_MAX - PAGE;

/// Inputs of 4,096 pages, a byte less and some bytes more, with what their last line begins with.
fn compare_limit(program: &str) -> Result<u64, String> {
    let mut cases = 0;
    let mut compare = |input: &[u8], ending: &str| {
        cases += 1;
        compare_ending(program, input, ending).map_err(|why| format!("limit, {ending}: {why}"))
    };
    let mut input = filled(INPUT_MAX, 37);
    compare(&input, "clean ")?;
    input.extend([9; PAGE + 1]);
    compare(&input[..INPUT_MAX + 1], "too long")?;

    input.fill(0);
    compare(&input[..INPUT_MAX], "clean 0")?;
    compare(&input, "too long")?;

    // A record that goes on beyond the limit.
    put(&mut input, LAST_PAGE - 3 * PAGE, 40_000)?;
    put(&mut input, LAST_PAGE - PAGE, 2 * FRAGMENT_MAX)?;
    input[LAST_PAGE] = MIDDLE;
    input[INPUT_MAX] = LAST;
    compare(&input[..INPUT_MAX - 1], "torn ")?;
    compare(&input[..INPUT_MAX], "torn ")?;
    compare(&input[..INPUT_MAX + 1], "too long")?;
    compare(&input, "too long")?;

    // The last byte before the limit, of the filler, is refused.
    put(&mut input, LAST_PAGE - PAGE, 2 * FRAGMENT_MAX - 6)?;
    input[INPUT_MAX - 1] = 1;
    compare(&input[..INPUT_MAX - 1], "clean 2")?;
    compare(&input[..INPUT_MAX], "refused 6 ")?;
    compare(&input, "refused 6 ")?;
    Ok(cases)
}

fn put(input: &mut [u8], place: usize, record: usize) -> Result<usize, String> {
    segment::write(
        Version::One,
        &mut input[..INPUT_MAX],
        place,
        &RECORD[..record],
    )
    .map_err(|why| format!("{why:?}"))
}

fn compare_ending(program: &str, input: &[u8], ending: &str) -> Result<(), String> {
    let listed = compare_input(program, input, AT_ONCE)?;
    match listed.lines().last() {
        Some(line) if line.starts_with(ending) => Ok(()),
        line => Err(format!("{} bytes: the last line is {line:?}", input.len())),
    }
}

// ---- One input ----

/// Compares the program's listing of the input with the second program's, and hands it back.
fn compare_input(program: &str, input: &[u8], at_once: usize) -> Result<String, String> {
    let got = run(program, input, at_once).map_err(|why| format!("{program}: {why}"))?;
    let wanted = text(input);
    if got == wanted.as_bytes() {
        return Ok(wanted);
    }
    let got = String::from_utf8_lossy(&got);
    let (line, got, wanted) = first_difference(&got, &wanted);
    let length = input.len();
    Err(format!(
        "{length} bytes, line {line}: got {got:?}, wanted {wanted:?}"
    ))
}

/// The first line that differs, with its line end.
fn first_difference<'a>(got: &'a str, wanted: &'a str) -> (usize, &'a str, &'a str) {
    let mut got = got.split_inclusive('\n');
    let mut wanted = wanted.split_inclusive('\n');
    for line in 1.. {
        let pair = (got.next().unwrap_or(""), wanted.next().unwrap_or(""));
        if pair.0 != pair.1 || pair.0.is_empty() {
            return (line, pair.0, pair.1);
        }
    }
    unreachable!("texts end")
}

/// What the program prints of the input; it has to end well.
fn run(program: &str, input: &[u8], at_once: usize) -> io::Result<Vec<u8>> {
    let mut child = Command::new(program)
        .stdin(Stdio::piped())
        .stdout(Stdio::piped())
        .spawn()?;
    let output = talk(&mut child, input, at_once)?;
    let status = child.wait()?;
    if status.success() {
        Ok(output)
    } else {
        Err(io::Error::other(format!("ended with {status}")))
    }
}

/// Writes the input, so many bytes at once, beside reading the output; the program may stop reading
/// early.
fn talk(child: &mut Child, input: &[u8], at_once: usize) -> io::Result<Vec<u8>> {
    let mut stdin = child.stdin.take().expect("standard input is a pipe");
    let mut stdout = child.stdout.take().expect("standard output is a pipe");
    let mut output = Vec::new();
    std::thread::scope(|scope| {
        scope.spawn(move || {
            let mut pieces = input.chunks(at_once);
            pieces.try_for_each(|piece| stdin.write_all(piece))
        });
        stdout.read_to_end(&mut output)
    })?;
    Ok(output)
}
