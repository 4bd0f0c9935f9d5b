//! `reporting PROGRAM [SEED]`: runs the report program on generated files in a folder of its own, and
//! compares its output with the second program's report.

use compare::generate;
use compare::logs::{samples, Log, World};
use compare::report::{any_reading, night_log};
use compare::rng::Rng;
use reference::report::SEGMENTS_MAX;
use reference::reporting;
use reference::segment::{PAGE, SEGMENT_MAX};
use reference::version::Version;
use std::ffi::{OsStr, OsString};
use std::fs::{self, File, Permissions};
use std::os::unix::ffi::OsStrExt;
use std::os::unix::fs::PermissionsExt;
use std::path::{Path, PathBuf};
use std::process::{Command, ExitCode};

/// Generated nights of few segments.
const NIGHTS: u64 = 1_500;

fn main() -> ExitCode {
    let words: Vec<String> = std::env::args().skip(1).collect();
    let Some(program) = words.first() else {
        eprintln!("usage: reporting PROGRAM [SEED]");
        return ExitCode::FAILURE;
    };
    let seed = words.get(1).and_then(|word| word.parse().ok()).unwrap_or(1);
    println!("seed {seed}");
    match Folder::new(program).and_then(|folder| compare_all(&folder, seed)) {
        Ok(cases) => {
            println!("reporting: {cases} cases, all equal");
            ExitCode::SUCCESS
        }
        Err(case) => {
            eprintln!("reporting: seed {seed}, {case}");
            ExitCode::FAILURE
        }
    }
}

fn compare_all(folder: &Folder, seed: u64) -> Result<u64, String> {
    let mut rng = Rng::new(seed);
    let mut total = 0;
    for (name, group) in [
        (
            "names",
            compare_names as fn(&Folder, &mut Rng) -> Result<u64, String>,
        ),
        ("nights", compare_nights),
        ("as many as there may be", compare_counts),
        ("too long", compare_lengths),
    ] {
        let cases = group(folder, &mut rng).map_err(|why| format!("{name}: {why}"))?;
        println!("{name}: {cases}");
        total += cases;
    }
    Ok(total)
}

// ---- The folder ----

/// Where the files are. Both programs run in it, so that bare names are found.
struct Folder {
    path: PathBuf,
    program: PathBuf,
}

impl Folder {
    fn new(program: &str) -> Result<Folder, String> {
        let fail = |why: std::io::Error| format!("{program}: {why}");
        let program = fs::canonicalize(program).map_err(fail)?;
        let name = format!("depot_wal_reporting_{}", std::process::id());
        let path = std::env::temp_dir().join(name);
        fs::create_dir(&path).map_err(fail)?;
        std::env::set_current_dir(&path).map_err(fail)?;
        Ok(Folder { path, program })
    }

    fn put(&self, name: &str, bytes: &[u8]) -> Result<(), String> {
        let path = self.path.join(name);
        // The one before may be closed to us.
        let _ = fs::remove_file(&path);
        fs::write(path, bytes).map_err(|why| format!("{name}: {why}"))
    }

    /// Compares what the program prints for these arguments, and hands it back.
    fn compare(&self, arguments: &[OsString]) -> Result<String, String> {
        let output = Command::new(&self.program).args(arguments).output();
        let output = output.map_err(|why| why.to_string())?;
        let wanted = reporting::text(arguments);
        let what = || {
            let shown = &arguments[..arguments.len().min(12)];
            format!("{} arguments, {shown:?}", arguments.len())
        };
        if !output.status.success() {
            return Err(format!("{}: ended with {}", what(), output.status));
        }
        if output.stdout != wanted.as_bytes() {
            let got = String::from_utf8_lossy(&output.stdout);
            let difference = got
                .lines()
                .zip(wanted.lines())
                .find(|(got, wanted)| got != wanted);
            let lengths = (got.len(), wanted.len());
            return Err(format!(
                "{}: got and wanted {lengths:?} bytes, the first lines that differ are {difference:?}",
                what()
            ));
        }
        Ok(wanted)
    }
}

impl Drop for Folder {
    fn drop(&mut self) {
        let _ = fs::remove_dir_all(&self.path);
    }
}

fn word(bytes: &[u8]) -> OsString {
    OsStr::from_bytes(bytes).to_os_string()
}

// ---- Names ----

/// Names of a segment that is there, of both versions.
const GOOD: [&str; 5] = ["000000", "999999", "000001-v1", "000001-v2", "123456-v2"];

/// Names of no segment; a file of each is there, where a folder can hold it.
const BAD: [&[u8]; 26] = [
    b"",
    b"0",
    b"00001",
    b"0000001",
    b"00000a",
    b"a00000",
    b" 000000",
    b"000000 ",
    b"+00000",
    b"-00001",
    b"000000-",
    b"000000-v",
    b"000000-v0",
    b"000000-v3",
    b"000000-v01",
    b"000000-v02",
    b"000000-v11",
    b"000000-v22",
    b"000000-V2",
    b"000000v2",
    b"000000-v2 ",
    b"000000-v18446744073709551618",
    b"000000.wal",
    b"\xFF\xFE0000",
    b"00000\xD9\xA0",
    b"checkpoint.000001",
];

/// Each name alone, in the folder, with a path before it and after; and all at once.
fn compare_names(folder: &Folder, _: &mut Rng) -> Result<u64, String> {
    let bytes = Log::of(&[samples(&[(7, 1, 1)])]).bytes;
    let mut cases = 0;
    let mut all = vec![OsString::new()];
    fs::create_dir(folder.path.join("000002")).map_err(|why| why.to_string())?;
    for name in GOOD.iter().map(|name| name.as_bytes()).chain(BAD) {
        let path = folder.path.join(OsStr::from_bytes(name));
        let mut bytes = bytes.clone();
        if name.ends_with(b"-v2") {
            generate::resum(Version::Two, &mut bytes);
        }
        if !name.is_empty() {
            fs::write(&path, &bytes).map_err(|why| format!("{path:?}: {why}"))?;
        }
        let deep = [b"000002/../".as_slice(), name].concat();
        let ended = [name, b"/"].concat();
        let before = [b"000000/".as_slice(), name].concat();
        let dotted = [b"./".as_slice(), name].concat();
        for argument in [
            name,
            &deep,
            &ended,
            &before,
            &dotted,
            path.as_os_str().as_bytes(),
        ] {
            let text = folder.compare(&[word(argument)])?;
            let good = argument == name && GOOD.iter().any(|good| good.as_bytes() == name);
            if good && text != "series 7 1 0 0000000000000001 0000000000000001\n" {
                return Err(format!("{argument:?}: {text:?}"));
            }
            all.push(word(argument));
            cases += 1;
        }
    }
    all.extend([word(b"000002"), word(b"000003"), word(b"000000")]);
    folder.compare(&all)?;
    folder.compare(&[])?;
    Ok(cases + 2)
}

// ---- Nights ----

/// A few arguments, each with a file of its own or with none.
fn compare_nights(folder: &Folder, rng: &mut Rng) -> Result<u64, String> {
    for _ in 0..NIGHTS {
        let count = match rng.below(8) {
            0 => 230 + rng.below(60),
            _ => 1 + rng.below(6),
        };
        let ids = World::new(rng, count).ids;
        let mut night = Vec::new();
        for position in 0..1 + rng.below(7) {
            night.push(any_argument(folder, rng, &ids, position)?);
        }
        folder.compare(&night)?;
    }
    Ok(NIGHTS)
}

fn any_argument(
    folder: &Folder,
    rng: &mut Rng,
    ids: &[u64],
    position: usize,
) -> Result<OsString, String> {
    let most = ids.len().min(40);
    let records = rng.below(12);
    let mut bytes = night_log(rng, ids, records, most).bytes;
    let version = generate::any_version(rng);
    generate::resum(version, &mut bytes);
    match rng.below(6) {
        0 => bytes.truncate(rng.below(bytes.len() + 1)),
        1 if !bytes.is_empty() => {
            let place = rng.below(bytes.len());
            bytes[place] ^= 1 << rng.below(8);
        }
        2 => bytes.resize(bytes.len() + rng.below(2 * PAGE), 0),
        _ => {}
    }
    let sequence = 100 + position;
    let name = match (version, rng.below(8)) {
        (_, 0) => rng
            .pick(&["000100-v2", "000101", "5", "000002", "000100-v3"])
            .to_string(),
        (Version::One, 1 | 2) => format!("{sequence:06}-v1"),
        (Version::One, _) => format!("{sequence:06}"),
        (Version::Two, _) => format!("{sequence:06}-v2"),
    };
    let path = match rng.below(3) {
        0 => folder.path.join(&name),
        1 => Path::new(".").join(&name),
        _ => PathBuf::from(&name),
    };
    if name == "000002" {
        return Ok(path.into());
    }
    folder.put(&name, &bytes)?;
    match rng.below(16) {
        0 => fs::remove_file(&path).map_err(|why| why.to_string())?,
        1 => {
            let closed = Permissions::from_mode(0o000);
            fs::set_permissions(&path, closed).map_err(|why| why.to_string())?;
        }
        _ => {}
    }
    Ok(path.into())
}

// ---- Limits ----

/// 1,024 arguments and more, bad ones among them; a 257th series at any of them.
fn compare_counts(folder: &Folder, rng: &mut Rng) -> Result<u64, String> {
    let row = |id: u64, rng: &mut Rng| (id, 5, any_reading(rng));
    let few: Vec<_> = (0..3).map(|id| row(id, rng)).collect();
    let many: Vec<_> = (0..257).map(|id| row(id, rng)).collect();
    let full: Vec<_> = (0..256).map(|id| row(id, rng)).collect();
    folder.put("000010", &Log::of(&[samples(&few)]).bytes)?;
    folder.put("000011", &Log::of(&[samples(&few), samples(&many)]).bytes)?;
    folder.put("000012", &Log::of(&[samples(&full), samples(&few)]).bytes)?;
    let names = ["000010", "000010", "000012", "000004", "bad"].map(OsString::from);
    let any_name = |rng: &mut Rng| names[rng.below(names.len())].clone();
    let mut cases = 0;
    for count in [1_023, 1_024, 1_025, 1_026, 1_100] {
        let mut night: Vec<OsString> = (0..count).map(|_| any_name(rng)).collect();
        let printed = |text: &str, line: &str| text.lines().filter(|&one| one == line).count();
        let text = folder.compare(&night)?;
        let ended = usize::from(count > SEGMENTS_MAX);
        if printed(&text, "segment 1025 1 0") != ended {
            return Err(format!(
                "{count} arguments: the 1,025th is not printed once"
            ));
        }
        let position = rng.below(count);
        night[position] = "000011".into();
        folder.compare(&night)?;
        night[count - 1] = "000011".into();
        folder.compare(&night)?;
        cases += 3;
    }
    Ok(cases)
}

/// Files as long as a segment may be, and a byte longer, in any position.
fn compare_lengths(folder: &Folder, rng: &mut Rng) -> Result<u64, String> {
    let bytes = Log::of(&[samples(&[(7, 1, any_reading(rng)), (8, 1, 0)])]).bytes;
    for (name, length) in [
        ("000020", SEGMENT_MAX as u64),
        ("000021", SEGMENT_MAX as u64 + 1),
        ("000022", SEGMENT_MAX as u64 * 3),
        ("000023", SEGMENT_MAX as u64 - 1),
        ("000024-v2", SEGMENT_MAX as u64 + 1),
    ] {
        folder.put(name, &bytes)?;
        // The rest is zeros, which take no room on a disk.
        let file = File::options().write(true).open(folder.path.join(name));
        let grown = file.and_then(|file| file.set_len(length));
        grown.map_err(|why| format!("{name}: {why}"))?;
    }
    folder.put("000025", &bytes)?;
    let night = [
        "000025",
        "000021",
        "000020",
        "000022",
        "000023",
        "000024-v2",
        "000025",
    ];
    let night = night.map(OsString::from);
    let text = folder.compare(&night)?;
    let wanted = "segment 2 1 0\nsegment 4 1 0\nsegment 6 1 0\nseries 7 4 ";
    if !text.starts_with(wanted) {
        return Err(format!("too long ones: {text:?}"));
    }
    for name in &night {
        folder.compare(std::slice::from_ref(name))?;
    }
    Ok(1 + night.len() as u64 + compare_spoilt(folder)?)
}

/// Files above the limit that would be refused, be torn, or bring a 257th id, before it: nothing of
/// them is added, and the report goes on behind them.
fn compare_spoilt(folder: &Folder) -> Result<u64, String> {
    let good = samples(&[(7, 1, 0)]);
    let ids: Vec<(u64, i64, u64)> = (0..300).map(|id| (100 + id, 1, 0)).collect();
    let mut flipped = Log::of(&[good.clone(), good.clone()]).bytes;
    let last = flipped.len() - 1;
    flipped[last] ^= 1;
    let logs = [
        Log::of(&[good.clone(), samples(&ids)]).bytes,
        Log::of(&[good.clone(), vec![2, 0]]).bytes,
        flipped,
    ];
    folder.put("000030", &Log::of(&[good]).bytes)?;
    let mut cases = 0;
    for bytes in &logs {
        folder.put("000031", bytes)?;
        let file = File::options().write(true).open(folder.path.join("000031"));
        let grown = file.and_then(|file| file.set_len(SEGMENT_MAX as u64 + 1));
        grown.map_err(|why| format!("000031: {why}"))?;
        let text = folder.compare(&["000030", "000031", "000030"].map(OsString::from))?;
        let wanted = "segment 2 1 0\nseries 7 2 0 ";
        if !text.starts_with(wanted) || text.lines().count() != 2 {
            return Err(format!("a spoilt one that is too long: {text:?}"));
        }
        cases += 1;
    }
    Ok(cases)
}
