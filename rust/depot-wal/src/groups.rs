//! `depot-wal replay --by LABEL`: which series of each group is on. Exactly one should be: two
//! profiles of a scooter that are both on, or none, is the accident that the log is there against.

use crate::args::Failure;
use crate::json::{self, Object};
use crate::open::Source;
use crate::out::Out;
use crate::replay::Named;
use crate::words;
use depot_wal::replay::Replay;
use std::collections::BTreeSet;
use std::io::{self, Write};

/// The series that share the value of a label.
struct Group<'a> {
    value: &'a [u8],
    members: Vec<&'a Named<'a>>,
}

/// Tells for each group the one that is on, and loudly where it is not one. True if it is always
/// one, and the label is there at all.
pub fn tell(source: &Source, label: &str, all: &[Named], out: &mut Out) -> Result<bool, Failure> {
    let groups = grouped(label, all);
    let grouped: usize = groups.iter().map(|group| group.members.len()).sum();
    let mut alarms = Vec::new();
    for group in &groups {
        alarms.extend(group.tell(source, label, out)?);
    }
    let others = (all.len() - grouped) as u64;
    if others > 0 && !out.json {
        let series = words::count(others, "series", "series");
        writeln!(out, "{series} without the label {label}")?;
    }
    if groups.is_empty() && !all.is_empty() {
        out.complain(&format!(
            "{}: no series has the label {label}; its labels are {}",
            source.name,
            names(all)
        ))?;
        return Ok(false);
    }
    for alarm in &alarms {
        out.complain(alarm)?;
    }
    Ok(alarms.is_empty())
}

/// False if samples were not counted, since the file does not name their series: then another one
/// may be on than was told.
pub fn complete(source: &Source, replay: &Replay, out: &mut Out) -> io::Result<bool> {
    let orphans = replay.orphans();
    if orphans > 0 {
        let samples = words::count(orphans, "sample is", "samples are");
        out.complain(&format!(
            "{}: {samples} of series that this file does not name, so another one may be on; look \
             at the segment that names them, and at these with `depot-wal dump`",
            source.name
        ))?;
    }
    Ok(orphans == 0)
}

/// The groups in the order in which their first series were entered.
fn grouped<'a>(label: &str, all: &'a [Named]) -> Vec<Group<'a>> {
    let mut groups: Vec<Group> = Vec::new();
    for named in all {
        let Some(value) = named.label(label) else {
            continue;
        };
        match groups.iter_mut().find(|group| group.value == value) {
            Some(group) => group.members.push(named),
            None => groups.push(Group {
                value,
                members: vec![named],
            }),
        }
    }
    groups
}

/// The names of all labels.
fn names(all: &[Named]) -> String {
    let labels = all.iter().filter_map(|named| named.labels).flatten();
    let names: BTreeSet<String> = labels.map(|(name, _)| words::text(name)).collect();
    match names.is_empty() {
        true => "none".to_string(),
        false => names.into_iter().collect::<Vec<_>>().join(", "),
    }
}

impl Group<'_> {
    /// An alarm where it is not exactly one that is on.
    fn tell(&self, source: &Source, label: &str, out: &mut Out) -> io::Result<Option<String>> {
        let on: Vec<&Named> = self.members.iter().copied().filter(|m| m.is_on()).collect();
        match out.json {
            true => self.tell_machines(source, label, &on, out)?,
            false => self.tell_people(label, &on, out)?,
        }
        let (label, value) = (words::text(label.as_bytes()), words::quoted(self.value));
        let many = how_many(on.len());
        Ok((on.len() != 1).then(|| {
            format!(
                "{}: ALARM: {label}={value}: {many}; take it out of service, find out which one it \
                 really has, and switch it anew",
                source.name
            )
        }))
    }

    fn tell_people(&self, label: &str, on: &[&Named], out: &mut Out) -> io::Result<()> {
        let (label, value) = (words::text(label.as_bytes()), words::quoted(self.value));
        if let [one] = on {
            return writeln!(out, "{label}={value}: {}", one.line());
        }
        writeln!(out, "!!! {label}={value}: {} !!!", how_many(on.len()))?;
        let shown = if on.is_empty() { &self.members } else { on };
        for named in shown {
            writeln!(out, "    {}", named.line())?;
        }
        Ok(())
    }

    fn tell_machines(
        &self,
        source: &Source,
        label: &str,
        on: &[&Named],
        out: &mut Out,
    ) -> io::Result<()> {
        let line = Object::of(&source.name)
            .text("by", label)
            .text("group", &json::lossy(self.value))
            .flag("alarm", on.len() != 1)
            .raw("on", json::list(on.iter().map(|m| m.object(Object::new()))))
            .count("series", self.members.len());
        writeln!(out, "{line}")
    }
}

/// Loudly.
fn how_many(on: usize) -> String {
    match on {
        0 => "NONE IS ON".to_string(),
        2 => "TWO ARE ON".to_string(),
        _ => format!("{on} ARE ON"),
    }
}
