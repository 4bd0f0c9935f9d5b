//! The lines that the product's program `test_samples` has to print: a list of four samples, each
//! of id 9, time 9 and bits 9, is filled from each of sixteen bodies.
//! `fill LENGTH -> filled COUNT` or `fill LENGTH -> refused NUMBER PLACE`, where LENGTH is the
//! body's length in bytes, then for each of the four samples `sample ID TIME BITS`.

use crate::body::{
    self, Sample, SeriesId, Timestamp, EXEMPLARS, METADATA, SAMPLES, SERIES, TOMBSTONES,
};
use std::fmt::Write;

const UNKNOWN: u8 = 5;

/// The delta that goes back by one: a signed varint (document 02 [1]).
const BACK: [u8; 1] = [1];

/// The delta that goes on by one.
const ON: [u8; 1] = [2];

pub fn text() -> String {
    let mut lines = String::new();
    for body in bodies() {
        add_fill(&mut lines, &body);
    }
    lines
}

fn bodies() -> [Vec<u8>; 16] {
    let switch = with(&[row(&[0], &[0], 0), row(&ON, &[0], 0x3FF0_0000_0000_0000)]);
    let mut cut = switch.clone();
    cut.pop();
    [
        vec![],
        vec![UNKNOWN],
        vec![SERIES],
        vec![SAMPLES],
        [&[SAMPLES][..], &[0; 8]].concat(),
        with(&[]),
        switch,
        cut,
        with(&[vec![255; 10]]),
        with(&[row(&[0], &[0], 1), row(&BACK, &BACK, 2)]),
        counted(4),
        counted(5),
        // Other types, two of them with a truncated entry: the type is reported before the fault.
        vec![TOMBSTONES, 1],
        vec![EXEMPLARS],
        vec![METADATA, 0x80],
        // More rows than the list has, then a truncated row: the fault is reported before the full
        // list.
        [counted(5), vec![0]].concat(),
    ]
}

/// A samples body with the first id 7, the first time 1000 and these rows.
fn with(rows: &[Vec<u8>]) -> Vec<u8> {
    let mut body = vec![SAMPLES];
    body.extend(7_u64.to_be_bytes());
    body.extend(1000_i64.to_be_bytes());
    body.extend(rows.concat());
    body
}

fn row(id_delta: &[u8], time_delta: &[u8], bits: u64) -> Vec<u8> {
    [id_delta, time_delta, &bits.to_be_bytes()].concat()
}

/// Rows of the first id and the first time, whose bits are 1, 2 and so on.
fn counted(count: u64) -> Vec<u8> {
    let rows: Vec<Vec<u8>> = (1..=count).map(|bits| row(&[0], &[0], bits)).collect();
    with(&rows)
}

fn add_fill(lines: &mut String, bytes: &[u8]) {
    let mut line = |words: String| writeln!(lines, "{words}").expect("a string takes every line");
    let nine = Sample {
        id: SeriesId(9),
        time: Timestamp(9),
        bits: 9,
    };
    let mut list = [nine; 4];
    let length = bytes.len();
    match body::fill_samples(bytes, &mut list) {
        Ok(count) => line(format!("fill {length} -> filled {count}")),
        Err(refusal) => line(format!(
            "fill {length} -> refused {} {}",
            refusal.number, refusal.place
        )),
    }
    for Sample { id, time, bits } in list {
        line(format!("sample {} {} {bits}", id.0, time.0));
    }
}
