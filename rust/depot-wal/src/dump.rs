//! `depot-wal dump`: every record with its entries.

use crate::args::{Args, Failure};
use crate::entries;
use crate::labels::Labels;
use crate::list;
use crate::open;
use crate::out::Out;
use depot_wal::body;
use std::io::Write;

pub fn run(args: &Args, out: &mut Out) -> Result<bool, Failure> {
    open::each("dump", args, out, |source, segment, out| {
        let mut labels = Labels::default();
        list::walk(source, segment, out, |body, out| {
            labels.learn(body);
            // After an entry that is refused it ends; the line of the record has said why.
            for entry in body::entries(body).map_while(Result::ok) {
                match out.json {
                    true => writeln!(out, "{}", entries::object(&source.name, &entry, &labels))?,
                    false => writeln!(out, "  {}", entries::line(&entry, &labels))?,
                }
            }
            Ok(())
        })
    })
}
