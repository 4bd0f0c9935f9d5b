//! `reference damage FILE`: the cases of a table of named damage, each with this program's own
//! answer. The head of `tests/damage.txt` gives the form of a table.

use crate::listing;

/// The longest segment of a table.
const SEGMENT_MAX: usize = 131_072;

/// The cases, a line each. It is an error if there are none, or if a line is neither a case nor a
/// comment.
pub fn text(table: &str) -> Result<String, String> {
    let mut cases = String::new();
    for (above, line) in table.lines().enumerate() {
        if !line.starts_with('#') {
            cases += &answered(line).ok_or_else(|| format!("line {} is no case", above + 1))?;
        }
    }
    if cases.is_empty() {
        return Err("a table without a case".to_string());
    }
    Ok(cases)
}

/// A case, `NAME; ANSWER; BYTES`, with the answer of this program.
fn answered(line: &str) -> Option<String> {
    let (name, rest) = line.split_once("; ")?;
    let (_, bytes) = rest.rsplit_once("; ")?;
    let listing = listing::list_segment(&segment(bytes)?);
    let answer = listing.trim_end().replace('\n', "; ");
    Some(format!("{name}; {answer}; {bytes}\n"))
}

/// The bytes of the items `HH` and `HH*N`.
fn segment(items: &str) -> Option<Vec<u8>> {
    let mut segment = Vec::new();
    for item in items.split(' ') {
        let (byte, times) = item.split_once('*').unwrap_or((item, "1"));
        let times: usize = times.parse().ok()?;
        let length = segment.len().checked_add(times)?;
        if byte.len() != 2 || length > SEGMENT_MAX {
            return None;
        }
        segment.resize(length, u8::from_str_radix(byte, 16).ok()?);
    }
    Some(segment)
}

#[cfg(test)]
mod tests {
    use super::*;

    #[test]
    fn items() {
        assert_eq!(segment("00*0"), Some(vec![]));
        assert_eq!(segment("0A FF*3 1b"), Some(vec![10, 255, 255, 255, 27]));
        assert_eq!(segment("00*131072"), Some(vec![0; SEGMENT_MAX]));
        for bad in [
            "", "0", "000", "0G", "00 ", "00  01", "00*", "00*x", "*2", "00*-1",
        ] {
            assert_eq!(segment(bad), None, "{bad}");
        }
        assert_eq!(segment("00 00*131072"), None);
        assert_eq!(segment(&format!("00 00*{}", usize::MAX)), None);
    }

    #[test]
    fn a_right_answer_stays() {
        let case = "HollowRecord; refused 13 0 0; 01 00*6\n";
        assert_eq!(
            text(&format!("# comment\n{case}#\n{case}")),
            Ok(case.repeat(2))
        );
    }

    #[test]
    fn a_wrong_answer_is_replaced() {
        let own = "Torn; torn 0 0; 01\n";
        assert_eq!(text("Torn; clean 0; 01\n"), Ok(own.to_string()));
        assert_eq!(
            text("Torn; record 0 1 7; clean 1; 01\n"),
            Ok(own.to_string())
        );
    }

    #[test]
    fn no_case() {
        for bad in [
            "",
            "# comment\n",
            "\n",
            "Name\n",
            "Name; 01\n",
            "Name; clean 0;\n",
        ] {
            assert!(text(bad).is_err(), "{bad}");
        }
    }
}
