//! The bench record (docs/SCOPE.md, The record), read by a parser of the harness's own, and the answer's text.

use crate::abi::{self, Written};
use crate::inputs::Triple;
use crate::report::Report;
use crate::triples;

pub fn record((k, n, zw): &Triple) -> String {
    let list = |v: &[i64]| v.iter().map(i64::to_string).collect::<Vec<_>>().join(",");
    format!("k={k}\nn={n}\nz={}\nw={}\n", list(&zw[..4]), list(&zw[4..]))
}

/// A number is right if writing it again gives the same text.
fn number(text: &str) -> Option<i64> {
    let x: i64 = text.parse().ok()?;
    (x.to_string() == text).then_some(x)
}

fn line<'a>(rest: &mut &'a str, name: &str) -> Option<&'a str> {
    let (value, after) = rest.strip_prefix(name)?.split_once('\n')?;
    *rest = after;
    Some(value)
}

pub fn parsed(record: &[u8]) -> Option<Triple> {
    let mut rest = std::str::from_utf8(record).ok()?;
    let k = number(line(&mut rest, "k=")?)?;
    let n = u8::try_from(number(line(&mut rest, "n=")?)?).ok()?;
    let mut zw = Vec::new();
    for name in ["z=", "w="] {
        let four: Vec<i64> = line(&mut rest, name)?.split(',').map(number).collect::<Option<_>>()?;
        zw.extend(<[i64; 4]>::try_from(four).ok()?);
    }
    rest.is_empty().then_some((k, n, zw.try_into().ok()?))
}

pub fn answer(report: &mut Report, record: &[u8]) -> (u8, Vec<u8>) {
    let answer = parsed(record).map_or(Written::refused(8, 0), |triple| triples::answer(report, &triple));
    let (number, word, [_, size, t, steps]) = (answer.refusal, answer.word.escape_ascii(), answer.numbers());
    (number, format!("refusal={number}\nword={word}\nt={t}\nbytes={size}\nsteps={steps}\n").into_bytes())
}

pub fn bench(report: &mut Report, record: &[u8]) {
    let (number, expected) = answer(report, record);
    let kind = match number {
        0 => "bench record: answered, word equal to the Rust's",
        8 => "bench record: refused 8 Record",
        _ => "bench record: refused 3, 4 or 5",
    };
    let shown = || String::from_utf8_lossy(&record[..record.len().min(200)]).into_owned();
    report.case(kind, abi::bench(record, &expected).map(|d| format!("{:?}: {d}", shown())));
}
