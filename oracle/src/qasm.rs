//! Circuits of OpenQASM 2.0 and 3.0 on one qubit, from docs/SCOPE.md, Jobs: the two editions' texts, what they
//! mean by OpenQASM's own gates, their letters. How far a text can be right is found by keeping all that its bytes so
//! far can be, so that no look ahead can be wrong.

use crate::exact::{Matrix, Number};

pub struct Statement {
    pub line: &'static [u8],
    pub letters: &'static [u8],
    /// OpenQASM's matrix, row by row: powers of omega, none for 0, all over root two to the k.
    entries: [Option<u8>; 4],
    k: i64,
}

const fn statement(line: &'static str, letters: &'static str, entries: [Option<u8>; 4], k: i64) -> Statement {
    Statement { line: line.as_bytes(), letters: letters.as_bytes(), entries, k }
}

const fn diagonal(first: u8, second: u8) -> [Option<u8>; 4] {
    [Some(first), None, None, Some(second)]
}

/// The last one is in 3.0 only.
pub static STATEMENTS: [Statement; 7] = [
    statement("h q[0];\n", "H", [Some(0), Some(0), Some(0), Some(4)], 1),
    statement("s q[0];\n", "S", diagonal(0, 2), 0),
    statement("t q[0];\n", "T", diagonal(0, 1), 0),
    statement("x q[0];\n", "X", [None, Some(0), Some(0), None], 0),
    statement("sdg q[0];\n", "SSS", diagonal(0, 6), 0),
    statement("tdg q[0];\n", "TSSS", diagonal(0, 7), 0),
    statement("gphase(pi/4);\n", "W", diagonal(1, 1), 0),
];

pub type Circuit = Vec<&'static Statement>;

#[derive(Clone, Copy, PartialEq, Debug)]
pub enum Edition {
    Two,
    Three,
}

pub const EDITIONS: [Edition; 2] = [Edition::Two, Edition::Three];

impl Edition {
    pub fn head(self) -> &'static [u8] {
        match self {
            Edition::Two => b"OPENQASM 2.0;\ninclude \"qelib1.inc\";\nqreg q[1];\n",
            Edition::Three => b"OPENQASM 3.0;\ninclude \"stdgates.inc\";\nqubit[1] q;\n",
        }
    }

    pub fn statements(self) -> &'static [Statement] {
        match self {
            Edition::Two => &STATEMENTS[..6],
            Edition::Three => &STATEMENTS,
        }
    }

    pub fn text(self, circuit: &[&Statement]) -> Vec<u8> {
        let lines = circuit.iter().flat_map(|s| s.line);
        self.head().iter().chain(lines).copied().collect()
    }
}

/// What a text can go on with: an edition, and the rest of its head or of one of its lines.
type Open = (Edition, &'static [u8]);

/// Behind the end of the head or of a line any line may follow.
fn lines((edition, rest): Open) -> Vec<Open> {
    match rest {
        [] => edition.statements().iter().map(|s| (edition, s.line)).collect(),
        _ => vec![(edition, rest)],
    }
}

/// The first byte that can't continue a right text of either edition, or the length; none for a right text.
pub fn stops(text: &[u8]) -> Option<usize> {
    let mut open: Vec<Open> = EDITIONS.map(|edition| (edition, edition.head())).to_vec();
    for (i, byte) in text.iter().enumerate() {
        let step = |(edition, rest): Open| Some((edition, rest.strip_prefix(&[*byte])?));
        open = open.into_iter().flat_map(lines).filter_map(step).collect();
        if open.is_empty() {
            return Some(i);
        }
    }
    (!open.iter().any(|(_, rest)| rest.is_empty())).then_some(text.len())
}

/// The edition and the statements of a right text, by cutting it into lines.
pub fn circuit(text: &[u8]) -> Option<(Edition, Circuit)> {
    EDITIONS.into_iter().find_map(|edition| {
        let lines = text.strip_prefix(edition.head())?.split_inclusive(|b| *b == b'\n');
        let of = |line: &[u8]| edition.statements().iter().find(|s| s.line == line);
        Some((edition, lines.map(of).collect::<Option<_>>()?))
    })
}

/// The first statement is the rightmost letter.
pub fn letters(circuit: &[&Statement]) -> Vec<u8> {
    circuit.iter().rev().flat_map(|s| s.letters).copied().collect()
}

/// The statements of a word of I H S X W T; I is none.
pub fn of_word(word: &[u8]) -> Circuit {
    word.iter().rev().filter_map(|g| STATEMENTS.iter().find(|s| s.letters == [*g])).collect()
}

/// By OpenQASM's gates, the last statement leftmost.
pub fn matrix(circuit: &[&Statement]) -> Matrix {
    let one = Number::of(&[0, 0, 0, 1]);
    let entry = |e: Option<u8>| e.map_or(Number::zero(), |power| one.times_omega(power));
    circuit.iter().fold(Matrix::identity(), |m, s| Matrix { e: s.entries.map(entry), k: s.k }.times(&m))
}
