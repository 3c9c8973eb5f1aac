//! Works out the table of crates/normal_form/src/table.rt from exact arithmetic of the harness's own, and prints it, an
//! entry a line.

#[allow(dead_code)]
mod exact;

use exact::Matrix;

/// The letters by their numbers; a byte that is none has the number behind them.
const LETTERS: &[u8] = b"HSXWTI";

/// The bytes whose numbers stand in the table.
const NUMBERED: std::ops::RangeInclusive<u8> = b'H'..=b'X';

/// Two letters for each of the 17 rows. That of II, behind the others, is the row of no syllable too.
const ROWS: [&[u8; 2]; 17] = [
    b"HI", b"SI", b"XI", b"HS", b"HX", b"SH", b"SS", b"SX", b"XH", b"XS", b"TI", b"TS", b"TX", b"TH", b"XT", b"HT",
    b"II",
];

/// Two letters for each row of kinds.
const CHANGES: [&[u8; 2]; 3] = [b"II", b"TI", b"HT"];

const AXES: [&[u8]; 3] = [b"", b"H", b"SH"];

/// A code 8a + 4b + c and a phase.
type Tail = (u8, u8);

struct Cliffords(Vec<(Tail, Matrix)>);

impl Cliffords {
    fn new() -> Cliffords {
        let tails = (0..24).flat_map(|code| (0..8).map(move |phase| (code, phase)));
        Cliffords(tails.map(|t| (t, Matrix::clifford(&[t.0 / 8, t.0 / 4 % 2, t.0 % 4, t.1]))).collect())
    }

    fn matrix(&self, code: u8) -> &Matrix {
        &self.0[8 * code as usize].1
    }

    /// The Clifford that stands behind a beginning in a matrix.
    fn behind(&self, beginning: &[u8], m: &Matrix) -> Option<Tail> {
        let front = Matrix::word(beginning);
        self.0.iter().find(|(_, q)| front.times(q) == *m).map(|(t, _)| *t)
    }

    /// What two letters behind a Clifford are: a Clifford, or an axis, T and a Clifford.
    fn pair(&self, letters: &[u8; 2], code: u8) -> (u8, Tail) {
        let m = self.matrix(code).times(&Matrix::word(letters));
        let turns = AXES.map(|axis| [axis, b"T"].concat());
        let fronts = std::iter::once(Vec::new()).chain(turns);
        let found = fronts.enumerate().find_map(|(kind, front)| Some((kind as u8, self.behind(&front, &m)?)));
        found.expect("at most one T")
    }
}

fn entry((code, phase): Tail) -> u8 {
    32 * phase + code
}

/// The row that two letters are, and the phase to add to it.
fn row(q: &Cliffords, letters: &[u8; 2]) -> u8 {
    let more = |row: usize| {
        let step = |code| (q.pair(letters, code), q.pair(ROWS[row], code));
        let (ours, its) = step(0);
        let phase = (ours.1 .1 + 8 - its.1 .1) % 8;
        let same =
            |((kind, tail), (of, its)): ((u8, Tail), (u8, Tail))| kind == of && tail == (its.0, (its.1 + phase) % 8);
        (0..24).all(|code| same(step(code))).then_some(32 * phase + row as u8)
    };
    (0..ROWS.len()).find_map(more).expect("a row")
}

fn change(q: &Cliffords, letters: &[u8; 2]) -> u8 {
    let same = |of: &&[u8; 2]| (0..24).all(|code| q.pair(letters, code).0 == q.pair(of, code).0);
    CHANGES.iter().position(same).expect("a row of kinds") as u8
}

fn main() {
    let q = Cliffords::new();
    let pairs: Vec<[u8; 2]> = LETTERS.iter().flat_map(|l| LETTERS.iter().map(move |m| [*l, *m])).collect();
    let mut table: Vec<u8> = Vec::new();
    table.extend(ROWS.iter().flat_map(|p| (0..24).map(|code| entry(q.pair(p, code).1))));
    for syllable in [&b"TT"[..], b"HTT", b"SHTT"] {
        let made = Matrix::word(syllable);
        table.extend((0..24).map(|code| entry(q.behind(b"", &made.times(q.matrix(code))).expect("a Clifford"))));
    }
    table.extend((0..24u8).map(|code| entry(q.behind(AXES[code as usize / 8], q.matrix(code)).expect("an axis"))));
    table.extend(CHANGES.iter().flat_map(|p| (0..24).map(|code| q.pair(p, code).0)));
    table.extend(pairs.iter().flat_map(|p| [row(&q, p), 24 * change(&q, p)]));
    println!("pub static TABLE: [u8; {}] = [", table.len() + NUMBERED.count());
    table.iter().for_each(|x| println!("    {x},"));
    NUMBERED.for_each(|b| match LETTERS.iter().position(|l| *l == b) {
        Some(number) => println!("    {number}, // {}", b as char),
        None => println!("    {},", LETTERS.len()),
    });
    println!("];");
}
