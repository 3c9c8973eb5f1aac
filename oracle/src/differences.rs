//! The differences that docs/DIFFERENCES.md marks with a star, each at its smallest input, both sides as it has them.

use crate::abi::{self, Written};
use crate::exact::Matrix;
use crate::report::Report;
use crate::rust;

fn say(report: &mut Report, what: &'static str, holds: bool) {
    if !holds {
        report.differs("listed difference", format!("{what}: not as listed"));
    }
    report.note(what, 1);
}

fn word(text: &str) -> Written {
    Written::of(text.as_bytes())
}

pub fn all(report: &mut Report) {
    let one = [0, 0, 0, 1, 0, 0, 0, 0];
    let root_two = [-1, 0, 1, 0, 0, 0, 0, 0];
    let both = [0, 0, 0, 1, 0, 0, 0, 1];
    let given = |w: &str| rust::normal_word(w).map(|v| String::from_utf8(v).unwrap());
    say(
        report,
        "listed: SHTT is SHXSSSW in the Rust, SHS here",
        given("SHTT").as_deref() == Some("SHXSSSW") && abi::normalise(b"SHTT", 9, &word("SHS")).is_none(),
    );
    let x = [1, 1, 0, 0];
    say(
        report,
        "listed: the inverse of (1,1,0,0) is (2,1,1,2) in the Rust and no inverse, (2,1,2,2) here",
        rust::inverse(&x) == [2, 1, 1, 2]
            && rust::product(&rust::inverse(&x), &x) != [0; 4]
            && abi::inverse(&x) == Some([2, 1, 2, 2]),
    );
    say(
        report,
        "listed: the identity at k = 1 panics in the Rust, is I here",
        rust::synthesise(1, 0, &root_two).is_none() && abi::synthesise(&(1, 0, root_two), 1, &word("I")).is_none(),
    );
    let after = rust::n_after_t_inv(0, 0, &one);
    say(
        report,
        "listed: mul_by_t_inv_from_left at n = 0 underflows where sums that wrap panic, gives n = 7 where they don't",
        after == if cfg!(debug_assertions) { None } else { Some(7) },
    );
    say(
        report,
        "listed: I when normalising panics in the Rust, is I (the identity) here",
        given("I").is_none()
            && abi::normalise(b"I", 1, &word("I")).is_none()
            && abi::phase_free(b"I", 1, &word("I")).is_none(),
    );
    let less_final_w = |w: &str| given(w).map(|v| v.trim_end_matches('W').to_string());
    say(
        report,
        "listed: cutting the W letters off the Rust's normal words leaves nothing of W and T of TW, job 5 gives I and TI here",
        less_final_w("W").as_deref() == Some("")
            && less_final_w("TW").as_deref() == Some("T")
            && abi::phase_free(b"W", 1, &word("I")).is_none()
            && abi::phase_free(b"TW", 2, &word("TI")).is_none(),
    );
    say(
        report,
        "listed: another byte in a word panics in the Rust, is refused 2 here",
        given("A").is_none() && rust::matrix("A").is_none() && abi::matrix(b"A") == Some((2, [0; 10], 0)),
    );
    say(
        report,
        "listed: z = w = 1 at k = 0 panics in the Rust's synthesis, is refused 5 here",
        rust::synthesise(0, 0, &both).is_none() && abi::synthesise(&(0, 0, both), 1, &Written::refused(5, 0)).is_none(),
    );
    below_zero(report);
    let long = "W".repeat(4097);
    say(
        report,
        "listed: 4,097 letters are answered by the Rust, refused 1 here",
        given(&long).as_deref() == Some("W")
            && rust::matrix(&long).is_some()
            && abi::normalise(long.as_bytes(), 1, &Written::refused(1, 0)).is_none()
            && abi::matrix(long.as_bytes()) == Some((1, [0; 10], 0)),
    );
    let deep = "HT".repeat(120);
    say(
        report,
        "listed: HT 120 times has k = 61 in the Rust, is refused 6 here",
        rust::matrix(&deep).flatten().map(|m| m[0]) == Some(61)
            && abi::matrix(deep.as_bytes()) == Some((6, [0; 10], 0)),
    );
    let twice = [0, 0, 0, 2, 0, 0, 0, 0];
    say(
        report,
        "listed: the identity at k = 2 is I in the Rust and here",
        rust::synthesise(2, 0, &twice).as_deref() == Some(b"I")
            && abi::synthesise(&(2, 0, twice), 1, &word("I")).is_none(),
    );
    say(
        report,
        "listed: the identity at k = 2 takes two of the Rust's steps, HH, and none here, where it is reduced first",
        rust::letters(2, 0, &twice).as_deref() == Some(b"HH")
            && abi::synthesise_steps(&(2, 0, twice), 1, &word("I")).is_none(),
    );
    let big = 1i64 << 30;
    let deeper = [0, -big, 0, 0, big, 0, 0, 0];
    say(
        report,
        "listed: k = 61 is answered by the Rust, refused 3 here",
        rust::reduce(61, 0, &deeper).is_some()
            && rust::synthesise(61, 0, &deeper).is_some()
            && abi::reduce(61, 0, &deeper) == Some((3, [0; 10])),
    );
    let larger = [0, 0, 0, big + 1, 0, 0, 0, 0];
    say(
        report,
        "listed: coefficient 2^30+1 is answered by the Rust's reduction, refused 4 here",
        rust::reduce(0, 0, &larger).is_some() && abi::reduce(0, 0, &larger) == Some((4, [0; 10])),
    );
    say(
        report,
        "listed: T is TI in the Rust, and refused 7 here with room for one byte",
        given("T").as_deref() == Some("TI") && abi::normalise(b"T", 1, &Written::refused(7, 0)).is_none(),
    );
}

/// Exponents below 0. The Rust's job 1 divides z, then w, by 2 as often as the coefficients let it, and a 0 lets it k
/// times: at these exponents it panics exactly where a coefficient is 0.
fn below_zero(report: &mut Report) {
    let (ones, one) = ([1; 8], [0, 0, 0, 1, 0, 0, 0, 0]);
    say(
        report,
        "listed: k = -1 with z = w = 0, or z = 1 and w = 0, panics in the Rust's jobs 1 and 4, is refused 3 here",
        [[0; 8], one].iter().all(|zw| {
            rust::reduce(-1, 0, zw).is_none() && rust::synthesise(-1, 0, zw).is_none() && refused_3(-1, 0, zw)
        }),
    );
    say(
        report,
        "listed: k = -1, z = w = (1,1,1,1) is z = w = (0,2,2,0) in the Rust's job 1, is refused 3 here",
        rust::reduce(-1, 0, &ones) == Some(Some([0, 0, 0, 2, 2, 0, 0, 2, 2, 0])) && refused_3(-1, 0, &ones),
    );
    say(
        report,
        "listed: k = -2, n = 255, z = w = (1,1,1,1) is n = 7, z = w = (2,2,2,2) in the Rust's job 1, is refused 3 here",
        rust::reduce(-2, 255, &ones) == Some(Some([0, 7, 2, 2, 2, 2, 2, 2, 2, 2])) && refused_3(-2, 255, &ones),
    );
    let as_listed = |k: i64, n: u8, zw: &[i64; 8]| {
        let reduced = rust::reduce(k, n, zw);
        let right = if zw.contains(&0) {
            reduced.is_none()
        } else {
            reduced.flatten().is_some_and(|numbers| same_below_zero(k, n, zw, &numbers))
        };
        right && rust::synthesise(k, n, zw).is_none() && refused_3(k, n, zw)
    };
    say(
        report,
        "listed: at k = -1 and k = -2, of all triples of 0, 1 and -1, the Rust's job 1 answers those without 0, job 4 none",
        (0..6561).all(|i| {
            let zw = [1, 3, 9, 27, 81, 243, 729, 2187].map(|p| [0, 1, -1][i / p % 3]);
            [(-1, 0), (-1, 255), (-2, 0), (-2, 255)].iter().all(|(k, n)| as_listed(*k, *n, &zw))
        }),
    );
}

/// Jobs 1, 4 and 7 here.
fn refused_3(k: i64, n: u8, zw: &[i64; 8]) -> bool {
    abi::reduce(k, n, zw) == Some((3, [0; 10]))
        && abi::synthesise(&(k, n, *zw), 1, &Written::refused(3, 0)).is_none()
        && abi::view(k, n, zw).is_some_and(|(number, floats)| number == 3 && floats.iter().all(|x| x.to_bits() == 0))
}

/// Numbers at exponent 0 are the matrix of a triple at k below 0: each of the two over root two to the -k, they agree.
fn same_below_zero(k: i64, n: u8, zw: &[i64; 8], numbers: &[i64; 10]) -> bool {
    numbers[..2] == [0, i64::from(n & 7)]
        && Matrix::triple(-k, n & 7, &numbers[2..]).reduced() == Matrix::triple(0, n, zw)
}
