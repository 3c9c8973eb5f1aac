//! Job 7: each of the eight floats against the exact value, by whole numbers and squares.

use crate::abi;
use crate::exact::Matrix;
use crate::inputs::Triple;
use crate::report::Report;
use crate::triples::refusal;
use dashu_int::IBig;

/// x = m·2^e.
fn parts(x: f64) -> (i64, i64) {
    let bits = x.to_bits();
    let (exponent, low) = ((bits >> 52 & 0x7ff) as i64, (bits & ((1 << 52) - 1)) as i64);
    let (m, e) = if exponent == 0 { (low, -1074) } else { (low | 1 << 52, exponent - 1075) };
    (if bits >> 63 == 1 { -m } else { m }, e)
}

/// b·root two is at most q.
fn root_two_times(b: &IBig, q: &IBig) -> bool {
    let twice = b * b + b * b;
    let square = q * q;
    match (b.is_negative(), q.is_negative()) {
        (true, false) => true,
        (false, true) => false,
        (false, false) => !(square - twice).is_negative(),
        (true, true) => !(twice - square).is_negative(),
    }
}

/// x is within 2^-50 of (a + b·root two) over 2^s.
fn near(x: f64, a: &IBig, b: &IBig, s: i64) -> bool {
    if !x.is_finite() {
        return false;
    }
    let (m, e) = if x == 0.0 { (0, 0) } else { parts(x) };
    let q = 50.max(-(e + s));
    let up = |v: &IBig| v << q as usize;
    let x = IBig::from(m) << (e + s + q) as usize;
    let rest = x - up(a);
    let most = IBig::ONE << (s - 50 + q) as usize;
    let b = up(b);
    root_two_times(&b, &(&rest + &most)) && root_two_times(&-&b, &(most - rest))
}

/// Real and imaginary part of an entry over root two to the k, as a + b·root two over 2^s.
fn exact_parts(entry: &[IBig; 4], k: i64) -> [(IBig, IBig, i64); 2] {
    let [a, b, c, d] = entry;
    let part = |u: &IBig, v: IBig| match k % 2 {
        0 => (u + u, v, k / 2 + 1),
        _ => (v, u.clone(), (k + 1) / 2),
    };
    [part(d, c - a), part(b, c + a)]
}

pub fn view(report: &mut Report, (k, n, zw): &Triple, refused: bool) {
    let got = abi::view(*k, *n, zw);
    let number = refusal(*k, zw).unwrap_or(0);
    let kind = match number {
        0 => "job 7 view: eight floats within 2^-50 of the exact values",
        3 => "job 7 view: refused 3 Exponent",
        4 => "job 7 view: refused 4 Coefficient",
        _ => "job 7 view: refused 5 Unitary",
    };
    let right = got.is_some_and(|(r, floats)| {
        r == number
            && if refused {
                floats.iter().all(|x| x.to_bits() == 0)
            } else {
                let m = Matrix::triple(*k, *n, zw);
                let exact = m.e.iter().flat_map(|e| exact_parts(&e.0, *k));
                let minus = floats.iter().filter(|x| x.to_bits() == 1 << 63).count();
                report.note("job 7: floats that are minus zero", minus as u64);
                floats.iter().zip(exact).all(|(x, (a, b, s))| near(*x, &a, &b, s))
            }
    });
    report.case(kind, (!right).then(|| format!("{k} {n} {zw:?}: {got:?}")));
}
