//! The whole numbers under the stand-ins and under the exact arithmetic, tried by laws that tie each operation
//! to the others, on sizes around one and two limbs and far beyond.

use crate::inputs::Random;
use crate::report::Report;
use dashu_int::IBig;

fn any(random: &mut Random) -> IBig {
    let parts = random.below(6);
    let edge = |r: &mut Random| *r.of(&[0, 1, -1, i64::MAX, i64::MIN]);
    let part = |r: &mut Random| if r.below(3) == 0 { edge(r) } else { r.next() as i64 };
    let first = IBig::from(part(random));
    (0..parts).fold(first, |x, _| (x << random.below(70)) + IBig::from(part(random)))
}

pub fn laws(report: &mut Report) {
    let mut random = Random::new(1);
    for _ in 0..20_000 {
        let (a, b, n) = (any(&mut random), any(&mut random), random.below(300));
        let mask = (IBig::ONE << n) - IBig::ONE;
        let zeros = (&a << n).trailing_zeros();
        let holds = (&a + &b) - &b == a
            && -(-&a) == a
            && (&a + &b) * (&a - &b) == &a * &a - &b * &b
            && (&a << n) >> n == a
            && &a << n == &a * (&mask + IBig::ONE)
            && (&a & &mask) + ((&a >> n) << n) == a
            && !(&a & &mask).is_negative()
            && (&a + &IBig::ONE).is_odd() != a.is_odd()
            && (&a - &b).is_negative() != (&b - &a).is_negative() | (a == b)
            && zeros == a.trailing_zeros().map(|z| z + n)
            && a.is_zero() == zeros.is_none();
        if !holds {
            report.differs("integers", format!("{a:?} {b:?} {n}: a law fails"));
        }
    }
    report.note("integers under the harness: laws tried", 20_000);
}
