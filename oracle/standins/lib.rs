//! The published files as one crate. Each `include!` is a published file unchanged; the `access` modules,
//! children of the file's module, reach what the published text keeps private.

pub mod math;
pub mod ring;

pub mod normal_form {
    include!("normal_form.rs");

    pub mod access {
        use super::*;

        pub fn parts(c: &Clifford) -> [u8; 4] {
            [c.a, c.b, c.c, c.d]
        }

        pub fn append(nf: &mut NormalForm, letter: &str) {
            nf.append_gate(letter)
        }

        /// The syllable that a T read now would take away, where the published match looks for one.
        pub fn removed_by_t(nf: &NormalForm) -> Option<Syllable> {
            match nf.c.decompose_tconj().0 {
                Axis::I => nf.syllables.last().copied(),
                _ => None,
            }
        }

        /// The SHT arm as it should be: S·H·S in front of what follows the removed syllable.
        pub fn append_mended(nf: &mut NormalForm, letter: &str) {
            if letter == "T" && removed_by_t(nf) == Some(Syllable::SHT) {
                let rest = nf.c.decompose_tconj().1;
                nf.syllables.pop();
                nf.c = (CLIFFORD_S * CLIFFORD_H * CLIFFORD_S) * rest;
            } else {
                nf.append_gate(letter)
            }
        }
    }
}

pub mod synthesis_of_clifford_t {
    include!("synthesis_of_clifford_t.rs");

    pub mod access {
        use super::*;

        /// Whether the published steps come to k = 0 in at most this many. A triple that is not unitary promises no end.
        pub fn ends(mut u: DOmegaUnitary, most: usize) -> bool {
            for _ in 0..most {
                if u.k() <= 0 {
                    return true;
                }
                u = reduce_denomexp(u).1;
            }
            false
        }

        /// The letters that `decompose_domega_unitary` hands to `NormalForm::from_gates`: its own steps,
        /// and then its rule at k = 0 written again.
        pub fn letters(mut u: DOmegaUnitary) -> String {
            let mut gates = String::new();
            while u.k() > 0 {
                let (g, next) = reduce_denomexp(u);
                gates += &g;
                u = next;
            }
            if u.n & 1 != 0 {
                gates += "T";
                u = u.mul_by_t_inv_from_left();
            }
            if u.z == IBig::ZERO {
                gates += "X";
                u = u.mul_by_x_from_left();
            }
            let one = ZOmega::from_int(IBig::ONE);
            let power = (0..8).find(|m| u.z == one.mul_by_omega_power(*m)).unwrap_or(0);
            u = u.mul_by_w_power_from_left(-(power as i32));
            gates + &"S".repeat((u.n >> 1) as usize) + &"W".repeat(power)
        }
    }
}

pub mod unitary {
    include!("unitary.rs");

    pub mod access {
        use super::*;
        use crate::ring::ZOmega;

        pub fn triple(k: i64, n: u8, zw: &[i64; 8]) -> DOmegaUnitary {
            let part = |i: usize| {
                let at = |j: usize| IBig::from(zw[i + j]);
                DOmega::new(ZOmega::new(at(0), at(1), at(2), at(3)), k)
            };
            DOmegaUnitary::new(part(0), part(4), n as usize, None)
        }

        pub fn n(u: &DOmegaUnitary) -> u8 {
            u.n
        }

        /// k, n and the eight coefficients, where 64 bits hold them.
        pub fn numbers(u: &DOmegaUnitary) -> Option<[i64; 10]> {
            let (z, w) = (&u.z.u, &u.w.u);
            let mut out = [u.k(), u.n as i64, 0, 0, 0, 0, 0, 0, 0, 0];
            for (i, x) in [&z.a, &z.b, &z.c, &z.d, &w.a, &w.b, &w.c, &w.d].into_iter().enumerate() {
                out[i + 2] = x.to_i64()?;
            }
            Some(out)
        }
    }
}
