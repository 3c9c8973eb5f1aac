//! How the library is reached: linked into this program. All calls work on one piece of memory.

use crate::abi::Job;

/// Places in the memory: the words of a call, out arrays, a word's place or a slot's numbers, the input, the lent buffer or a slot's
/// syllables.
pub const OUT: usize = 4096;
pub const PLACE: usize = 4608;
pub const IN: usize = 8192;
pub const LENT: usize = 4 << 20;
const SIZE: usize = 8 << 20;

#[derive(Clone, Copy)]
pub enum Word {
    Number(u64),
    At(usize),
}

pub struct Library {
    memory: &'static mut [u8],
}

impl Library {
    pub fn memory(&mut self) -> &mut [u8] {
        self.memory
    }
}

/// The exports: in `c` those of the library, in `before` those of an earlier archive (`build` has renamed them), where
/// one is timed beside it.
macro_rules! exports {
    ($(pub fn $name:ident($($argument:ident: $type:ty),*) $(-> $answer:ty)?;)*) => {
        pub mod c {
            extern "C" {
                $(pub fn $name($($argument: $type),*) $(-> $answer)?;)*
            }
        }

        #[cfg(before)]
        pub mod before {
            extern "C" {
                $(
                    #[link_name = concat!("before_", stringify!($name))]
                    pub fn $name($($argument: $type),*) $(-> $answer)?;
                )*
            }
        }
    };
}

exports! {
    pub fn dunrossel_reduce(k: i64, n: u8, zw: *const i64, out: *mut i64) -> u8;
    pub fn dunrossel_matrix(word: *const u8, len: usize, out: *mut i64, place: *mut u64) -> u8;
    pub fn dunrossel_normalise(word: *const u8, len: usize, buf: *mut u8, room: usize, out: *mut u64) -> u8;
    pub fn dunrossel_phase_free(word: *const u8, len: usize, buf: *mut u8, room: usize, out: *mut u64) -> u8;
    pub fn dunrossel_synthesise(k: i64, n: u8, zw: *const i64, buf: *mut u8, room: usize, out: *mut u64) -> u8;
    pub fn dunrossel_clifford_product(x: *const i32, y: *const i32, out: *mut i32);
    pub fn dunrossel_clifford_inverse(x: *const i32, out: *mut i32);
    pub fn dunrossel_clifford_coset(x: *const i32, out: *mut i32);
    pub fn dunrossel_view(k: i64, n: u8, zw: *const i64, out: *mut f64) -> u8;
    pub fn dunrossel_bench(record: *const u8, len: usize, out: *mut u8) -> usize;
    pub fn dunrossel_qasm2_write(word: *const u8, len: usize, buf: *mut u8, room: usize, out: *mut u64) -> u8;
    pub fn dunrossel_qasm3_write(word: *const u8, len: usize, buf: *mut u8, room: usize, out: *mut u64) -> u8;
    pub fn dunrossel_qasm_read(text: *const u8, len: usize, buf: *mut u8, room: usize, out: *mut u64) -> u8;
    pub fn dunrossel_synthesise_steps(k: i64, n: u8, zw: *const i64, buf: *mut u8, room: usize, out: *mut u64) -> u8;
    pub fn dunrossel_t_count(k: i64, n: u8, zw: *const i64, tees: *mut u64) -> u8;
    pub fn dunrossel_rotation(k: i64, n: u8, zw: *const i64, out: *mut i64) -> u8;
    pub fn dunrossel_slot_add(letter: u8, syllables: *mut u8, rest: *mut u64, length: *mut u64) -> u8;
    pub fn dunrossel_slot_length(syllables: *const u8, rest: *const u64, length: *mut u64) -> u8;
}

impl Library {
    pub fn start() -> Library {
        // Eight bytes at a time, so that every place is aligned for any number.
        let words = Box::leak(vec![0u64; SIZE / 8].into_boxed_slice());
        let memory = unsafe { std::slice::from_raw_parts_mut(words.as_mut_ptr().cast(), SIZE) };
        Library { memory }
    }

    pub fn call(&mut self, job: Job, args: &[Word]) -> u64 {
        let base = self.memory.as_mut_ptr();
        let n = |i: usize| match args[i] {
            Word::Number(x) => x,
            Word::At(_) => unreachable!(),
        };
        let size = |i: usize| n(i) as usize;
        fn at<T>(base: *mut u8, word: Word) -> *mut T {
            match word {
                Word::At(place) => unsafe { base.add(place).cast() },
                Word::Number(_) => unreachable!(),
            }
        }
        macro_rules! p {
            ($i:expr) => {
                at(base, args[$i])
            };
        }
        unsafe {
            match job {
                Job::Reduce => c::dunrossel_reduce(n(0) as i64, n(1) as u8, p!(2), p!(3)) as u64,
                Job::Matrix => c::dunrossel_matrix(p!(0), size(1), p!(2), p!(3)) as u64,
                Job::Normalise => c::dunrossel_normalise(p!(0), size(1), p!(2), size(3), p!(4)) as u64,
                Job::PhaseFree => c::dunrossel_phase_free(p!(0), size(1), p!(2), size(3), p!(4)) as u64,
                Job::Synthesise => {
                    c::dunrossel_synthesise(n(0) as i64, n(1) as u8, p!(2), p!(3), size(4), p!(5)) as u64
                }
                Job::Product => {
                    c::dunrossel_clifford_product(p!(0), p!(1), p!(2));
                    0
                }
                Job::Inverse => {
                    c::dunrossel_clifford_inverse(p!(0), p!(1));
                    0
                }
                Job::Coset => {
                    c::dunrossel_clifford_coset(p!(0), p!(1));
                    0
                }
                Job::View => c::dunrossel_view(n(0) as i64, n(1) as u8, p!(2), p!(3)) as u64,
                Job::Bench => c::dunrossel_bench(p!(0), size(1), p!(2)) as u64,
                Job::Qasm2Write => c::dunrossel_qasm2_write(p!(0), size(1), p!(2), size(3), p!(4)) as u64,
                Job::Qasm3Write => c::dunrossel_qasm3_write(p!(0), size(1), p!(2), size(3), p!(4)) as u64,
                Job::QasmRead => c::dunrossel_qasm_read(p!(0), size(1), p!(2), size(3), p!(4)) as u64,
                Job::SynthesiseSteps => {
                    c::dunrossel_synthesise_steps(n(0) as i64, n(1) as u8, p!(2), p!(3), size(4), p!(5)) as u64
                }
                Job::TCount => c::dunrossel_t_count(n(0) as i64, n(1) as u8, p!(2), p!(3)) as u64,
                Job::Rotation => c::dunrossel_rotation(n(0) as i64, n(1) as u8, p!(2), p!(3)) as u64,
                Job::SlotAdd => c::dunrossel_slot_add(n(0) as u8, p!(1), p!(2), p!(3)) as u64,
                Job::SlotLength => c::dunrossel_slot_length(p!(0), p!(1), p!(2)) as u64,
            }
        }
    }
}
