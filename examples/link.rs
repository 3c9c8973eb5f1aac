//! Calls the library from Rust, prints what it answers, and checks it; the status is not 0 if an answer is wrong.
//!
//!     tools/archive
//!     rustc --edition 2021 -L native=target/staticlib examples/link.rs -o link
//!     ./link

/// The declarations of include/dunrossel.h; what each promises stands there.
mod ffi {
    #[link(name = "dunrossel", kind = "static")]
    extern "C" {
        pub fn dunrossel_reduce(k: i64, n: u8, zw: *const [i64; 8], out: *mut [i64; 10]) -> u8;
        pub fn dunrossel_matrix(word: *const u8, len: usize, out: *mut [i64; 10], place: *mut u64) -> u8;
        pub fn dunrossel_normalise(word: *const u8, len: usize, buf: *mut u8, room: usize, out: *mut [u64; 3]) -> u8;
        pub fn dunrossel_phase_free(word: *const u8, len: usize, buf: *mut u8, room: usize, out: *mut [u64; 3]) -> u8;
        pub fn dunrossel_synthesise(k: i64, n: u8, zw: *const [i64; 8], buf: *mut u8, room: usize, out: *mut [u64; 3]) -> u8;
        pub fn dunrossel_synthesise_steps(k: i64, n: u8, zw: *const [i64; 8], buf: *mut u8, room: usize, out: *mut [u64; 4]) -> u8;
        pub fn dunrossel_t_count(k: i64, n: u8, zw: *const [i64; 8], tees: *mut u64) -> u8;
        pub fn dunrossel_rotation(k: i64, n: u8, zw: *const [i64; 8], out: *mut [i64; 19]) -> u8;
        pub fn dunrossel_clifford_product(x: *const [i32; 4], y: *const [i32; 4], out: *mut [i32; 4]);
        pub fn dunrossel_clifford_inverse(x: *const [i32; 4], out: *mut [i32; 4]);
        pub fn dunrossel_clifford_coset(x: *const [i32; 4], out: *mut [i32; 5]);
        pub fn dunrossel_view(k: i64, n: u8, zw: *const [i64; 8], out: *mut [f64; 8]) -> u8;
        pub fn dunrossel_bench(record: *const u8, len: usize, out: *mut [u8; 512]) -> usize;
        pub fn dunrossel_qasm2_write(word: *const u8, len: usize, buf: *mut u8, room: usize, out: *mut [u64; 2]) -> u8;
        pub fn dunrossel_qasm3_write(word: *const u8, len: usize, buf: *mut u8, room: usize, out: *mut [u64; 2]) -> u8;
        pub fn dunrossel_qasm_read(text: *const u8, len: usize, buf: *mut u8, room: usize, out: *mut [u64; 2]) -> u8;
        pub fn dunrossel_slot_add(letter: u8, syllables: *mut [u8; 4096], rest: *mut [u64; 6], length: *mut u64) -> u8;
        pub fn dunrossel_slot_length(syllables: *const [u8; 4096], rest: *const [u64; 6], length: *mut u64) -> u8;
    }
}

/// A refusal's number (include/dunrossel.h names them) and its place.
#[derive(Debug, PartialEq)]
struct Refused {
    number: u8,
    place: u64,
}

/// A matrix: k, n, then z and w.
type Triple = [i64; 10];

fn parts(m: &Triple) -> (i64, u8, [i64; 8]) {
    (m[0], m[1] as u8, m[2..].try_into().unwrap())
}

/// Room enough for the word of any matrix, and for the normal word of any word.
const ENOUGH: usize = 376;
const NORMAL: usize = 5469;

fn answer<T>(number: u8, place: u64, value: T) -> Result<T, Refused> {
    if number == 0 {
        Ok(value)
    } else {
        Err(Refused { number, place })
    }
}

fn reduce(m: &Triple) -> Result<Triple, Refused> {
    let (k, n, zw) = parts(m);
    let mut out = [0; 10];
    let number = unsafe { ffi::dunrossel_reduce(k, n, &zw, &mut out) };
    answer(number, 0, out)
}

fn matrix(word: &str) -> Result<Triple, Refused> {
    let (mut out, mut place) = ([0; 10], 0);
    let number = unsafe { ffi::dunrossel_matrix(word.as_ptr(), word.len(), &mut out, &mut place) };
    answer(number, place, out)
}

/// What was written into `buf`, which the library fills with ASCII letters.
fn written(number: u8, buf: &[u8], out: [u64; 3]) -> Result<String, Refused> {
    let text = String::from_utf8(buf[..out[1] as usize].to_vec()).unwrap();
    assert_eq!(text.matches('T').count() as u64, out[2]);
    answer(number, out[0], text)
}

fn normalise(word: &str, room: usize) -> Result<String, Refused> {
    let (mut buf, mut out) = (vec![0; room], [0; 3]);
    let number = unsafe { ffi::dunrossel_normalise(word.as_ptr(), word.len(), buf.as_mut_ptr(), room, &mut out) };
    written(number, &buf, out)
}

fn phase_free(word: &str, room: usize) -> Result<String, Refused> {
    let (mut buf, mut out) = (vec![0; room], [0; 3]);
    let number = unsafe { ffi::dunrossel_phase_free(word.as_ptr(), word.len(), buf.as_mut_ptr(), room, &mut out) };
    written(number, &buf, out)
}

fn synthesise(m: &Triple, room: usize) -> Result<String, Refused> {
    let (k, n, zw) = parts(m);
    let (mut buf, mut out) = (vec![0; room], [0; 3]);
    let number = unsafe { ffi::dunrossel_synthesise(k, n, &zw, buf.as_mut_ptr(), room, &mut out) };
    written(number, &buf, out)
}

/// The word, and in how many steps it was found.
fn synthesise_steps(m: &Triple, room: usize) -> Result<(String, u64), Refused> {
    let (k, n, zw) = parts(m);
    let (mut buf, mut out) = (vec![0; room], [0; 4]);
    let number = unsafe { ffi::dunrossel_synthesise_steps(k, n, &zw, buf.as_mut_ptr(), room, &mut out) };
    let [place, bytes, tees, steps] = out;
    written(number, &buf, [place, bytes, tees]).map(|word| (word, steps))
}

/// How many T the word of a matrix has, without making it.
fn t_count(m: &Triple) -> Result<u64, Refused> {
    let (k, n, zw) = parts(m);
    let mut tees = 0;
    let number = unsafe { ffi::dunrossel_t_count(k, n, &zw, &mut tees) };
    answer(number, 0, tees)
}

/// The exponent, then the nine entries row by row, two numbers each.
fn rotation(m: &Triple) -> Result<[i64; 19], Refused> {
    let (k, n, zw) = parts(m);
    let mut out = [0; 19];
    let number = unsafe { ffi::dunrossel_rotation(k, n, &zw, &mut out) };
    answer(number, 0, out)
}

/// The type that the three calls for circuits share.
type Circuits = unsafe extern "C" fn(*const u8, usize, *mut u8, usize, *mut [u64; 2]) -> u8;

/// Room enough for any circuit, and for the letters of one.
const CIRCUIT: usize = 57394;

fn circuits(call: Circuits, given: &str) -> Result<String, Refused> {
    let (mut buf, mut out) = (vec![0; CIRCUIT], [0; 2]);
    let number = unsafe { call(given.as_ptr(), given.len(), buf.as_mut_ptr(), CIRCUIT, &mut out) };
    buf.truncate(out[1] as usize);
    answer(number, out[0], String::from_utf8(buf).unwrap())
}

fn qasm2(word: &str) -> Result<String, Refused> {
    circuits(ffi::dunrossel_qasm2_write, word)
}

fn qasm3(word: &str) -> Result<String, Refused> {
    circuits(ffi::dunrossel_qasm3_write, word)
}

fn letters(circuit: &str) -> Result<String, Refused> {
    circuits(ffi::dunrossel_qasm_read, circuit)
}

/// A slot's record: a code for each syllable, then how many there are, the bytes of the text, and the tail.
struct Slot {
    syllables: [u8; 4096],
    rest: [u64; 6],
}

impl Slot {
    /// No letters yet: the text is I.
    fn new() -> Slot {
        Slot { syllables: [0; 4096], rest: [0, 1, 0, 0, 0, 0] }
    }

    /// Adds a letter; the length of the text then.
    fn add(&mut self, letter: u8) -> Result<u64, Refused> {
        let mut length = 0;
        let number = unsafe { ffi::dunrossel_slot_add(letter, &mut self.syllables, &mut self.rest, &mut length) };
        answer(number, 0, length)
    }

    fn length(&self) -> Result<u64, Refused> {
        let mut length = 0;
        let number = unsafe { ffi::dunrossel_slot_length(&self.syllables, &self.rest, &mut length) };
        answer(number, 0, length)
    }
}

fn view(m: &Triple) -> Result<[f64; 8], Refused> {
    let (k, n, zw) = parts(m);
    let mut out = [0.0; 8];
    let number = unsafe { ffi::dunrossel_view(k, n, &zw, &mut out) };
    answer(number, 0, out)
}

fn bench(record: &str) -> String {
    let mut out = [0; 512];
    let size = unsafe { ffi::dunrossel_bench(record.as_ptr(), record.len(), &mut out) };
    String::from_utf8(out[..size].to_vec()).unwrap()
}

fn cliffords() {
    let (s, h) = ([0, 0, 1, 0], [1, 0, 1, 5]);
    let (mut product, mut inverse, mut identity, mut parted) = ([0; 4], [0; 4], [7; 4], [0; 5]);
    unsafe {
        ffi::dunrossel_clifford_product(&s, &h, &mut product);
        ffi::dunrossel_clifford_inverse(&product, &mut inverse);
        ffi::dunrossel_clifford_product(&product, &inverse, &mut identity);
        ffi::dunrossel_clifford_coset(&product, &mut parted);
    }
    println!("S times H is {product:?}, its inverse {inverse:?}, its axis {}", parted[0]);
    assert_eq!((product, identity, parted), ([2, 0, 0, 3], [0; 4], [2, 0, 0, 0, 0]));
}

/// T turns X into (X + Y) over root two, Y into (Y - X) over root two, and leaves Z, which is root two over root two.
fn turned() {
    let t = matrix("T").unwrap();
    println!("T costs {:?} T; its rotation: {:?}", t_count(&t), rotation(&t));
    assert_eq!(t_count(&t), Ok(1));
    assert_eq!(rotation(&t), Ok([1, 1, 0, -1, 0, 0, 0, 1, 0, 1, 0, 0, 0, 0, 0, 0, 0, 0, 1]));
    assert_eq!(t_count(&matrix("THTSHTW").unwrap()), Ok(3));
    let too_deep = [61, 0, 0, 0, 0, 1, 0, 0, 0, 0];
    assert_eq!((t_count(&too_deep), rotation(&too_deep)), (Err(Refused { number: 3, place: 0 }), Err(Refused { number: 3, place: 0 })));
}

fn there_and_back() {
    let text = qasm3("HTIW").unwrap();
    print!("{text}");
    assert_eq!(text, "OPENQASM 3.0;\ninclude \"stdgates.inc\";\nqubit[1] q;\ngphase(pi/4);\nt q[0];\nh q[0];\n");
    assert_eq!(letters(&text).as_deref(), Ok("HTW"));
    assert_eq!(letters(&qasm2("HTIX").unwrap()).as_deref(), Ok("HTX"));
    assert_eq!(qasm2("HTIW"), Err(Refused { number: 10, place: 3 }));
    assert_eq!(letters("OPENQASM 2.0;\r\n"), Err(Refused { number: 9, place: 13 }));
}

/// HT is HTI, and HTSHTT is HTSHS, for the last T meets SHT.
fn slots() {
    let mut slot = Slot::new();
    let lengths: Vec<u64> = b"HTSHTT".iter().map(|letter| slot.add(*letter).unwrap()).collect();
    println!("bytes of HTSHTT, letter by letter: {lengths:?}");
    assert_eq!(lengths, [1, 3, 3, 4, 6, 5]);
    assert_eq!((slot.add(b'h'), slot.length()), (Err(Refused { number: 2, place: 0 }), Ok(5)));
    slot.rest[1] = 6;
    assert_eq!((slot.add(b'H'), slot.length()), (Err(Refused { number: 17, place: 0 }), Err(Refused { number: 17, place: 0 })));
}

fn main() {
    for (word, normal) in [("", "I"), ("T", "TI"), ("HSH", "SHXSSSW"), ("SHTT", "SHS"), ("XT", "TXSWWWWWWW")] {
        println!("normalise {word}: {:?}", normalise(word, NORMAL));
        assert_eq!(normalise(word, NORMAL).as_deref(), Ok(normal));
        assert_eq!(normalise(normal, NORMAL).as_deref(), Ok(normal));
        let m = matrix(word).unwrap();
        assert_eq!(reduce(&m), Ok(m));
        assert_eq!(synthesise(&m, ENOUGH).as_deref(), Ok(normal));
    }
    assert_eq!(phase_free("HSH", 6).as_deref(), Ok("SHXSSS"));
    assert_eq!((phase_free("T", 2), phase_free("TW", 2)), (Ok("TI".into()), Ok("TI".into())));
    assert_eq!((phase_free("W", 1), phase_free("TW", 1)), (Ok("I".into()), Err(Refused { number: 7, place: 0 })));
    assert_eq!(normalise("T", 1), Err(Refused { number: 7, place: 0 }));
    assert_eq!(normalise(&"T".repeat(4097), NORMAL), Err(Refused { number: 1, place: 0 }));
    assert_eq!(matrix("HTZ"), Err(Refused { number: 2, place: 2 }));
    assert_eq!(matrix(&"HT".repeat(122)), Err(Refused { number: 6, place: 4 }));

    let h = matrix("H").unwrap();
    println!("H: {h:?}, {:?}", view(&h).unwrap());
    println!("its word and steps: {:?}", synthesise_steps(&h, 1));
    assert_eq!(synthesise_steps(&h, 1), Ok(("H".into(), 1)));
    assert_eq!(synthesise_steps(&h, 0), Err(Refused { number: 7, place: 0 }));
    assert_eq!(synthesise_steps(&matrix("HTSHX").unwrap(), ENOUGH), Ok(("HTSHX".into(), 2)));
    assert!((view(&h).unwrap()[0] - std::f64::consts::FRAC_1_SQRT_2).abs() < 1e-15);
    turned();
    cliffords();
    there_and_back();
    slots();

    let text = bench("k=1\nn=4\nz=0,0,0,1\nw=0,0,0,1\n");
    print!("{text}");
    assert_eq!(text, "refusal=0\nword=H\nt=0\nbytes=1\nsteps=1\n");
    println!("link.rs: every answer is right");
}
