//! Which inputs are compared. Every run is the same from one start to the next.

use crate::exact::Matrix;
use crate::inputs::{self, raised, Random, Triple, EDGES, LETTERS, PLAIN};
use crate::report::Report;
use crate::words::Rooms;
use crate::{cliffords, records, rust, triples, words};
use std::collections::HashSet;

pub fn triple(numbers: [i64; 10]) -> Triple {
    (numbers[0], numbers[1] as u8, numbers[2..].try_into().unwrap())
}

pub fn word(report: &mut Report, word: &[u8], which: Rooms) -> Option<Triple> {
    words::normalise(report, word, which);
    words::matrix(report, word).map(triple)
}

/// The triple of a word that is known to be accepted.
pub fn triple_of(word: &[u8]) -> Option<Triple> {
    crate::exact::word_within(word, words::DEEPEST).ok()?;
    rust::matrix(std::str::from_utf8(word).ok()?)?.map(triple)
}

/// Every word of up to `most` letters in jobs 2, 3 and 5, and each matrix they have in jobs 1, 4 and 7.
pub fn every_word(report: &mut Report, most: usize) {
    let mut seen = HashSet::new();
    inputs::every_word(most, |w| {
        if let Some(t) = word(report, w, Rooms::One) {
            if seen.insert(t) {
                triples::all(report, &t, Rooms::All);
            }
        }
    });
    report.note("matrices among the words of up to 7 letters", seen.len() as u64);
}

/// Every arm: each syllable at the end of a reading, each of the 192 Cliffords after it, each letter, and more.
pub fn every_arm(report: &mut Report) {
    let fronts: [&[u8]; 8] = [b"", b"T", b"HT", b"SHT", b"TSHT", b"SHTHT", b"HTSHT", b"SHTSHT"];
    let mut random = Random::new(2);
    for front in fronts {
        for tail in inputs::tails() {
            for letter in LETTERS {
                let w = [front, &tail, &[*letter]].concat();
                word(report, &w, Rooms::One);
                let more = [w, random.word(PLAIN, 6)].concat();
                word(report, &more, Rooms::One);
            }
        }
    }
}

/// Random words of a length with I and without, one of them never taking the SHT arm.
fn random_words(report: &mut Report, random: &mut Random, len: usize, which: Rooms) {
    let free = random.word_without_sht_arm(len);
    words::normalise(report, &free, which);
    let any = random.word(PLAIN, len);
    words::normalise(report, &any, which);
    let calm = random.word(b"HSXWHSXWHSXWHSXWHSXWHSXWHSXWIIT", len);
    words::matrix(report, &calm);
    let wild = random.word(LETTERS, len);
    words::matrix(report, &wild);
    words::normalise(report, &wild, which);
}

pub fn random_lengths(report: &mut Report, each: usize) {
    let mut random = Random::new(3);
    for len in 8..=64 {
        for _ in 0..each {
            random_words(report, &mut random, len, Rooms::One);
        }
    }
    for len in (65..400).chain([1000, 2000, 3000]) {
        for _ in 0..each.div_ceil(50) {
            random_words(report, &mut random, len, Rooms::All);
        }
    }
}

/// Words around 4,096 letters: random ones, the most syllables, those that push and pop, damaged ones.
pub fn around_long(report: &mut Report, each: usize) {
    let mut random = Random::new(4);
    for len in 4088..=4104 {
        for _ in 0..each {
            random_words(report, &mut random, len, Rooms::All);
        }
        let cut = |pattern: &[u8]| pattern.iter().cycle().take(len).copied().collect::<Vec<u8>>();
        for pattern in
            [b"THT".as_slice(), b"HT", b"SHT", b"T", b"TTTTTTTT", b"H", b"W", b"I", b"TI", b"HTTSSSH", b"SHTTSSSHSSS"]
        {
            words::normalise(report, &cut(pattern), Rooms::All);
            words::matrix(report, &cut(pattern));
        }
        let most = [b"T".as_slice(), &cut(b"HT")[1..]].concat();
        words::normalise(report, &most, Rooms::All);
        for _ in 0..4 {
            let mut damaged = random.word(LETTERS, len);
            damaged[random.below(len)] = *random.of(b"iAthsxw\0\n~\x80\xff");
            words::normalise(report, &damaged, Rooms::All);
            words::matrix(report, &damaged);
        }
    }
    for len in [5000, 65_536, 1_000_000] {
        words::normalise(report, &random.word(LETTERS, len), Rooms::All);
        words::matrix(report, &random.word(b"IHX?", len));
    }
}

/// Every byte at every place of short words, and damaged copies of longer ones.
pub fn letters(report: &mut Report) {
    for good in [b"H".as_slice(), b"HIT", b"SHTT", b"XTWHTS"] {
        for at in 0..good.len() {
            for byte in 0..=255 {
                let mut w = good.to_vec();
                w[at] = byte;
                word(report, &w, Rooms::One);
            }
        }
    }
    let mut random = Random::new(5);
    for _ in 0..20_000 {
        let len = 1 + random.below(60);
        let mut w = random.word(LETTERS, len);
        for _ in 0..1 + random.below(3) {
            w[random.below(len)] = random.next() as u8;
        }
        word(report, &w, Rooms::One);
    }
}

/// Words whose endings come near exponent 60, and words that go deeper and come back.
pub fn around_deep(report: &mut Report, each: usize) {
    let mut random = Random::new(6);
    for n in 50..=130 {
        words::matrix(report, &b"HT".repeat(n));
        words::matrix(report, &b"SHT".repeat(n));
        for _ in 0..each {
            let w = random.normal(n);
            words::matrix(report, &w);
            words::normalise(report, &w, Rooms::One);
            let there = [random.word(PLAIN, 20), random.normal(n)].concat();
            let back: Vec<u8> = there.iter().rev().flat_map(undone).copied().collect();
            words::matrix(report, &[back.as_slice(), &there].concat());
            words::matrix(report, &[there, back].concat());
        }
    }
}

/// Letters whose product undoes the letter.
pub fn undone(letter: &u8) -> &'static [u8] {
    match letter {
        b'T' => b"TSSS",
        b'S' => b"SSS",
        b'W' => b"WWWWWWW",
        b'X' => b"X",
        _ => b"H",
    }
}

/// A triple as it is, with other n, raised, and damaged.
fn around_triple(report: &mut Report, random: &mut Random, t: Triple, which: Rooms) {
    let (k, n, zw) = t;
    triples::all(report, &t, which);
    triples::exact(report, &(k, random.next() as u8, zw), Rooms::One);
    if k < 60 {
        let by = 1 + random.below((60 - k) as usize);
        let up = (0..by).fold(t, |t, _| raised(t));
        triples::all(report, &up, Rooms::One);
        triples::exact(report, &raised(t), Rooms::One);
    }
    triples::all(report, &damaged(random, (k, n, zw)), Rooms::One);
}

/// One coefficient a little or much off, a sign lost, two swapped, or another exponent.
fn damaged(random: &mut Random, (mut k, n, mut zw): Triple) -> Triple {
    let at = random.below(8);
    match random.below(8) {
        0 => zw[at] = zw[at].wrapping_add(1),
        1 => zw[at] = zw[at].wrapping_sub(1),
        2 => zw[at] = zw[at].wrapping_neg(),
        3 => zw.swap(at, random.below(8)),
        4 => k += *random.of(&[-1, 1, -2, 2, 62, -61]),
        5 => zw[at] = random.next() as i64,
        6 => zw[at] += *random.of(&[1 << 30, -(1 << 30), 1 << 31, 1 << 32]),
        _ => zw[at] ^= 1,
    }
    (k, n, zw)
}

/// Every reduced triple of the normal words with up to `most` T and every tail.
pub fn few_t(report: &mut Report, most: usize) {
    let mut random = Random::new(7);
    let tails = inputs::tails();
    for t in 0..=most {
        for front in inputs::syllables(t) {
            for tail in &tails {
                let found = triple_of(&[front.as_slice(), tail].concat()).expect("accepted");
                let which = if t <= 1 { Rooms::All } else { Rooms::One };
                around_triple(report, &mut random, found, which);
            }
        }
    }
}

/// A few triples of every kind that the steps tell apart: none, some of either residue, deep ones.
pub fn few_triples(report: &mut Report) {
    let mut random = Random::new(25);
    let mut all: Vec<Vec<u8>> =
        [b"".as_slice(), b"TXS", b"H", b"HTH", b"SHTHTH", b"THTSHTHTX"].map(<[u8]>::to_vec).into();
    all.extend([9, 30, 61].map(|syllables| random.normal(syllables)));
    for w in all {
        let t = triple_of(&w).expect("accepted");
        around_triple(report, &mut random, t, Rooms::All);
    }
}

/// Random triples of every depth to 60.
pub fn deep(report: &mut Report, each: usize) {
    let mut random = Random::new(8);
    for syllables in 4..=122 {
        for _ in 0..each {
            let w = random.normal(syllables);
            let Some(t) = triple_of(&w) else { continue };
            report.most("job 4: deepest random triple", t.0 as u64);
            around_triple(report, &mut random, t, if t.0 > 57 { Rooms::All } else { Rooms::One });
            words::normalise(report, &w, Rooms::One);
        }
    }
}

/// The edges of the numbers, each coefficient in turn.
pub fn triple_edges(report: &mut Report) {
    let big = 1i64 << 30;
    let numbers = [i64::MIN, i64::MIN + 1, -big - 1, -big, -1, 0, 1, big - 1, big, big + 1, 1 << 31, 1 << 62, i64::MAX];
    let exponents =
        [i64::MIN, i64::MIN + 1, -1000, -2, -1, 0, 1, 2, 58, 59, 60, 61, 62, 63, 64, 65, i64::MAX - 1, i64::MAX];
    for k in exponents {
        for at in 0..8 {
            for x in numbers {
                for y in [0, 1, big, i64::MIN] {
                    let mut zw = [0; 8];
                    zw[at] = x;
                    zw[(at + 3) % 8] = y;
                    triples::all(report, &(k, (x ^ y) as u8, zw), Rooms::All);
                }
            }
        }
        triples::all(report, &(k, 255, [big; 8]), Rooms::All);
        triples::all(report, &(k, 255, [i64::MIN; 8]), Rooms::All);
    }
    for n in 0..=255 {
        let mut zw = [0; 8];
        zw[(n as usize + 3) % 8] = 1;
        triples::all(report, &(0, n, zw), Rooms::All);
        let mut up: Triple = (0, n, zw);
        for _ in 0..60 {
            up = raised(up);
            triples::all(report, &up, Rooms::One);
        }
    }
}

pub fn all_cliffords(report: &mut Report, edges: usize) {
    let all = inputs::cliffords();
    let table: Vec<Matrix> = all.iter().map(|x| Matrix::clifford(&x.map(|v| v as u8))).collect();
    let of = |x: &[i32; 4]| table[(x[0] * 64 + x[1] * 32 + x[2] * 8 + x[3]) as usize].clone();
    for x in &all {
        for y in &all {
            cliffords::product_by_matrices(report, x, y, &of);
        }
        cliffords::inverse(report, x);
        cliffords::coset(report, x);
    }
    let mut random = Random::new(9);
    let mut any = |i: usize, at: usize| match at {
        0 => EDGES[i % edges],
        _ => random.next() as i32,
    };
    for i in 0..edges.pow(4) {
        let x = [i, i / edges, i / edges.pow(2), i / edges.pow(3)].map(|j| EDGES[j % edges]);
        let y = [0, 1, 2, 3].map(|j| any(i * 7 + j * 5, i % 2));
        cliffords::product(report, &x, &y);
        cliffords::product(report, &y, &x);
        cliffords::inverse(report, &x);
        cliffords::coset(report, &x);
        cliffords::inverse(report, &y);
        cliffords::coset(report, &y);
    }
}

/// Records as they should be, and with a byte lost, added or changed.
pub fn bench_records(report: &mut Report, each: usize) {
    let mut random = Random::new(10);
    let fixed: [Triple; 4] = [
        (1, 4, [0, 0, 0, 1, 0, 0, 0, 1]),
        (60, 255, [0, 0, 0, 1 << 30, 0, 0, 0, 0]),
        (i64::MIN, 0, [i64::MIN, i64::MAX, 0, -1, 10, 100, -10, 9]),
        (1, 0, [-1, 0, 1, 0, 0, 0, 0, 0]),
    ];
    for t in fixed {
        let right = records::record(&t).into_bytes();
        records::bench(report, &right);
        for at in 0..=right.len() {
            records::bench(report, &right[..at]);
            for byte in *b"0123456789-+, \n\r=knzwKN\0\xff" {
                records::bench(report, &[&right[..at], &[byte], &right[at..]].concat());
                if at < right.len() {
                    records::bench(report, &[&right[..at], &[byte], &right[at + 1..]].concat());
                }
            }
        }
    }
    let lines = ["k=1\n", "n=4\n", "z=0,0,0,1\n", "w=0,0,0,1\n"];
    for order in 0..256 {
        let text: String = [0, 2, 4, 6].iter().map(|s| lines[order >> s & 3]).collect();
        records::bench(report, text.as_bytes());
    }
    for number in [
        "9223372036854775807",
        "-9223372036854775808",
        "9223372036854775808",
        "-9223372036854775809",
        "00",
        "-0",
        "256",
        "255",
        "-1",
        "18446744073709551616",
        "18446744073709551617",
        "1e1",
        "0x1",
        "",
    ] {
        for (i, l) in lines.iter().enumerate() {
            let value = l.rfind(['=', ',']).unwrap() + 1;
            let text: String =
                (0..4).map(|j| if i == j { format!("{}{number}\n", &l[..value]) } else { lines[j].into() }).collect();
            records::bench(report, text.as_bytes());
        }
    }
    for len in [200, 255, 256, 257, 300, 4096, 1_000_000] {
        records::bench(report, &vec![b'0'; len]);
        records::bench(report, &[b"k=1\nn=4\nz=0,0,0,1\nw=0,0,0,1\n".as_slice(), &vec![b'\n'; len]].concat());
    }
    for _ in 0..each {
        let depth = random.below(115);
        let Some(t) = triple_of(&random.normal(depth)) else { continue };
        records::bench(report, records::record(&t).as_bytes());
        records::bench(report, records::record(&damaged(&mut random, t)).as_bytes());
    }
}
