//! The inputs: words, triples and Cliffords, from lists and from one fixed random sequence.

/// The limit of a word's letters (docs/SCOPE.md, Limits).
pub const LONGEST: usize = 4096;

/// What job 4 says is room enough for any answer of its own.
pub const ENOUGH: usize = 376;

pub struct Random(u64);

impl Random {
    pub fn new(seed: u64) -> Random {
        Random(seed)
    }

    /// Splitmix64.
    pub fn next(&mut self) -> u64 {
        self.0 = self.0.wrapping_add(0x9e37_79b9_7f4a_7c15);
        let mut z = self.0;
        z = (z ^ (z >> 30)).wrapping_mul(0xbf58_476d_1ce4_e5b9);
        z = (z ^ (z >> 27)).wrapping_mul(0x94d0_49bb_1331_11eb);
        z ^ (z >> 31)
    }

    pub fn below(&mut self, n: usize) -> usize {
        (self.next() % n as u64) as usize
    }

    pub fn of<'a, T>(&mut self, list: &'a [T]) -> &'a T {
        &list[self.below(list.len())]
    }

    pub fn word(&mut self, letters: &[u8], len: usize) -> Vec<u8> {
        (0..len).map(|_| *self.of(letters)).collect()
    }

    /// A word with 1 to `most` of a letter put in anywhere, and no more than make 4,096 letters.
    pub fn with_more(&mut self, word: &[u8], letter: u8, most: usize) -> Vec<u8> {
        let more = 1 + self.below(most.min(LONGEST - word.len()));
        (0..more).fold(word.to_vec(), |w, _| put(&w, self.below(w.len() + 1), letter))
    }

    /// A word whose letters never take the SHT arm: where a T would, another letter stands.
    pub fn word_without_sht_arm(&mut self, len: usize) -> Vec<u8> {
        let mut reading = crate::rust::Reading::default();
        (0..len)
            .map(|_| {
                let g = *self.of(b"HSXWTTTHHT");
                let g = if g == b'T' && reading.sht_is_next() { *self.of(b"HSXW") } else { g };
                reading.read(g);
                g
            })
            .collect()
    }

    /// T or nothing, `syllables` of HT and SHT, any tail.
    pub fn normal(&mut self, syllables: usize) -> Vec<u8> {
        let mut word = if self.below(2) == 0 { b"T".to_vec() } else { Vec::new() };
        for _ in 0..syllables {
            word.extend_from_slice(*self.of(&[b"HT".as_slice(), b"SHT"]));
        }
        word.extend(self.of(&tails()));
        word
    }
}

pub const LETTERS: &[u8] = b"IHSXWT";

/// Those that the Rust's normal form reads, for words that are to be compared with its own answer.
pub const PLAIN: &[u8] = b"HSXWT";

pub fn without_identity(word: &[u8]) -> Vec<u8> {
    word.iter().copied().filter(|g| *g != b'I').collect()
}

/// Every word of up to `most` letters, shorter ones first.
pub fn every_word(most: usize, mut each: impl FnMut(&[u8])) {
    for len in 0..=most {
        for mut code in 0..6usize.pow(len as u32) {
            let mut word = [0u8; 16];
            for g in word[..len].iter_mut() {
                *g = LETTERS[code % 6];
                code /= 6;
            }
            each(&word[..len]);
        }
    }
}

/// The 192 tails as letters, the empty one as none.
pub fn tails() -> Vec<Vec<u8>> {
    let mut all = Vec::with_capacity(192);
    for front in [b"".as_slice(), b"H", b"SH"] {
        for (x, s, w) in (0..64).map(|i| (i / 32, i / 8 % 4, i % 8)) {
            all.push([front, &vec![b'X'; x], &vec![b'S'; s], &vec![b'W'; w]].concat());
        }
    }
    all
}

/// The normal word of these syllables and these letters of a tail: an empty tail is written I.
pub fn normal_word(syllables: &[u8], tail: &[u8]) -> Vec<u8> {
    [syllables, if tail.is_empty() { b"I" } else { tail }].concat()
}

/// Where a normal word's syllables end, the last of which ends in T, and its tail begins.
pub fn tail_at(normal: &[u8]) -> usize {
    normal.iter().rposition(|g| *g == b'T').map_or(0, |last| last + 1)
}

pub fn put(word: &[u8], at: usize, letter: u8) -> Vec<u8> {
    [&word[..at], &[letter], &word[at..]].concat()
}

/// The syllables of every normal word with exactly t letters T.
pub fn syllables(t: usize) -> Vec<Vec<u8>> {
    let mut words: Vec<Vec<u8>> = vec![Vec::new()];
    for i in 0..t {
        let choices: &[&[u8]] = if i == 0 { &[b"T", b"HT", b"SHT"] } else { &[b"HT", b"SHT"] };
        words = words.iter().flat_map(|w| choices.iter().map(|c| [w, *c].concat())).collect();
    }
    words
}

pub fn cliffords() -> Vec<[i32; 4]> {
    (0..192).map(|i| [i / 64, i / 32 % 2, i / 8 % 4, i % 8]).collect()
}

pub const EDGES: [i32; 16] =
    [i32::MIN, i32::MIN + 1, i32::MIN + 2, -9, -4, -2, -1, 0, 1, 2, 3, 7, 8, i32::MAX - 2, i32::MAX - 1, i32::MAX];

pub type Triple = (i64, u8, [i64; 8]);

/// The same matrix with its exponent one up: z and w times root two, which is (-1,0,1,0).
pub fn raised((k, n, zw): Triple) -> Triple {
    let times = |v: &[i64]| [v[1] - v[3], v[0] + v[2], v[1] + v[3], v[2] - v[0]];
    let (z, w) = (times(&zw[..4]), times(&zw[4..]));
    (k + 1, n, [z, w].concat().try_into().unwrap())
}
