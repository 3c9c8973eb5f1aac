//! The library's exports, each called with guarded memory: what a call may write is filled with a pattern before,
//! and looked at after. One wrong answer can be planted here, to see that it is found.

use crate::exact::Matrix;
use crate::inputs::{Triple, ENOUGH};
use crate::library::{Library, Word, IN, LENT, OUT, PLACE};
use crate::slot::{Answer, Slot, PLACES};
use crate::{rotation_faults, slot_faults, word_faults};
use std::cell::RefCell;

const GUARD: usize = 32;

/// What stands in lent memory before a call: no letter, and not the same from byte to byte.
fn pattern(i: usize) -> u8 {
    0x80 | (i * 37 + 11) as u8
}

/// What stands in an out array before a call, and behind it after.
const STALE: u8 = 0xa5;
const OUT_BYTES: usize = 192;

/// The bytes of a slot's six numbers.
const REST: usize = 48;

/// Where a wrong answer is planted: at the call of this job with this number, in this part of the answer.
#[derive(Clone, Copy, PartialEq, Debug)]
pub struct Plant {
    pub job: Job,
    pub call: u64,
    pub part: Part,
}

#[derive(Clone, Copy, PartialEq, Eq, Debug)]
pub enum Job {
    Reduce,
    Matrix,
    Normalise,
    PhaseFree,
    Synthesise,
    Product,
    Inverse,
    Coset,
    View,
    Bench,
    Qasm2Write,
    Qasm3Write,
    QasmRead,
    SynthesiseSteps,
    TCount,
    Rotation,
    SlotAdd,
    SlotLength,
}

pub const JOBS: [Job; 18] = [
    Job::Reduce,
    Job::Matrix,
    Job::Normalise,
    Job::PhaseFree,
    Job::Synthesise,
    Job::Product,
    Job::Inverse,
    Job::Coset,
    Job::View,
    Job::Bench,
    Job::Qasm2Write,
    Job::Qasm3Write,
    Job::QasmRead,
    Job::SynthesiseSteps,
    Job::TCount,
    Job::Rotation,
    Job::SlotAdd,
    Job::SlotLength,
];

impl Job {
    /// The faults whose answers are planted as a whole.
    pub const fn faults(self) -> &'static [Fault] {
        match self {
            Job::Normalise => word_faults::OF_TEES,
            Job::PhaseFree => &word_faults::OF_PHASE_FREE,
            Job::SynthesiseSteps => &[Fault::Unreduced, Fault::More, Fault::Tees, Fault::Kept, Fault::Stale],
            Job::TCount => rotation_faults::OF_COUNTS,
            Job::Rotation => &rotation_faults::OF_ROTATIONS,
            Job::SlotAdd => &slot_faults::OF_ADDING,
            Job::SlotLength => slot_faults::OF_LENGTHS,
            _ => &[],
        }
    }
}

/// The refusal number; one of the numbers; the first byte of the lent buffer; the first byte beyond the length;
/// the byte after the lent memory; the whole answer of a faulty job.
#[derive(Clone, Copy, PartialEq, Eq, Debug)]
pub enum Part {
    Refusal,
    Number(usize),
    Byte,
    Beyond,
    After,
    Whole(Fault),
}

/// What a faulty job 5 would answer, a faulty count of T letters or of job 4's steps, a faulty T count or rotation, a faulty slot.
#[derive(Clone, Copy, PartialEq, Eq, Debug)]
pub enum Fault {
    /// Job 5: an empty tail written as nothing. Slots: not counted as the I that it is.
    Nothing,
    /// Job 5: an I behind a tail that has letters.
    Identity,
    /// Job 5: a W left.
    Phase,
    /// Job 5: an answer a byte too long taken for one that fits, its I not counted.
    Room,
    /// Jobs 3 and 5, the word right and its number of T letters wrong: the S letters counted too.
    Esses,
    /// Jobs 3 and 5: two T too many, which leaves them odd or even.
    TwoMore,
    /// Jobs 3 and 5: a T too few.
    Fewer,
    /// Jobs 3 and 5: the T letters of the word that was read.
    Own,
    /// Job 4: a step more for each exponent that is lowered before the first.
    Unreduced,
    /// Job 4: a step too many. Jobs 3 and 5, T count: a T too many; a rotation over a power of root two one higher than the least.
    More,
    /// Job 4: the T letters for steps.
    Tees,
    /// Job 4: steps in a refusal for want of room. T count, rotation, slots: in a refusal the numbers of the accepted call before.
    Kept,
    /// T count, rotation and slots: no number written in a refusal.
    Unwritten,
    /// T count and rotation, from here to Mirror: the exponent of the reduced triple for the rotation's.
    Exponent,
    /// Twice that; a rotation is then over this power of root two.
    Twice,
    /// The least exponent of what Z becomes alone; what the other axes become is cut off.
    OneAxis,
    /// n taken for 0.
    Unturned,
    /// The rotation's rows for its columns.
    Transpose,
    /// -Y for Y.
    Mirror,
    /// Slots, from here to Unread: the places behind the last syllable not looked at.
    Behind,
    /// A T that is not the first taken for HT.
    Inner,
    /// Codes cut to two bits.
    Masked,
    /// The bytes not counted again.
    Trusted,
    /// The tail's numbers taken modulo 3, 2, 4 and 8.
    Modulo,
    /// The tail's numbers cut to a byte.
    Narrow,
    /// All six numbers cut to 32 bits.
    Half,
    /// The empty slot handed back in a refusal.
    Emptied,
    /// The syllable that is removed still counted.
    Unlowered,
    /// The length from before the letter.
    Late,
    /// 18 where the last place is taken.
    Early,
    /// 18 at every letter that finds all places taken.
    Brim,
    /// No 18: a syllable counted that has no place.
    Over,
    /// 18, and the tail moved.
    Moved,
    /// 2 before 17.
    Order,
    /// I is no letter.
    Unread,
    /// The word, the steps, the numbers, or the slot, of the accepted call before.
    Stale,
}

struct State {
    library: Library,
    lent: usize,
    length: usize,
    result: u64,
    plant: Option<Plant>,
    planted_on: Option<Vec<u8>>,
    calls: u64,
    before: Option<Written>,
    numbers_before: Option<Vec<i64>>,
    slot: Slot,
    slot_before: Option<Answer>,
}

/// A whole answer to be planted; of the numbers the refusal is the right one.
enum Wrong {
    Written(Written),
    Numbers(Vec<i64>),
    Slot(Answer),
}

thread_local! {
    static STATE: RefCell<State> = RefCell::new(State {
        library: Library::start(),
        lent: 0,
        length: 0,
        result: 0,
        plant: None,
        planted_on: None,
        calls: 0,
        before: None,
        numbers_before: None,
        slot: Slot::empty(),
        slot_before: None,
    });
}

pub fn set_plant(plant: Option<Plant>) {
    STATE.with_borrow_mut(|s| {
        s.plant = plant;
        s.planted_on = None;
        s.calls = 0;
        s.before = None;
        s.numbers_before = None;
        s.slot_before = None;
    })
}

/// The input of the call whose answer was spoilt, if one was.
pub fn planted_on() -> Option<Vec<u8>> {
    STATE.with_borrow(|s| s.planted_on.clone())
}

impl State {
    /// The part to spoil in this call's answer, which has so many numbers, if any. A fault's calls are those that it
    /// answers otherwise.
    fn turn(&mut self, job: Job, args: &[Word], many: usize) -> Option<Part> {
        let plant = self.plant.filter(|p| p.job == job)?;
        let wrong = match plant.part {
            Part::Whole(fault) => Some(self.faulty(fault, job, args, many)?),
            _ => None,
        };
        self.calls += 1;
        if self.calls != plant.call {
            return None;
        }
        match wrong {
            Some(Wrong::Written(answer)) => self.hand(&answer, many),
            Some(Wrong::Numbers(numbers)) => self.put(&numbers),
            Some(Wrong::Slot(answer)) => self.hand_slot(&answer),
            None => {}
        }
        Some(plant.part)
    }

    /// What a faulty job would hand back, where that is no right answer.
    fn faulty(&mut self, fault: Fault, job: Job, args: &[Word], many: usize) -> Option<Wrong> {
        if let Job::TCount | Job::Rotation = job {
            return self.faulty_numbers(fault, args, many).map(Wrong::Numbers);
        }
        if let Job::SlotAdd | Job::SlotLength = job {
            return self.faulty_slot(fault, args).map(Wrong::Slot);
        }
        let right = self.answer(job);
        let wrong = match job {
            Job::Normalise | Job::PhaseFree if word_faults::OF_TEES.contains(&fault) => {
                return self.faulty_tees(fault, &right, args).map(Wrong::Numbers);
            }
            Job::PhaseFree => Written::of(&self.faulty_word(fault, &right, args)?),
            _ => Written { steps: self.faulty_steps(fault, &right, args)?, ..right.clone() },
        };
        (wrong.word.len() <= self.lent && wrong != right).then_some(Wrong::Written(wrong))
    }

    fn faulty_word(&mut self, fault: Fault, right: &Written, args: &[Word]) -> Option<Vec<u8>> {
        let (word, accepted) = (&right.word, right.refusal == 0);
        let kept = word.strip_suffix(b"I");
        match fault {
            Fault::Nothing if accepted => Some(kept?.to_vec()),
            Fault::Identity if accepted && kept.is_none() => Some([word, b"I".as_slice()].concat()),
            Fault::Phase if accepted => Some([kept.unwrap_or(word), b"W"].concat()),
            Fault::Room if right.refusal == 7 => {
                let longer = self.with_room(Job::PhaseFree, args, self.lent + 1).word;
                Some(longer.strip_suffix(b"I")?.to_vec())
            }
            Fault::Stale if accepted => Some(self.before.replace(right.clone())?.word),
            _ => None,
        }
    }

    /// The place and the length, which are right, and a wrong number of T letters.
    fn faulty_tees(&mut self, fault: Fault, right: &Written, args: &[Word]) -> Option<Vec<i64>> {
        let Word::Number(len) = args[1] else { unreachable!() };
        let read = &self.library.memory()[IN..IN + len as usize];
        let [place, bytes, tees, _] = right.numbers();
        let wrong = word_faults::of(fault, read, &right.word)?;
        (right.refusal == 0 && wrong != tees).then(|| [place, bytes, wrong].map(|x| x as i64).to_vec())
    }

    /// The steps that stand beside the right word, or in its refusal.
    fn faulty_steps(&mut self, fault: Fault, right: &Written, args: &[Word]) -> Option<u64> {
        let accepted = right.refusal == 0;
        match fault {
            Fault::Unreduced if accepted => Some(right.steps + self.lowered(args)),
            Fault::More if accepted => Some(right.steps + 1),
            Fault::Tees if accepted => Some(tees(&right.word)),
            Fault::Kept if right.refusal == 7 => Some(self.with_room(Job::SynthesiseSteps, args, ENOUGH).steps),
            Fault::Stale if accepted => Some(self.before.replace(right.clone())?.steps),
            _ => None,
        }
    }

    /// The numbers that a faulty T count or rotation answers, where they are not the right ones.
    fn faulty_numbers(&mut self, fault: Fault, args: &[Word], many: usize) -> Option<Vec<i64>> {
        let accepted = self.result == 0;
        let right = self.longs(OUT, many);
        let before = self.numbers_before.clone();
        if accepted {
            self.numbers_before = Some(right.clone());
        }
        let wrong = match fault {
            Fault::Stale if accepted => before?,
            Fault::Kept if !accepted => before?,
            Fault::Unwritten if !accepted => vec![i64::from_ne_bytes([STALE; 8]); many],
            _ if accepted => rotation_faults::of(fault, &self.taken(args))?.numbers()[..many].to_vec(),
            _ => return None,
        };
        (wrong != right).then_some(wrong)
    }

    /// What a faulty slot call would hand back, where that is not the right answer.
    fn faulty_slot(&mut self, fault: Fault, args: &[Word]) -> Option<Answer> {
        let right = self.slot_answer();
        let before = match right.refusal {
            0 => self.slot_before.replace(right.clone()),
            _ => self.slot_before.clone(),
        };
        let wrong = match (fault, right.refusal) {
            (Fault::Stale, 0) => before?,
            (Fault::Kept, 1..) => Answer { length: before?.length, ..right.clone() },
            (Fault::Unwritten, 1..) => Answer { length: u64::from_ne_bytes([STALE; 8]), ..right.clone() },
            (Fault::Stale | Fault::Kept | Fault::Unwritten, _) => return None,
            _ => slot_faults::of(fault, letter_of(args), &self.slot, &right)?,
        };
        (wrong != right).then_some(wrong)
    }

    /// What a slot call has answered.
    fn slot_answer(&mut self) -> Answer {
        let numbers = |s: &mut State, at, many| s.longs(at, many).into_iter().map(|x| x as u64).collect::<Vec<_>>();
        let rest = numbers(self, PLACE, 6).try_into().unwrap();
        let syllables = self.library.memory()[LENT + GUARD..LENT + GUARD + PLACES].to_vec();
        Answer { refusal: self.result as u8, length: numbers(self, OUT, 1)[0], slot: Slot { syllables, rest } }
    }

    /// Puts a slot where the calls take it from and leave it.
    fn put_slot(&mut self, slot: &Slot) {
        let memory = self.library.memory();
        memory[LENT + GUARD..LENT + GUARD + PLACES].copy_from_slice(&slot.syllables);
        memory[PLACE..PLACE + REST].copy_from_slice(&bytes::<8, u64, REST>(&slot.rest, u64::to_ne_bytes));
    }

    /// Puts an answer as a slot call does.
    fn hand_slot(&mut self, answer: &Answer) {
        self.result = answer.refusal as u64;
        self.put(&[answer.length as i64]);
        self.put_slot(&answer.slot);
    }

    fn longs(&mut self, at: usize, many: usize) -> Vec<i64> {
        self.library.memory()[at..at + 8 * many].chunks(8).map(i64::read).collect()
    }

    /// The triple that was handed in.
    fn taken(&mut self, args: &[Word]) -> Triple {
        let [Word::Number(k), Word::Number(n)] = args[..2] else { unreachable!() };
        (k as i64, n as u8, self.longs(IN, 8).try_into().unwrap())
    }

    /// How far the exponent of the triple that was handed in is above the least.
    fn lowered(&mut self, args: &[Word]) -> u64 {
        let (k, n, zw) = self.taken(args);
        (k - Matrix::triple(k, n, &zw).reduced().k) as u64
    }

    /// What the job hands back with this room, which its last argument but one says; its refusal without is then as it was.
    fn with_room(&mut self, job: Job, args: &[Word], room: usize) -> Written {
        let mut more = args.to_vec();
        more[args.len() - 2] = Word::Number(room as u64);
        self.result = self.library.call(job, &more);
        let answer = self.answer(job);
        self.lend(self.lent, self.length);
        self.result = self.library.call(job, args);
        answer
    }

    /// Puts an answer into the lent memory and its first numbers into the out array, as the call does.
    fn hand(&mut self, answer: &Written, many: usize) {
        self.lend(self.lent, self.length);
        self.result = answer.refusal as u64;
        self.put(&answer.numbers().map(|x| x as i64)[..many]);
        let memory = self.library.memory();
        memory[LENT + GUARD..LENT + GUARD + answer.word.len()].copy_from_slice(&answer.word);
    }

    /// Puts numbers into the out array.
    fn put(&mut self, numbers: &[i64]) {
        let all: Vec<u8> = numbers.iter().flat_map(|x| x.to_ne_bytes()).collect();
        self.library.memory()[OUT..OUT + all.len()].copy_from_slice(&all);
    }

    /// What a job that writes a word has answered.
    fn answer(&mut self, job: Job) -> Written {
        let word = self.handed();
        let memory = self.library.memory();
        let number = |i: usize| u64::read(&memory[OUT + 8 * i..OUT + 8 * i + 8]);
        let steps = if job == Job::SynthesiseSteps { number(3) } else { 0 };
        Written { refusal: self.result as u8, place: number(0), word, steps }
    }

    /// The bytes that a job which writes a word has handed back: as many as it says, to one beyond what was lent.
    fn handed(&mut self) -> Vec<u8> {
        let memory = self.library.memory();
        let count = u64::read(&memory[OUT + 8..OUT + 16]) as usize;
        memory[LENT + GUARD..LENT + GUARD + count.min(self.lent + 1)].to_vec()
    }

    /// Puts a call's input, fills what it may write, calls, and plants what is to be planted. None where a guard
    /// of an out array or the input itself was written to; else the result and the first N numbers.
    fn numbers<T: Number, const N: usize>(&mut self, job: Job, input: &[u8], args: &[Word]) -> Option<(u8, [T; N])> {
        self.library.memory()[IN..IN + input.len()].copy_from_slice(input);
        self.library.memory()[OUT..OUT + OUT_BYTES].fill(STALE);
        self.result = self.library.call(job, args);
        let part = self.turn(job, args, N);
        if part.is_some() {
            self.planted_on = Some(input.to_vec());
        }
        let memory = self.library.memory();
        let mut refusal = self.result as u8;
        let size = std::mem::size_of::<T>();
        let mut numbers = [0; N].map(|_: u8| T::default());
        for (i, x) in numbers.iter_mut().enumerate() {
            *x = T::read(&memory[OUT + i * size..OUT + (i + 1) * size]);
        }
        match part {
            Some(Part::Refusal) => refusal ^= 1,
            Some(Part::Number(i)) if i < N => numbers[i].spoil(),
            Some(Part::Number(i)) if job != Job::Bench => memory[PLACE + 8 * (i - N)] ^= 1,
            Some(Part::Number(_)) => self.result ^= 1,
            Some(Part::Byte) => memory[LENT + GUARD] ^= 1,
            Some(Part::Beyond) => memory[LENT + GUARD + self.length] ^= 1,
            Some(Part::After) => memory[LENT + GUARD + self.lent] ^= 1,
            _ => {}
        }
        let behind = &memory[OUT + N * size..OUT + OUT_BYTES];
        let whole = behind.iter().all(|b| *b == STALE) && memory[IN..IN + input.len()] == *input;
        whole.then_some((refusal, numbers))
    }

    /// Fills lent memory of this size and the guards before and after it; an answer of this length is expected.
    fn lend(&mut self, size: usize, length: usize) {
        (self.lent, self.length) = (size, length);
        let all = &mut self.library.memory()[LENT..LENT + size + 2 * GUARD];
        all.iter_mut().enumerate().for_each(|(i, b)| *b = pattern(i));
    }

    /// The first bytes are these, and every other one within and around the lent part is as it was.
    fn holds(&mut self, written: &[u8]) -> bool {
        let size = self.lent;
        let all = &self.library.memory()[LENT..LENT + size + 2 * GUARD];
        let end = GUARD + written.len();
        let same = |from: usize, to: usize| (from..to).all(|i| all[i] == pattern(i));
        written.len() <= size && all[GUARD..end] == *written && same(0, GUARD) && same(end, all.len())
    }

    fn shown(&mut self, n: usize) -> String {
        let n = n.min(self.lent);
        self.library.memory()[LENT + GUARD..LENT + GUARD + n].escape_ascii().to_string()
    }
}

trait Number: Default {
    fn read(bytes: &[u8]) -> Self;
    fn spoil(&mut self);
}
macro_rules! numbers {
    ($($t:ty),*) => { $(impl Number for $t {
        fn read(bytes: &[u8]) -> $t {
            <$t>::from_ne_bytes(bytes.try_into().unwrap())
        }
        fn spoil(&mut self) {
            *self ^= 1;
        }
    })* };
}
numbers!(i64, u64, i32);
impl Number for f64 {
    fn read(bytes: &[u8]) -> f64 {
        f64::from_ne_bytes(bytes.try_into().unwrap())
    }
    fn spoil(&mut self) {
        *self += f64::powi(2.0, -49);
    }
}

fn bytes<const N: usize, T: Copy, const M: usize>(x: &[T], of: impl Fn(T) -> [u8; N]) -> [u8; M] {
    let mut all = [0; M];
    x.iter().enumerate().for_each(|(i, v)| all[i * N..(i + 1) * N].copy_from_slice(&of(*v)));
    all
}

fn triple(k: i64, n: u8, zw: &[i64; 8]) -> ([u8; 64], [Word; 4]) {
    (bytes(zw, i64::to_ne_bytes), [Word::Number(k as u64), Word::Number(n as u64), Word::At(IN), Word::At(OUT)])
}

/// Refusal number and numbers; none where memory was written that is not the answer's.
pub fn reduce(k: i64, n: u8, zw: &[i64; 8]) -> Option<(u8, [i64; 10])> {
    let (input, args) = triple(k, n, zw);
    STATE.with_borrow_mut(|s| s.numbers(Job::Reduce, &input, &args))
}

/// As `reduce`, with the place last.
pub fn matrix(word: &[u8]) -> Option<(u8, [i64; 10], u64)> {
    let args = [Word::At(IN), Word::Number(word.len() as u64), Word::At(OUT), Word::At(PLACE)];
    STATE.with_borrow_mut(|s| {
        s.library.memory()[PLACE..PLACE + 16].fill(STALE);
        let (refusal, numbers) = s.numbers(Job::Matrix, word, &args)?;
        let place = &s.library.memory()[PLACE..PLACE + 16];
        let behind = place[8..].iter().all(|b| *b == STALE);
        behind.then(|| (refusal, numbers, u64::read(&place[..8])))
    })
}

pub fn view(k: i64, n: u8, zw: &[i64; 8]) -> Option<(u8, [f64; 8])> {
    let (input, args) = triple(k, n, zw);
    STATE.with_borrow_mut(|s| s.numbers(Job::View, &input, &args))
}

pub fn t_count((k, n, zw): &Triple) -> Option<(u8, [u64; 1])> {
    let (input, args) = triple(*k, *n, zw);
    STATE.with_borrow_mut(|s| s.numbers(Job::TCount, &input, &args))
}

pub fn rotation((k, n, zw): &Triple) -> Option<(u8, [i64; 19])> {
    let (input, args) = triple(*k, *n, zw);
    STATE.with_borrow_mut(|s| s.numbers(Job::Rotation, &input, &args))
}

/// The letter that was handed in, if one was.
fn letter_of(args: &[Word]) -> Option<u8> {
    match args[0] {
        Word::Number(letter) => Some(letter as u8),
        Word::At(_) => None,
    }
}

/// A slot call with what stands before the slot among its arguments: its answer, none where memory was written that is not
/// the slot's or the length's.
fn slot(job: Job, first: &[Word], slot: &Slot) -> Option<Answer> {
    let args = [first, &[Word::At(LENT + GUARD), Word::At(PLACE), Word::At(OUT)]].concat();
    STATE.with_borrow_mut(|s| {
        s.lend(PLACES, slot.codes().len());
        s.library.memory()[PLACE..PLACE + 2 * REST].fill(STALE);
        s.put_slot(slot);
        s.slot = slot.clone();
        let letter = letter_of(&args);
        let (refusal, [length]) = s.numbers(job, letter.as_slice(), &args)?;
        let answer = Answer { refusal, length, ..s.slot_answer() };
        let behind = s.library.memory()[PLACE + REST..PLACE + 2 * REST].iter().all(|b| *b == STALE);
        (behind && s.holds(&answer.slot.syllables)).then_some(answer)
    })
}

pub fn slot_add(letter: u8, taken: &Slot) -> Option<Answer> {
    slot(Job::SlotAdd, &[Word::Number(letter as u64)], taken)
}

pub fn slot_length(taken: &Slot) -> Option<Answer> {
    slot(Job::SlotLength, &[], taken)
}

fn clifford<const N: usize>(job: Job, x: &[i32; 4], y: &[i32; 4], args: &[Word]) -> Option<[i32; N]> {
    let input: [u8; 32] = bytes(&[*x, *y].concat(), i32::to_ne_bytes);
    STATE.with_borrow_mut(|s| s.numbers(job, &input, args)).map(|(_, numbers)| numbers)
}

pub fn product(x: &[i32; 4], y: &[i32; 4]) -> Option<[i32; 4]> {
    clifford(Job::Product, x, y, &[Word::At(IN), Word::At(IN + 16), Word::At(OUT)])
}

pub fn inverse(x: &[i32; 4]) -> Option<[i32; 4]> {
    clifford(Job::Inverse, x, x, &[Word::At(IN), Word::At(OUT)])
}

pub fn coset(x: &[i32; 4]) -> Option<[i32; 5]> {
    clifford(Job::Coset, x, x, &[Word::At(IN), Word::At(OUT)])
}

/// What a job that writes a word, or a circuit's text, must answer.
#[derive(Clone, PartialEq, Debug, Default)]
pub struct Written {
    pub refusal: u8,
    pub place: u64,
    pub word: Vec<u8>,
    /// Of job 4; of other jobs 0.
    pub steps: u64,
}

impl Written {
    pub fn of(word: &[u8]) -> Written {
        Written { word: word.to_vec(), ..Written::default() }
    }

    pub fn refused(refusal: u8, place: usize) -> Written {
        Written { refusal, place: place as u64, ..Written::default() }
    }

    /// This answer into so much room.
    pub fn fitting(self, room: usize) -> Written {
        if self.word.len() > room {
            return Written::refused(7, 0);
        }
        self
    }

    pub fn numbers(&self) -> [u64; 4] {
        [self.place, self.word.len() as u64, tees(&self.word), self.steps]
    }
}

pub fn tees(word: &[u8]) -> u64 {
    word.iter().filter(|g| **g == b'T').count() as u64
}

/// Calls a job that writes into lent memory and has N numbers, and compares everything it can have changed; the
/// difference as text if there is one.
fn writes<const N: usize>(job: Job, room: usize, expected: &Written, input: &[u8], args: &[Word]) -> Option<String> {
    STATE.with_borrow_mut(|s| {
        s.lend(room, expected.word.len());
        let wanted: [u64; N] = expected.numbers()[..N].try_into().unwrap();
        let got = s.numbers(job, input, args);
        let lent = s.holds(&expected.word);
        if got == Some((expected.refusal, wanted)) && lent {
            return None;
        }
        let shown = got.map_or(String::new(), |(_, out)| s.shown(out[1] as usize));
        let word = expected.word.escape_ascii();
        let memory = if lent { "right" } else { "wrong" };
        Some(format!("expected {} {wanted:?} {word}, got {got:?} {shown}, lent memory {memory}", expected.refusal))
    })
}

fn word_args(word: &[u8], room: usize) -> [Word; 5] {
    let [len, room] = [word.len(), room].map(|n| Word::Number(n as u64));
    [Word::At(IN), len, Word::At(LENT + GUARD), room, Word::At(OUT)]
}

pub fn normalise(word: &[u8], room: usize, expected: &Written) -> Option<String> {
    writes::<3>(Job::Normalise, room, expected, word, &word_args(word, room))
}

pub fn phase_free(word: &[u8], room: usize, expected: &Written) -> Option<String> {
    writes::<3>(Job::PhaseFree, room, expected, word, &word_args(word, room))
}

fn job_4<const N: usize>(job: Job, (k, n, zw): &Triple, room: usize, expected: &Written) -> Option<String> {
    let (input, [k, n, zw, out]) = triple(*k, *n, zw);
    let args = [k, n, zw, Word::At(LENT + GUARD), Word::Number(room as u64), out];
    writes::<N>(job, room, expected, &input, &args)
}

pub fn synthesise(triple: &Triple, room: usize, expected: &Written) -> Option<String> {
    job_4::<3>(Job::Synthesise, triple, room, expected)
}

pub fn synthesise_steps(triple: &Triple, room: usize, expected: &Written) -> Option<String> {
    job_4::<4>(Job::SynthesiseSteps, triple, room, expected)
}

/// What the last call of a job that writes a word handed back.
pub fn handed() -> Vec<u8> {
    STATE.with_borrow_mut(|s| s.handed())
}

/// The number of T letters that it answered.
pub fn counted() -> u64 {
    STATE.with_borrow_mut(|s| u64::read(&s.library.memory()[OUT + 16..OUT + 24]))
}

/// A word written as a circuit, or a circuit's text read.
pub fn circuit(job: Job, input: &[u8], room: usize, expected: &Written) -> Option<String> {
    writes::<2>(job, room, expected, input, &word_args(input, room))
}

/// The bench record's answer against the expected text.
pub fn bench(record: &[u8], expected: &[u8]) -> Option<String> {
    let args = [Word::At(IN), Word::Number(record.len() as u64), Word::At(LENT + GUARD)];
    STATE.with_borrow_mut(|s| {
        s.lend(512, expected.len());
        let untouched = s.numbers::<u64, 0>(Job::Bench, record, &args).is_some();
        let size = s.result as usize;
        let right = untouched && size == expected.len() && s.holds(expected);
        let shown = s.shown(size);
        (!right).then(|| format!("expected {}, got {size} {shown}", expected.escape_ascii()))
    })
}
