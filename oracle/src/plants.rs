//! Wrong answers planted one at a time, in every part of every job's answer, and those of a faulty job 5, of faulty steps
//! of job 4, of faulty counts of T letters, of faulty T counts, of faulty rotations and of faulty slots: each must be found.

use crate::abi::{planted_on, set_plant, Fault, Job, Part, Plant, JOBS};
use crate::circuit_runs;
use crate::inputs::cliffords;
use crate::records::record;
use crate::report::Report;
use crate::{cheapest_runs, phase_runs, rotation_faults, rotation_runs, runs, slot_faults, slot_runs, word_faults};
use std::collections::BTreeSet;

/// From JOB:CALL:PART.
pub fn parsed(text: &str) -> Option<Plant> {
    let [job, call, part] = text.split(':').collect::<Vec<_>>()[..] else { return None };
    let job = JOBS.into_iter().find(|j| format!("{j:?}").to_lowercase() == job)?;
    let part = match part {
        "refusal" => Part::Refusal,
        "number" => Part::Number(0),
        "byte" => Part::Byte,
        "beyond" => Part::Beyond,
        "after" => Part::After,
        name => Part::Whole(*job.faults().iter().find(|f| format!("{f:?}").to_lowercase() == name)?),
    };
    let faulty = matches!(part, Part::Whole(_));
    (faulty || parts(job).contains(&part)).then_some(Plant { job, call: call.parse().ok()?, part })
}

fn parts(job: Job) -> Vec<Part> {
    let (refuses, numbers, lends) = match job {
        Job::Reduce => (true, 10, false),
        Job::Matrix => (true, 11, false),
        Job::Normalise | Job::PhaseFree | Job::Synthesise => (true, 3, true),
        Job::SynthesiseSteps => (true, 4, true),
        Job::Product | Job::Inverse => (false, 4, false),
        Job::Coset => (false, 5, false),
        Job::View => (true, 8, false),
        Job::TCount => (true, 1, false),
        Job::Rotation => (true, 19, false),
        Job::SlotAdd | Job::SlotLength => (true, 7, true),
        Job::Bench => (false, 1, true),
        Job::Qasm2Write | Job::Qasm3Write | Job::QasmRead => (true, 2, true),
    };
    let mut all: Vec<Part> = (0..numbers).map(Part::Number).collect();
    if refuses {
        all.push(Part::Refusal);
    }
    if lends {
        all.extend([Part::Byte, Part::Beyond, Part::After]);
    }
    all
}

/// Which calls are spoilt. Of the jobs that read letters the thirteenth has the word TI, the twentieth IS.
const CALLS: [u64; 4] = [1, 7, 13, 20];

fn reads_letters(job: Job) -> bool {
    matches!(job, Job::Matrix | Job::Normalise | Job::PhaseFree)
}

/// A few calls of every job.
fn small_run(report: &mut Report) {
    runs::every_word(report, 2);
    circuit_runs::few(report);
    slot_runs::smallest(report);
    for (i, x) in cliffords().iter().enumerate().step_by(9) {
        crate::cliffords::product(report, x, &[i as i32, 1, -1, 3]);
        crate::cliffords::inverse(report, x);
        crate::cliffords::coset(report, x);
        crate::records::bench(report, record(&(0, i as u8, [0, 0, 0, 1, 0, 0, 0, 0])).as_bytes());
    }
}

/// A job, the faults that are planted in it, a few calls of it, and how kinds begin: each fault must be told under a kind
/// of every beginning. It is planted at one in so many of the calls that it changes.
struct Faulty {
    what: &'static str,
    job: Job,
    faults: &'static [Fault],
    few: fn(&mut Report),
    kinds: &'static [&'static str],
    one_in: usize,
}

/// By the model of the job alone.
const BY_MODEL: [Faulty; 6] = [
    Faulty {
        what: "a faulty job 5 answers",
        job: Job::PhaseFree,
        faults: word_faults::OF_BYTES,
        few: phase_runs::few,
        kinds: &["job 5 phase-free"],
        one_in: 5,
    },
    Faulty {
        what: "faulty steps of job 4",
        job: Job::SynthesiseSteps,
        faults: Job::SynthesiseSteps.faults(),
        few: runs::few_triples,
        kinds: &["job 4 with steps"],
        one_in: 1,
    },
    Faulty {
        what: "faulty T counts",
        job: Job::TCount,
        faults: rotation_faults::OF_COUNTS,
        few: rotation_runs::few,
        kinds: &["T count:"],
        one_in: 1,
    },
    Faulty {
        what: "faulty rotations",
        job: Job::Rotation,
        faults: &rotation_faults::OF_ROTATIONS,
        few: rotation_runs::few,
        kinds: &["rotation:"],
        one_in: 1,
    },
    Faulty {
        what: "faulty slots with a letter added",
        job: Job::SlotAdd,
        faults: &slot_faults::OF_ADDING,
        few: slot_runs::few,
        kinds: &["slot add:"],
        one_in: 5,
    },
    Faulty {
        what: "faulty lengths of slots",
        job: Job::SlotLength,
        faults: slot_faults::OF_LENGTHS,
        few: slot_runs::few,
        kinds: &["slot length:"],
        one_in: 5,
    },
];

/// By the model, and by the checks of spellings alone.
const BY_SPELLINGS: [Faulty; 3] = [
    Faulty {
        what: "faulty counts of job 3's T letters",
        job: Job::Normalise,
        faults: word_faults::OF_TEES,
        few: cheapest_runs::few,
        kinds: &["job 3 normalise", cheapest_runs::KINDS],
        one_in: 1,
    },
    Faulty {
        what: "faulty counts of job 5's T letters",
        job: Job::PhaseFree,
        faults: word_faults::OF_TEES,
        few: cheapest_runs::few,
        kinds: &["job 5 phase-free", cheapest_runs::KINDS],
        one_in: 1,
    },
    Faulty {
        what: "faulty T counts of matrices whose words are listed",
        job: Job::TCount,
        faults: rotation_faults::OF_ACCEPTED,
        few: cheapest_runs::few,
        kinds: &["T count:", cheapest_runs::KINDS],
        one_in: 1,
    },
];

impl Faulty {
    /// One fault until there is no call left that it changes: how many were planted, and told under each beginning.
    /// `checks` gets the names of all that found one.
    fn fault(&self, fault: Fault, checks: &mut BTreeSet<String>) -> [u32; 2] {
        let (mut planted, mut found) = (0, 0);
        for call in (1..).step_by(self.one_in) {
            set_plant(Some(Plant { job: self.job, call, part: Part::Whole(fault) }));
            let mut report = Report::silent();
            (self.few)(&mut report);
            let Some(input) = planted_on() else { break };
            planted += 1;
            let told = |begin: &&str| report.differing.iter().any(|kind| kind.starts_with(begin));
            if self.kinds.iter().all(told) {
                found += 1;
            } else {
                println!("planted in {:?} call {call} {fault:?}: not found, {}", self.job, input.escape_ascii());
            }
            checks.extend(report.differing);
        }
        set_plant(None);
        [planted, found]
    }

    /// Whether each fault was planted, and found whenever it was; prints how often.
    fn each(&self, checks: &mut BTreeSet<String>) -> bool {
        let each: Vec<[u32; 2]> = self.faults.iter().map(|fault| self.fault(*fault, checks)).collect();
        let [planted, found] = [0, 1].map(|i| each.iter().map(|both| both[i]).sum::<u32>());
        println!("planted as {}: {planted}; found: {found}", self.what);
        planted == found && each.iter().all(|both| both[0] > 0)
    }
}

fn faults() -> bool {
    let mut checks = BTreeSet::new();
    let mut right = true;
    for faulty in BY_MODEL.iter().chain(&BY_SPELLINGS) {
        right &= faulty.each(&mut checks);
    }
    let all = [&phase_runs::CHECKS[..], &rotation_runs::CHECKS, &cheapest_runs::CHECKS, &slot_runs::CHECKS].concat();
    let idle: Vec<_> = all.iter().filter(|check| !checks.contains(**check)).collect();
    println!("checks besides that found none of these: {} {idle:?}", idle.len());
    right && idle.is_empty()
}

pub fn all() -> bool {
    let parts = parts_of_answers();
    faults() && parts
}

fn parts_of_answers() -> bool {
    let (mut planted, mut found, mut identities) = (0, 0, 0);
    for job in JOBS {
        for part in parts(job) {
            for call in CALLS {
                set_plant(Some(Plant { job, call, part }));
                let mut report = Report::silent();
                small_run(&mut report);
                planted += 1;
                identities += (reads_letters(job) && planted_on().is_some_and(|w| w.contains(&b'I'))) as u32;
                found += (report.unexplained == 1) as u32;
                if report.unexplained != 1 {
                    println!("planted in {job:?} call {call} {part:?}: {} found", report.unexplained);
                }
            }
        }
    }
    set_plant(None);
    println!("planted: {planted} wrong answers, one at a time; found: {found}; {identities} to words with I");
    planted == found && identities > 0
}
