//! Compares the library with the published Rust, case by case, and prints how many of each kind there were.
//!
//!     compare                      every comparison; status 1 if a difference is left that nothing explains
//!     compare --plant JOB:CALL:PART    the same, with one wrong answer planted
//!     compare --sample DIR         writes the replay sample to DIR/stdin and DIR/stdout

mod abi;
mod cheapest_runs;
mod circuit_runs;
mod circuits;
mod cliffords;
mod differences;
mod exact;
mod identity_runs;
mod inputs;
mod integers;
mod library;
mod phase_runs;
mod plants;
mod qasm;
mod records;
mod report;
mod rotation;
mod rotation_faults;
mod rotation_runs;
mod rotations;
mod runs;
mod rust;
mod sample;
mod sample_circuits;
mod sample_rotations;
mod sample_slots;
mod slot;
mod slot_faults;
mod slot_runs;
mod slots;
mod triples;
mod view;
mod word_faults;
mod words;

use inputs::LONGEST;
use report::Report;
use std::process::ExitCode;
use std::time::Instant;

fn timed(report: &mut Report, what: &str, run: impl FnOnce(&mut Report)) {
    let (start, before) = (Instant::now(), report.cases);
    run(report);
    println!("  {what}: {} cases, {:.1} s", report.cases - before, start.elapsed().as_secs_f64());
}

fn every_run(report: &mut Report) {
    integers::laws(report);
    timed(report, "every word of up to 7 letters", |r| runs::every_word(r, 7));
    timed(report, "words that reach every arm", runs::every_arm);
    timed(report, "random words", |r| runs::random_lengths(r, 150));
    timed(report, "words around 4,096 letters", |r| runs::around_long(r, 4));
    timed(report, "bytes that are no letters", runs::letters);
    timed(report, "words around exponent 60", |r| runs::around_deep(r, 30));
    timed(report, "I in listed words", identity_runs::listed);
    timed(report, "I at every place of long words", identity_runs::every_place);
    timed(report, "normal words given back", |r| identity_runs::given_back(r, 5, 2000));
    timed(report, "words with I normalised twice", |r| identity_runs::twice(r, 2000));
    timed(report, "phase-free words, said word for word", phase_runs::named);
    timed(report, "phase-free words of every tail", |r| phase_runs::every_tail(r, 3));
    timed(report, "phase-free words of every word of up to 5 letters", |r| phase_runs::every_word(r, 5));
    timed(report, "phase-free words of random words and their changes", |r| phase_runs::changed(r, 10_000, 100));
    timed(report, "phase-free words of long words and their changes", |r| phase_runs::changed(r, 500, LONGEST));
    timed(report, "no cheaper spelling among every word of up to 7 letters", |r| cheapest_runs::every_word(r, 7));
    timed(report, "dear spellings", |r| cheapest_runs::dearer(r, 10_000, 60));
    timed(report, "long dear spellings", |r| cheapest_runs::dearer(r, 1000, 1300));
    timed(report, "triples at the edges", runs::triple_edges);
    timed(report, "triples of up to 4 T", |r| runs::few_t(r, 4));
    timed(report, "random triples to exponent 60", |r| runs::deep(r, 60));
    timed(report, "rotations, said number for number", rotation_runs::named);
    timed(report, "rotations of every tail behind up to 4 T", |r| rotation_runs::every_tail(r, 4));
    timed(report, "rotations of random triples to exponent 60", |r| rotation_runs::deep(r, 10));
    timed(report, "rotations of products", |r| rotation_runs::products(r, 3000));
    timed(report, "rotations with n from 0 to 255", rotation_runs::every_n);
    timed(report, "rotations refused", rotation_runs::refused);
    every_slot(report);
    timed(report, "Cliffords", |r| runs::all_cliffords(r, 16));
    timed(report, "bench records", |r| runs::bench_records(r, 3000));
    timed(report, "OpenQASM, every circuit of up to 4 statements", circuit_runs::every_circuit);
    timed(report, "OpenQASM, damaged texts", circuit_runs::damaged);
    timed(report, "OpenQASM, heads and lines", circuit_runs::heads);
    timed(report, "OpenQASM, every word of up to 4 letters", |r| circuit_runs::every_word(r, 4));
    timed(report, "OpenQASM, bytes in words", circuit_runs::every_byte);
    timed(report, "OpenQASM, around 4,096 letters", circuit_runs::limits);
    timed(report, "OpenQASM, random", |r| circuit_runs::random(r, 2000));
    timed(report, "listed differences", differences::all);
}

fn every_slot(report: &mut Report) {
    timed(report, "slots, every word of up to 6 letters", |r| slot_runs::every_word(r, 6));
    timed(report, "slots, every tail behind up to 2 syllables", |r| slot_runs::every_tail(r, 2));
    timed(report, "slots, random words letter by letter", |r| slot_runs::random(r, 600));
    timed(report, "slots, words of 4,096 letters", |r| slot_runs::long(r, 4));
    timed(report, "slots of 4,095 and 4,096 syllables", slot_runs::full);
    timed(report, "slots, to 4,096 syllables and back", |r| slot_runs::around_full(r, 4));
    timed(report, "slots, filled by their text and emptied", |r| slot_runs::there_and_back(r, &[1, 2, 20, 300, 4096]));
    timed(report, "slots, damaged", slot_runs::damaged);
    timed(report, "slots, every byte", slot_runs::every_byte);
}

fn compare(plant: Option<abi::Plant>) -> ExitCode {
    let start = Instant::now();
    abi::set_plant(plant);
    let mut report = Report::default();
    every_run(&mut report);
    report.print();
    let found = if plant.is_none() { plants::all() } else { true };
    println!(
        "oracle: {} cases, {} unexplained differences, {:.0} s",
        report.cases,
        report.unexplained,
        start.elapsed().as_secs_f64()
    );
    if report.unexplained == 0 && found {
        ExitCode::SUCCESS
    } else {
        ExitCode::FAILURE
    }
}

fn main() -> ExitCode {
    rust::quiet();
    let args: Vec<String> = std::env::args().skip(1).collect();
    match args.iter().map(String::as_str).collect::<Vec<_>>()[..] {
        [] => compare(None),
        ["--plant", text] => match plants::parsed(text) {
            Some(plant) => compare(Some(plant)),
            None => usage(),
        },
        ["--sample", folder] => sample::write(folder),
        _ => usage(),
    }
}

fn usage() -> ExitCode {
    eprintln!("compare [--plant JOB:CALL:PART | --sample DIR]");
    eprintln!("JOB: reduce matrix normalise phasefree synthesise product inverse coset view bench");
    eprintln!("     qasm2write qasm3write qasmread synthesisesteps tcount rotation slotadd slotlength");
    eprintln!("PART: refusal, number, byte, beyond, after; of phasefree also nothing, identity, phase, room, stale,");
    eprintln!("     of normalise and phasefree esses, more, twomore, fewer, own,");
    eprintln!("     of synthesisesteps unreduced, more, tees, kept, stale, of tcount and rotation exponent, twice,");
    eprintln!("     more, oneaxis, unturned, kept, unwritten, stale, of rotation transpose, mirror,");
    eprintln!("     of slotadd and slotlength behind, inner, masked, trusted, modulo, narrow, half, nothing,");
    eprintln!("     emptied, kept, unwritten, stale, of slotadd unlowered, late, early, brim, over, moved, order,");
    eprintln!("     unread");
    ExitCode::from(2)
}
