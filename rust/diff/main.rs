// The differential runs: calls on ptb, on the published crate and on a model of document 01, compared after every call. First the bench cases and the known
// differences, then all sequences of up to LENGTH letters (every.rs), then CALLS random calls from SEED (random.rs); modify and compact are left out of both in a
// plain run. Run it by run.sh.
mod cases;
mod every;
mod face;
mod lent;
mod model;
mod outside;
mod random;
mod run;

use model::Map;
use random::{Call, Random, Sequence, Step};
use run::{Counts, Run};

// Runs a sequence; the number of the step that differs, and how.
fn replay(sequence: &Sequence, counts: &mut Counts) -> Result<(), (usize, String)> {
    let mut run = Run::new(sequence.n, sequence.handle);
    for (number, step) in sequence.steps.iter().enumerate() {
        run.step(step, counts).map_err(|how| (number, how))?;
    }
    Ok(())
}

fn differs(sequence: &Sequence) -> Option<(usize, String)> {
    replay(sequence, &mut Counts::default()).err()
}

// Ways to make one step simpler: no damage, no constraints, plain flags, a lower frame, whole pages, a single page.
fn simpler() -> Vec<fn(&mut Step)> {
    fn map(step: &mut Step, change: fn(&mut Map)) {
        if let Call::Map(map) = &mut step.0 {
            change(map);
        }
    }
    vec![
        |step| step.1.clear(),
        |step| step.1.truncate(1),
        |step| map(step, |map| map.constraints = 0),
        |step| map(step, |map| map.flags = 0x401),
        |step| map(step, |map| map.frame = 0),
        |step| map(step, |map| map.start &= !4095),
        |step| map(step, |map| map.end = (map.start & !4095).saturating_add(4096)),
    ]
}

// The shortest sequence that we find by leaving calls out, then by simpler calls, then by fewer tables.
fn shrink(mut sequence: Sequence) -> (Sequence, String) {
    let (last, mut how) = differs(&sequence).expect("a sequence that differs");
    sequence.steps.truncate(last + 1);
    let mut place = 0;
    while place < sequence.steps.len() {
        let mut shorter = sequence.clone();
        shorter.steps.remove(place);
        match differs(&shorter) {
            Some((last, other)) => {
                shorter.steps.truncate(last + 1);
                (sequence, how) = (shorter, other);
            }
            None => place += 1,
        }
    }
    for (place, change) in (0..sequence.steps.len()).flat_map(|place| simpler().into_iter().map(move |change| (place, change))) {
        let mut changed = sequence.clone();
        change(&mut changed.steps[place]);
        if let Some((_, other)) = differs(&changed) {
            (sequence, how) = (changed, other);
        }
    }
    for n in 1..sequence.n {
        let fewer = Sequence { n, ..sequence.clone() };
        if let Some((_, other)) = differs(&fewer) {
            return (fewer, other);
        }
    }
    (sequence, how)
}

fn tell(sequence: &Sequence, how: &str) {
    println!("{how}");
    println!("n = {}, {:x?}", sequence.n, sequence.handle);
    for step in &sequence.steps {
        println!("    {step:x?}");
    }
    std::process::exit(1);
}

fn run_all(length: usize, edits: bool) {
    let mut counts = Counts::default();
    let found = every::all(length, edits, &mut counts);
    println!("all sequences of up to {length} letters:");
    counts.print();
    if let Err(sequence) = found {
        let (sequence, how) = shrink(sequence);
        tell(&sequence, &how);
    }
    println!("no difference");
}

fn run_random(calls: u64, seed: u64, edits: bool) {
    let (mut random, mut counts, mut smallest) = (Random::new(seed), Counts::default(), None::<(Sequence, String)>);
    let mut differences = 0;
    while counts.calls() < calls && differences < 20 {
        let sequence = random::sequence(&mut random, edits);
        if replay(&sequence, &mut counts).is_err() {
            let found = shrink(sequence);
            let weight = |sequence: &Sequence| (sequence.steps.len(), sequence.n);
            if smallest.as_ref().is_none_or(|(other, _)| weight(&found.0) < weight(other)) {
                smallest = Some(found);
            }
            differences += 1;
        }
    }
    println!("random sequences, seed {seed}:");
    counts.print();
    if let Some((sequence, how)) = smallest {
        tell(&sequence, &format!("{differences} sequences differ; the smallest: {how}"));
    }
    println!("no difference");
}

fn main() {
    let argument = |place: usize, default: u64| std::env::args().nth(place).map_or(default, |text| text.parse().expect("a number"));
    let (calls, seed, length) = (argument(1, 100_000), argument(2, 1), argument(3, 2));
    let edits = std::env::args().nth(4).as_deref() != Some("plain");
    println!("{calls} calls, seed {seed}, all sequences of up to {length} letters{}", if edits { "" } else { ", plain" });
    cases::all(&mut Counts::default());
    println!("bench cases: as document 01 says");
    outside::all();
    println!("outside the domain: as docs/DIFFERENCES.md says");
    run_all(length as usize, edits);
    run_random(calls, seed, edits);
}
