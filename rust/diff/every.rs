// All short sequences from a small alphabet, exhaustively: for each root level from 0 to 3 and each range, on a pool of 5 tables, every sequence of up to LENGTH
// letters (run.sh's third argument, 2 if none is given; docs/DIFFERENCES.md has runs with 4 and 5). A letter is a call that may write; after each, the two entries that
// the letters meet are listed and five addresses looked up, all compared as in random runs.
// The alphabet: E and S are the sizes of the entries of the root and of the next level (root level 0: of levels 1 and 2), at least 8 and 4 pages; `at` is 0 or, upper,
// 2^64 - 2 E, so that the second entry ends at 2^64.
//    map at..at+E to a frame that is a multiple of E                  map at..at+S to a multiple of S and not of E
//    map the second page to 0x9000                                    map the first page to the first map's frame (rule 2)
//    map from the second page to at+S, the frame a page off           map two pages, one on each side of at+E
//    unmap at..at+E with flags 0                                      unmap at..at+E with flag bit 10
//    unmap the second page, frame 0                                   map at..at+S without blocks, other flags
// and, but for plain runs,
//    modify at..at+E, set bit 7                                       modify the second and third page, clear bit 0
//    modify at..at+S live, set bit 7                                  modify the second page live, clear bit 10
//    compact
use crate::model::{size, Handle, Map, Modify};
use crate::random::{Call, Room, Sequence};
use crate::run::{Counts, Run};

const TABLES: usize = 5;
const PAGE: u64 = 4096;
const FLAGS: u64 = 0x401;

struct Letters {
    handle: Handle,
    letters: Vec<Call>,
    // Asked after each letter.
    questions: Vec<Call>,
}

fn alphabet(handle: Handle, edits: bool) -> Letters {
    let level = handle.level.max(1);
    let (entry, small) = (size(level).max(8 * PAGE), size((level + 1).min(3)).max(4 * PAGE));
    let at = if handle.upper() { 0u64.wrapping_sub(2 * entry) } else { 0 };
    let map = |from: u64, to: u64, frame, flags, constraints| Call::Map(Map { start: at + from, end: at + to, frame, flags, constraints });
    let frame = 4 * entry;
    let mut letters = vec![
        map(0, entry, frame, FLAGS, 0),
        map(0, small, frame + small, FLAGS, 0),
        map(PAGE, 2 * PAGE, 0x9000, FLAGS, 0),
        map(0, PAGE, frame, FLAGS, 0),
        map(PAGE, small, frame + 2 * PAGE, FLAGS, 0),
        map(entry - PAGE, entry + PAGE, frame + entry - PAGE, FLAGS, 0),
        map(0, entry, 0, 0, 0),
        map(0, entry, 0, 0x400, 0),
        map(PAGE, 2 * PAGE, 0, 0, 0),
        map(0, small, frame, 0x481, 1),
    ];
    let modify = |from: u64, to: u64, set, clear, live| Call::Modify(Modify { start: at + from, end: at + to, set, clear, live }, Room::Exact);
    if edits {
        letters.extend([
            modify(0, entry, 0x80, 0, false),
            modify(PAGE, 3 * PAGE, 0, 1, false),
            modify(0, small, 0x80, 0, true),
            modify(PAGE, 2 * PAGE, 0, 0x400, true),
            Call::Compact,
        ]);
    }
    let mut questions = vec![Call::List(at, at.wrapping_add(2 * entry - PAGE), Room::Exact)];
    questions.extend([0, PAGE, small, entry - 1, entry].map(|from| Call::LookUp(at + from)));
    Letters { handle, letters, questions }
}

impl Letters {
    // All sequences that go on from the first run's state, one run for each letter still to come.
    fn go_on(&self, runs: &mut [Run], earlier: &mut Vec<Call>, counts: &mut Counts) -> Result<(), Sequence> {
        let [here, rest @ ..] = runs else { unreachable!() };
        if rest.is_empty() {
            return Ok(());
        }
        for letter in &self.letters {
            rest[0].load(here);
            let length = earlier.len();
            for call in [letter].into_iter().chain(&self.questions) {
                earlier.push(*call);
                if rest[0].step(&(*call, vec![]), counts).is_err() {
                    return Err(Sequence { n: TABLES, handle: self.handle, steps: earlier.iter().map(|&call| (call, vec![])).collect() });
                }
            }
            earlier.truncate(length + 1);
            self.go_on(rest, earlier, counts)?;
            earlier.truncate(length);
        }
        Ok(())
    }
}

// A sequence that differs, or none.
pub fn all(length: usize, edits: bool, counts: &mut Counts) -> Result<(), Sequence> {
    for (level, range) in (0..4).flat_map(|level| [(level, 0), (level, 1)]) {
        let handle = Handle { base: 0x8000_0000, level, range };
        let mut runs: Vec<Run> = (0..=length).map(|_| Run::new(TABLES, handle)).collect();
        alphabet(handle, edits).go_on(&mut runs, &mut vec![], counts)?;
    }
    Ok(())
}
