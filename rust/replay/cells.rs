// What a line covers, and what the list must cover. A cell is a name; `wanted` says all of them, from document 01's rules and its slip.
use crate::bench::Said;
use crate::lines::{Lent, Line, KINDS};
use crate::model::FLAG_SET;
use std::collections::BTreeMap;

// How often each cell is met.
pub type Cells = BTreeMap<String, u64>;

const RANGES: [&str; 2] = ["lower", "upper"];
const SPLITS: [&str; 3] = ["an empty entry", "a hole with something in it", "a block"];
const FOUND: [&str; 3] = ["hole", "block", "page"];
const LAST: u64 = 0xFFFF_FFFF_FFFF_F000;

fn valid(flags: u64) -> &'static str {
    if flags & 1 != 0 { "VALID" } else { "not VALID" }
}

fn blocks(constraints: u64) -> &'static str {
    if constraints & 1 == 0 { "blocks" } else { "no blocks" }
}

fn living(live: bool) -> &'static str {
    if live { "live" } else { "not live" }
}

fn bits(set: u64, clear: u64) -> &'static str {
    match (set, clear) {
        (0, 0) => "nothing to set or clear",
        (_, 0) => "bits to set",
        (0, _) => "bits to clear",
        _ => "bits to set and to clear",
    }
}

// A range of 0 or 1; another has no cells of its own.
fn range(range: u64) -> &'static str {
    RANGES.get(range as usize).copied().unwrap_or("no range")
}

// What an accepted call met in the tables.
fn met(line: &Line, said: &Said, root: u64, range: &str, add: &mut impl FnMut(String)) {
    let kind = KINDS[line.kind()];
    for level in 0..4 {
        if let Line::Map(map) = line {
            let here = format!("level {level}, root {root}, {range}, {}, {}", valid(map.flags), blocks(map.constraints));
            let splits: u64 = said.met.splits[level].iter().sum();
            (0..4).filter(|&rule| said.met.chunks[level][rule] > 0).for_each(|rule| add(format!("map by rule {} at {here}", rule + 1)));
            if splits > 0 {
                add(format!("map by rule 5, split first, at {here}"));
            }
            if said.met.chunks[level][4] > splits {
                add(format!("map by rule 5, a table there, at {here}"));
            }
        }
        (0..3).filter(|&what| said.met.splits[level][what] > 0).for_each(|what| add(format!("{kind} splits {} at level {level}, {range}", SPLITS[what])));
        if said.met.freed[level] > 0 {
            add(format!("{kind} frees a table of level {level}, {range}"));
        }
        if let (Line::Modify(modify, _), true) = (line, said.met.changed[level] > 0) {
            add(format!("modify changes a word at level {level}, {range}, {}, {}", living(modify.live), bits(modify.set, modify.clear)));
            if modify.clear & 1 != 0 {
                add(format!("modify clears VALID at level {level}, {}", living(modify.live)));
            }
        }
    }
    if said.lost_fill {
        add(format!("{kind} splits an entry that ends at 2^64 with something in it, root {root}"));
    }
    if matches!(line, Line::Compact) && said.met.freed == [0; 4] {
        add(format!("compact frees nothing, {range}"));
    }
}

fn accepted(line: &Line, said: &Said, root: u64, range: &str, add: &mut impl FnMut(String)) {
    let values = said.answer.1;
    match line {
        Line::LookUp(va) => {
            add(format!("look up: {} at level {}, root {root}, {range}", FOUND[values[0] as usize], values[1]));
            if values[0] == 0 && values[2] != 0 {
                add(format!("look up: hole with flags at level {}, {range}", values[1]));
            }
            if *va >= LAST {
                add("look up of the last upper page".into());
            }
        }
        Line::List(_, _, length) => {
            add(format!("list: {} lines, {range}", ["no", "one", "more"][values[0].min(2) as usize]));
            add(format!("list: {}, {range}", if *length == 4 * values[0] { "just long enough" } else { "longer than needed" }));
        }
        Line::Modify(modify, length) if modify.live => {
            add(format!("modify, live: {} numbers, {range}", ["no", "one", "more"][values[1].min(2) as usize]));
            add(format!("modify, live: list {}", if *length == values[1] { "just long enough" } else { "longer than needed" }));
        }
        Line::Modify(modify, _) => add(format!("modify, not live, {}", bits(modify.set, modify.clear))),
        Line::Map(map) if map.start / 4096 == (map.end - 1) / 4096 + 1 => add(format!("map of an empty region, {range}")),
        Line::Map(map) if map.constraints & 2 != 0 => add("map with NO_CONTIGUOUS_HINT".into()),
        _ => (),
    }
}

// By which clause of the slip a call is refused.
fn refused(line: &Line, lent: Lent, said: &Said) -> Option<String> {
    let (number, values) = said.answer;
    let Lent { words, numbers, handle } = lent;
    let (_, end) = match line {
        Line::Map(map) => (map.start, map.end),
        Line::Modify(modify, _) => (modify.start, modify.end),
        Line::List(start, end, _) => (*start, *end),
        _ => (0, 0),
    };
    let why = match (number, line) {
        (1, _) if numbers == 0 => "n is 0",
        (1, _) if words != 512 * numbers => "lengths disagree",
        (1, _) if handle.base % 4096 != 0 => "base not a multiple of 4096",
        (1, _) if handle.base > (1 << 48) - 4096 * numbers as u64 => "the pool's end above 2^48",
        (1, _) if handle.level > 3 => "root level above 3",
        (1, _) if handle.range > 1 => "no range",
        (1, _) => "table number not below n",
        (2, _) if end == 0 => "end 0",
        (2, _) => "end above 2^64 - 4096",
        (3, Line::Modify(modify, _)) if modify.set & 2 != 0 => "set has bit 1",
        (3, Line::Modify(..)) => "clear has bit 1",
        (4, Line::Modify(modify, _)) if modify.set & !FLAG_SET != 0 => "set has a bit outside the set",
        (4, Line::Modify(modify, _)) if modify.set & 1 != 0 => "bit 0 to set",
        (4, Line::Modify(modify, _)) if modify.set & modify.clear != 0 => "a bit both set and cleared",
        (4, Line::Modify(..)) => "clear has a bit outside the set",
        (6, Line::LookUp(_)) => "address outside the span",
        (6, _) if handle.upper() && values[0] >> 63 == 0 => "upper, start not in the upper half",
        (6, _) if handle.upper() => "upper, start below the span",
        (6, _) if values[0] >> 63 == 1 => "lower, start in the upper half",
        (6, _) => "lower, end past the span",
        (7, _) if values[0] % 4096 != 0 => "frame not a multiple of 4096",
        (7, _) => "frames past 2^48",
        (10, Line::Modify(modify, _)) if (modify.set, modify.clear) == (0, 0) => "a split with nothing to set or clear",
        (11, Line::Image(_, length)) if *length > 4096 => "page too long",
        (11, Line::Image(..)) => "page too short",
        _ => return None,
    };
    Some(format!("{}: refused {number}, {why}", KINDS[line.kind()]))
}

// The cells of one line.
pub fn of(line: &Line, lent: Lent, said: &Said) -> Vec<String> {
    let mut cells = vec![];
    if line.by_hand() {
        return cells;
    }
    let (kind, root, range, number) = (KINDS[line.kind()], lent.handle.level, range(lent.handle.range), said.answer.0);
    let mut add = |cell: String| cells.push(cell);
    match number {
        0 => {
            add(format!("{kind}: accepted, root {root}, {range}"));
            met(line, said, root, range, &mut add);
            accepted(line, said, root, range, &mut add);
        }
        1 => add(format!("{kind}: refused 1")),
        _ => add(format!("{kind}: refused {number}, {range}")),
    }
    if let Some(cell) = refused(line, lent, said) {
        add(cell);
    }
    cells
}

// Which refusals a kind of call can give ("Making has 1; ..").
fn slip(kind: &str) -> &'static [u64] {
    match kind {
        "make" => &[1],
        "check" | "compact" => &[1, 8],
        "look up" => &[1, 6, 8],
        "page image" => &[1, 11],
        "list" => &[1, 2, 5, 6, 8, 11],
        "map" => &[1, 2, 3, 4, 5, 6, 7, 8, 9],
        "modify" => &[1, 2, 3, 4, 5, 6, 8, 9, 10, 11],
        _ => &[],
    }
}

fn wanted_of_maps(root: u64, range: &str, add: &mut impl FnMut(String)) {
    for (valid, blocks, level) in ["VALID", "not VALID"].into_iter().flat_map(|v| ["blocks", "no blocks"].into_iter().flat_map(move |b| (root..4).map(move |l| (v, b, l)))) {
        let here = format!("level {level}, root {root}, {range}, {valid}, {blocks}");
        if level == 3 {
            add(format!("map by rule 1 at {here}"));
            continue;
        }
        // Nothing in a sound level 0 table is valid, and no block stands there.
        if level > 0 || valid == "not VALID" {
            add(format!("map by rule 2 at {here}"));
        }
        if level > 0 && blocks == "blocks" {
            add(format!("map by rule 3 at {here}"));
        }
        if valid == "not VALID" {
            add(format!("map by rule 4 at {here}"));
        }
        add(format!("map by rule 5, split first, at {here}"));
        add(format!("map by rule 5, a table there, at {here}"));
    }
}

fn wanted_of_tables(range: &str, add: &mut impl FnMut(String)) {
    for kind in ["map", "modify"] {
        (0..3).for_each(|level| (0..if level == 0 { 2 } else { 3 }).for_each(|what| add(format!("{kind} splits {} at level {level}, {range}", SPLITS[what]))));
    }
    for level in 1..4 {
        ["map", "compact"].iter().for_each(|kind| add(format!("{kind} frees a table of level {level}, {range}")));
        for live in ["live", "not live"] {
            ["bits to set", "bits to clear", "bits to set and to clear"].iter().for_each(|bits| add(format!("modify changes a word at level {level}, {range}, {live}, {bits}")));
        }
    }
    add(format!("compact frees nothing, {range}"));
    add(format!("map of an empty region, {range}"));
    (0..4).for_each(|level| add(format!("look up: hole with flags at level {level}, {range}")));
    for count in ["no", "one", "more"] {
        add(format!("list: {count} lines, {range}"));
        add(format!("modify, live: {count} numbers, {range}"));
    }
    ["just long enough", "longer than needed"].iter().for_each(|length| add(format!("list: {length}, {range}")));
}

const ALL: [&str; 8] = ["make", "check", "map", "modify", "compact", "look up", "list", "page image"];

// The clauses of the slip that are more than one to a number, in the order of `refused`.
const CLAUSES: [(&[&str], u64, &[&str]); 9] = [
    (&ALL, 1, &["n is 0", "lengths disagree", "base not a multiple of 4096", "the pool's end above 2^48", "root level above 3", "no range"]),
    (&["page image"], 1, &["table number not below n"]),
    (&["map", "modify", "list"], 2, &["end 0", "end above 2^64 - 4096"]),
    (&["modify"], 3, &["set has bit 1", "clear has bit 1"]),
    (&["modify"], 4, &["set has a bit outside the set", "bit 0 to set", "a bit both set and cleared", "clear has a bit outside the set"]),
    (&["map", "modify", "list"], 6, &["upper, start not in the upper half", "upper, start below the span", "lower, start in the upper half", "lower, end past the span"]),
    (&["map"], 7, &["frame not a multiple of 4096", "frames past 2^48"]),
    (&["modify"], 10, &["a split with nothing to set or clear"]),
    (&["page image"], 11, &["page too long", "page too short"]),
];

fn wanted_of_slip(add: &mut impl FnMut(String)) {
    for kind in KINDS {
        for number in slip(kind) {
            match number {
                1 => add(format!("{kind}: refused 1")),
                _ => RANGES.iter().for_each(|range| add(format!("{kind}: refused {number}, {range}"))),
            }
        }
    }
    for (kinds, number, clauses) in CLAUSES {
        kinds.iter().for_each(|kind| clauses.iter().for_each(|clause| add(format!("{kind}: refused {number}, {clause}"))));
    }
}

// Every cell, not met yet.
pub fn wanted() -> Cells {
    let mut cells = Cells::new();
    let mut add = |cell: String| {
        cells.insert(cell, 0);
    };
    for (root, range) in (0..4).flat_map(|root| RANGES.map(|range| (root, range))) {
        KINDS.iter().filter(|kind| !slip(kind).is_empty()).for_each(|kind| add(format!("{kind}: accepted, root {root}, {range}")));
        wanted_of_maps(root, range, &mut add);
        for level in root..4 {
            add(format!("look up: hole at level {level}, root {root}, {range}"));
            if level > 0 {
                add(format!("look up: {} at level {level}, root {root}, {range}", if level == 3 { "page" } else { "block" }));
            }
        }
        if range == "upper" && root < 3 {
            ["map", "modify"].iter().for_each(|kind| add(format!("{kind} splits an entry that ends at 2^64 with something in it, root {root}")));
        }
    }
    RANGES.iter().for_each(|range| wanted_of_tables(range, &mut add));
    for live in ["live", "not live"] {
        (1..4).for_each(|level| add(format!("modify clears VALID at level {level}, {live}")));
    }
    ["nothing to set or clear", "bits to set", "bits to clear", "bits to set and to clear"].iter().for_each(|bits| add(format!("modify, not live, {bits}")));
    ["just long enough", "longer than needed"].iter().for_each(|length| add(format!("modify, live: list {length}")));
    add("look up of the last upper page".into());
    add("map with NO_CONTIGUOUS_HINT".into());
    wanted_of_slip(&mut add);
    cells
}
