// Sequences by hand: document 01's bench cases, the lines of docs/DIFFERENCES.md, and the readings that docs/DECISIONS.md fixes. A line is as in the list; what stands
// after `=` is the answer that the document gives, and must come.
pub const SEQUENCES: [(&str, &str); 24] = [
    ("A, C, D: a block, nothing to do, a page in it", "
        n 1000 8 80000000 1 0 = 0
        m 0 40000000 40000000 401 0 = 0 1
        m 200000 201000 40200000 401 0 = 0 1
        m 200000 201000 50000000 401 0 = 0 3
        u 200000 = 0 2 3 401 50000000
        u 201fff = 0 2 3 401 40201000
        u 400000 = 0 1 2 401 40400000"),
    ("B: want of room, and room", "
        n 400 2 80000000 1 0 = 0
        m 1000 3000 9000 401 0 = 9 2 1
        n 600 3 80000000 1 0 = 0
        m 1000 3000 9000 401 0 = 0 3
        s = 0"),
    ("B, J, F, E: pages, their list, the block over them, all taken off", "
        n 1000 8 80000000 1 0
        m 1000 3000 9000 401 0 = 0 3
        l c 0 3000 = 0 3
        l b 0 3000 = b c
        p 1000 2 = 0
        m 0 40000000 40000000 401 0 = 0 3
        m 0 40000000 0 0 0 = 0 1
        c = 0 1"),
    ("G: empty tables, and compact", "
        n 1000 8 80000000 1 0
        m 1000 2000 1000 0 0 = 0 1
        m 1000 2000 0 0 0 = 0 3
        c = 0 1"),
    ("H: no block in a root of level 0", "
        n 1000 8 80000000 0 0
        m 0 8000000000 0 401 0 = 0 2
        u 7fffffffff = 0 1 1 401 7ffffff000"),
    ("I: live and not", "
        n 1000 8 80000000 1 0
        m 0 40000000 40000000 401 0
        e 4 1000 2000 80 0 1 = a 40000401
        e 0 0 40000000 80 0 1 = b 1
        e 1 0 40000000 80 0 1 = 0 1 1
        n 1000 8 80000000 1 0
        m 0 40000000 40000000 401 0
        e 0 1000 2000 80 0 0 = 0 3
        u 1000 = 0 2 3 481 40001000"),
    ("K: the ends of the lower span", "
        n 1000 8 80000000 1 0
        m 7ffffff000 8000000000 0 401 0 = 0 3
        m 7ffffff000 8000001000 0 401 0 = 6 8000001000
        u 8000000000 = 6 8000000000
        m 2000 1000 0 403 0 = 3 403
        m 0 1000 0 10401 0 = 4 10401
        m 2000 3000 fffffffff000 401 0 = 0 5
        m 2000 4000 fffffffff000 401 0 = 7 fffffffff000
        m 1000 1000 0 401 0 = 0 5"),
    ("K: the ends of the upper span", "
        n 1000 8 80000000 1 1
        m ffffff8000000000 ffffff8000001000 0 401 0 = 0 3
        m ffffff7ffffff000 ffffff8000001000 0 401 0 = 6 ffffff7ffffff000
        m ffffffffffffe000 fffffffffffff000 0 401 0 = 0 5
        m ffffffffffffe000 fffffffffffff001 0 401 0 = 2 fffffffffffff001
        u ffffffffffffffff = 0 0 3 0 0
        m fffffffffffff000 fffffffffffff000 0 401 0 = 0 5"),
    ("a fill that the crate loses, level 2: the block ends at 2^64", "
        n 400 2 80000000 2 1
        w 1ff 40000401
        m ffffffffffe00000 ffffffffffe01000 9000 401 0 = 0 2
        u ffffffffffe01000 = 0 2 3 401 40001000
        u ffffffffffffffff = 0 2 3 401 401ff000"),
    ("a fill that the crate loses, level 1, by a modify", "
        n 1000 8 80000000 1 1
        w 1ff 40000401
        e 0 ffffffffc0000000 ffffffffc0001000 80 0 0 = 0 3
        u ffffffffc0000000 = 0 2 3 481 40000000
        u ffffffffffffffff = 0 1 2 401 7ffff000"),
    ("a fill that the crate loses, level 0: flags", "
        n 1000 8 80000000 0 1
        w 1ff 80000000000400
        m fffffffffffc0000 fffffffffffc1000 9000 401 0 = 0 4
        u ffffffffffffffff = 0 0 3 80000000000400 0"),
    ("want of tables: the crate stops half-way", "
        n 400 2 80000000 1 0
        m 1000 3000 9000 401 0 = 9 2 1
        u 1000 = 0 0 1 0 0"),
    ("tables freed by the same call do not count", "
        n 600 3 80000000 1 0
        m 1000 3000 9000 401 0 = 0 3
        m 0 40001000 0 0 0 = 9 2 0"),
    ("ends: 0, and above 2^64 - 4096", "
        n 1000 8 80000000 1 1
        m fffffffffffff000 fffffffffffff001 0 401 0 = 2 fffffffffffff001
        l 4 ffffff8000000000 ffffffffffffffff = 2 ffffffffffffffff
        n 1000 8 80000000 1 0
        m 0 0 0 401 0 = 2 0
        e 0 0 0 80 0 0 = 2 0
        l 4 0 0 = 2 0"),
    ("bits 16 and 48", "
        n 1000 8 80000000 3 0
        m 0 1000 9000 10401 0 = 4 10401
        m 0 1000 9000 1000000000401 0 = 4 1000000000401
        e 0 0 1000 10000 0 0 = 4 10000
        e 0 0 1000 0 1000000000000 0 = 4 1000000000000"),
    ("frames that pass 2^48", "
        n 1000 8 80000000 3 0
        m 0 2000 fffffffff000 401 0 = 7 fffffffff000
        m 0 1000 fffffffff000 401 0 = 0 1
        m 0 0 1000000000000 401 0 = 2 0
        m 1000 1000 1000000000000 401 0 = 0 1"),
    ("a live modify that changes nothing, on a part of a block", "
        n 1000 8 80000000 1 0
        m 0 40000000 40000000 401 0
        e 0 1000 2000 0 0 1 = a 40000401
        e 0 40001000 40002000 0 0 1 = 0 3 0"),
    ("reserved words are holes", "
        n 200 1 80000000 0 0
        w 0 401
        u 0 = 0 0 0 401 0
        s = 8
        n 200 1 80000000 3 0
        w 0 9401
        u 0 = 0 0 3 401 0
        s = 8"),
    ("an unmap with a frame: rule 2 compares it", "
        n 1000 8 80000000 1 0
        m 0 40000000 40000000 401 0
        m 0 40000000 1000 0 0 = 9 201 7"),
    ("a block's address is cleared below its size; a link is followed whatever its other bits", "
        n 600 3 80000000 1 0
        w 0 40201401
        u 1000 = 0 1 1 401 40001000
        w 0 80001f03
        w 200 80002003
        w 400 9403
        u 0 = 0 2 3 401 9000
        w 0 80003003
        u 0 = 8
        w 0 7ffff003
        u 0 = 8
        c = 8"),
    ("start above end in one page; backward regions", "
        n 1000 8 80000000 1 0
        m 1fff 1001 9000 401 0 = 0 3
        u 1000 = 0 2 3 401 9000
        m 1fff 1000 9000 401 0 = 0 3
        m 3000 1001 9000 401 0 = 5 3000 2000
        e 0 3000 1001 80 0 0 = 5 3000 2000
        l 4 3000 1001 = 5 3000 2000"),
    ("VALID is cleared: the address stays, rule 2 sees it, compact does not free it", "
        n 1000 8 80000000 1 0
        m 0 1000 9000 401 0 = 0 3
        e 0 0 1000 0 1 0 = 0 3
        e 0 0 1000 80 0 0 = 0 3
        l 4 0 1000 = 0 1
        u 0 = 0 0 3 400 0
        c = 0 3
        m 0 1000 0 0 0 = 0 3
        c = 0 1"),
    ("a hole in part: modify splits it, with nothing to set or clear too", "
        n 1000 8 80000000 1 0
        e 0 1000 2000 0 0 0 = 0 3
        e 0 0 40000000 80 0 0 = 0 3
        e 0 1000 2000 80 0 1 = 0 3 0
        n 400 2 80000000 1 0
        e 0 1000 2000 0 0 1 = 9 2 1"),
    ("the last entry of an upper table is never whole", "
        n 1000 8 80000000 2 1
        m ffffffffffe00000 fffffffffffff000 40000000 401 0 = 0 2
        m ffffffffffe00000 fffffffffffff000 0 0 0 = 0 2
        c = 0 1"),
];

// What all eight calls must refuse with 1, whatever else they are given: lengths and handles on a pool of 3 tables.
pub const MISSHAPEN: [&str; 9] = [
    "0 0 80000000 1 0",
    "600 2 80000000 1 0",
    "5ff 3 80000000 1 0",
    "800 3 80000000 1 0",
    "600 3 80000800 1 0",
    "600 3 fffffffff000 1 0",
    "600 3 80000000 4 0",
    "600 3 80000000 1 2",
    "600 3 80000000 100000001 100000000",
];

pub const ALL_CALLS: [&str; 9] = ["n", "s", "m 0 1000 0 401 0", "e 0 0 1000 80 0 0", "e 1 0 1000 80 0 1", "c", "u 0", "l 4 0 1000", "p 1000 0"];
