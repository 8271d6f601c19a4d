//! Whatever the file, `check`, `format` and `turn` need little memory: each run here
//! has 16 MB of address space, all told. In `lift` that holds for IN.

mod common;

use common::Folder;

/// A run under the limit, in an empty folder of its own.
fn limited(folder: &Folder, feed: &str, command: &str) -> (String, Option<i32>) {
    let script = format!("{feed} | {{ ulimit -v 16384; $T {command} 2>&1 > out; }}");
    let ran = folder.sh(&script);
    (ran.out, ran.status)
}

/// A million lines or so of one text, without a file of that size.
const LINES: &str = "yes 'chr1 10 20 name 0 +' | head -n 1000000";
const NOTED: &str = "yes '#chr1 10 20' | head -n 1000000";
const LONG_LINE: &str = "head -c 50000000 /dev/zero | tr '\\0' a";
const BLANK_LINES: &str = "head -c 5000000 /dev/zero | tr '\\0' '\\n'";
const OPEN_CHAIN: &str = "(echo chain 1 t; yes '1 0 0' | head -n 1000000)";
/// Chains of 150 bytes and more, 30 MB in all.
const CHAINS: &str = "\
yes 'chain 1 a_target_with_a_long_name_that_is_held_in_every_chain 9 + 0 1 \
a_query_with_a_long_name_that_is_held_in_every_chain 9 + 0 1 1
1' | head -n 400000";

#[test]
fn memory_does_not_grow_with_the_file() {
    let folder = Folder::new("memory");
    for (feed, kind, wanted) in [
        (LINES, "bed", 0),
        (NOTED, "bed", 1),
        (NOTED, "chain", 1),
        (LONG_LINE, "bed", 1),
        (LONG_LINE, "chain", 1),
        (BLANK_LINES, "bed", 1),
        (BLANK_LINES, "chain", 1),
        (OPEN_CHAIN, "chain", 1),
        (CHAINS, "chain", 0),
    ] {
        for command in ["check", "format"] {
            let (told, status) = limited(&folder, feed, &format!("{command} --kind {kind} -"));
            assert_eq!(status, Some(wanted), "{command} {feed}: {told}");
        }
    }
}

/// `turn` holds back what it writes; a compressed file is fed to gzip.
#[test]
fn what_is_held_back_is_not_held_in_memory() {
    let folder = Folder::new("memory-turn");
    for (feed, wanted) in [
        (CHAINS.to_string(), 0),
        (format!("{CHAINS} | gzip -1"), 0),
        (format!("({CHAINS}; echo bad)"), 1),
    ] {
        let (told, status) = limited(&folder, &feed, "turn -");
        assert_eq!(status, Some(wanted), "{feed}: {told}");
        let written = if wanted == 0 { 600_000 } else { 0 };
        assert_eq!(folder.read("out").lines().count(), written, "{feed}");
    }
}

/// The lines of a lift, with everything copied or refused.
#[test]
fn a_lift_holds_its_chains_and_not_its_lines() {
    let folder = Folder::new("memory-lift");
    folder.write("a.chain", "chain 1 t 9 + 0 9 q 9 + 0 9 1\n9\n");
    for feed in [
        NOTED,
        LONG_LINE,
        "seq 1 200000 | sed 's/.*/chr& 10 20 name/'",
    ] {
        let (told, status) = limited(&folder, feed, "lift --header a.chain - o u");
        assert_eq!(status, Some(1), "{feed}: {told}");
    }
}

/// Lines wait for each other, and a line may ask several chains about each of its blocks;
/// so many at a time, whatever their number in all.
#[test]
fn a_lift_holds_few_lines_and_few_blocks() {
    let folder = Folder::new("memory-held");
    let chain = |id: u32| format!("chain {id} t 2000 + 0 2000 q 2000 - 0 2000 {id}\n2000\n");
    folder.write("a.chain", chain(1));
    folder.write("b.chain", (1..=10).map(chain).collect::<String>());
    let starts: String = (0..512).map(|at| format!("{},", 2 * at)).collect();
    let wide = format!(
        "t\t0\t1023\tn\t0\t+\t0\t1023\t0\t512\t{}\t{starts}",
        "1,".repeat(512)
    );
    folder.write("wide", wide);
    folder.write("short", "t\t0\t3\tn\t0\t+\t0\t3\t0\t2\t1,1,\t0,2,");
    for (line, count) in [("wide", 300), ("short", 20_000)] {
        let feed = format!("yes \"$(cat {line})\" | head -n {count}");
        for options in [
            "a.chain",
            "--span a.chain",
            "--several all b.chain",
            "--several best --span b.chain",
        ] {
            let (told, status) = limited(&folder, &feed, &format!("lift {options} - o u"));
            assert_eq!(status, Some(0), "{line} {options}: {told}");
        }
    }
}
