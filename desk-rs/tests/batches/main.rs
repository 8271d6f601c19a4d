//! Lines are sent through their chains many at a time: drawn files beside a plain lift,
//! line by line, through the library's single calls.

#[path = "../common/mod.rs"]
mod common;
mod drawn;
mod plain;

use common::{Dice, Folder};
use drawn::{chains, file};
use plain::{How, Plain, LOOSE, SPAN, USUAL};
use tenderchock::Tally;

/// Lifts a file both ways; answers how many lines are lifted.
fn compared(folder: &Folder, chains: &[String], file: &str, how: How) -> usize {
    folder.write("a.chain", chains.join("\n"));
    folder.write("a.bed", file);
    let ran = folder.sh(&format!("$T lift {} a.chain a.bed o u", how.words));
    let texts: Vec<&[u8]> = chains.iter().map(String::as_bytes).collect();
    let plain = Plain::of(&texts, file, how);
    for (name, wanted) in [("o", &plain.out), ("u", &plain.unmapped)] {
        let found = folder.read(name);
        for (found, wanted) in found.lines().zip(wanted.lines()) {
            assert_eq!(found, wanted, "{name} {}", how.words);
        }
        assert_eq!(found.len(), wanted.len(), "{name} {}", how.words);
    }
    let Tally {
        asked,
        kept,
        dropped,
    } = plain.tally;
    let told = format!("tally: {asked} bases asked, {kept} kept, {dropped} dropped\n");
    assert!(ran.errors.ends_with(&told), "{told}{}", ran.errors);
    plain.out.lines().count()
}

/// Many lines of a few blocks, and fewer of many: each file is held in several parts.
#[test]
fn lines_are_lifted_as_one_by_one() {
    let folder = Folder::new("batches");
    let mut dice = Dice(20_241_117);
    let chains = chains(&mut dice);
    for (lines, most_blocks) in [(9_000, 4), (500, 300)] {
        let file = file(&mut dice, lines, most_blocks);
        let hows = [USUAL, LOOSE, SPAN].into_iter();
        let lifted: usize = hows.map(|how| compared(&folder, &chains, &file, how)).sum();
        assert!(lifted > lines / 5, "{lifted} of {lines}");
    }
}

/// Where lines are held makes no difference.
#[test]
fn a_file_cut_in_two_is_lifted_as_one() {
    let folder = Folder::new("batches-cut");
    let mut dice = Dice(7);
    folder.write("a.chain", chains(&mut dice).join("\n"));
    let file = file(&mut dice, 6_000, 3);
    let half: usize = file.split_inclusive('\n').take(2_345).map(str::len).sum();
    for (name, part) in [("a", &file[..]), ("b", &file[..half]), ("c", &file[half..])] {
        folder.write(&format!("{name}.bed"), part);
        let ran = folder.sh(&format!("$T lift a.chain {name}.bed {name}.out {name}.bad"));
        assert_eq!(ran.status, Some(1), "{}", ran.errors);
    }
    for end in ["out", "bad"] {
        let [whole, first, second] =
            ["a", "b", "c"].map(|name| folder.read(&format!("{name}.{end}")));
        assert!(whole == first + &second, "{end}");
    }
}

/// What is told of a line comes after all that is told of those before it.
#[test]
fn lines_are_told_in_their_order() {
    let folder = Folder::new("batches-told");
    let mut dice = Dice(8);
    folder.write("a.chain", chains(&mut dice).join("\n"));
    folder.write("a.bed", format!("#t 1 2\n{}", file(&mut dice, 6_000, 3)));
    for options in ["--all", "--all --strict", "--all --header --drop-blocks"] {
        let ran = folder.sh(&format!("$T lift {options} a.chain a.bed o u"));
        let number = |line: &str| line.strip_prefix("a.bed:")?.split(':').next()?.parse().ok();
        let numbers: Vec<u64> = ran.errors.lines().filter_map(number).collect();
        assert!(numbers.is_sorted() && numbers.len() > 300, "{options}");
        for sort in [
            ": refused by ",
            ": note: passed over;",
            ": note: an empty cell",
            " moves inward",
        ] {
            assert!(
                ran.errors.contains(sort) || options.contains("strict"),
                "{options}{sort}"
            );
        }
    }
}
