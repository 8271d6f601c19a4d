//! What `lift` keeps, chooses, counts and copies.

mod common;

use common::{Folder, Ran};

fn lifted(folder: &Folder, options: &str) -> (String, String, Ran) {
    let ran = folder.sh(&format!("$T lift {options} a.chain a.bed o u"));
    (folder.read("o"), folder.read("u"), ran)
}

/// 100 bases, of which 20 have no pair.
const GAP: &str = "chain 1 t 100 + 0 100 q 80 + 0 80 1\n40 20 0\n40\n";

#[test]
fn the_share_that_is_kept_is_tested_in_whole_numbers() {
    let folder = Folder::new("min-kept");
    folder.write("a.chain", GAP);
    folder.write("a.bed", "t\t0\t100\nt\t0\t41\nt\t0\t40\n");
    let (out, unmapped, ran) = lifted(&folder, "");
    assert_eq!(out, "q\t0\t40\n");
    assert_eq!(
        unmapped,
        "# keeps 80 of 100 bases\nt\t0\t100\n# keeps 40 of 41 bases\nt\t0\t41\n"
    );
    let told = "u: 2 not lifted, of which 1 would be with --min-kept 0.95 (liftOver's rule)\n";
    assert!(ran.errors.contains(told), "{}", ran.errors);
    assert_eq!(ran.status, Some(1));
    assert_eq!(lifted(&folder, "--min-kept 0.95").0, "q\t0\t40\nq\t0\t40\n");
    let (out, unmapped, ran) = lifted(&folder, "--min-kept=0.8");
    assert_eq!(
        (out.as_str(), unmapped.as_str()),
        ("q\t0\t80\nq\t0\t40\nq\t0\t40\n", "")
    );
    assert_eq!(ran.status, Some(0));
    assert!(
        ran.errors
            .contains("o: 3 lifted, of which 2 dropped bases\n"),
        "{}",
        ran.errors
    );
    assert_eq!(
        lifted(&folder, "--min-kept 0.800000001").0.lines().count(),
        2
    );
}

#[test]
fn a_region_may_grow_so_far() {
    let folder = Folder::new("max-grow");
    folder.write(
        "a.chain",
        "chain 1 t 20 + 0 20 q 40 + 0 40 1\n10 0 20\n10\n",
    );
    folder.write("a.bed", "t\t0\t20\nt\t1\t20\n");
    let (out, unmapped, _) = lifted(&folder, "");
    assert_eq!(out, "q\t0\t40\n");
    assert_eq!(
        unmapped,
        "# its query region has 39 bases, and 19 were asked\nt\t1\t20\n"
    );
    assert_eq!(lifted(&folder, "--max-grow 1.99").0, "");
    // The blocks are lifted well, but the line around them grows.
    folder.write("a.bed", "t\t1\t20\tn\t0\t+\t1\t20\t0\t2\t9,10,\t0,9,\n");
    let (out, unmapped, _) = lifted(&folder, "");
    assert_eq!(out, "");
    assert!(unmapped
        .starts_with("# its blocks are lifted to a region of 39 bases, and stood in one of 19\n"));
}

/// The summary counts what would be lifted, and nothing that would fail otherwise.
#[test]
fn a_line_that_grows_is_not_near() {
    let folder = Folder::new("near");
    folder.write(
        "a.chain",
        "chain 1 t 200 + 0 200 q 2000 + 0 1199 1\n50 1 0\n49 0 1000\n100\n",
    );
    let near = "of which 1 would be with --min-kept 0.95";
    folder.write(
        "a.bed",
        "t\t0\t200\tn\t0\t+\t0\t200\t0\t2\t100,100,\t0,100,\n",
    );
    let (_, unmapped, ran) = lifted(&folder, "");
    assert!(unmapped.starts_with("# block 1 of 2 (0-100): keeps 99 of 100 bases\n"));
    assert!(!ran.errors.contains(near), "{}", ran.errors);
    folder.write("a.bed", "t\t0\t100\tn\n");
    let (_, _, ran) = lifted(&folder, "");
    assert!(ran.errors.contains(near), "{}", ran.errors);
    // Across the insertion, 149 of 150 bases are kept in a region of 1,149.
    folder.write("a.bed", "t\t0\t150\tn\n");
    for (options, is_near) in [("", false), ("--max-grow 8", true)] {
        let (_, _, ran) = lifted(&folder, options);
        assert_eq!(ran.errors.contains(near), is_near, "{}", ran.errors);
    }
}

#[test]
fn blocks_and_thick_parts_are_lifted_on_both_strands() {
    let folder = Folder::new("strands");
    let line = "t\t0\t100\tn\t7\t+\t10\t95\t1,2,3\t3\t20,10,20,\t0,25,80,\n";
    folder.write("a.bed", line);
    folder.write("a.chain", GAP);
    let (out, unmapped, ran) = lifted(&folder, "");
    assert_eq!(
        out,
        "q\t0\t80\tn\t7\t+\t10\t75\t1,2,3\t3\t20,10,20,\t0,25,60,\n"
    );
    assert_eq!((unmapped.as_str(), ran.status), ("", Some(0)));
    assert!(ran
        .errors
        .ends_with("tally: 50 bases asked, 50 kept, 0 dropped\n"));
    folder.write("a.chain", GAP.replace("q 80 +", "q 80 -"));
    let (out, _, _) = lifted(&folder, "");
    assert_eq!(
        out,
        "q\t0\t80\tn\t7\t-\t5\t70\t1,2,3\t3\t20,10,20,\t0,45,60,\n"
    );
}

#[test]
fn an_end_of_the_thick_part_moves_inward() {
    let folder = Folder::new("thick");
    folder.write("a.chain", GAP);
    // 40 to 60 have no pair, and stand between the blocks.
    folder.write(
        "a.bed",
        "t\t0\t100\tn\t0\t+\t45\t100\t0\t2\t30,30,\t0,70,\n\
         t\t0\t100\tn\t0\t+\t0\t45\t0\t2\t30,30,\t0,70,\n\
         t\t0\t100\tn\t0\t+\t45\t50\t0\t2\t30,30,\t0,70,\n\
         t\t0\t100\tn\t0\t+\t50\t50\t0\t2\t30,30,\t0,70,\n",
    );
    let (out, _, ran) = lifted(&folder, "");
    assert_eq!(
        out,
        "q\t0\t80\tn\t0\t+\t40\t80\t0\t2\t30,30,\t0,50,\n\
         q\t0\t80\tn\t0\t+\t0\t40\t0\t2\t30,30,\t0,50,\n\
         q\t0\t80\tn\t0\t+\t0\t0\t0\t2\t30,30,\t0,50,\n\
         q\t0\t80\tn\t0\t+\t0\t0\t0\t2\t30,30,\t0,50,\n"
    );
    for told in [
        "a.bed:1:1: note: thickStart 45 moves inward, to a base that is kept\n",
        "a.bed:2:1: note: thickEnd 45 moves inward, to a base that is kept\n",
        "a.bed:3:1: note: the thick part keeps no base\n",
    ] {
        assert!(ran.errors.contains(told), "{}", ran.errors);
    }
    assert_eq!(
        (ran.errors.matches("note: ").count(), ran.status),
        (3, Some(0))
    );
    let (out, unmapped, ran) = lifted(&folder, "--strict");
    assert_eq!((out.lines().count(), ran.status), (1, Some(1)));
    assert!(
        unmapped.starts_with("# a note counts as a refusal: thickStart 45 moves inward"),
        "{unmapped}"
    );
}

#[test]
fn lines_of_seven_to_nine_columns_keep_them() {
    let folder = Folder::new("nine");
    folder.write("a.chain", "chain 1 t 100 + 0 100 q 100 - 0 100 1\n100\n");
    folder.write(
        "a.bed",
        "t\t10\t30\tn\t0\t+\t15\t30\t9,8,7\nt\t10\t30\tn\t0\t+\t15\t20\nt\t10\t30\tn\t0\t+\t15\nt\t10\t30\tn\t0\t+\t10\n",
    );
    assert_eq!(
        lifted(&folder, "").0,
        "q\t70\t90\tn\t0\t-\t70\t85\t9,8,7\nq\t70\t90\tn\t0\t-\t80\t85\nq\t70\t90\tn\t0\t-\t70\t85\nq\t70\t90\tn\t0\t-\t70\n"
    );
    let (out, _, ran) = lifted(&folder, "--span");
    assert_eq!(out, "q\t70\t90\tn\t0\t-\n".repeat(4));
    assert!(ran
        .errors
        .contains("o: 4 lifted, of which 4 lost columns 7 to 12\n"));
}

#[test]
fn dropped_blocks_are_named() {
    let folder = Folder::new("drop-blocks");
    folder.write(
        "a.chain",
        "chain 1 t 100 + 20 80 q 80 + 0 60 1\n20 20 20\n20\n",
    );
    // The first and the third of four blocks are lost; the thick part begins in the first.
    folder.write(
        "a.bed",
        "t\t0\t80\tn\t0\t+\t5\t75\t0\t4\t10,5,10,15,\t0,25,45,65,\n",
    );
    let (out, unmapped, ran) = lifted(&folder, "");
    assert_eq!((out.as_str(), ran.status), ("", Some(1)));
    assert!(unmapped.starts_with("# block 1 of 4 (0-10): no pair; and 1 other is lost\n"));
    let (out, unmapped, ran) = lifted(&folder, "--drop-blocks");
    assert_eq!(out, "q\t5\t60\tn\t0\t+\t5\t55\t0\t2\t5,15,\t0,40,\n");
    assert_eq!(
        unmapped,
        "# line 1 is lifted without block 1 of 4 (0-10): no pair\n\
         # line 1 is lifted without block 3 of 4 (45-55): no pair\n"
    );
    assert!(ran
        .errors
        .contains("note: thickStart 5 moves inward, to a base that is kept\n"));
    assert_eq!(ran.status, Some(1));
    // A file of nothing but lost blocks has no line to lift.
    folder.write("a.bed", "t\t0\t10\tn\t0\t+\t0\t10\t0\t2\t2,2,\t0,8,\n");
    assert_eq!(lifted(&folder, "--drop-blocks").0, "");
}

/// Ten chains over one target, one of them with a greater score.
fn ten_chains() -> String {
    let chain = |id: u32| {
        let score = if id == 7 || id == 8 { 50 } else { id };
        format!(
            "chain {score} t 100 + 0 50 q{id} 100 + {id} {} {id}\n50\n\n",
            id + 50
        )
    };
    (1..=10).rev().map(chain).collect()
}

#[test]
fn a_line_in_several_chains() {
    let folder = Folder::new("several");
    folder.write("a.chain", ten_chains());
    folder.write("a.bed", "t\t0\t10\tn\n");
    let (out, unmapped, ran) = lifted(&folder, "");
    assert_eq!((out.as_str(), ran.status), ("", Some(1)));
    assert_eq!(
        unmapped,
        "# it keeps bases in 10 chains, with the ids 10, 9, 8, 7, 6, 5, 4, 3 and 2 more\nt\t0\t10\tn\n"
    );
    let (out, unmapped, ran) = lifted(&folder, "--several best");
    assert_eq!(
        (out.as_str(), unmapped.as_str(), ran.status),
        ("q7\t7\t17\tn\n", "", Some(0))
    );
    let (out, _, ran) = lifted(&folder, "--several all");
    assert_eq!((out.lines().count(), ran.status), (10, Some(0)));
    assert!(ran
        .errors
        .contains("lines: 1 read = 1 lifted + 0 not lifted + 0 passed over\n"));
}

#[test]
fn a_target_has_one_size() {
    let folder = Folder::new("sizes");
    folder.write(
        "a.chain",
        "chain 1 t 9 + 0 1 q 9 + 0 1 3\n1\n\nchain 1 t 10 + 1 2 q 9 + 0 1 8\n1\n",
    );
    folder.write("a.bed", "t\t0\t1\n");
    folder.write("o", "old\n");
    let ran = folder.sh("$T lift a.chain a.bed o u");
    let told =
        "a.chain:4:1: refused: the target t has 10 bases here, and 9 in the chain with the id 3\n";
    assert!(ran.errors.starts_with(told), "{}", ran.errors);
    assert_eq!((ran.status, folder.read("o").as_str()), (Some(1), "old\n"));
    assert!(!folder.has("u"));
}

#[test]
fn every_line_is_accounted_for() {
    let folder = Folder::new("balance");
    folder.write("a.chain", GAP);
    folder.write(
        "a.bed",
        "# x\nt\t0\t10\n\n# y\nbad\nt\t0\t99\nz\t1\t2\n#N/A\t1\t2",
    );
    let (_, unmapped, ran) = lifted(&folder, "");
    assert!(
        ran.errors
            .contains("lines: 8 read = 1 lifted + 5 not lifted + 2 passed over\n"),
        "{}",
        ran.errors
    );
    assert_eq!(unmapped.lines().count(), 10);
    for (file, read) in [("", "0"), ("# x\n", "1")] {
        folder.write("a.bed", file);
        let (out, unmapped, ran) = lifted(&folder, "");
        assert_eq!(
            (out.as_str(), unmapped.as_str(), ran.status),
            ("", "", Some(1))
        );
        assert!(ran.errors.contains(&format!("lines: {read} read = ")));
    }
}

#[test]
fn leading_lines_are_copied() {
    let folder = Folder::new("header");
    folder.write("a.chain", GAP);
    folder.write(
        "a.bed",
        "# one\nbrowser hide all\ntrack name=x\nt\t0\t10\n# later\nt\t10\t20\n",
    );
    assert_eq!(lifted(&folder, "").0, "q\t0\t10\nq\t10\t20\n");
    let (out, _, ran) = lifted(&folder, "--header");
    assert_eq!(
        out,
        "# one\nbrowser hide all\ntrack name=x\nq\t0\t10\nq\t10\t20\n"
    );
    assert!(ran
        .errors
        .contains("lines: 6 read = 2 lifted + 0 not lifted + 4 passed over\n"));
    folder.write("a.bed", "t\t0\t10\n");
    assert_eq!(lifted(&folder, "--header").0, "q\t0\t10\n");
    folder.write("a.bed", "#N/A\t0\t10\nt\t0\t10\n");
    assert_eq!(lifted(&folder, "--header").0, "q\t0\t10\n");
}

#[test]
fn a_summary_counts_lines_and_bases() {
    let folder = Folder::new("summary");
    folder.write(
        "a.chain",
        format!("{GAP}\nchain 1 s 10 + 0 10 r 10 + 0 10 2\n10\n"),
    );
    folder.write(
        "a.bed",
        "t\t0\t10\nt\t0\t100\nt\t45\t50\nt\t90\t101\nz\t1\t4\ns\t2\t5\nbad\n\
         t\t0\t100\tn\t0\t+\t0\t100\t0\t2\t20,20,\t0,80,\n",
    );
    let (_, _, ran) = lifted(&folder, "--summary sum");
    let table = folder.read("sum");
    let rows: Vec<Vec<&str>> = table.lines().map(|row| row.split('\t').collect()).collect();
    assert_eq!(
        rows[0].join(" "),
        "chrom lines lifted refused no_chain several_chains no_pair outside_target below_min_kept \
         over_max_grow bases_asked bases_kept bases_dropped bases_not_sent"
    );
    let wanted = [
        "no chrom 1 0 1 0 0 0 0 0 0 0 0 0 0",
        "s 1 1 0 0 0 0 0 0 0 3 3 0 0",
        "t 5 2 0 0 0 1 1 1 0 155 130 25 11",
        "z 1 0 0 1 0 0 0 0 0 0 0 0 3",
        "all chroms 8 3 1 1 0 1 1 1 0 158 133 25 14",
    ];
    let told: Vec<String> = rows[1..].iter().map(|row| row.join(" ")).collect();
    assert_eq!(told, wanted);
    assert!(
        ran.errors
            .ends_with("tally: 158 bases asked, 133 kept, 25 dropped\n"),
        "{}",
        ran.errors
    );
    // The sums are those of the rows.
    for column in 1..rows[0].len() {
        let number = |row: &Vec<&str>| row[column].parse::<u64>().expect("a number");
        let sum: u64 = rows[1..5].iter().map(number).sum();
        assert_eq!(sum, number(&rows[5]), "{}", rows[0][column]);
    }
}

#[test]
fn blocks_in_several_chains_are_not_lifted_as_one_line() {
    let folder = Folder::new("parted");
    folder.write(
        "a.chain",
        "chain 5 t 100 + 0 40 q 100 + 0 40 1\n40\n\nchain 9 t 100 + 50 90 r 100 - 0 40 2\n40\n",
    );
    folder.write("a.bed", "t\t10\t80\tn\t0\t+\t10\t80\t0\t2\t10,20,\t0,50,\n");
    let (out, unmapped, _) = lifted(&folder, "");
    assert_eq!(out, "");
    assert!(unmapped.starts_with("# it keeps bases in 2 chains, with the ids 1, 2\n"));
    let (out, unmapped, _) = lifted(&folder, "--several best");
    assert_eq!(out, "");
    assert!(unmapped.starts_with("# block 1 of 2 (10-20): no pair\n"));
    let (out, _, ran) = lifted(&folder, "--several all --drop-blocks");
    assert_eq!(
        out,
        "q\t10\t20\tn\t0\t+\t10\t20\t0\t1\t10,\t0,\nr\t70\t90\tn\t0\t-\t70\t90\t0\t1\t20,\t0,\n"
    );
    assert_eq!(ran.status, Some(1));
}

#[test]
fn a_target_with_chr_in_front_is_named() {
    let folder = Folder::new("near-grows");
    let chain = "chain 1 chr1 9 + 0 9 q 9 + 0 9 1\n9\n\nchain 1 X 9 + 0 9 q 9 + 0 9 2\n9\n";
    folder.write("a.chain", chain);
    folder.write("in.bed", "1 0 2\nchrX 0 2\nchr2 0 2\nchr 0 2\n");
    let ran = folder.sh("$T lift --quiet a.chain in.bed out unmapped");
    assert_eq!(ran.status, Some(1));
    assert_eq!(
        folder.read("unmapped"),
        "# no chain has the target 1, but one has chr1: rename one side\n1 0 2\n\
         # no chain has the target chrX, but one has X: rename one side\nchrX 0 2\n\
         # no chain has the target chr2\nchr2 0 2\n\
         # no chain has the target chr\nchr 0 2\n"
    );
}
