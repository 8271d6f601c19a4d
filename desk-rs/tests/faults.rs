//! Files under other names, folders that are shut, full discs, readers that go away,
//! and kills: afterwards an output is the old file or the whole new one, byte for
//! byte, and no input has changed.

mod common;

use std::fs::{self, OpenOptions};
use std::io::Write;
use std::os::unix::fs::{MetadataExt, PermissionsExt};
use std::os::unix::process::CommandExt;
use std::process::{Child, Stdio};
use std::thread;
use std::time::{Duration, Instant};

use common::{program, Folder, Ran};

const LIFT: &str = "$T lift $E/a.chain $E/regions.bed";
const OLD: &str = "old\n";

/// A folder with a chain that moves nothing, many lines for it, some of another chrom,
/// and an old OUT and UNMAPPED.
struct Trial {
    folder: Folder,
    inputs: Vec<(&'static str, String)>,
}

impl Trial {
    fn new(name: &str, count: u32) -> Trial {
        let folder = Folder::new(name);
        let chain =
            "chain 1 chr1 200000000 + 0 200000000 chrQ 200000000 + 0 200000000 1\n200000000\n";
        let line = |at: u32| {
            let chrom = if at % 16 == 15 { "chr2" } else { "chr1" };
            format!("{chrom}\t{}\t{}\n", at % 9 + 1, 100_000_000 + at)
        };
        let lines: String = (0..count).map(line).collect();
        let other = lines.replace("chr1", "chr3");
        let inputs = vec![
            ("s.chain", chain.to_string()),
            ("s.bed", lines),
            ("t.bed", other),
        ];
        for (name, bytes) in &inputs {
            folder.write(name, bytes);
        }
        let trial = Trial { folder, inputs };
        trial.with_old_outputs();
        trial
    }

    fn with_old_outputs(&self) {
        self.folder.write("o", OLD);
        self.folder.write("u", OLD);
    }

    /// OUT and UNMAPPED.
    fn outputs(&self) -> (String, String) {
        (self.folder.read("o"), self.folder.read("u"))
    }

    /// That nothing is changed but what `o` and `u` may hold.
    fn has_its_inputs(&self, after: &str) {
        for (name, bytes) in &self.inputs {
            assert!(self.folder.read(name) == *bytes, "{after}: {name}");
        }
    }

    /// That nothing is changed, and no temporary left.
    fn is_untouched(&self, after: &str) {
        self.has_its_inputs(after);
        assert_eq!(self.outputs(), (OLD.into(), OLD.into()), "{after}");
        assert!(self.folder.is_clean(), "{after}");
    }

    fn spawn(&self, script: &str) -> Child {
        let mut shell = self.folder.shell(script);
        shell.stderr(Stdio::null()).spawn().expect("a shell runs")
    }
}

fn mode(folder: &Folder, name: &str) -> u32 {
    let known = fs::metadata(folder.path.join(name)).expect("a file is there");
    known.permissions().mode() & 0o7777
}

fn is_root() -> bool {
    fs::metadata("/proc/self").is_ok_and(|known| known.uid() == 0)
}

#[test]
fn an_input_by_another_name_is_never_written() {
    for script in [
        "$T lift $E/a.chain r.bed h.bed u",
        "$T lift $E/a.chain r.bed s.bed u",
        "$T lift $E/a.chain r.bed o h.bed",
        "$T lift $E/a.chain - r.bed u < r.bed",
        "$T lift $E/a.chain - h.bed u < s.bed",
        "$T lift - $E/regions.bed c.chain u < c.chain",
        "$T lift c.chain r.bed o ./c.chain",
        "$T lift c.chain ./c.chain o u",
        "$T lift c.chain r.bed - u >> r.bed",
        "$T lift c.chain r.bed /dev/stdout u >> c.chain",
        "$T lift --summary h.bed c.chain r.bed o u",
        "$T format --out h.bed r.bed",
        "$T format r.bed >> h.bed",
        "$T turn --out c.chain - < c.chain",
        "$T check r.bed >> s.bed",
        // What is told of the first input would go to the second.
        "$T check c.chain r.bed >> h.bed",
        "$T format c.chain r.bed >> h.bed",
        "$T format --kind bed c.chain - < r.bed >> h.bed",
        // What is told would go to an input.
        "$T check r.bed 2>> h.bed",
        "$T check r.bed >> h.bed 2>&1",
        "$T format --out o c.chain r.bed 2>> s.bed",
        "$T lift c.chain - o u < r.bed 2>> h.bed",
        "$T lift c.chain r.bed o u 2>> c.chain",
    ] {
        let folder = Folder::new("other-names");
        folder.sh(
            "cp $E/regions.bed r.bed; cp $E/a.chain c.chain; ln r.bed h.bed; ln -s r.bed s.bed",
        );
        let ran = folder.sh(script);
        assert_eq!(ran.status, Some(2), "{script}");
        let silent = script.contains("2>");
        let told = ran.errors.contains("are one file");
        assert!(told != silent, "{script}: {}", ran.errors);
        let same = folder.sh("cmp r.bed $E/regions.bed && cmp c.chain $E/a.chain");
        assert_eq!(same.status, Some(0), "{script}: {}", same.out);
        assert_eq!(folder.names(), ["c.chain", "h.bed", "r.bed", "s.bed"]);
    }
}

#[test]
fn a_link_is_followed_and_stays() {
    let folder = Folder::new("links");
    folder.sh("mkdir d; echo old > d/o; chmod 640 d/o; ln -s d/o o; ln -s d/new n; ln -s n m");
    let ran = folder.sh(&format!("{LIFT} o m"));
    assert_eq!(ran.status, Some(1), "{}", ran.errors);
    assert!(folder.read("d/o").starts_with("qB\t65"));
    assert!(folder.read("d/new").starts_with("# keeps 4 of 7"));
    let is_link = |name: &str| folder.path.join(name).is_symlink();
    assert!(is_link("o") && is_link("n") && is_link("m") && !is_link("d/o"));
    assert_eq!(mode(&folder, "d/o"), 0o640);
    assert_eq!(folder.names(), ["d", "m", "n", "o"]);
    let ran = folder.sh(&format!("ln -s loop loop; {LIFT} loop u"));
    assert_eq!(ran.status, Some(2));
}

#[test]
fn another_name_of_an_old_output_keeps_the_old_bytes() {
    let folder = Folder::new("hard-link");
    folder.sh("echo old > o; ln o other");
    let ran = folder.sh(&format!("{LIFT} o u"));
    assert_eq!(
        (ran.status, folder.read("other").as_str()),
        (Some(1), "old\n")
    );
}

#[test]
fn a_mode_is_kept_and_a_new_file_has_the_usual_one() {
    let folder = Folder::new("modes");
    folder.sh("echo old > o; chmod 604 o");
    let ran = folder.sh(&format!("umask 027; {LIFT} o u"));
    assert_eq!(ran.status, Some(1), "{}", ran.errors);
    assert_eq!((mode(&folder, "o"), mode(&folder, "u")), (0o604, 0o640));
    // Only root can give a file away.
    if is_root() {
        folder.sh("chown 65534:65534 o; chmod 664 o");
        let ran = folder.sh(&format!("{LIFT} o u"));
        assert_eq!(ran.status, Some(1), "{}", ran.errors);
        let known = fs::metadata(folder.path.join("o")).expect("a file is there");
        assert_eq!((known.uid(), known.gid()), (65_534, 65_534));
        assert_eq!(mode(&folder, "o"), 0o664);
    }
}

#[test]
fn more_inputs_than_can_be_open_touch_nothing() {
    let trial = Trial::new("open-files", 10);
    let inputs = "s.bed ".repeat(40);
    let ran = trial
        .folder
        .sh(&format!("ulimit -n 20; $T format --out o {inputs}"));
    assert_eq!(ran.status, Some(2), "{}", ran.errors);
    assert!(
        ran.errors.contains("s.bed: Too many open files"),
        "{}",
        ran.errors
    );
    trial.is_untouched("too many files");
    let ran = trial
        .folder
        .sh(&format!("ulimit -n 20; $T format {inputs} | wc -l"));
    assert_eq!(ran.out.trim(), "400", "{}", ran.errors);
}

#[test]
fn devices_and_pipes_are_written_directly() {
    let folder = Folder::new("devices");
    let ran = folder.sh(&format!("{LIFT} /dev/null /dev/null"));
    assert_eq!(ran.status, Some(1), "{}", ran.errors);
    let ran = folder.sh(&format!("mkfifo p; cat p > got & {LIFT} p u; wait"));
    assert!(folder.read("got").starts_with("qB\t65"), "{}", ran.errors);
    let ran = folder.sh(&format!("{LIFT} p p"));
    assert_eq!(ran.status, Some(2));
}

#[test]
fn a_full_device_is_told() {
    let trial = Trial::new("full", 100);
    for script in [
        "$T lift s.chain s.bed /dev/full u",
        "$T lift s.chain s.bed o /dev/full",
        "$T lift s.chain s.bed - u > /dev/full",
        "$T lift s.chain s.bed /dev/stdout u > /dev/full",
        "$T format --out /dev/full s.bed",
        "$T format s.bed > /dev/full",
        "$T check s.bed > /dev/full",
        "$T turn s.chain > /dev/full",
    ] {
        let ran = trial.folder.sh(script);
        assert_eq!(ran.status, Some(2), "{script}");
        let told = ran.errors.contains("No space left");
        assert!(told, "{script}: {}", ran.errors);
        trial.is_untouched(script);
    }
}

/// The limit falls into the middle of a line; with a handler and without.
#[test]
fn a_limit_on_file_size_leaves_every_output() {
    let trial = Trial::new("limit", 60_000);
    for (script, limited) in [
        ("$T lift s.chain s.bed o u", "chrQ\t1\t100000000\n"),
        ("$T lift s.chain t.bed o u", "# no chain has the target"),
        ("$T format --out o s.bed", "chr1\t1\t100000000\n"),
        ("$T format --out o t.bed s.bed", "chr3\t1\t100000000\n"),
    ] {
        let ran = trial
            .folder
            .sh(&format!("trap '' XFSZ; ulimit -f 100; {script}"));
        assert_eq!(ran.status, Some(2), "{script}: {}", ran.errors);
        trial.is_untouched(script);
        let ran = trial.folder.sh(&format!("{script}; true"));
        let written = match limited.starts_with('#') {
            true => trial.folder.read("u"),
            false => trial.folder.read("o"),
        };
        assert!(written.starts_with(limited), "{script}: {}", ran.errors);
        // Shells count blocks of 512 or of 1024 bytes.
        for limit in [51_200, 102_400] {
            assert!(written.len() > limit && written.as_bytes()[limit - 1] != b'\n');
        }
        trial.with_old_outputs();
    }
    trial
        .folder
        .sh("ulimit -f 100; $T lift s.chain s.bed o u; true");
    trial.has_its_inputs("a signal");
    assert_eq!(trial.outputs(), (OLD.into(), OLD.into()));
}

#[test]
fn a_reader_that_goes_away_leaves_the_other_output() {
    let trial = Trial::new("pipe", 60_000);
    for script in [
        "$T lift s.chain s.bed - u",
        "$T lift s.chain s.bed /dev/stdout u",
        "$T format s.bed",
    ] {
        let piped = format!("{{ {script} --quiet 2> errors; echo $? > status; }} | head -n 1");
        let ran = trial.folder.sh(&piped);
        assert!(ran.out.starts_with("chr"), "{script}");
        let (status, errors) = (trial.folder.read("status"), trial.folder.read("errors"));
        assert_eq!((status.as_str(), errors.as_str()), ("2\n", ""), "{script}");
        trial.is_untouched(script);
    }
}

/// As `strace` sees it; without it, or where it may not look, there is nothing to see.
#[test]
fn all_is_synced_before_anything_takes_its_place() {
    let trial = Trial::new("synced", 100);
    trial
        .folder
        .sh("strace -f -o calls -e 'trace=/^(fsync|rename)' \
         $T lift --quiet --summary sum s.chain s.bed o u");
    let calls = match trial.folder.has("calls") {
        true => trial.folder.read("calls"),
        false => String::new(),
    };
    if !calls.contains("rename") {
        println!("left out: there is no `strace`");
        return;
    }
    let is_sync = |line: &&str| line.contains("fsync(");
    assert_eq!(calls.lines().take_while(is_sync).count(), 3, "{calls}");
    let placed: Vec<&str> = calls
        .lines()
        .filter_map(|line| line.rsplit('"').nth(1))
        .filter_map(|path| path.rsplit('/').next())
        .collect();
    assert_eq!(placed, ["sum", "u", "o"], "{calls}");
}

/// Twenty runs, each killed at a time from a seed.
#[test]
fn a_kill_leaves_every_output_old_or_new() {
    let trial = Trial::new("kill", 20_000);
    let script = "exec $T lift --quiet s.chain s.bed o u";
    let started = Instant::now();
    trial.folder.sh(script);
    let whole = started.elapsed().as_micros() as u64;
    let (old, new) = ((OLD.to_string(), OLD.to_string()), trial.outputs());
    let mut dice = 12_345_u32;
    for _ in 0..20 {
        trial.with_old_outputs();
        let mut child = trial.spawn(script);
        dice = dice.wrapping_mul(1_664_525).wrapping_add(1_013_904_223);
        let sleep = whole * u64::from(dice >> 16) / 60_000;
        thread::sleep(Duration::from_micros(sleep));
        let _ = child.kill();
        child.wait().expect("the command ends");
        let left = trial.outputs();
        // UNMAPPED takes its place before OUT.
        let between = left.0 == old.0 && left.1 == new.1;
        assert!(left == old || left == new || between);
        trial.has_its_inputs("a kill");
    }
    let ran = trial.folder.sh(script);
    assert_eq!(ran.status, Some(1), "{}", ran.errors);
    assert!(trial.outputs() == new);
}

/// A run that is surely in the middle of its lines: more of them never come.
#[test]
fn a_kill_in_the_middle_leaves_the_old_output() {
    let trial = Trial::new("kill-middle", 20_000);
    trial.folder.sh("mkfifo in");
    let mut child = trial.spawn("exec $T lift --quiet s.chain in o u");
    let mut lines = OpenOptions::new()
        .write(true)
        .open(trial.folder.path.join("in"))
        .expect("the command reads");
    // More than a pipe holds, so that the command has read and written by then.
    lines
        .write_all(trial.inputs[1].1.as_bytes())
        .expect("the command reads");
    assert!(!trial.folder.is_clean(), "a temporary is there");
    child.kill().expect("the command runs");
    child.wait().expect("the command ends");
    trial.has_its_inputs("a kill");
    assert_eq!(trial.outputs(), (OLD.into(), OLD.into()));
}

/// Somebody who isn't root, for whom modes count; root runs it as nobody.
#[test]
fn folders_and_files_that_may_not_be_written_are_told() {
    let folder = Folder {
        path: std::env::temp_dir().join(format!("tenderchock-modes-{}", std::process::id())),
    };
    fs::create_dir(&folder.path).expect("a folder can be made");
    fs::copy(program(), folder.path.join("t")).expect("the command can be copied");
    folder.sh("cp $E/a.chain $E/regions.bed .; mkdir shut; echo old > shut/o; echo old > o");
    folder.sh("chmod 755 . t; chmod 644 a.chain regions.bed; chmod 444 o; chmod 555 shut");
    folder.sh("mkdir open; chmod 777 open");
    for (script, told) in [
        (
            "./t lift a.chain regions.bed shut/new open/u",
            "shut/new: no file can be made in the folder shut: ",
        ),
        (
            "./t lift a.chain regions.bed open/o shut/u",
            "shut/u: no file can be made in the folder shut: ",
        ),
        ("./t lift a.chain regions.bed shut/o open/u", "shut/o: "),
        (
            "./t lift a.chain regions.bed o open/u",
            "o: Permission denied",
        ),
        ("./t format --out o regions.bed", "o: Permission denied"),
    ] {
        let mut shell = folder.shell(script);
        if is_root() {
            shell.uid(65_534).gid(65_534);
        }
        let ran = Ran::of(shell.output().expect("a shell runs"));
        assert_eq!(ran.status, Some(2), "{script}: {}", ran.errors);
        assert!(ran.errors.contains(told), "{script}: {}", ran.errors);
        let left = folder.sh("ls -A open; cat o shut/o; ls -A shut");
        assert_eq!(left.out, "old\nold\no\n", "{script}");
        let same = folder.sh("cmp a.chain $E/a.chain && cmp regions.bed $E/regions.bed");
        assert_eq!(same.status, Some(0), "{script}");
    }
    folder.sh("chmod 755 shut");
    fs::remove_dir_all(&folder.path).expect("the folder can be removed");
}
