//! The words of the command line.

use std::ffi::{OsStr, OsString};
use std::path::{Path, PathBuf};

use crate::options::Words;
use crate::ratio::Ratio;
use crate::table::{self, Verb};
use crate::{completion, help, man};
use tenderchock::Kind;

/// What to do.
#[derive(Debug, PartialEq, Eq)]
pub enum Command {
    /// A text that is asked for: help, the version, the man page, a completion.
    Tell(String),
    Check(Vec<Input>, Telling),
    Format(Vec<Input>, Rewriting, Telling),
    Turn(Input, Rewriting, Telling),
    Lift(Box<LiftFiles>, Lifting, Telling),
    Convert {
        start: u64,
        end: u64,
        size: u64,
    },
}

/// A file and the kind of its texts. The path `-` is standard input.
#[derive(Clone, Debug, PartialEq, Eq)]
pub struct Input {
    pub path: PathBuf,
    pub kind: Kind,
}

impl Input {
    pub fn is_standard(&self) -> bool {
        is_standard(&self.path)
    }

    /// How it is called in messages.
    pub fn name(&self) -> String {
        match self.is_standard() {
            true => "standard input".to_string(),
            false => self.path.display().to_string(),
        }
    }
}

/// The files of a lift.
#[derive(Debug, PartialEq, Eq)]
pub struct LiftFiles {
    pub chain: Input,
    pub bed: Input,
    pub out: PathBuf,
    pub unmapped: PathBuf,
    pub summary: Option<PathBuf>,
}

/// How much is told.
#[derive(Clone, Copy, Debug, Default, PartialEq, Eq)]
pub struct Telling {
    /// Every refusal, however many are alike.
    pub all: bool,
    /// Refusals only.
    pub quiet: bool,
    /// A note counts as a refusal.
    pub strict: bool,
    /// Refusals and notes as rows of a table.
    pub tsv: bool,
}

/// How texts are written.
#[derive(Clone, Debug, Default, PartialEq, Eq)]
pub struct Rewriting {
    pub out: Option<PathBuf>,
    /// What is accepted is written, whatever else is refused.
    pub keep_going: bool,
    /// Block lines with tabs.
    pub tabs: bool,
}

/// How lines are lifted.
#[derive(Clone, Copy, Debug, PartialEq, Eq)]
pub struct Lifting {
    /// The share of its bases that a region must keep.
    pub min_kept: Ratio,
    /// How many times longer the query region may be.
    pub max_grow: Ratio,
    pub several: Several,
    /// Blocks that are lost are left out.
    pub drop_blocks: bool,
    /// Blocks are not lifted, only the span.
    pub span: bool,
    /// Leading lines that are passed over go to OUT.
    pub header: bool,
}

impl Default for Lifting {
    /// What is done if nothing is said.
    fn default() -> Lifting {
        Lifting {
            min_kept: Ratio::ONE,
            max_grow: Ratio::TWO,
            several: Several::None,
            drop_blocks: false,
            span: false,
            header: false,
        }
    }
}

/// What is done with a region in several chains.
#[derive(Clone, Copy, Debug, PartialEq, Eq)]
pub enum Several {
    /// It isn't lifted.
    None,
    /// Through the chain with the greatest score, then the smallest id.
    Best,
    /// Through each.
    All,
}

/// The command that these words spell, or what is wrong with them.
pub fn read(words: &[OsString]) -> Result<Command, String> {
    let words = Words::sorted(words)?;
    let Some((first, rest)) = words.plain.split_first() else {
        return match (words.help, words.version) {
            (true, _) => Ok(Command::Tell(help::program())),
            (false, true) => Ok(Command::Tell(help::version())),
            (false, false) => Err("no command is given".into()),
        };
    };
    if words.version {
        let command = first.display();
        return Err(format!("--version stands alone, without `{command}`"));
    }
    if first == "help" {
        return Ok(Command::Tell(help_on(rest)?));
    }
    let verb = verb(first)?;
    if words.help {
        return Ok(Command::Tell(help::command(verb)));
    }
    words.allowed(verb.name)?;
    match verb.name {
        "check" => Ok(Command::Check(inputs(rest, &words)?, telling(&words))),
        "format" => format(rest, &words),
        "turn" => turn(rest, &words),
        "lift" => lift(rest, &words),
        "convert" => convert(rest),
        "man" => match rest {
            [] => Ok(Command::Tell(man::page())),
            _ => Err("man takes no word".into()),
        },
        _ => completion(rest),
    }
}

fn verb(word: &OsStr) -> Result<&'static Verb, String> {
    let verb = word.to_str().and_then(table::verb);
    verb.ok_or_else(|| format!("there is no command `{}`", word.display()))
}

/// `help`, alone or with a command.
fn help_on(words: &[OsString]) -> Result<String, String> {
    match words {
        [] => Ok(help::program()),
        [command] => Ok(help::command(verb(command)?)),
        _ => Err("help takes one command".into()),
    }
}

fn completion(words: &[OsString]) -> Result<Command, String> {
    let text = match words {
        [shell] => shell.to_str().and_then(completion::of_shell),
        _ => None,
    };
    let text =
        text.ok_or_else(|| format!("completion takes one of {}", table::SHELLS.join(", ")))?;
    Ok(Command::Tell(text))
}

fn telling(words: &Words) -> Telling {
    Telling {
        all: words.flag("--all"),
        quiet: words.flag("--quiet"),
        strict: words.flag("--strict"),
        tsv: words.flag("--tsv"),
    }
}

fn rewriting(words: &Words) -> Result<Rewriting, String> {
    let out = words.path("--out");
    out.as_deref().map_or(Ok(()), not_compressed)?;
    Ok(Rewriting {
        out,
        keep_going: words.flag("--keep-going"),
        tabs: words.flag("--tabs"),
    })
}

fn kind(words: &Words) -> Result<Option<Kind>, String> {
    match words.value("--kind").map(OsStr::to_str) {
        None => Ok(None),
        Some(Some("bed")) => Ok(Some(Kind::Bed)),
        Some(Some("psl")) => Ok(Some(Kind::Psl)),
        Some(Some("chain")) => Ok(Some(Kind::Chain)),
        Some(_) => Err("--kind must be followed by bed, psl or chain".into()),
    }
}

fn inputs(files: &[OsString], words: &Words) -> Result<Vec<Input>, String> {
    if files.is_empty() {
        return Err("no file is given".into());
    }
    if files.iter().filter(|word| *word == "-").count() > 1 {
        return Err("standard input can be read only once".into());
    }
    let kind = kind(words)?;
    files.iter().map(|word| input(word, kind)).collect()
}

/// A file of this kind, or else of the kind that its ending says.
fn input(word: &OsStr, kind: Option<Kind>) -> Result<Input, String> {
    let path = PathBuf::from(word);
    match kind.or_else(|| kind_of_ending(&path)) {
        Some(kind) => Ok(Input { path, kind }),
        None => Err(format!(
            "{}: the ending doesn't say what it holds; add --kind bed, psl or chain",
            path.display()
        )),
    }
}

/// The ending that counts; `.gz` doesn't.
fn kind_of_ending(path: &Path) -> Option<Kind> {
    let plain = match is_compressed(path) {
        true => Path::new(path.file_stem()?),
        false => path,
    };
    match ending(plain)?.as_str() {
        "bed" => Some(Kind::Bed),
        "psl" => Some(Kind::Psl),
        "chain" => Some(Kind::Chain),
        _ => None,
    }
}

fn ending(path: &Path) -> Option<String> {
    Some(path.extension()?.to_str()?.to_ascii_lowercase())
}

fn is_compressed(path: &Path) -> bool {
    ending(path).is_some_and(|ending| ending == "gz")
}

fn is_standard(path: &Path) -> bool {
    path == Path::new("-")
}

/// Nothing is written compressed.
fn not_compressed(path: &Path) -> Result<(), String> {
    match is_compressed(path) {
        true => Err(format!(
            "{}: no compressed file is written; write a plain one and run gzip on it",
            path.display()
        )),
        false => Ok(()),
    }
}

fn format(files: &[OsString], words: &Words) -> Result<Command, String> {
    let inputs = inputs(files, words)?;
    Ok(Command::Format(inputs, rewriting(words)?, telling(words)))
}

fn turn(files: &[OsString], words: &Words) -> Result<Command, String> {
    match (files, kind(words)?) {
        ([chain], None | Some(Kind::Chain)) => {
            let input = input(chain, Some(Kind::Chain))?;
            Ok(Command::Turn(input, rewriting(words)?, telling(words)))
        }
        _ => Err("turn takes one chain file".into()),
    }
}

fn lift(files: &[OsString], words: &Words) -> Result<Command, String> {
    let [chain, bed, out, unmapped] = files else {
        return Err("lift takes four files: CHAIN IN.bed OUT UNMAPPED".into());
    };
    if are_swapped(chain, bed) {
        return Err(format!(
            "the chain file comes first: lift {} {} ..",
            bed.display(),
            chain.display()
        ));
    }
    let files = LiftFiles {
        chain: input(chain, Some(Kind::Chain))?,
        bed: input(bed, Some(Kind::Bed))?,
        out: out.into(),
        unmapped: unmapped.into(),
        summary: words.path("--summary"),
    };
    if files.chain.is_standard() && files.bed.is_standard() {
        return Err("standard input can be read only once".into());
    }
    for file in [
        Some(&files.out),
        Some(&files.unmapped),
        files.summary.as_ref(),
    ] {
        file.map_or(Ok(()), |file| not_compressed(file))?;
    }
    for file in [Some(&files.unmapped), files.summary.as_ref()] {
        if file.is_some_and(|file| is_standard(file)) {
            return Err("only OUT can be `-`, standard output".into());
        }
    }
    Ok(Command::Lift(
        Box::new(files),
        lifting(words)?,
        telling(words),
    ))
}

/// Whether the endings say that the chain file stands in the second place, as in other programs.
fn are_swapped(chain: &OsStr, bed: &OsStr) -> bool {
    let kind = |word| kind_of_ending(Path::new(word));
    kind(chain) == Some(Kind::Bed) && kind(bed) == Some(Kind::Chain)
}

fn lifting(words: &Words) -> Result<Lifting, String> {
    let usual = Lifting::default();
    let min_kept = ratio(words, "--min-kept", usual.min_kept)?;
    let max_grow = ratio(words, "--max-grow", usual.max_grow)?;
    if !min_kept.is_share() {
        return Err("--min-kept must be above 0 and at most 1".into());
    }
    if !max_grow.is_at_least_one() {
        return Err("--max-grow must be at least 1".into());
    }
    let lifting = Lifting {
        min_kept,
        max_grow,
        several: several(words)?,
        drop_blocks: words.flag("--drop-blocks"),
        span: words.flag("--span"),
        header: words.flag("--header"),
    };
    match lifting.span && lifting.drop_blocks {
        true => Err("--span lifts no blocks, so --drop-blocks has none to drop".into()),
        false => Ok(lifting),
    }
}

fn ratio(words: &Words, name: &str, usual: Ratio) -> Result<Ratio, String> {
    match words.value(name) {
        None => Ok(usual),
        Some(value) => value
            .to_str()
            .and_then(Ratio::read)
            .ok_or_else(|| format!("{name} must be followed by a number such as 0.95")),
    }
}

fn several(words: &Words) -> Result<Several, String> {
    match words.value("--several").map(OsStr::to_str) {
        None | Some(Some("none")) => Ok(Several::None),
        Some(Some("best")) => Ok(Several::Best),
        Some(Some("all")) => Ok(Several::All),
        Some(_) => Err("--several must be followed by none, best or all".into()),
    }
}

fn convert(words: &[OsString]) -> Result<Command, String> {
    let [start, end, size] = words else {
        return Err("convert takes three numbers: START END SIZE".into());
    };
    Ok(Command::Convert {
        start: number(start)?,
        end: number(end)?,
        size: number(size)?,
    })
}

/// Digits only. One too large for the library's numbers is sent as the largest.
fn number(word: &OsStr) -> Result<u64, String> {
    let digits = word.to_str().unwrap_or_default();
    let spelt = !digits.is_empty() && digits.bytes().all(|byte| byte.is_ascii_digit());
    match spelt && (digits == "0" || !digits.starts_with('0')) {
        true => Ok(digits.parse().unwrap_or(u64::MAX)),
        false => Err(format!(
            "`{}` is not a number of digits only",
            word.display()
        )),
    }
}

#[cfg(test)]
mod tests {
    use super::*;

    fn read_words(line: &str) -> Result<Command, String> {
        let words: Vec<OsString> = line.split(' ').map(OsString::from).collect();
        read(&words)
    }

    #[test]
    fn the_ending_or_the_option_says_the_kind() {
        let Ok(Command::Check(inputs, _)) = read_words("check a.bed b.PSL c.over.chain") else {
            panic!("three files");
        };
        let kinds: Vec<Kind> = inputs.iter().map(|input| input.kind).collect();
        assert_eq!(kinds, [Kind::Bed, Kind::Psl, Kind::Chain]);
        let Ok(Command::Check(inputs, _)) = read_words("check --kind psl a.txt -") else {
            panic!("two files");
        };
        assert!(inputs.iter().all(|input| input.kind == Kind::Psl));
        let Ok(Command::Check(inputs, _)) = read_words("check a.bed.gz b.Chain.GZ") else {
            panic!("two files");
        };
        let kinds: Vec<Kind> = inputs.iter().map(|input| input.kind).collect();
        assert_eq!(kinds, [Kind::Bed, Kind::Chain]);
        assert!(read_words("check --kind=psl a.txt").is_ok());
        assert!(read_words("check a.txt").is_err());
        assert!(read_words("check a.gz").is_err());
        assert!(read_words("check -").is_err());
    }

    #[test]
    fn bad_usage_is_told() {
        for line in [
            "",
            "chek a.bed",
            "check",
            "check --kind",
            "check --kind maf a",
            "check --most a.bed",
            "check --span a.bed",
            "check --all --all a.bed",
            "check --all=yes a.bed",
            "check --kind=maf a",
            "format a.bed --out",
            "format a.bed --out b.bed.gz",
            "lift --kind bed a.chain b.bed out bad",
            "lift --min-kept 0 a.chain b.bed out bad",
            "lift --min-kept 1.01 a.chain b.bed out bad",
            "lift --max-grow 0.5 a.chain b.bed out bad",
            "lift --several some a.chain b.bed out bad",
            "lift --span --drop-blocks a.chain b.bed out bad",
            "lift --summary - a.chain b.bed out bad",
            "lift a.chain b.bed out.GZ bad",
            "turn",
            "turn a.chain b.chain",
            "turn --kind bed a",
            "lift a.chain b.bed out",
            "lift b.bed a.chain out bad",
            "lift b.bed.gz a.chain out bad",
            "lift - - out bad",
            "lift a.chain b.bed out -",
            "convert 1 2",
            "convert 1 2 x",
            "convert 1 02 3",
            "convert -1 2 3",
            "check - - --kind bed",
            "check a.bed --version",
            "man page",
            "completion",
            "completion tcsh",
            "completion bash zsh",
            "completion --quiet bash",
            "help chek",
            "help check format",
            "chek --help",
        ] {
            assert!(read_words(line).is_err(), "{line}");
        }
    }

    #[test]
    fn two_dashes_end_the_options() {
        let Ok(Command::Check(inputs, _)) = read_words("check -- --help.bed") else {
            panic!("a file");
        };
        assert_eq!(inputs[0].path, Path::new("--help.bed"));
    }

    #[test]
    fn numbers_are_digits_only() {
        let largest = Command::Convert {
            start: 5,
            end: 33,
            size: u64::MAX,
        };
        assert_eq!(
            read_words("convert 5 33 99999999999999999999999"),
            Ok(largest)
        );
    }
}
