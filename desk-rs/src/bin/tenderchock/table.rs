//! The commands and their options, as one table. The words of the command line are read by it; the help texts, the
//! man page and the completions are made from it.

/// A command.
#[derive(Debug, PartialEq, Eq)]
pub struct Verb {
    pub name: &'static str,
    /// The words that follow it, as usage shows them.
    pub words: &'static str,
    /// What it does, in a line.
    pub does: &'static str,
    /// What else is to be known, a paragraph each.
    pub about: &'static [&'static str],
    /// When it ends with 0, 1 and 2; one that never ends so has no words.
    pub statuses: [&'static str; 3],
    /// A line after `$ ` is typed, those below it are what comes; a test runs it in a folder beside `examples`.
    pub example: &'static str,
    pub follows: Follows,
}

/// What the words after a command are.
#[derive(Debug, PartialEq, Eq)]
pub enum Follows {
    Files,
    Nothing,
    OneOf(&'static [&'static str]),
}

/// An option, and the commands that take it.
#[derive(Debug, PartialEq, Eq)]
pub struct Known {
    pub name: &'static str,
    pub value: Value,
    pub commands: &'static [&'static str],
    pub does: &'static str,
}

/// What follows an option, as a word of its own or after `=`.
#[derive(Debug, PartialEq, Eq)]
pub enum Value {
    None,
    File,
    Number,
    OneOf(&'static [&'static str]),
}

impl Verb {
    /// `tenderchock check FILE..`
    pub fn usage(&self) -> String {
        let usage = format!("tenderchock {} {}", self.name, self.words);
        usage.trim_end().to_string()
    }

    /// The options that it takes, in the table's order.
    pub fn options(&self) -> impl Iterator<Item = &'static Known> + '_ {
        let takes = |known: &&Known| known.commands.contains(&self.name);
        KNOWN.iter().filter(takes)
    }
}

impl Known {
    /// The option and what follows it: `--kind KIND`.
    pub fn shown(&self) -> String {
        match self.value {
            Value::None => self.name.to_string(),
            Value::File => format!("{} FILE", self.name),
            Value::Number => format!("{} F", self.name),
            Value::OneOf(words) => format!("{} {}", self.name, words.join("|")),
        }
    }
}

pub fn verb(name: &str) -> Option<&'static Verb> {
    VERBS.iter().find(|verb| verb.name == name)
}

/// What the program is, in a line.
pub const PROGRAM: &str = "reads, checks, writes and lifts BED lines, PSL lines and chains";

pub const KINDS: &[&str] = &["bed", "psl", "chain"];
pub const SHELLS: &[&str] = &["bash", "zsh", "fish"];
const TEXTS: &[&str] = &["check", "format", "turn", "lift"];
const REWRITES: &[&str] = &["format", "turn"];

const USAGE_OR_FILES: &str = "bad usage, or a file that can't be read or written";
const NEVER: &str = "";
const WRITTEN: &str = "it is written";

/// What holds for all commands.
pub const ABOUT: &[&str] = &[
    "FILE is a .bed, .psl or .chain file, also with .gz behind it; --kind says what a file with another ending holds. \
     A file that gzip compressed is unpacked, whatever its name. `-` is standard input, and as OUT standard output. \
     `--` ends the options.",
    "Each line of a BED or PSL file is a text, and each chain of a chain file. Lines that begin with `#`, or with the \
     word `track` or `browser`, are passed over and counted. Nothing is mended: a text is accepted as it stands, or \
     refused with file, line, column and one of thirteen numbers.",
    "A file is written whole or not at all: a run that fails leaves every file as it was.",
];

/// How a run ends, whatever the command.
pub const STATUSES: [&str; 3] = [
    "all was accepted (and lifted)",
    "something was refused or not lifted",
    USAGE_OR_FILES,
];

pub const VERBS: &[Verb] = &[
    Verb {
        name: "check",
        words: "FILE..",
        does: "tell every refusal, and count what is accepted",
        about: &[
            "A refusal is one line on standard output: file, line and column (bytes, from 1), the number in the \
             refusal ledger, what it means, the word at fault, and where it helps a hint. A note is about a text that \
             is accepted, as where a name looks like a date that a spreadsheet made. A summary ends each file.",
        ],
        statuses: [
            "all is accepted",
            "something is refused",
            "bad usage, or a file that can't be read",
        ],
        example: "\
$ tenderchock check examples/exons.bed
examples/exons.bed: 4 BED lines accepted, 0 refused, 2 passed over (#, track or browser)
",
        follows: Follows::Files,
    },
    Verb {
        name: "format",
        words: "FILE..",
        does: "write what is accepted as its standard text",
        about: &[
            "The standard text has a tab between the words of a BED or PSL line, one space in a chain, a comma after \
             each number of a list, and a line feed at the end of each line. A blank line ends each chain. Refusals \
             are told on standard error.",
        ],
        statuses: ["all is accepted and written", "something is refused", USAGE_OR_FILES],
        example: "\
$ printf 'chr22 1000  5000 cloneA' | tenderchock format --quiet --kind bed -
chr22	1000	5000	cloneA
",
        follows: Follows::Files,
    },
    Verb {
        name: "turn",
        words: "CHAIN",
        does: "write each chain with target and query exchanged",
        about: &[
            "If a chain is refused, nothing is written, unless --keep-going is given. A blank line ends each chain.",
        ],
        statuses: ["every chain is turned", "a chain is refused", USAGE_OR_FILES],
        example: "\
$ tenderchock turn --quiet examples/a.chain | head -n 4
chain 100 qB 80 + 47 75 tA 100 - 60 90 7
9 1 0
8 0 3
10
",
        follows: Follows::Files,
    },
    Verb {
        name: "lift",
        words: "CHAIN IN.bed OUT UNMAPPED",
        does: "lift BED lines through the chains of a file",
        about: &[
            "The blocks of a line (a line of up to 9 columns has one, its span) are lifted one by one through the \
             chain whose target is the line's chrom and in which it keeps bases. OUT gets the line on the query, with \
             as many columns: name, score and colour as they are; the strand, turned round if the chain's query strand \
             is `-`; the blocks in order; the thick part, whose ends move inward to a base that is kept.",
            "UNMAPPED gets every other line as it stands, after a `#` line that says why: it is refused, no chain has \
             its chrom, a block keeps no base (12) or too few, it is not inside the target (13), or it keeps bases in \
             more than one chain. If a chain of the file is refused, nothing is lifted. The tally at the end counts \
             the bases asked, kept and dropped of the lines sent through a chain.",
        ],
        statuses: [
            "every line is lifted",
            "a line or a chain is refused, or a line is not lifted",
            USAGE_OR_FILES,
        ],
        example: "\
$ printf 'tA\\t10\\t20\\n' | tenderchock lift --quiet examples/a.chain - - unmapped.bed
qB	65	75
",
        follows: Follows::Files,
    },
    Verb {
        name: "convert",
        words: "START END SIZE",
        does: "write start and end on the other strand of a sequence",
        about: &["These are SIZE - END and SIZE - START."],
        statuses: [WRITTEN, "the numbers are refused", "bad usage"],
        example: "\
$ tenderchock convert 5 33 80
47	75
",
        follows: Follows::Nothing,
    },
    Verb {
        name: "man",
        words: "",
        does: "write the man page",
        about: &["Where man looks for it: share/man/man1 beside the folder of the program."],
        statuses: [WRITTEN, NEVER, "bad usage, or standard output can't be written"],
        example: "\
$ tenderchock man > tenderchock.1
",
        follows: Follows::Nothing,
    },
    Verb {
        name: "completion",
        words: "bash|zsh|fish",
        does: "write the completion of a shell",
        about: &[
            "bash reads it from ~/.local/share/bash-completion/completions/tenderchock, fish from \
             ~/.config/fish/completions/tenderchock.fish, zsh from a file _tenderchock in a folder of its fpath.",
        ],
        statuses: [WRITTEN, NEVER, "bad usage, or standard output can't be written"],
        example: "\
$ tenderchock completion fish > tenderchock.fish
",
        follows: Follows::OneOf(SHELLS),
    },
];

pub const KNOWN: &[Known] = &[
    Known {
        name: "--kind",
        value: Value::OneOf(KINDS),
        commands: &["check", "format", "turn"],
        does: "what the files hold, whatever their ending",
    },
    Known {
        name: "--all",
        value: Value::None,
        commands: TEXTS,
        does: "tell every refusal; else 20 of a number are told of a file, and the rest counted",
    },
    Known {
        name: "--quiet",
        value: Value::None,
        commands: TEXTS,
        does: "tell refusals only: no notes, no summary",
    },
    Known {
        name: "--strict",
        value: Value::None,
        commands: TEXTS,
        does: "a note counts as a refusal",
    },
    Known {
        name: "--tsv",
        value: Value::None,
        commands: &["check"],
        does: "refusals and notes as rows of a table; a note has the number 0",
    },
    Known {
        name: "--out",
        value: Value::File,
        commands: REWRITES,
        does: "write FILE; if a text is refused, nothing is written",
    },
    Known {
        name: "--keep-going",
        value: Value::None,
        commands: REWRITES,
        does: "write what is accepted all the same",
    },
    Known {
        name: "--tabs",
        value: Value::None,
        commands: REWRITES,
        does: "a chain's block lines with tabs",
    },
    Known {
        name: "--min-kept",
        value: Value::Number,
        commands: &["lift"],
        does: "the share of its bases that a block must keep, above 0 and at most 1 (usually 1)",
    },
    Known {
        name: "--max-grow",
        value: Value::Number,
        commands: &["lift"],
        does: "how many times as long as asked a query region may be (usually 2)",
    },
    Known {
        name: "--several",
        value: Value::OneOf(&["none", "best", "all"]),
        commands: &["lift"],
        does: "a line in several chains. none: not lifted (as usual); best: through the one with the greatest score, \
               then the smallest id; all: through each",
    },
    Known {
        name: "--summary",
        value: Value::File,
        commands: &["lift"],
        does: "lines and bases of each chrom, as a table",
    },
    Known {
        name: "--drop-blocks",
        value: Value::None,
        commands: &["lift"],
        does: "leave out the blocks that are lost, and name them",
    },
    Known {
        name: "--span",
        value: Value::None,
        commands: &["lift"],
        does: "lift a line from chromStart to chromEnd, and leave out columns 7 to 12",
    },
    Known {
        name: "--header",
        value: Value::None,
        commands: &["lift"],
        does: "copy the leading lines that are passed over to OUT",
    },
];
