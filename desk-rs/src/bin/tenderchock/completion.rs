//! The completions of three shells, made from the table of commands.

use crate::table::{Follows, Known, Value, Verb, KNOWN, VERBS};

/// The options that every command takes, and what they do.
const ALWAYS: (&str, &str) = ("--help", "its options, an example and its exit status");
/// What may stand in the place of a command.
const ALONE: [(&str, &str); 2] = [
    ("--help", "the commands in short"),
    (
        "--version",
        "the version, and whether the proofs were checked in its build",
    ),
];

/// The completion of a shell that the table names.
pub fn of_shell(shell: &str) -> Option<String> {
    match shell {
        "bash" => Some(bash()),
        "zsh" => Some(zsh()),
        "fish" => Some(fish()),
        _ => None,
    }
}

fn names() -> Vec<&'static str> {
    VERBS.iter().map(|verb| verb.name).collect()
}

fn bash() -> String {
    let mut values = String::new();
    for known in KNOWN {
        let reply = match known.value {
            Value::None => continue,
            Value::File => "COMPREPLY=($(compgen -f -- \"$word\"))".to_string(),
            Value::Number => "COMPREPLY=()".to_string(),
            Value::OneOf(words) => reply(words),
        };
        values += &format!("        {}) {reply}; return ;;\n", known.name);
    }
    let mut cases = String::new();
    for verb in VERBS {
        let options: Vec<&str> = verb
            .options()
            .map(|known| known.name)
            .chain([ALWAYS.0])
            .collect();
        cases += &format!("        {}:-*) {} ;;\n", verb.name, reply(&options));
        if let Follows::OneOf(words) = verb.follows {
            cases += &format!("        {}:*) {} ;;\n", verb.name, reply(words));
        }
    }
    let alone: Vec<&str> = names()
        .into_iter()
        .chain(ALONE.map(|(name, _)| name))
        .collect();
    format!(
        "\
# bash completion for tenderchock, written by `tenderchock completion bash`
_tenderchock() {{
    local word=${{COMP_WORDS[COMP_CWORD]}} before=${{COMP_WORDS[COMP_CWORD - 1]}} command= at
    # An option and its value may be parted by `=`.
    if [[ $word == = ]]; then
        word=
    elif [[ $before == = ]]; then
        before=${{COMP_WORDS[COMP_CWORD - 2]}}
    fi
    for ((at = 1; at < COMP_CWORD; at++)); do
        case ${{COMP_WORDS[at]}} in
            {}) command=${{COMP_WORDS[at]}}; break ;;
        esac
    done
    COMPREPLY=()
    case $before in
{values}    esac
    case $command:$word in
        :*) {} ;;
{cases}    esac
}}
complete -o default -F _tenderchock tenderchock
",
        names().join("|"),
        reply(&alone)
    )
}

/// What bash chooses from.
fn reply(words: &[&str]) -> String {
    format!(
        "COMPREPLY=($(compgen -W '{}' -- \"$word\"))",
        words.join(" ")
    )
}

fn zsh() -> String {
    let described = |(name, does): (&str, &str)| {
        format!("        '{}:{}'\n", name, quoted(&does.replace(':', "\\:")))
    };
    let commands: String = VERBS
        .iter()
        .map(|verb| described((verb.name, verb.does)))
        .collect();
    let alone: String = ALONE
        .map(|(name, does)| option(name, does, ""))
        .join(" \\\n        ");
    let mut cases = String::new();
    for verb in VERBS {
        let options = verb
            .options()
            .map(|known| option(known.name, known.does, &value(known)));
        let mut words: Vec<String> = options.chain([option(ALWAYS.0, ALWAYS.1, "")]).collect();
        match verb.follows {
            Follows::Files => words.push("'*:file:_files'".into()),
            Follows::Nothing => (),
            Follows::OneOf(of) => words.push(format!("'1:word:({})'", of.join(" "))),
        }
        let words = words.join(" \\\n                    ");
        cases += &format!(
            "                {})\n                    _arguments {words} ;;\n",
            verb.name
        );
    }
    format!(
        "\
#compdef tenderchock
# zsh completion for tenderchock, written by `tenderchock completion zsh`
_tenderchock() {{
    local context state line
    local -a commands
    typeset -A opt_args
    commands=(
{commands}    )
    _arguments -C \\
        {alone} \\
        '1:command:->command' \\
        '*::word:->words'
    case $state in
        command) _describe command commands ;;
        words)
            case $line[1] in
{cases}            esac ;;
    esac
}}
_tenderchock \"$@\"
"
    )
}

/// An option as `_arguments` takes it.
fn option(name: &str, does: &str, value: &str) -> String {
    let does = does.replace('[', "\\[").replace(']', "\\]");
    format!("'{name}[{}]{value}'", quoted(&does))
}

/// What follows an option, as `_arguments` takes it.
fn value(known: &Known) -> String {
    match known.value {
        Value::None => String::new(),
        Value::File => ":file:_files".to_string(),
        Value::Number => ":number: ".to_string(),
        Value::OneOf(words) => format!(":word:({})", words.join(" ")),
    }
}

/// Within single quotation marks.
fn quoted(text: &str) -> String {
    text.replace('\'', "'\\''")
}

fn fish() -> String {
    let mut text =
        "# fish completion for tenderchock, written by `tenderchock completion fish`\n".to_string();
    let described = |does: &str| does.replace('\\', "\\\\").replace('\'', "\\'");
    let first = "complete -c tenderchock -n __fish_use_subcommand";
    for verb in VERBS {
        text += &format!(
            "{first} -f -a {} -d '{}'\n",
            verb.name,
            described(verb.does)
        );
    }
    for (name, does) in ALONE {
        text += &format!("{first} -f -l {} -d '{}'\n", long(name), described(does));
    }
    for Known {
        name,
        value,
        commands,
        does,
    } in KNOWN
    {
        let follows = match value {
            Value::None => String::new(),
            Value::File => " -r -F".to_string(),
            Value::Number => " -x".to_string(),
            Value::OneOf(words) => format!(" -x -a '{}'", words.join(" ")),
        };
        let (seen, does) = (seen(commands), described(does));
        text += &format!(
            "complete -c tenderchock -n '{seen}' -l {}{follows} -d '{does}'\n",
            long(name)
        );
    }
    let (seen_any, does) = (seen(&names()), described(ALWAYS.1));
    text += &format!(
        "complete -c tenderchock -n '{seen_any}' -l {} -d '{does}'\n",
        long(ALWAYS.0)
    );
    for Verb { name, follows, .. } in VERBS {
        let seen = seen(&[name]);
        match follows {
            Follows::Files => (),
            Follows::Nothing => text += &format!("complete -c tenderchock -n '{seen}' -f\n"),
            Follows::OneOf(words) => {
                text += &format!(
                    "complete -c tenderchock -n '{seen}' -f -a '{}'\n",
                    words.join(" ")
                );
            }
        }
    }
    text
}

fn seen(commands: &[&str]) -> String {
    format!("__fish_seen_subcommand_from {}", commands.join(" "))
}

/// An option without its dashes.
fn long(name: &str) -> &str {
    name.trim_start_matches('-')
}
