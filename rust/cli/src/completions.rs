//! Completions for shells, made from the table of commands. `pevghazo completions SHELL` prints them; the folder `completions`
//! holds what it prints.

use std::fmt::Write;

use crate::failure::Failure;
use crate::table::{ABOUT_AREAS, AREAS, COMMANDS, COMMON, Command, Opt, Value};

/// The shells.
pub const SHELLS: [&str; 3] = ["bash", "zsh", "fish"];

/// The completions of a shell.
pub fn of(shell: &str) -> Result<String, Failure> {
    match shell {
        "bash" => Ok(bash()),
        "zsh" => Ok(zsh()),
        "fish" => Ok(fish()),
        _ => Err(unknown()),
    }
}

/// Says which shells there are.
pub fn unknown() -> Failure {
    Failure::Usage(format!(
        "There are completions for {}: `pevghazo completions {}` prints those.",
        SHELLS.join(", "),
        SHELLS[0]
    ))
}

/// The words that may come first: what commands are about, and the commands that have no such word.
fn first_words() -> impl Iterator<Item = (&'static str, String)> {
    let areas = AREAS.into_iter().zip(ABOUT_AREAS.map(str::to_string));
    areas.chain(of_area("").map(|command| (command.name, command.about.to_string())))
}

/// The commands about one thing, or those that have no such word.
fn of_area(area: &str) -> impl Iterator<Item = &'static Command> {
    COMMANDS.iter().filter(move |command| command.area == area)
}

/// The options of a command, and `--help`, which every command has.
fn all_options(command: &'static Command) -> impl Iterator<Item = &'static Opt> {
    command.options.iter().chain(&COMMON[..1])
}

/// Words with spaces between them.
fn joined(words: impl Iterator<Item = String>) -> String {
    words.collect::<Vec<_>>().join(" ")
}

/// The names of all options whose value is such a one, as a pattern of a shell's `case`.
fn with_value(value: fn(Value) -> bool) -> String {
    let mut names: Vec<String> = Vec::new();
    for option in COMMANDS.iter().flat_map(|command| command.options).filter(|option| value(option.value)) {
        let name = format!("--{}", option.name);
        if !names.contains(&name) {
            names.push(name);
        }
    }
    names.join("|")
}

/// The options whose value is a word, each with its command and these words.
fn with_words() -> impl Iterator<Item = (&'static Command, &'static str, String)> {
    let options = COMMANDS.iter().flat_map(|command| command.options.iter().map(move |option| (command, option)));
    options.filter_map(|(command, option)| match option.value {
        Value::Word(words) => Some((command, option.name, words.join(" "))),
        _ => None,
    })
}

/// Such options as patterns of bash: each with the words of the first command that has it, whichever command is typed; before that, those
/// of a command where the words are others.
fn bash_words(text: &mut String) {
    let mut firsts: Vec<(&str, String)> = Vec::new();
    let mut others = String::new();
    for (command, name, words) in with_words() {
        match firsts.iter().find(|(first, _)| *first == name) {
            None => firsts.push((name, words)),
            Some((_, same)) if *same == words => {}
            Some(_) => {
                let _ =
                    writeln!(others, "        '{} {} --{name}') {} ;;", command.area, command.name, offered(&words));
            }
        }
    }
    let _ = write!(text, "    case \"$area $name $before\" in\n{others}    esac\n    case $before in\n");
    for (name, words) in firsts {
        let _ = writeln!(text, "        --{name}) {} ;;", offered(&words));
    }
}

/// The commands that files follow, as patterns of bash: files are offered, unless an option is being typed.
fn bash_files(text: &mut String) {
    text.push_str("    case \"$area $name $word\" in\n");
    for command in COMMANDS.iter().filter(|command| command.takes_files()) {
        let _ = writeln!(
            text,
            "        '{0} -'*) ;;\n        '{0} '*) compopt -o filenames; mapfile -t COMPREPLY < <(compgen -f -- \"$word\"); return ;;",
            command.path()
        );
    }
    text.push_str("    esac\n");
}

/// What bash does to offer words.
fn offered(words: &str) -> String {
    format!("mapfile -t COMPREPLY < <(compgen -P \"$prefix\" -W '{words}' -- \"$word\"); return")
}

fn bash() -> String {
    let mut text = String::from(
        "# Completions of pevghazo for bash; `pevghazo completions bash` prints them.\n\
         _pevghazo() {\n    \
             local word before prefix='' help='' area='' name='' i skip=''\n    \
             COMPREPLY=()\n    \
             # `--name=value` comes as three words where `=` is a word break, and as one where it is not.\n    \
             local -a all=()\n    \
             for ((i = 1; i <= COMP_CWORD; i++)); do\n        \
                 word=${COMP_WORDS[i]}\n        \
                 if [[ $word == = && ${COMP_WORDS[i-1]} == --* ]]; then\n            \
                     ((i < COMP_CWORD)) || all+=('')\n        \
                 elif [[ $word == --*=* ]]; then all+=(\"${word%%=*}\" \"${word#*=}\")\n        \
                 else all+=(\"$word\"); fi\n    \
             done\n    \
             [[ $word == --*=* ]] && prefix=${word%%=*}=\n    \
             word=${all[-1]}\n    \
             before=''\n    \
             ((${#all[@]} < 2)) || before=${all[-2]}\n    \
             unset 'all[-1]'\n    \
             for i in \"${all[@]}\"; do\n        \
                 if [[ -n $skip ]]; then skip=''; continue; fi\n        \
                 case $i in\n            \
                     ",
    );
    let _ = writeln!(text, "{}) skip=1 ;;", with_value(|value| value != Value::None));
    text.push_str("            -*) ;;\n");
    let _ = writeln!(text, "            {}) [[ -z $area$name ]] && area=$i || name=${{name:-$i}} ;;", AREAS.join("|"));
    text.push_str("            help) [[ -z $help$area$name ]] && help=1 || name=${name:-$i} ;;\n");
    text.push_str("            *) name=${name:-$i} ;;\n        esac\n    done\n");
    bash_words(&mut text);
    let _ = writeln!(
        text,
        "        {}) compopt -o filenames; mapfile -t COMPREPLY < <(compgen -P \"$prefix\" -f -- \"$word\"); return ;;",
        with_value(|value| value == Value::File)
    );
    let _ = writeln!(
        text,
        "        {}) compopt -o filenames; mapfile -t COMPREPLY < <(compgen -P \"$prefix\" -d -- \"$word\"); return ;;",
        with_value(|value| value == Value::Folder)
    );
    let _ = writeln!(
        text,
        "        {}) return ;;\n    esac\n    local words",
        with_value(|value| !matches!(value, Value::None | Value::File | Value::Folder | Value::Word(_)))
    );
    text.push_str("    [[ -n $help && -n $name ]] && return\n");
    bash_files(&mut text);
    text.push_str("    case \"$area $name\" in\n");
    let _ = writeln!(
        text,
        "        ' ') words='{} --help --version' ;;",
        joined(first_words().map(|(word, _)| word.to_string()))
    );
    for area in AREAS {
        let names = joined(of_area(area).map(|command| command.name.to_string()));
        let _ = writeln!(text, "        '{area} ') words='{names} --help' ;;");
    }
    for command in COMMANDS {
        let options = joined(all_options(command).map(|option| format!("--{}", option.name)));
        let _ = writeln!(text, "        '{} {}') words='{options}' ;;", command.area, command.name);
    }
    text.push_str(
        "        *) words='' ;;\n    esac\n    [[ -n $help ]] && words=${words%% --*}\n    mapfile -t COMPREPLY < <(compgen -W \"$words\" -- \"$word\")\n}\n\
         complete -F _pevghazo pevghazo\n",
    );
    text
}

/// A text in single quotes for zsh's lists of words, where a colon and brackets have a meaning.
fn zsh_text(text: &str) -> String {
    let mut quoted = String::new();
    for letter in text.chars() {
        match letter {
            '\'' => quoted.push_str("'\\''"),
            ':' | '[' | ']' => quoted.extend(['\\', letter]),
            letter => quoted.push(letter),
        }
    }
    quoted
}

fn zsh_option(option: &Opt) -> String {
    let about = zsh_text(option.about);
    let name = option.name;
    match option.value {
        Value::None => format!("'--{name}[{about}]'"),
        Value::File => format!("'--{name}=[{about}]:file:_files'"),
        Value::Folder => format!("'--{name}=[{about}]:folder:_files -/'"),
        Value::Word(words) => format!("'--{name}=[{about}]:word:({})'", words.join(" ")),
        value => format!("'--{name}=[{about}]:{value}: '"),
    }
}

fn zsh_words(text: &mut String, label: &str, words: impl Iterator<Item = (&'static str, String)>) {
    let listed = joined(words.map(|(word, about)| format!("'{word}:{}'", zsh_text(&about))));
    let _ = writeln!(text, "words_of=({listed}); _describe '{label}' words_of ;;");
}

fn zsh() -> String {
    let mut text = String::from(
        "#compdef pevghazo\n# Completions of pevghazo for zsh; `pevghazo completions zsh` prints them.\n\
         _pevghazo() {\n    local -a words_of\n    local help='' area='' name='' word skip=''\n    \
         for word in ${words[2,CURRENT-1]}; do\n        \
         if [[ -n $skip ]]; then skip=''; continue; fi\n        case $word in\n",
    );
    let _ = writeln!(text, "            {}) skip=1 ;;\n            -*) ;;", with_value(|value| value != Value::None));
    let _ = writeln!(text, "            {}) [[ -z $area$name ]] && area=$word ;;", AREAS.join("|"));
    text.push_str(
        "            help) [[ -z $help$area$name ]] && help=1 || name=$word ;;\n            \
         *) [[ -z $name ]] && name=$word ;;\n        esac\n    done\n    \
         [[ -n $help && -n $name ]] && return\n    case \"$area $name\" in\n        ' ') ",
    );
    zsh_words(&mut text, "command", first_words());
    for area in AREAS {
        let _ = write!(text, "        '{area} ') ");
        zsh_words(&mut text, "command", of_area(area).map(|command| (command.name, command.about.to_string())));
    }
    for command in COMMANDS {
        let options = joined(all_options(command).map(zsh_option));
        let words = if command.takes_files() { "*:file:_files" } else { "*: :" };
        let _ = writeln!(text, "        '{} {}') _arguments '{words}' {options} ;;", command.area, command.name);
    }
    text.push_str("    esac\n}\n_pevghazo \"$@\"\n");
    text
}

/// A text in single quotes for fish.
fn fish_text(text: &str) -> String {
    text.replace('\\', "\\\\").replace('\'', "\\'")
}

fn fish() -> String {
    let mut text = String::from(
        "# Completions of pevghazo for fish; `pevghazo completions fish` prints them.\ncomplete -c pevghazo -f\n",
    );
    let areas = AREAS.join(" ");
    let lone: Vec<&str> = of_area("").map(|command| command.name).collect();
    // After `help` the words of a command follow.
    let none_yet = lone.iter().filter(|name| **name != "help").fold(areas, |all, name| all + " " + name);
    let none_yet = format!("not __fish_seen_subcommand_from {none_yet}");
    for (word, about) in first_words() {
        let _ = writeln!(text, "complete -c pevghazo -n '{none_yet}' -a {word} -d '{}'", fish_text(&about));
    }
    for command in COMMANDS {
        let seen = if command.area.is_empty() {
            format!("__fish_seen_subcommand_from {}", command.name)
        } else {
            let names = joined(of_area(command.area).map(|command| command.name.to_string()));
            let area = format!("__fish_seen_subcommand_from {}", command.area);
            let _ = writeln!(
                text,
                "complete -c pevghazo -n '{area}; and not __fish_seen_subcommand_from {names}' -a {} -d '{}'",
                command.name,
                fish_text(command.about)
            );
            format!("{area}; and __fish_seen_subcommand_from {}", command.name)
        };
        let seen = format!("{seen}; and not __fish_seen_subcommand_from help");
        if command.takes_files() {
            let _ = writeln!(text, "complete -c pevghazo -n '{seen}' -F");
        }
        for option in command.options {
            let value = match option.value {
                Value::None => String::new(),
                Value::File => " -r -F".to_string(),
                Value::Folder => " -x -a '(__fish_complete_directories)'".to_string(),
                Value::Word(words) => format!(" -x -a '{}'", words.join(" ")),
                _ => " -x".to_string(),
            };
            let about = fish_text(option.about);
            let _ = writeln!(text, "complete -c pevghazo -n '{seen}' -l {}{value} -d '{about}'", option.name);
        }
    }
    for (place, option) in COMMON.iter().enumerate() {
        let letter = option.letter.map(|letter| format!(" -s {letter}")).unwrap_or_default();
        // The version goes with no command.
        let when = if place == 0 { String::new() } else { format!(" -n '{none_yet} help'") };
        let about = fish_text(option.about);
        let _ = writeln!(text, "complete -c pevghazo{when}{letter} -l {} -d '{about}'", option.name);
    }
    text
}
