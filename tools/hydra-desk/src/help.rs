//! `--help` and the completion for shells, from the table of commands.

use std::fmt::Write;

use crate::args::Opt;
use crate::commands::{Command, COMMANDS};

pub fn overview() -> String {
    let mut out = String::from(
        "hydra-desk: checks, explains and draws scripts of a site\n\nusage: hydra-desk COMMAND ...\n\n",
    );
    for command in COMMANDS {
        let usage = format!("{} {}", command.name, command.operands);
        let _ = writeln!(out, "  {usage:<32} {}", command.about);
    }
    out.push_str(
        "\nFILE is a script as `replay` reads it, of any length; - is standard input.\n\
         `hydra-desk COMMAND --help` tells the options of a command.\n\
         Exit status: 0 nothing refused, 1 lines refused, 2 unreadable or malformed, 3 output not written.\n",
    );
    out
}

pub fn of_command(command: &Command) -> String {
    let options = if command.options.is_empty() {
        ""
    } else {
        " [OPTION...]"
    };
    let mut out = format!(
        "usage: hydra-desk {}{options} {}\n\n{}\n",
        command.name, command.operands, command.about
    );
    if !command.options.is_empty() {
        out.push('\n');
    }
    for opt in command.options {
        let _ = writeln!(out, "  {:<26} {}", spelt(opt), opt.about);
    }
    out
}

fn spelt(opt: &Opt) -> String {
    let short = opt
        .short
        .map_or(String::new(), |short| format!("{short}, "));
    match opt.value {
        Some(value) => format!("{short}{} {value}", opt.long),
        None => format!("{short}{}", opt.long),
    }
}

pub fn completion(shell: &str) -> Option<String> {
    match shell {
        "bash" => Some(bash()),
        "zsh" => Some(format!(
            "#compdef hydra-desk\nautoload -U +X bashcompinit && bashcompinit\n{}",
            bash()
        )),
        "fish" => Some(fish()),
        _ => None,
    }
}

fn options(command: &Command) -> String {
    let words: Vec<&str> = command
        .options
        .iter()
        .flat_map(|opt| opt.short.into_iter().chain([opt.long]))
        .chain(["--help"])
        .collect();
    words.join(" ")
}

fn bash() -> String {
    let names: Vec<&str> = COMMANDS.iter().map(|command| command.name).collect();
    let mut out =
        String::from("_hydra_desk() {\n    local word=${COMP_WORDS[COMP_CWORD]} options=\n");
    out.push_str("    if ((COMP_CWORD == 1)); then\n");
    let _ = writeln!(
        out,
        "        COMPREPLY=($(compgen -W \"{} --help --version\" -- \"$word\"))\n        return\n    fi",
        names.join(" ")
    );
    out.push_str("    case ${COMP_WORDS[1]} in\n");
    for command in COMMANDS {
        let _ = writeln!(
            out,
            "    {}) options=\"{}\" ;;",
            command.name,
            options(command)
        );
    }
    out.push_str("    esac\n    if [[ $word == -* ]]; then\n");
    out.push_str("        COMPREPLY=($(compgen -W \"$options\" -- \"$word\"))\n    else\n");
    out.push_str("        COMPREPLY=($(compgen -f -- \"$word\"))\n    fi\n}\n");
    out.push_str("complete -o filenames -F _hydra_desk hydra-desk\n");
    out
}

fn fish() -> String {
    let mut out = String::new();
    for command in COMMANDS {
        let _ = writeln!(
            out,
            "complete -c hydra-desk -n __fish_use_subcommand -a {} -d '{}'",
            command.name, command.about
        );
        for opt in command.options {
            let short = opt
                .short
                .map_or(String::new(), |short| format!(" -s {}", &short[1..]));
            let value = if opt.value.is_some() { " -r" } else { "" };
            let _ = writeln!(
                out,
                "complete -c hydra-desk -n '__fish_seen_subcommand_from {}' -l {}{short}{value} -d '{}'",
                command.name,
                &opt.long[2..],
                opt.about
            );
        }
    }
    out
}
