//! The script for bash.

use super::super::table::{options, Command, Operand, Opt, Value, COMMANDS, HELP, VERSION};

/// What completes any line, once it is known what may stand there. Bash takes `=` for the end of a word, and replaces only what
/// follows it; names of files it quotes itself where it is told that they are such, which those after `@` are not.
const COMPLETE: &str = r#"_balzenoh() {
    local line=${COMP_LINE:0:COMP_POINT} words word before options operand value
    read -ra words <<< "$line"
    word=${line##*[[:space:]]}
    [[ -z $word ]] && words+=('')
    before=${words[-2]}
    COMPREPLY=()
    if (( ${#words[@]} == 2 )); then
        options=$_balzenoh_commands operand=words
    else
        _balzenoh_command "${words[1]}"
    fi
    case $word in
        --*=*) before=${word%%=*} word=${word#*=} ;;
    esac
    value=$(_balzenoh_value "$before")
    if [[ -n $value ]]; then
        _balzenoh_offer "$value" "$word"
    elif [[ $word == -* || $operand == words ]]; then
        _balzenoh_offer "$options" "$word"
    else
        _balzenoh_offer "$operand" "$word"
    fi
}

_balzenoh_offer() {
    case $1 in
        none) ;;
        file) mapfile -t COMPREPLY < <(compgen -f -- "$2"); compopt -o filenames 2> /dev/null ;;
        digits)
            [[ $2 == @* ]] || return
            local name
            while read -r name; do COMPREPLY+=("@$(printf %q "$name")"); done < <(compgen -f -- "${2#@}") ;;
        *) mapfile -t COMPREPLY < <(compgen -W "$1" -- "$2") ;;
    esac
}

complete -F _balzenoh balzenoh
"#;

pub fn script() -> String {
    let commands = COMMANDS.iter().map(|command| command.name).chain([&HELP, &VERSION].into_iter().flat_map(names));
    let commands = commands.collect::<Vec<_>>().join(" ");
    let cases: String = COMMANDS.iter().map(case).collect();
    let values = values();
    format!(
        "# Completions of balzenoh for bash.

_balzenoh_commands='{commands}'

_balzenoh_command() {{
    case $1 in
{cases}    esac
}}

{values}
{COMPLETE}"
    )
}

/// The options of a command, and what its operands are.
fn case(command: &'static Command) -> String {
    let options: Vec<_> = options(command).flat_map(names).collect();
    let operand = match command.operand {
        Operand::None => "none",
        Operand::Input => "file",
        Operand::Record | Operand::Records => "digits",
        Operand::Shell => "bash zsh",
        Operand::Command => "$_balzenoh_commands",
    };
    format!("        {}) options='{}' operand=\"{operand}\" ;;\n", command.name, options.join(" "))
}

/// What follows each option that takes a value.
fn values() -> String {
    let mut rows = Vec::new();
    for option in COMMANDS.iter().flat_map(|command| command.options) {
        let kind = match option.value {
            Value::Nothing => continue,
            Value::Digits(_) => "digits".to_string(),
            Value::Number(..) => "none".to_string(),
            Value::File(_) => "file".to_string(),
            Value::Choice(_, words) => words.join(" "),
        };
        let row = format!("        {}) echo {kind} ;;\n", names(option).collect::<Vec<_>>().join("|"));
        if !rows.contains(&row) {
            rows.push(row);
        }
    }
    format!("_balzenoh_value() {{\n    case $1 in\n{}    esac\n}}\n", rows.concat())
}

fn names(option: &'static Opt) -> impl Iterator<Item = &'static str> {
    option.short.into_iter().chain([option.long])
}
