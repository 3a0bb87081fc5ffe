//! The script for zsh.

use super::super::table::{options, Command, Operand, Opt, Value, COMMANDS, HELP, VERSION};

/// Digits cannot be completed; the name of a file after `@` can.
const VALUE: &str = "_balzenoh_value() {\n    compset -P '@' && _files\n}\n";

pub fn script() -> String {
    let commands: String =
        COMMANDS.iter().map(|command| format!("        '{}:{}'\n", command.name, quoted(command.summary))).collect();
    let global: String = [&HELP, &VERSION].into_iter().map(specification).collect();
    let cases: String = COMMANDS.iter().map(case).collect();
    format!(
        r#"#compdef balzenoh

{VALUE}
_balzenoh() {{
    local -a commands
    commands=(
{commands}    )
    if (( CURRENT == 2 )); then
        _describe -t commands command commands
        _arguments{global}
        return
    fi
    shift words
    (( CURRENT-- ))
    case $words[1] in
{cases}    esac
}}

_balzenoh "$@"
"#
    )
}

fn case(command: &'static Command) -> String {
    let options: String = options(command).map(specification).collect();
    let (name, ..) = command.operand.shape();
    let operand = match command.operand {
        Operand::None => String::new(),
        Operand::Input => format!(" \\\n                '1:{name}:_files'"),
        Operand::Record => format!(" \\\n                '1:{name}:_balzenoh_value'"),
        Operand::Records => format!(" \\\n                '*:{name}:_balzenoh_value'"),
        Operand::Shell => format!(" \\\n                '1:{name}:(bash zsh)'"),
        Operand::Command => format!(" \\\n                '1:{name}:{{_describe -t commands command commands}}'"),
    };
    format!("        {})\n            _arguments -S{options}{operand} ;;\n", command.name)
}

/// An option as `_arguments` takes it.
fn specification(option: &Opt) -> String {
    let (text, value) = (quoted(option.text), option.value.name().unwrap_or_default());
    let action = match option.value {
        Value::Nothing => String::new(),
        Value::Digits(_) => format!(":{value}:_balzenoh_value"),
        Value::Number(..) => format!(":{value}: "),
        Value::File(_) => format!(":{value}:_files"),
        Value::Choice(_, words) => format!(":{value}:({})", words.join(" ")),
    };
    let (long, short) = if value.is_empty() { ("", "") } else { ("=", "+") };
    match option.short {
        None => format!(" \\\n                '{}{long}[{text}]{action}'", option.long),
        Some(name) => {
            let both = format!("({name} {})", option.long);
            format!(
                " \\\n                '{both}{name}{short}[{text}]{action}' \\\n                '{both}{}{long}[{text}]{action}'",
                option.long
            )
        }
    }
}

/// Text within single quotes, brackets and colons.
fn quoted(text: &str) -> String {
    text.replace('\'', "'\\''").replace('[', "\\[").replace(']', "\\]").replace(':', "\\:")
}
