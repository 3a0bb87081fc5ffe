//! The completions, as the shells call them.

use crate::program::Folder;

/// What bash offers at the end of a line.
fn offered(folder: &Folder, line: &str) -> Vec<String> {
    let words: Vec<String> = line.split(' ').map(|word| format!("'{word}'")).collect();
    let script = format!(
        "source <($B completions bash); COMP_LINE='{line}'; COMP_POINT=${{#COMP_LINE}}; COMP_WORDS=({}); COMP_CWORD={}; \
         _balzenoh balzenoh '' ''; printf '%s\\n' \"${{COMPREPLY[@]}}\"",
        words.join(" "),
        words.len() - 1
    );
    let run = folder.shell(&script).exits(0);
    assert_eq!(run.stderr, "", "{line}");
    let mut offered: Vec<_> = run.text().lines().filter(|line| !line.is_empty()).map(str::to_string).collect();
    offered.sort();
    offered
}

#[test]
fn bash_completes_commands_options_and_files() {
    let folder = Folder::new("bash");
    for name in ["key file", "list", "list.sealed"] {
        folder.write(name, b"");
    }
    assert_eq!(offered(&folder, "balzenoh seal"), ["seal", "seal-run"]);
    assert_eq!(offered(&folder, "balzenoh --v"), ["--version"]);
    assert_eq!(offered(&folder, "balzenoh seal --r"), ["--runs"]);
    assert_eq!(offered(&folder, "balzenoh seal-run --l"), ["--last"]);
    assert_eq!(
        offered(&folder, "balzenoh open --key @list -"),
        ["--finish", "--help", "--key", "--output", "--runs", "--threads", "-h", "-o"]
    );
    assert_eq!(offered(&folder, "balzenoh open li"), ["list", "list.sealed"]);
    assert_eq!(offered(&folder, "balzenoh open -o li"), ["list", "list.sealed"]);
    assert_eq!(offered(&folder, "balzenoh seal --runs l"), Vec::<String>::new());
    assert_eq!(offered(&folder, "balzenoh jump --distance -"), Vec::<String>::new());
    assert_eq!(offered(&folder, "balzenoh close --finish "), ["cipher", "sha1"]);
    assert_eq!(offered(&folder, "balzenoh seal --finish=s"), ["sha1"]);
    assert_eq!(offered(&folder, "balzenoh sha1 li"), ["list", "list.sealed"]);
    assert_eq!(offered(&folder, "balzenoh completions "), ["bash", "zsh"]);
    assert_eq!(offered(&folder, "balzenoh help op"), ["open"]);
}

#[test]
fn bash_completes_values_from_files() {
    let folder = Folder::new("bash-values");
    for name in ["key file", "keys", "list"] {
        folder.write(name, b"");
    }
    assert_eq!(offered(&folder, "balzenoh seal --key @ke"), ["@key\\ file", "@keys"]);
    assert_eq!(offered(&folder, "balzenoh seal --key=@l"), ["@list"]);
    assert_eq!(offered(&folder, "balzenoh join @l"), ["@list"]);
}

#[test]
fn bash_knows_every_command_of_the_help() {
    let folder = Folder::new("bash-all");
    let offered = offered(&folder, "balzenoh ");
    for command in folder.commands() {
        assert!(offered.contains(&command), "{command}");
    }
}

#[test]
fn zsh_takes_the_completions() {
    let folder = Folder::new("zsh");
    let script = folder.run(&["completions", "zsh"]).exits(0).text();
    assert!(script.starts_with("#compdef balzenoh\n") && script.contains(":FINISH:(cipher sha1)'"));
    if folder.shell("command -v zsh").status != Some(0) {
        eprintln!("left out: there is no zsh");
        return;
    }
    folder.shell("$B completions zsh > _balzenoh && zsh -n _balzenoh").exits(0);
}

#[test]
fn other_shells_are_not_known() {
    let folder = Folder::new("shells");
    folder.run(&["completions", "fish"]).exits(64).tells("bash and zsh");
    folder.run(&["completions"]).exits(64).tells("SHELL is missing");
}
