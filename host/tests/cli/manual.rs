//! The man page, held against the help and, where there is one, a formatter.

use balzenoh::Refusal;

use crate::program::Folder;

/// The words of a text that begin like options.
fn options(text: &str) -> Vec<String> {
    let plain = text.replace("\\-", "-");
    let words = plain.split(|c: char| !c.is_ascii_alphabetic() && c != '-');
    let mut found: Vec<_> = words.filter(|word| word.starts_with("--") && word.len() > 2).map(str::to_string).collect();
    found.sort();
    found.dedup();
    found
}

#[test]
fn the_page_has_every_command_and_option_of_the_help() {
    let folder = Folder::new("page");
    let page = folder.run(&["man"]).exits(0).text();
    assert!(folder.commands().len() > 9);
    for command in folder.commands() {
        assert!(page.contains(&format!(".SS {}", command.replace('-', "\\-"))), "{command}");
        let help = folder.run(&[&command, "--help"]).exits(0).text();
        for option in options(&help) {
            assert!(options(&page).contains(&option), "{command} {option}");
        }
    }
}

#[test]
fn the_page_and_the_help_have_every_refusal() {
    let folder = Folder::new("refusals");
    let (page, help) = (folder.run(&["man"]).exits(0).text(), folder.run(&["--help"]).exits(0).text());
    let statuses = help.split("EXIT STATUS").nth(1).expect("the statuses");
    for number in (1..=255).filter(|&number| !matches!(Refusal::from_number(number), Refusal::Unknown(_))) {
        assert!(page.contains(&format!("\n.TP\n.B {number}\n")), "{number}");
        assert!(statuses.contains(&format!("\n  {number:3}   ")), "{number}");
    }
}

#[test]
fn the_page_is_formatted_without_a_warning() {
    let folder = Folder::new("formatted");
    if folder.shell("command -v groff").status != Some(0) {
        eprintln!("left out: there is no program `groff`");
        return;
    }
    let formatted = folder.shell("$B man | groff -man -Tascii -ww -rLL=100n -P-c | sed 's/.\x08//g'").exits(0);
    assert_eq!(formatted.stderr, "");
    assert!(formatted.text().contains("SYNOPSIS") && formatted.text().contains("-o routes.sealed"));
}
