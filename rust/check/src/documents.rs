//! The protocol's example is one: in docs/PROTOCOL.md, in the stored files and in the proofs; and the account answers
//! it so.

use account::wire::Wire;
use std::fs;
use std::path::PathBuf;

fn read(path: &str) -> Result<String, String> {
    let top = PathBuf::from(concat!(env!("CARGO_MANIFEST_DIR"), "/../.."));
    fs::read_to_string(top.join(path)).map_err(|error| format!("{path}: {error}"))
}

/// What stands between two marks of a page.
fn between<'a>(page: &'a str, begin: &str, end: &str) -> &'a str {
    let rest = page.split_once(begin).map_or("", |(_, rest)| rest);
    rest.split_once(end).map_or(rest, |(part, _)| part)
}

/// The lines of the session in the protocol. Those that begin with `> ` are sent.
fn documented() -> Result<Vec<String>, String> {
    let page = read("docs/PROTOCOL.md")?;
    let lines = between(&page, "## A session\n", "\n## ").lines().filter(|line| line.starts_with("    "));
    Ok(lines.map(|line| line.split_whitespace().collect::<Vec<_>>().join(" ")).collect())
}

/// The session for which the proofs compute the answers: all of its texts in turn.
fn proved() -> Result<String, String> {
    let page = read("crates/wire/proofs/Cases.antt")?;
    let table = between(&page, "\nsession =\n", "∷ []");
    let texts = table.split('"').skip(1).step_by(2);
    Ok(texts.collect::<String>().replace("\\n", "\n"))
}

fn tabbed<'a>(lines: impl Iterator<Item = &'a str>) -> String {
    lines.map(|line| line.replace(' ', "\t") + "\n").collect()
}

fn same(what: &str, expected: &str, found: &str) -> Result<(), String> {
    if expected == found {
        return Ok(());
    }
    Err(format!("docs/PROTOCOL.md and {what} differ\n--- the protocol\n{expected}\n--- {what}\n{found}"))
}

pub fn check() -> Result<(), String> {
    let session = documented()?;
    let sent = tabbed(session.iter().filter_map(|line| line.strip_prefix("> ")));
    let answers = tabbed(session.iter().filter(|line| !line.starts_with("> ")).map(String::as_str));
    if sent.lines().count() < 10 {
        return Err("docs/PROTOCOL.md has no session of ten requests".to_string());
    }
    let answered = Wire::default().answers(sent.as_bytes()).concat();
    same("what the account answers", &answers, &String::from_utf8_lossy(&answered))?;
    same("examples/conversation.requests", &sent, &read("examples/conversation.requests")?)?;
    same("examples/conversation.answers", &answers, &read("examples/conversation.answers")?)?;
    let lines: String = session.iter().map(|line| format!("{}\n", line.strip_prefix("> ").unwrap_or(line))).collect();
    same("crates/wire/proofs/Cases.antt", &lines, &proved()?)
}
