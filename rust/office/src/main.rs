//! What phayaklitd is tried with, by name; tests/office.sh builds both and says what there is.

mod clients;
mod damage;
mod disk;
mod failures;
mod kept;
mod kills;
mod log;
mod manners;
mod many;
mod order;
mod record;
mod rows;
mod service;
mod tracer;

use check::options::{exit, Options};
use service::Program;
use std::process::ExitCode;

fn tried(own: &str, name: &str, words: &[String]) -> Result<String, String> {
    let options = Options::parse(words, &["--program", "--seed", "--length"])?;
    let program = Program(options.text("--program").ok_or("--program is not given")?.to_string());
    let seed = options.number("--seed", 1)?;
    let told = match name {
        "kills" => kills::check(&program, options.number("--length", 50)? as usize, seed)?,
        "many" => many::check(&program, options.number("--length", 300)? as usize, seed)?,
        "disk" => disk::check(&program)?,
        "order" => order::check(&program)?,
        "damage" => damage::check(&program)?,
        "log" => log::check(&program)?,
        "manners" => manners::check(&program)?,
        "record" => record::check(&program, own)?,
        "kept" => kept::check(&program)?,
        "failures" => failures::check(&program)?,
        "clients" => clients::check(&program)?,
        _ => return Err("there is no such test: tests/office.sh has the names".to_string()),
    };
    Ok(format!("{name}: {told}"))
}

fn main() -> ExitCode {
    let words: Vec<String> = std::env::args().collect();
    let names: Vec<&str> = words.iter().map(String::as_str).collect();
    match names[..] {
        [_, "send", socket, requests] => match record::send(socket, requests) {
            Ok(heard) => {
                print!("{heard}");
                ExitCode::SUCCESS
            }
            Err(why) => exit(Err(why)),
        },
        [own, name, ..] => exit(tried(own, name, &words[2..])),
        _ => exit(Err("no test is named".to_string())),
    }
}
