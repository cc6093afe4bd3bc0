//! Makes the stand-in: a copy of the account with every fault of `list.rs` in it, each behind its switch.

#[allow(dead_code)]
#[path = "src/list.rs"]
mod list;

use list::FAULTS;
use std::path::Path;
use std::{env, fs};

/// What the account and its stand-in share: the types of calls and answers.
const SHARED: &str = "call";

fn main() {
    let sources = Path::new(concat!(env!("CARGO_MANIFEST_DIR"), "/../account/src"));
    println!("cargo:rerun-if-changed=src/list.rs");
    println!("cargo:rerun-if-changed={}", sources.display());
    let root = read(&sources.join("lib.rs"));
    let modules = root.lines().filter_map(|line| line.strip_prefix("pub mod ")?.strip_suffix(';'));
    let module = |name: &str| match name {
        SHARED => format!("pub mod {SHARED} {{ pub use ::account::{SHARED}::*; }}\n"),
        _ => format!("pub mod {name} {{\n{}}}\n", with_faults(name, read(&sources.join(name).with_extension("rs")))),
    };
    let out = Path::new(&env::var_os("OUT_DIR").expect("cargo names a folder")).join("standin.rs");
    fs::write(out, modules.map(module).collect::<String>()).expect("the folder can be written");
}

fn read(path: &Path) -> String {
    fs::read_to_string(path).unwrap_or_else(|error| panic!("{}: {error}", path.display()))
}

/// The source of a module. Where a fault's good text stands, an expression, the bad one is taken instead if its switch
/// is on.
fn with_faults(module: &str, source: String) -> String {
    let of_module = FAULTS.iter().filter(|fault| fault.module == module);
    let mut goods: Vec<&str> = of_module.map(|fault| fault.good).collect();
    goods.dedup();
    let mark = |at: usize| format!("@{at}@");
    let marked = goods.iter().enumerate().fold(source, |source, (at, good)| {
        let found = source.matches(good).count();
        assert!(found == 1, "{module}.rs has {found} places of one fault's good text: {good}");
        source.replace(good, &mark(at))
    });
    goods.iter().enumerate().fold(marked, |source, (at, good)| source.replace(&mark(at), &switched(module, good)))
}

fn switched(module: &str, good: &str) -> String {
    let faults = FAULTS.iter().enumerate().filter(|(_, fault)| (fault.module, fault.good) == (module, good));
    let cases: String =
        faults.map(|(at, fault)| format!("if crate::switch::on({at}) {{ {} }} else ", fault.bad)).collect();
    format!("{{ {cases} {{ {good} }} }}")
}
