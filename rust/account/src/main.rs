//! The plain account as a program: `account serve [FILE]`, `account stand` and `account repair`.

fn main() -> std::process::ExitCode {
    account::programs::run(&std::env::args().skip(1).collect::<Vec<_>>())
}
