//! The program `kurvneist`.

use std::process::ExitCode;

fn main() -> ExitCode {
    workbench::cli::main(std::env::args_os().skip(1).collect())
}
