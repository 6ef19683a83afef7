use std::process::ExitCode;

fn main() -> ExitCode {
    ExitCode::from(wok::run::run(std::env::args_os().skip(1).collect()))
}
