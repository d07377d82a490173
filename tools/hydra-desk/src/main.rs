use std::process::ExitCode;

fn main() -> ExitCode {
    ExitCode::from(hydra_desk::run(std::env::args().skip(1).collect()))
}
