//! The program: all of it stands in the driver, a module of the engine's own crate.

fn main() -> std::process::ExitCode {
    oracle::driver::main()
}
