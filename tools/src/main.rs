//! The tools' command line: see [`bagwezin_tools::commands`].
fn main() {
    std::process::exit(bagwezin_tools::commands::main(std::env::args_os().skip(1)));
}
