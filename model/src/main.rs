//! A plain and slow model of the page store, written from the rules alone, never from the code that it checks.

mod block;
mod book;
mod calls;
mod cases;
mod copies;
mod copy_cases;
mod copy_script;
mod copy_watch;
mod coverage;
#[cfg(test)]
mod listings;
mod logshow;
mod random;
mod recovery;
mod script;
mod state;
mod waiting;
mod watch;

use std::io::{Read, Write};
use std::process::ExitCode;

const USAGE: &str = "\
model run < SCRIPT          print the lines that must come out
model make SEED             print a random script
model coverage COUNT SEED   make COUNT scripts from SEED on, and say what they covered
model cases                 print the script of the worked cases 5 to 13 and of requests b, f, k and l
model image < SCRIPT        run a script and write the log it leaves, byte for byte
model logshow < LOG         print what the program logshow must print for a log
";

fn print(bytes: &[u8]) {
    // A reader that has seen enough may close its end.
    let _ = std::io::stdout().write_all(bytes);
}

fn main() -> ExitCode {
    let words: Vec<String> = std::env::args().skip(1).collect();
    let words: Vec<&str> = words.iter().map(|word| word.as_str()).collect();
    match words.as_slice() {
        ["run"] => {
            let mut script = Vec::new();
            if std::io::stdin().read_to_end(&mut script).is_err() {
                eprintln!("model: the script cannot be read");
                return ExitCode::from(2);
            }
            let mut runner = script::Runner::new(calls::FreeChoice::Lowest);
            print(runner.run_script(&script).as_bytes());
            return ExitCode::SUCCESS;
        }
        ["image"] | ["logshow"] => {
            let mut input = Vec::new();
            if std::io::stdin().read_to_end(&mut input).is_err() {
                eprintln!("model: the input cannot be read");
                return ExitCode::from(2);
            }
            if words == ["logshow"] {
                print(logshow::lines(&input).as_bytes());
            } else {
                let mut runner = script::Runner::new(calls::FreeChoice::Lowest);
                runner.run_script(&input);
                let log = runner.store.map_or(Vec::new(), |store| store.log);
                print(&log);
            }
            return ExitCode::SUCCESS;
        }
        ["make", seed] => {
            if let Ok(seed) = seed.parse() {
                print(random::make(seed).text().as_bytes());
                return ExitCode::SUCCESS;
            }
        }
        ["coverage", count, seed] => {
            if let (Ok(count), Ok(seed)) = (count.parse(), seed.parse()) {
                print(coverage::table(count, seed).as_bytes());
                return ExitCode::SUCCESS;
            }
        }
        ["cases"] => {
            print(cases::script().as_bytes());
            return ExitCode::SUCCESS;
        }
        _ => (),
    }
    eprint!("{USAGE}");
    ExitCode::from(2)
}
