//! A plain program that plays the scripts that trestle plays, without any proof.
//!
//!     plain serial|check < SCRIPT
//!     plain gen N

mod editor;
mod generate;
mod region;
mod report;
mod screen;
mod script;
mod stage;
mod tree;
mod widgets;

use report::{Out, Writer};
use script::{Code, Refused, Script};
use stage::{Report, Stage, Step};
use std::fs::File;
use std::io::{self, Read, Write};
use std::os::fd::AsFd;
use std::process::ExitCode;
use widgets::Texts;

const USAGE: &str = "usage: plain serial|check|gen N\n";

fn main() -> ExitCode {
    let words: Vec<String> = std::env::args().skip(1).collect();
    let words: Vec<&str> = words.iter().map(String::as_str).collect();
    let status = match words[..] {
        ["serial"] => play(false),
        ["check"] => play(true),
        ["gen", word] => match script::number(word.as_bytes(), false).map(u32::try_from) {
            Some(Ok(number)) => generate(number),
            _ => tell(USAGE, 2),
        },
        _ => tell(USAGE, 2),
    };
    ExitCode::from(status.unwrap_or(5))
}

fn tell(text: &str, status: u8) -> io::Result<u8> {
    io::stdout().write_all(text.as_bytes())?;
    Ok(status)
}

/// Plays the script of standard input.
fn play(check: bool) -> io::Result<u8> {
    let mut text = Vec::new();
    if io::stdin().lock().take((4 << 20) + 1).read_to_end(&mut text).is_err() {
        return tell("read fault\n", 4);
    }
    let script = script::read(&text).and_then(|script| {
        let is_too_much = script.step_lines > 2000 || script.most_points > 65_536;
        if check && is_too_much { Err(Refused { line: 0, code: Code::B7 }) } else { Ok(script) }
    });
    match script {
        Err(Refused { line, code }) => tell(&format!("refused: line {line} {code:?}\n"), 3),
        Ok(script) => {
            let file = File::from(io::stdout().as_fd().try_clone_to_owned()?);
            run(script, text, check, Some(file))?;
            Ok(0)
        }
    }
}

/// Plays the script of a number, and sums it up.
fn generate(number: u32) -> io::Result<u8> {
    let text = generate::script_of(number);
    let lines = text.lines().count();
    let Ok(script) = script::read(text.as_bytes()) else { unreachable!() };
    let stage = run(script, text.into_bytes(), false, None)?;
    let (entries, sum) = (stage.journal.len(), stage.screen.sum());
    tell(&format!("gen {number}\nlines {lines}\nentries {entries}\nsum {sum}\n"), 0)
}

fn run(script: Script, text: Vec<u8>, check: bool, file: Option<File>) -> io::Result<Stage> {
    let Script { tree, font, kind, windows, names, steps, lines, .. } = script;
    let mut stage = Stage::new(tree, font, kind, windows, Texts::new(text));
    let mut writer = Writer { out: Out::new(file), names: &names, steps: &steps, lines: &lines };
    for (place, &step) in steps.iter().enumerate() {
        match step {
            Step::Report(report) => {
                if let Report::Dump = report {
                    let mut written = Ok(());
                    stage.settle(|stage| {
                        if check && written.is_ok() {
                            written = writer.check(stage);
                        }
                    });
                    written?;
                }
                writer.report(&stage, report)?;
                stage.step(place, step);
            }
            Step::Sync => stage.step(place, step),
            _ => {
                stage.step(place, step);
                if check {
                    writer.check(&stage)?;
                }
            }
        }
    }
    writer.out.flush()?;
    Ok(stage)
}
