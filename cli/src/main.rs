//! `nesfoal VERB ..`: cuts, checks and replays place/transition nets. It reads words and files, makes calls of the proved library, and
//! says what they answer; it decides nothing. Exit status: 0; 1 stuck, full, not always fired or a rule broken; 2 refused, bad usage or an
//! error.

mod answers;
mod call;
mod checking;
mod cuts;
mod demo;
mod diagnose;
mod files;
mod firing;
mod help;
mod install;
mod library;
mod net;
mod numbers;
mod picture;
mod plans;
mod pnml;
mod progress;
mod show;
mod verbs;
mod words;

use call::{Call, Done, Output};
use std::os::unix::ffi::OsStrExt;
use std::process::ExitCode;
use words::{brief, Command};

fn main() -> ExitCode {
    library::heed_file_limit();
    let command = words::command(std::env::args_os().skip(1));
    let mut out = Output::new(command.json, &command.verb);
    if let Err(answer) = run(command, &mut out) {
        out.tell(&answer);
    }
    out.flush();
    ExitCode::from(out.status as u8)
}

fn run(command: Command, out: &mut Output) -> Done {
    if let Some(option) = &command.unknown {
        let option = brief(option.as_bytes());
        return Err(answers::error(format!("no option '{option}'; a file of that name is ./{option}")));
    }
    if command.verb == "version" {
        out.tell(&answers::version(library::VERSION));
        return Ok(());
    }
    if command.verb.is_empty() {
        return Err(answers::usage("nesfoal VERB ..; nesfoal help lists the verbs".into()));
    }
    let verb = verbs::find(&command.verb)?;
    if !verb.takes.contains(&command.words.len()) {
        return Err(verb.usage());
    }
    (verb.run)(&mut Call::new(verb, command, out))
}
