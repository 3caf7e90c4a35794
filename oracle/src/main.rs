//! Runs modules of the crate quinn-proto 0.11.19, compiled from its own sources, and writes down
//! what they answer.

mod clock;
mod cube_root;
mod lists;
mod random;
mod recorder;
mod sources;
mod subject;

// The crate's modules, at the root since they name each other by `crate::`.
include!(concat!(env!("OUT_DIR"), "/quinn_proto/lib.rs"));

use std::error::Error;
use std::io::{self, Read};
use std::path::Path;
use std::process::ExitCode;
use std::{env, fs};

use lists::{List, bbr, bw, cubic, min_max, new_reno, pacer, rtt};
use random::Xorshift;
use recorder::{Failure, Recorder, Session};
use subject::{Call, Subject};

const USAGE: &str = "usage: oracle record MODULE FOLDER | oracle answer MODULE | oracle sources
MODULE: rtt, min_max, bw, pacer, new_reno, cubic, bbr, bbr_modes, bbr_edges, bbr_connections";

fn main() -> ExitCode {
    cube_root::assert_in_place();
    let args: Vec<String> = env::args().skip(1).collect();
    let words: Vec<&str> = args.iter().map(String::as_str).collect();
    match run(&words) {
        Ok(()) => ExitCode::SUCCESS,
        Err(why) => {
            eprintln!("oracle: {why}");
            ExitCode::FAILURE
        }
    }
}

fn run(words: &[&str]) -> Result<(), Box<dyn Error>> {
    match words {
        ["sources"] => {
            show_sources();
            Ok(())
        }
        [command, module, rest @ ..] => match *module {
            "rtt" => run_on(rtt::list, command, rest),
            "min_max" => run_on(min_max::list, command, rest),
            "bw" => run_on(bw::list, command, rest),
            "pacer" => run_on(pacer::list, command, rest),
            "new_reno" => run_on(new_reno::list, command, rest),
            "cubic" => run_on(cubic::list, command, rest),
            "bbr" => run_on(bbr::list, command, rest),
            "bbr_modes" => run_on(bbr::modes_list, command, rest),
            "bbr_edges" => run_on(bbr::edges_list, command, rest),
            "bbr_connections" => run_on(bbr::connections_list, command, rest),
            _ => Err(USAGE.into()),
        },
        _ => Err(USAGE.into()),
    }
}

fn run_on<S: Subject>(list: List<S>, command: &str, rest: &[&str]) -> Result<(), Box<dyn Error>> {
    match (command, rest) {
        ("record", [folder]) => record(list, Path::new(folder)),
        ("answer", []) => answer::<S>(),
        _ => Err(USAGE.into()),
    }
}

/// Writes a list: the calls to `stdin`, the replies to `stdout`.
fn record<S: Subject>(list: List<S>, folder: &Path) -> Result<(), Box<dyn Error>> {
    let mut recorder = Recorder::new();
    list(&mut recorder, &mut Xorshift::new());
    fs::create_dir_all(folder)?;
    fs::write(folder.join("stdin"), &recorder.calls)?;
    fs::write(folder.join("stdout"), &recorder.replies)?;
    let lines = recorder.calls.lines().count();
    println!(
        "{lines} calls; {} more left out, at which the crate panics",
        recorder.left_out
    );
    Ok(())
}

/// Replies to the calls on standard input, a line each. At a panic of the crate the line is
/// `panic` and its message, and the state stays as it was.
fn answer<S: Subject>() -> Result<(), Box<dyn Error>> {
    let mut calls = String::new();
    io::stdin().read_to_string(&mut calls)?;
    let mut session = Session::<S>::new();
    for text in calls.lines() {
        match session.perform(&Call::on(text)) {
            Ok(reply) => println!("{}", reply.line()),
            Err(Failure::Panic(message)) => println!("panic {message}"),
            Err(Failure::Malformed) => return Err(format!("no call: {text}").into()),
        }
    }
    Ok(())
}

/// Says which files of the crate are compiled, and why the others are not.
fn show_sources() {
    for file in sources::WHOLE {
        println!("{file}: whole");
    }
    for part in sources::PARTS {
        println!(
            "{}: {} alone: {}",
            part.file,
            part.item.name(),
            part.without
        );
    }
    for (file, why) in sources::NOT_BUILT {
        println!("{file}: not built: {why}");
    }
}
