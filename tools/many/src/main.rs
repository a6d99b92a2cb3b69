//! `judge-many`: the verdicts on many folders.
#![forbid(unsafe_code)]

use std::env;
use std::ffi::OsString;
use std::fs::{self, File};
use std::io::{self, IsTerminal, Write};
use std::os::fd::AsFd;
use std::path::Path;
use std::process::ExitCode;
use std::thread;

use judge_many::folder::{Ending, judge};
use judge_many::progress::Progress;
use judge_many::request::{Asked, HELP, Request};
use judge_many::{names, side_by_side};

fn main() -> ExitCode {
    match run() {
        Ok(ending) => ExitCode::from(ending as u8),
        Err(why) => {
            // Where standard error is gone too, the status still says it.
            let _ = writeln!(io::stderr(), "judge-many: {why}");
            ExitCode::from(Ending::Open as u8)
        }
    }
}

fn run() -> Result<Ending, String> {
    let wrong = |why| format!("{why}; judge-many --help says how it is used");
    let asked = Asked::of(env::args_os().skip(1)).map_err(wrong)?;
    let mut output = standard_output().map_err(unwritten)?;
    match asked {
        Asked::Help => output.write_all(HELP.as_bytes()).map_err(unwritten)?,
        Asked::Judge(request) => {
            let folders = names::all(&request.sources, io::stdin())?;
            return judge_all(&request, &folders, &mut output).map_err(unwritten);
        }
    }
    Ok(Ending::Accepted)
}

fn unwritten(error: io::Error) -> String {
    format!("standard output cannot be written: {error}")
}

/// Standard output as a file: nothing is held back, and no error is let pass.
fn standard_output() -> io::Result<File> {
    let output = File::from(io::stdout().as_fd().try_clone_to_owned()?);
    // Before `main` a closed stream becomes /dev/null, open for reading too, as no `>` opens it.
    let flags = fs::read_to_string("/proc/self/fdinfo/1").unwrap_or_default();
    let flags = flags.lines().find_map(|line| line.strip_prefix("flags:"));
    let both_ways = flags.is_some_and(|flags| flags.trim().ends_with('2'));
    let nowhere = fs::read_link("/proc/self/fd/1").is_ok_and(|to| to == Path::new("/dev/null"));
    match both_ways && nowhere {
        true => Err(io::Error::other("it is closed")),
        false => Ok(output),
    }
}

/// A line for each folder; gives the worst ending.
fn judge_all(request: &Request, folders: &[OsString], output: &mut File) -> io::Result<Ending> {
    let cores = thread::available_parallelism().map_or(1, Into::into);
    let jobs = request.jobs.map_or(cores, Into::into);
    let terminal = io::stderr().is_terminal().then(io::stderr);
    let mut progress = Progress::new(terminal, folders.len());
    let shared = output.is_terminal();
    let mut worst = Ending::Accepted;
    output.write_all(request.form.header().as_bytes())?;
    let work = |index: usize| {
        let finding = judge(folders[index].as_ref(), request.limits);
        (
            request.form.line(&folders[index], &finding),
            finding.ending(),
        )
    };
    let written: io::Result<()> = side_by_side::run(folders.len(), jobs, work, |results| {
        if shared {
            progress.clear();
        }
        let (lines, endings): (Vec<_>, Vec<_>) = results.into_iter().unzip();
        output.write_all(&lines.concat())?;
        worst = endings.iter().fold(worst, |worst, &it| worst.max(it));
        let not_accepted = endings.iter().filter(|&&it| it != Ending::Accepted);
        progress.count(endings.len(), not_accepted.count());
        Ok(())
    });
    progress.end();
    written.map(|()| worst)
}
