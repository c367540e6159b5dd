//! A whole run.

use crate::arguments::Arguments;
use crate::referee::course::Course;
use crate::referee::failure::{broken, Failure};
use crate::referee::kill::plans;
use crate::referee::provoke::provoke;
use crate::referee::trace::trace;
use crate::referee::Referee;
use crate::report::{csv, picture, say, summary};
use crate::world;
use std::fs::{self, File, OpenOptions};
use std::io;
use std::path::Path;
use std::time::Duration;

/// A run that takes longer is ended.
const LONGEST: Duration = Duration::from_secs(600);
/// A run of more kills tells only some of them.
const MOST_TOLD: u64 = 50;

pub fn run(arguments: &Arguments) -> Result<(), Failure> {
    say(format_args!(
        "seed {}: a lead and a standby as two processes, a world of up to {} records",
        arguments.seed,
        world::SLOTS
    ));
    let mut referee = Referee::start(world_file(arguments)?, arguments.seed)?;
    let ended = match arguments.mistake {
        Some(mistake) => provoke(&mut referee, mistake),
        None if arguments.trace => trace(&mut referee),
        None => play(&mut referee, arguments.steps, arguments.kills),
    };
    record(&referee.course, arguments)?;
    ended
}

/// The figures of the run in the files that were asked for.
fn record(course: &Course, arguments: &Arguments) -> io::Result<()> {
    if let Some(path) = &arguments.csv {
        named(path, csv::write(course, path))?;
    }
    if let Some(path) = &arguments.svg {
        let (moves, kills) = (course.moves.len(), course.losses.len());
        let title = format!("seed {}: {moves} moves, {kills} kills", arguments.seed);
        named(path, picture::write(course, &title, path))?;
    }
    Ok(())
}

/// An error says which file it is about.
fn named<T>(path: &Path, result: io::Result<T>) -> io::Result<T> {
    result.map_err(|error| io::Error::new(error.kind(), format!("{}: {error}", path.display())))
}

/// Plays with kills, and checks both hosts at the end.
fn play(referee: &mut Referee, steps: u64, kills: u64) -> Result<(), Failure> {
    play_and_kill(referee, steps, kills)?;
    referee.check_both()?;
    summary::print(&referee.course, &referee.journal, referee.elapsed());
    match referee.course.differing() {
        0 => Ok(()),
        n => Err(broken(format!("the hosts differed in what is dirty after {n} steps"))),
    }
}

/// An empty world. In a folder of the caller's it stays; else its name goes at once, and the file goes with
/// the processes that have it open.
fn world_file(arguments: &Arguments) -> io::Result<File> {
    let path = match &arguments.folder {
        Some(folder) => {
            named(folder, fs::create_dir_all(folder))?;
            folder.join("world")
        }
        None => std::env::temp_dir().join(format!("speldervacht-world-{}", std::process::id())),
    };
    let file = named(&path, OpenOptions::new().read(true).write(true).create_new(true).open(&path))?;
    if arguments.folder.is_none() {
        fs::remove_file(&path)?;
    }
    file.set_len(world::LENGTH)?;
    Ok(file)
}

fn play_and_kill(referee: &mut Referee, steps: u64, kills: u64) -> Result<(), Failure> {
    let mut plans = plans(&mut referee.random, kills).into_iter();
    let (mut left, mut told) = (kills, 0);
    while referee.step < steps || left > 0 {
        if referee.elapsed() > LONGEST {
            return Err(broken(format!("the run takes longer than {} s", LONGEST.as_secs())));
        }
        let steps_left = steps.saturating_sub(referee.step).max(1);
        if referee.random.below(steps_left) >= left {
            referee.play(true)?;
            continue;
        }
        left -= referee.kill(plans.next().flatten(), left)?;
        for loss in &referee.course.losses[told..] {
            told += 1;
            if kills <= MOST_TOLD || (told as u64).is_multiple_of(kills / 20) {
                summary::print_loss(told, loss);
            }
        }
    }
    Ok(())
}
