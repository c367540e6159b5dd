//! The command line.

use crate::mistake::Mistake;
use std::path::PathBuf;

pub const HELP: &str = "\
usage: demonstration [OPTION]...

A lead and a standby as two processes over a Unix socket, a world in a file, random play, and kills by
SIGKILL at chosen and random moments. After each kill the survivor goes on, a new standby joins, and every
record is checked that both hosts had.

  --kills N        kill a host N times (36)
  --seed N         the seed of the play and of the kills (1); what a random kill meets differs from run to run
  --steps N        steps of play (100 for each kill, at least 1000)
  --folder FOLDER  keep the world's file there; else it is gone with the run
  --trace          tell one move and one lost lead line by line, with times, and nothing else
  --csv FILE       write the figures of both hosts after each step
  --svg FILE       draw them
  --break MISTAKE  make a mistake on purpose: drop-list, skip-write, evict-dirty or reorder
  --help           print this

Exit status: 0 nothing is lost; 1 a record is lost, a host refuses or the run failed; 2 bad arguments.
";

#[derive(Clone, Debug, PartialEq, Eq)]
pub struct Arguments {
    pub kills: u64,
    pub seed: u64,
    pub steps: u64,
    pub folder: Option<PathBuf>,
    pub trace: bool,
    pub csv: Option<PathBuf>,
    pub svg: Option<PathBuf>,
    pub mistake: Option<Mistake>,
}

/// The arguments; none if help is wanted.
pub fn parse(given: &[String]) -> Result<Option<Arguments>, String> {
    let mut arguments =
        Arguments { kills: 36, seed: 1, steps: 0, folder: None, trace: false, csv: None, svg: None, mistake: None };
    let mut steps = None;
    let mut rest = given.iter();
    while let Some(option) = rest.next() {
        let mut value = || rest.next().ok_or(format!("{option} wants a value"));
        match option.as_str() {
            "--kills" => arguments.kills = number(option, value()?)?,
            "--seed" => arguments.seed = number(option, value()?)?,
            "--steps" => steps = Some(number(option, value()?)?),
            "--folder" => arguments.folder = Some(value()?.into()),
            "--trace" => arguments.trace = true,
            "--csv" => arguments.csv = Some(value()?.into()),
            "--svg" => arguments.svg = Some(value()?.into()),
            "--break" => arguments.mistake = Some(mistake(value()?)?),
            "--help" => return Ok(None),
            _ => return Err(format!("{option} is no option")),
        }
    }
    arguments.steps = steps.unwrap_or(arguments.kills.saturating_mul(100).max(1_000));
    if arguments.steps < arguments.kills {
        return Err(format!("{} kills want at least as many steps", arguments.kills));
    }
    if arguments.trace && arguments.mistake.is_some() {
        return Err("--trace and --break do not go together".into());
    }
    Ok(Some(arguments))
}

fn number(option: &str, text: &str) -> Result<u64, String> {
    text.parse().map_err(|_| format!("{option} wants a number, and {text} is none"))
}

fn mistake(name: &str) -> Result<Mistake, String> {
    let named = Mistake::ALL.into_iter().find(|mistake| mistake.name() == name);
    named.ok_or_else(|| format!("{name} is no mistake; {} are", Mistake::ALL.map(Mistake::name).join(", ")))
}
