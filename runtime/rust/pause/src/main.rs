//! A collection that is stopped and goes on: `pause TURNS` makes so many further turns of the order in the current
//! folder, all that are left where no number is given, and keeps the collection in `collection.saved`.
//!
//! It reads `store.cat` and `order.run` and prints what `collect` prints, and a line `dead end` where it took up words
//! that it did not write itself, and what it keeps now will be refused. The kept file is written beside, brought to the
//! disk and renamed, so a crash leaves the old one or the new one; whichever it is, the next call goes on from there. Only
//! one `pause` works in a folder at a time.

mod kept;

use kept::{Files, Kept};
use kullneyra::{begin, header, lengths, read, resume, sweep, tallies};
use kullneyra::{Refusal, Schedule, Settings, Stopped, Tally, MOST_SETTING, MOST_WORKERS, STARTS, VERSION};
use std::fmt::Write as _;
use std::fs::{self, File, OpenOptions, TryLockError};
use std::io::{self, ErrorKind, Write as _};
use std::process::ExitCode;

const SAVED: &str = "collection.saved";
const BESIDE: &str = "collection.new";
const USAGE: &str = "pause [TURNS]";

/// Why nothing was done: a refusal's number, with a sentence where the number alone does not tell; or what the system said.
enum Stop {
    Refused(u32, Option<String>),
    Failed(&'static str, io::Error),
}

impl From<Refusal> for Stop {
    fn from(refusal: Refusal) -> Self {
        Stop::Refused(refusal.number(), None)
    }
}

/// A file that cannot be read.
fn unreadable(path: &str, why: impl std::fmt::Display) -> Stop {
    Stop::Refused(12, Some(format!("{path}: {why}")))
}

/// A kept collection that cannot be taken up.
fn unsound(why: impl std::fmt::Display) -> Stop {
    Stop::Refused(Refusal::Saved.number(), Some(format!("{SAVED} is not taken up: {why}")))
}

/// The bytes of a file. What is no file, a pipe for example, is not waited for.
fn load(path: &str) -> Result<Vec<u8>, Stop> {
    let read = || match fs::metadata(path)?.is_file() {
        true => fs::read(path),
        false => Err(io::Error::other("it is no file")),
    };
    read().map_err(|error: io::Error| unreadable(path, error))
}

/// Keeps every other `pause` out of this folder, until this process ends, however it ends.
fn lock() -> io::Result<File> {
    let folder = File::open(".")?;
    match folder.try_lock() {
        Ok(()) => {}
        Err(TryLockError::WouldBlock) => {
            eprintln!("pause: another one is at work in this folder; waiting for it");
            folder.lock()?;
        }
        Err(TryLockError::Error(error)) => return Err(error),
    }
    Ok(folder)
}

/// The kept collection, if there is one.
fn kept(files: &Files, words: usize) -> Result<Option<Kept>, Stop> {
    if matches!(fs::symlink_metadata(SAVED), Err(error) if error.kind() == ErrorKind::NotFound) {
        return Ok(None);
    }
    files.kept(&load(SAVED)?, words).map(Some).map_err(unsound)
}

/// Writes the file beside, has it on the disk, renames, and has the new name on the disk. The file beside is always a new
/// one, so no link is followed, and it does not stay where something fails. What an earlier call left of it is removed.
fn keep(folder: &File, bytes: &[u8]) -> io::Result<()> {
    match fs::remove_file(BESIDE) {
        Err(error) if error.kind() != ErrorKind::NotFound => return Err(error),
        _ => {}
    }
    let mut file = OpenOptions::new().write(true).create_new(true).open(BESIDE)?;
    let written = file.write_all(bytes).and_then(|()| file.sync_all()).and_then(|()| fs::rename(BESIDE, SAVED));
    if written.is_err() {
        let _ = fs::remove_file(BESIDE);
    }
    written?;
    folder.sync_all()
}

fn lines(stopped: Stopped, words: &[u64]) -> String {
    let mut text = String::from(if stopped.finished { "finished\n" } else { "unfinished\n" });
    for (name, count) in Stopped::NAMES.iter().zip(stopped.words()).skip(1).filter(|(name, _)| **name != "sound") {
        let _ = writeln!(text, "{name} {count}");
    }
    if !stopped.sound {
        text.push_str("dead end\n");
    }
    for (b, tally) in tallies(words).enumerate() {
        let _ = write!(text, "box {b}");
        for (name, count) in Tally::NAMES.iter().zip(tally.words()) {
            let _ = write!(text, " {name} {count}");
        }
        text.push('\n');
    }
    text
}

/// Makes so many turns, keeps the collection, and returns what is printed.
fn collect(turns: usize) -> Result<String, Stop> {
    let folder = lock().map_err(|error| Stop::Failed("this folder cannot be locked", error))?;
    let (catalogue, order) = (load("store.cat")?, load("order.run")?);
    let &[workers, d0, d1, k0, k1, ref schedule @ ..] = &order[..] else {
        return Err(unreadable("order.run", "it has no settings"));
    };
    let head = header(&catalogue)?;
    let (n, m) = (head.objects as usize, head.references as usize);
    let (mut offsets, mut targets, mut sizes, mut starts) = (vec![0; n + 1], vec![0; m], vec![0; n], [0; STARTS]);
    let store = read(&catalogue, &mut offsets, &mut targets, &mut sizes, &mut starts)?;
    let starts = &starts[..store.starts as usize];
    let settings = Settings {
        workers: u32::from(workers),
        batch: u32::from(u16::from_le_bytes([d0, d1])),
        cutoff: u32::from(u16::from_le_bytes([k0, k1])),
    };
    let inside = |setting: u32, most: u32| (1..=most).contains(&setting);
    if ![(settings.workers, MOST_WORKERS), (settings.batch, MOST_SETTING), (settings.cutoff, MOST_SETTING)]
        .into_iter()
        .all(|(setting, most)| inside(setting, most))
    {
        return Err(Refusal::Setting.into());
    }

    let w = usize::from(workers);
    let (mut marks, mut work, mut words) = (vec![0; n], vec![0; lengths::work(n, w)], vec![0; lengths::tallies(w)]);
    let files = Files::of(&catalogue, &order);
    let found = kept(&files, lengths::saved(n, w))?;
    let made = found.as_ref().map_or(0, |found| found.made);
    // The last part has the whole rest, half an entry too.
    let Some(from) =
        usize::try_from(made).ok().and_then(|made| made.checked_mul(2)).filter(|&from| from <= schedule.len())
    else {
        return Err(unsound("it says more turns than the order has"));
    };
    let end = if turns < (schedule.len() - from) / 2 { from + 2 * turns } else { schedule.len() };
    let part = Schedule::from_bytes(&schedule[from..end]);
    let fresh = found.is_none();
    let mut saved = found.map_or_else(|| vec![0; lengths::saved(n, w)], |found| found.saved);
    let call = if fresh { begin } else { resume };
    let stopped = call(&offsets, &targets, starts, settings, part, &mut marks, &mut work, &mut words, &mut saved)
        .map_err(|refusal| {
            if refusal == Refusal::Saved {
                unsound("its words hold no sound collection")
            } else {
                refusal.into()
            }
        })?;
    let kept = Kept { made: (end / 2) as u64, saved };
    keep(&folder, &files.bytes(&kept)).map_err(|error| Stop::Failed("the collection was not kept", error))?;

    let mut text = lines(stopped, &words);
    if stopped.finished {
        let mut list = vec![0; n];
        let dead = sweep(&marks, &sizes, &mut list)?;
        for &object in &list[..dead.count as usize] {
            let _ = writeln!(text, "dead {object} {}", sizes[object as usize]);
        }
        let _ = writeln!(text, "freed {}", dead.freed);
    }
    Ok(text)
}

/// What is answered to these words; nothing where they are not understood.
fn answer(words: &[&str]) -> Option<Result<String, Stop>> {
    match words {
        [] => Some(collect(usize::MAX)),
        ["--version"] => Some(Ok(format!("pause version {VERSION}\n"))),
        ["--help"] => Some(Ok(format!("{USAGE}\n"))),
        [turns] => turns.parse().ok().map(collect),
        _ => None,
    }
}

fn main() -> ExitCode {
    let words: Vec<String> = std::env::args_os().skip(1).map(|word| word.to_string_lossy().into_owned()).collect();
    let words: Vec<&str> = words.iter().map(String::as_str).collect();
    let text = match answer(&words) {
        None => {
            eprintln!("{USAGE}");
            return ExitCode::FAILURE;
        }
        Some(Ok(text)) => text,
        Some(Err(Stop::Refused(number, sentence))) => {
            if let Some(sentence) = sentence {
                eprintln!("pause: {sentence}");
            }
            format!("refusal {number}\n")
        }
        Some(Err(Stop::Failed(what, error))) => {
            eprintln!("pause: {what}: {error}");
            return ExitCode::FAILURE;
        }
    };
    match io::stdout().write_all(text.as_bytes()) {
        Ok(()) => ExitCode::SUCCESS,
        Err(error) => {
            eprintln!("pause: the answer was not written whole: {error}");
            ExitCode::FAILURE
        }
    }
}

#[cfg(test)]
mod tests {
    use super::*;

    /// Every word of the answer and of each tally has its line or its place in one, in their order; sound has one only
    /// where what was saved is not.
    #[test]
    fn every_count_is_printed() {
        let mut counts: [u64; Stopped::WORDS] = std::array::from_fn(|i| i as u64 + 1);
        counts[Stopped::WORDS - 1] = 0;
        let words: Vec<u64> = (10..10 + 2 * Tally::WORDS as u64).collect();
        let text = lines(Stopped::from_words(counts), &words);
        let told: Vec<&str> = text.lines().collect();
        assert_eq!(told.len(), Stopped::WORDS + 2);
        assert_eq!((told[0], told[Stopped::WORDS - 1]), ("finished", "dead end"));
        for (i, name) in Stopped::NAMES.iter().enumerate().take(Stopped::WORDS - 1).skip(1) {
            assert_eq!(told[i], format!("{name} {}", counts[i]));
        }
        counts[Stopped::WORDS - 1] = 1;
        assert_eq!(lines(Stopped::from_words(counts), &words), text.replace("dead end\n", ""));
        for (b, tally) in words.chunks(Tally::WORDS).enumerate() {
            let named: String =
                Tally::NAMES.iter().zip(tally).map(|(name, count)| format!(" {name} {count}")).collect();
            assert_eq!(told[Stopped::WORDS + b], format!("box {b}{named}"));
        }
    }
}
