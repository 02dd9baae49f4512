//! The stored cases: calls written by hand, which every side must answer alike. `tests/vectors/cases.txt` has them, and
//! tells their form at its head.

use crate::calls::{NumberCall, NUMBER_CALLS};
use crate::case::{Call, Mark};
use crate::sides::{Buffers, Proved, Reference, Renewal, Side, Tuned, Typed};
use reference::{Outcome, Stopped};
use std::collections::{BTreeMap, BTreeSet};

/// What the numbers of a list are.
#[derive(Clone, Copy)]
enum Kind {
    Bytes,
    Words,
    Longs,
    /// Exactly so many words.
    Numbers(usize),
    /// One number, at most this.
    UpTo(u64),
}

use Kind::{Bytes, Longs, Numbers, UpTo, Words};

/// The calls but for those of numbers, and the lists of each.
const FORMS: [(&str, &[Kind]); 15] = [
    ("read", &[Bytes, Words, Words, Longs, Words]),
    ("references", &[Words, Words, Numbers(1)]),
    ("mark", &[Words, Words, Words, Numbers(3), Bytes, Bytes, Words, Longs]),
    ("mark_all", &[Words, Words, Words, Numbers(3), Bytes, Words, Longs]),
    ("begin", &[Words, Words, Words, Numbers(3), Bytes, Bytes, Words, Longs, Words]),
    ("resume", &[Words, Words, Words, Numbers(3), Bytes, Bytes, Words, Longs, Words]),
    ("sweep", &[Bytes, Longs, Words]),
    ("deal", &[Words, Numbers(1), Bytes]),
    ("draw", &[Numbers(2), Numbers(2), Bytes]),
    ("hops", &[Words, Words, Words, Words, Words]),
    ("add", &[Words, Words, Words, Words, Words, Words, Bytes, Words]),
    ("remove", &[Words, Words, Words, Words, Words, Words, Bytes, Words]),
    ("import", &[Bytes, Words, Words, Longs]),
    ("export", &[Words, Words, Bytes]),
    ("scan", &[Numbers(2), Bytes, Words, Bytes, Longs, Words, Words, Words, Words]),
];

/// The call of numbers of this name.
fn of_numbers(call: &str) -> Option<&'static NumberCall> {
    NUMBER_CALLS.iter().find(|numbers| Call::NAMES[numbers.place] == call)
}

/// The lists of a call; one of numbers has a list for each.
fn form(call: &str) -> Option<Vec<Kind>> {
    match FORMS.iter().find(|form| form.0 == call) {
        Some((_, kinds)) => Some(kinds.to_vec()),
        None => Some(of_numbers(call)?.given.iter().map(|&(_, largest)| UpTo(largest)).collect()),
    }
}

/// One case: the number of its line, the words before the colon, and the lists behind it.
struct Case<'a> {
    line: usize,
    head: &'a str,
    call: &'a str,
    lists: Vec<Vec<u64>>,
}

impl Case<'_> {
    fn bytes(&self, list: usize) -> Vec<u8> {
        self.lists[list].iter().map(|&number| number as u8).collect()
    }

    fn words(&self, list: usize) -> Vec<u32> {
        self.lists[list].iter().map(|&number| number as u32).collect()
    }

    fn longs(&self, list: usize) -> Vec<u64> {
        self.lists[list].clone()
    }

    /// The words of a list that has exactly so many.
    fn numbers<const N: usize>(&self, list: usize) -> [u32; N] {
        self.words(list).try_into().expect("a list of so many numbers")
    }
}

/// The lists that are kept under letters.
type Kept<'a> = BTreeMap<&'a str, Vec<u64>>;

fn number(word: &str) -> Result<u64, String> {
    match !word.is_empty() && word.bytes().all(|byte| byte.is_ascii_digit()) {
        true => word.parse().map_err(|_| format!("'{word}' is no number of 64 bits")),
        false => Err(format!("'{word}' is neither a number nor a list")),
    }
}

/// The numbers that a word stands for.
fn numbers(word: &str, kept: &Kept) -> Result<Vec<u64>, String> {
    if let Some((times, word)) = word.split_once('*') {
        return Ok(numbers(word, kept)?.repeat(number(times)? as usize));
    }
    if let Some((value, width)) = word.split_once(':') {
        let (bytes, width) = (number(value)?.to_le_bytes(), number(width)?);
        let lowest = bytes.get(..width as usize).ok_or(format!("'{word}' has {width} bytes, but a number has 8"))?;
        return Ok(lowest.iter().map(|&byte| byte.into()).collect());
    }
    kept.get(word).cloned().map_or_else(|| Ok(vec![number(word)?]), Ok)
}

fn list(text: &str, kept: &Kept) -> Result<Vec<u64>, String> {
    let words: Result<Vec<_>, _> = text.split_whitespace().map(|word| numbers(word, kept)).collect();
    Ok(words?.concat())
}

/// The list is one that the call may have.
fn fits(list: &[u64], kind: Kind) -> Result<(), String> {
    let largest = match kind {
        Bytes => u8::MAX.into(),
        Words | Numbers(_) => u32::MAX.into(),
        Longs => u64::MAX,
        UpTo(largest) => largest,
    };
    if let Some(number) = list.iter().find(|&&number| number > largest) {
        return Err(format!("{number} is above {largest}"));
    }
    let wanted = match kind {
        Numbers(count) => count,
        UpTo(_) => 1,
        Bytes | Words | Longs => list.len(),
    };
    match list.len() {
        count if count == wanted => Ok(()),
        count => Err(format!("{count} numbers in a list of {wanted}")),
    }
}

/// Keeps the list of a line, or tells its case.
fn line<'a>(at: usize, text: &'a str, kept: &mut Kept<'a>) -> Result<Option<Case<'a>>, String> {
    let (head, rest) = text.split_once(':').ok_or("there is no colon")?;
    let (call, name) = head.split_once(' ').ok_or("there is no name")?;
    let lists: Vec<_> = rest.split('|').map(|part| list(part, kept)).collect::<Result<_, _>>()?;
    if call == "list" {
        let ([list], true) = (&lists[..], name.len() == 1 && name.as_bytes()[0].is_ascii_alphabetic()) else {
            return Err("one list is kept under one letter".into());
        };
        kept.insert(name, list.clone());
        return Ok(None);
    }
    let kinds = form(call).ok_or(format!("there is no call '{call}'"))?;
    if lists.len() != kinds.len() {
        return Err(format!("{} lists, where {call} has {}", lists.len(), kinds.len()));
    }
    lists.iter().zip(kinds).try_for_each(|(list, kind)| fits(list, kind))?;
    Ok(Some(Case { line: at, head, call, lists }))
}

/// The cases of a text, or the first line that cannot be read.
fn parse(text: &str) -> Result<Vec<Case<'_>>, String> {
    let (mut kept, mut heads, mut cases) = (Kept::new(), BTreeSet::new(), Vec::new());
    for (at, text) in (1..).zip(text.lines()) {
        if text.is_empty() || text.starts_with('#') {
            continue;
        }
        let case = line(at, text, &mut kept).map_err(|what| format!("line {at}: {what}: {text}"))?;
        if let Some(case) = case {
            if !heads.insert(case.head) {
                return Err(format!("line {at}: there is another case of this name: {}", case.head));
            }
            cases.push(case);
        }
    }
    Ok(cases)
}

/// Numbers as an answer has them: five or more alike as one word.
fn shown<T: Copy + Into<u64> + PartialEq>(numbers: &[T]) -> String {
    let run = |run: &[T]| match (run.len(), run[0].into()) {
        (times @ 5.., number) => format!(" {times}*{number}"),
        (times, number) => format!(" {number}").repeat(times),
    };
    numbers.chunk_by(|one, next| one == next).map(run).collect()
}

/// The refusal of words that hold no sound collection.
const UNSOUND: u32 = 14;

/// A result word before a call.
const UNWRITTEN: u8 = 88;

fn unwritten<T: Copy + From<u8>, const N: usize>() -> [T; N] {
    [T::from(UNWRITTEN); N]
}

/// What a call without result words answered: a word, or the number of the refusal.
fn verdict(word: &str, number: u32) -> String {
    match number {
        0 => word.into(),
        _ => format!(" refusal {number}"),
    }
}

/// What a call answered: a word and the result words, or the number of the refusal, beside which these are unwritten.
fn told<T: Copy + Into<u64>>(word: &str, number: u32, result: &[T]) -> Result<String, String> {
    let mut result = result.iter().map(|&word| word.into());
    match number {
        0 => Ok(word.to_string() + &result.map(|word| format!(" {word}")).collect::<String>()),
        _ if result.all(|word| word == UNWRITTEN.into()) => Ok(verdict(word, number)),
        _ => Err(format!("result words are written beside refusal {number}")),
    }
}

/// What the marker answered: its first result word tells whether it finished. A call that saves tells behind the counts
/// whether what it saved is sound.
fn marked(number: u32, result: &[u64]) -> Result<String, String> {
    match (number, result) {
        (0, [1, counts @ ..]) => told(" finished", 0, counts),
        (0, [0, counts @ ..]) => told(" unfinished", 0, counts),
        _ => told("", number, result),
    }
}

/// Where the lists that are lent to the marker begin: behind the schedule, where the call has one.
fn lent_at(case: &Case) -> usize {
    if case.call == "mark_all" {
        4
    } else {
        5
    }
}

/// What the marker reads. What is lent to it has the lengths of the line.
fn marking(case: &Case) -> Mark {
    let [workers, batch, cutoff] = case.numbers(3);
    let (offsets, targets, starts) = (case.words(0), case.words(1), case.words(2));
    let lent = lent_at(case);
    let schedule = if lent > 4 { case.bytes(4) } else { Vec::new() };
    let [marks, work, tallies] = [0, 1, 2].map(|i| case.lists[lent + i].len());
    Mark { offsets, targets, starts, workers, batch, cutoff, schedule, marks, work, tallies }
}

/// What one side answers to a case, part by part. All calls are made here.
fn parts(side: &dyn Side, case: &Case) -> Result<Vec<String>, String> {
    let mut length = unwritten::<u64, 1>();
    Ok(match case.call {
        "read" => {
            let (bytes, mut sizes, mut starts) = (case.bytes(0), case.longs(3), case.words(4));
            let (mut offsets, mut targets) = (case.words(1), case.words(2));
            let (mut head, mut store) = (unwritten::<u32, 3>(), unwritten::<u32, 4>());
            let first = side.header(&bytes, &mut head);
            let second = side.read(&bytes, &mut offsets, &mut targets, &mut sizes, &mut starts, &mut store);
            let (first, second) = (told("", first, &head)?, told("", second, &store)?);
            vec![first, second, shown(&offsets), shown(&targets), shown(&sizes), shown(&starts)]
        }
        "references" => {
            let (offsets, targets, [object]) = (case.words(0), case.words(1), case.numbers(2));
            let mut part = unwritten::<u64, 2>();
            let number = side.references(&offsets, &targets, object, &mut part);
            let [start, length] = part.map(|word| word as usize);
            let references = targets.get(start..start + length).ok_or(format!("{part:?} is no part of the targets"))?;
            vec![verdict("", number), shown(references)]
        }
        "mark" | "mark_all" => {
            let (call, mut result) = (marking(case), unwritten::<u64, { Outcome::WORDS }>());
            let lent = lent_at(case);
            let (mut marks, mut work, mut tallies) = (case.bytes(lent), case.words(lent + 1), case.longs(lent + 2));
            let number = match case.call {
                "mark" => side.mark(&call, &mut marks, &mut work, &mut tallies, &mut result),
                _ => side.mark_all(&call, &mut marks, &mut work, &mut tallies, &mut result),
            };
            vec![marked(number, &result)?, shown(&marks), shown(&work), shown(&tallies)]
        }
        "begin" | "resume" => {
            let (call, mut result) = (marking(case), unwritten::<u64, { Stopped::WORDS }>());
            let (mut marks, mut work, mut tallies, mut saved) =
                (case.bytes(5), case.words(6), case.longs(7), case.words(8));
            let mut lent = Buffers {
                marks: &mut marks,
                work: &mut work,
                tallies: &mut tallies,
                saved: &mut saved,
                result: &mut result,
            };
            let number = match case.call {
                "begin" => side.begin(&call, &mut lent),
                _ => side.resume(&call, &mut lent),
            };
            vec![marked(number, &result)?, shown(&marks), shown(&work), shown(&tallies), shown(&saved)]
        }
        "sweep" => {
            let (mut list, mut result) = (case.words(2), unwritten::<u64, 2>());
            let number = side.sweep(&case.bytes(0), &case.longs(1), &mut list, &mut result);
            vec![told(" dead", number, &result)?, shown(&list)]
        }
        "deal" => {
            let (cards, [workers], mut schedule) = (case.words(0), case.numbers(1), case.bytes(2));
            let first = side.schedule_length(cards.len(), workers, &mut length);
            let second = side.deal(&cards, workers, &mut schedule);
            vec![told("", first, &length)?, verdict(" dealt", second), shown(&schedule)]
        }
        "draw" => {
            let (seed, [rounds, workers]) = (case.numbers::<2>(0), case.numbers(1));
            let (mut drawn, mut dealt, mut card) = (seed, seed, unwritten::<u32, 1>());
            let mut schedule = case.bytes(2);
            let first = side.draw(&mut drawn, &mut card);
            let second = side.deal_seed(&mut dealt, rounds as usize, workers, &mut schedule);
            if second != 0 && dealt != seed {
                return Err(format!("the seed is moved beside refusal {second}"));
            }
            let second = verdict(&format!(" moved{}", shown(&dealt)), second);
            vec![told(" card", first, &card)?, shown(&drawn), second, shown(&schedule)]
        }
        "hops" => {
            let (mut hops, mut work) = (case.words(3), case.words(4));
            let first = side.hop_words(hops.len() as u32, &mut length);
            let second = side.hops(&case.words(0), &case.words(1), &case.words(2), &mut hops, &mut work);
            let mut parts = vec![told("", first, &length)?, verdict(" counted", second), shown(&hops)];
            // Some work words of an accepted call are left open; `lent` compares the others.
            parts.extend((second != 0).then(|| shown(&work)));
            parts
        }
        "add" | "remove" => {
            let (mut offsets, mut targets, mut marks, mut work) =
                (case.words(4), case.words(5), case.bytes(6), case.words(7));
            let first = side.update_words(marks.len() as u32, &mut length);
            let (old, pairs) = ((case.words(0), case.words(1)), (case.words(2), case.words(3)));
            let mut lent = Renewal { offsets: &mut offsets, targets: &mut targets, marks: &mut marks, work: &mut work };
            let second = match case.call {
                "add" => side.add(&old.0, &old.1, &pairs.0, &pairs.1, &mut lent),
                _ => side.remove(&old.0, &old.1, &pairs.0, &pairs.1, &mut lent),
            };
            let mut parts = vec![told("", first, &length)?, verdict(" updated", second)];
            parts.extend([shown(&offsets), shown(&targets), shown(&marks)]);
            parts.extend((second != 0).then(|| shown(&work)));
            parts
        }
        "import" => {
            let (text, mut offsets, mut targets, mut sizes) =
                (case.bytes(0), case.words(1), case.words(2), case.longs(3));
            let (mut head, mut store) = (unwritten::<u32, 3>(), unwritten::<u32, 3>());
            let first = side.market_header(&text, &mut head);
            let second = side.import(&text, &mut offsets, &mut targets, &mut sizes, &mut store);
            let (first, second) = (told("", first, &head)?, told("", second, &store)?);
            vec![first, second, shown(&offsets), shown(&targets), shown(&sizes)]
        }
        "export" => {
            let (offsets, targets, mut out) = (case.words(0), case.words(1), case.bytes(2));
            let first = side.export_length(&offsets, &targets, &mut length);
            let second = side.export(&offsets, &targets, &mut out);
            vec![told("", first, &length)?, verdict(" exported", second), shown(&out)]
        }
        "scan" => {
            let [objects, width] = case.numbers(0);
            let (names, named, texts) = (case.bytes(1), case.words(2), case.bytes(3));
            let (ends, owners, mut work) = (case.longs(4), case.words(5), case.words(6));
            let (mut from, mut to) = (case.words(7), case.words(8));
            let first =
                side.scan_length(objects, width, &names, &named, &texts, &ends, &owners, &mut work, &mut length);
            let second =
                side.scan(objects, width, &names, &named, &texts, &ends, &owners, &mut work, &mut from, &mut to);
            vec![told("", first, &length)?, verdict(" scanned", second), shown(&work), shown(&from), shown(&to)]
        }
        call => {
            let numbers = of_numbers(call).expect("a call that has a form");
            let number = (numbers.make)(side, &case.lists.concat(), &mut length);
            vec![told("", number, &length)?]
        }
    })
}

/// Words named after a condition of soundness (SPECIFICATION 8.2) are refused for that one and no other.
fn fails_its_condition(case: &Case, answer: &str) -> Result<(), String> {
    let Some(name) = case.head.strip_prefix("resume condition ") else { return Ok(()) };
    if answer != verdict("", UNSOUND) {
        return Err(format!("the words are not refused with {UNSOUND}"));
    }
    let condition = name.split(',').next().and_then(|word| word.parse().ok());
    match reference::unsound(marking(case).call(), &case.words(8))[..] {
        [failed] if condition == Some(failed) => Ok(()),
        ref failed => Err(format!("the words fail the conditions {failed:?}")),
    }
}

/// The answer to a case, in which these sides agree.
fn answer(case: &Case, sides: &[(&str, &dyn Side)]) -> Result<String, String> {
    let mut agreed: Option<(&str, String)> = None;
    for (name, side) in sides {
        let parts = parts(*side, case).map_err(|what| format!("{name}: {what}"))?;
        fails_its_condition(case, &parts[0])?;
        let answer = format!("{}:{}\n", case.head, parts.join(" |"));
        match &agreed {
            Some((first, other)) if *other != answer => {
                return Err(format!("the sides differ.\n{first}: {other}{name}: {answer}"));
            }
            _ => agreed = Some((name, answer)),
        }
    }
    Ok(agreed.map(|(_, answer)| answer).unwrap_or_default())
}

fn answers_by(text: &str, sides: &[(&str, &dyn Side)]) -> Result<String, String> {
    let told = |case: &Case| answer(case, sides).map_err(|what| format!("line {}: {}: {what}", case.line, case.head));
    parse(text)?.iter().map(told).collect()
}

/// A line for each case of the text, in which all sides agree.
pub fn answers(text: &str) -> Result<String, String> {
    let sides: [(&str, &dyn Side); 4] = [
        ("library", &Proved),
        ("library by its Rust types", &Typed),
        ("reference", &Reference),
        ("tuned Rust", &Tuned),
    ];
    answers_by(text, &sides)
}

#[cfg(test)]
mod tests {
    use super::*;
    use crate::sides::Untouched;

    const STORED: &str = include_str!("../../../../tests/vectors/cases.txt");

    /// What is wrong with the second line of a text; the first keeps a list.
    fn fault(line: &str) -> String {
        answers(&format!("list S: 0 2\n{line}\n")).expect_err(line)
    }

    #[test]
    fn words_stand_for_numbers() {
        let kept = Kept::from([("S", vec![7, 8])]);
        assert_eq!(list(" 12  513:2 S 2*S 3*1:2 0*5", &kept), Ok(vec![12, 1, 2, 7, 8, 7, 8, 7, 8, 1, 0, 1, 0, 1, 0]));
        assert_eq!(list("18446744073709551615:8", &kept), Ok(vec![255; 8]));
        assert_eq!(shown(&[1u8, 1, 1, 1, 2, 2, 2, 2, 2, 1]), " 1 1 1 1 5*2 1");
        assert_eq!(shown::<u32>(&[]), "");
    }

    #[test]
    fn lines_that_cannot_be_read() {
        for (line, what) in [
            ("sweep", "there is no colon"),
            ("sweep: | |", "there is no name"),
            (" sweep a: | |", "there is no call ''"),
            ("Sweep a: | |", "there is no call 'Sweep'"),
            ("nearest a: | | | |", "there is no call 'nearest'"),
            ("sweep a: | | |", "4 lists, where sweep has 3"),
            ("sweep a: |", "2 lists, where sweep has 3"),
            ("sweep a: T | |", "'T' is neither a number nor a list"),
            ("sweep a: 3*SS | |", "'SS' is neither a number nor a list"),
            ("sweep a: -1 | |", "'-1' is neither a number nor a list"),
            ("sweep a: *1 | |", "'' is neither a number nor a list"),
            ("sweep a: 1:9 | |", "'1:9' has 9 bytes, but a number has 8"),
            ("sweep a: 256 | |", "256 is above 255"),
            ("sweep a: | | 4294967296", "4294967296 is above 4294967295"),
            ("sweep a: | 18446744073709551616 |", "'18446744073709551616' is no number of 64 bits"),
            ("saved_words a: | 1", "0 numbers in a list of 1"),
            ("saved_words a: 1 1 | 1", "2 numbers in a list of 1"),
            ("saved_words a: 1", "1 lists, where saved_words has 2"),
            ("saved_words a: 1 | 4294967296", "4294967296 is above 4294967295"),
            ("schedule_length a: 18446744073709551616 | 1", "'18446744073709551616' is no number of 64 bits"),
            ("draw a: 1 0 2 | 1 1 |", "3 numbers in a list of 2"),
            ("list T: 1 | 2", "one list is kept under one letter"),
            ("list TU: 1", "one list is kept under one letter"),
            ("list 5: 1", "one list is kept under one letter"),
        ] {
            assert_eq!(fault(line), format!("line 2: {what}: {line}"));
        }
        let twice = fault("export a: S | 0 0 |\nexport a: S | 0 0 |");
        assert_eq!(twice, "line 3: there is another case of this name: export a");
    }

    #[test]
    fn sides_that_differ_are_told() {
        let sides: [(&str, &dyn Side); 2] = [("reference", &Reference), ("untouched", &Untouched)];
        let what = answers_by("sweep one: 0 | 5 | 77\n", &sides).expect_err("they differ");
        let both = "reference: sweep one: dead 1 5 | 0\nuntouched: sweep one: refusal 7 | 77\n";
        assert_eq!(what, format!("line 1: sweep one: the sides differ.\n{both}"));
    }

    #[test]
    fn result_words_stay_beside_a_refusal() {
        assert_eq!(told("", 4, &[88u32, 88]), Ok(" refusal 4".into()));
        assert_eq!(told("", 4, &[88u32, 0]), Err("result words are written beside refusal 4".into()));
        assert_eq!(marked(14, &[0, 88, 88, 88, 88, 88, 88]), Err("result words are written beside refusal 14".into()));
    }

    #[test]
    fn words_that_fail_another_condition() {
        let (kept, stored) = STORED.split_once("\nresume condition 1,").expect("a case of the first condition");
        let line = stored.lines().next().expect("its line");
        let what = answers(&format!("{kept}\nresume condition 2,{line}\n")).expect_err("it is the first that fails");
        assert!(what.ends_with("the words fail the conditions [1]"), "{what}");
        let (head, _) = line.rsplit_once('|').expect("saved words");
        let what = answers(&format!("{kept}\nresume condition 1,{head}| 0\n")).expect_err("there are too few words");
        assert!(what.ends_with("the words are not refused with 14"), "{what}");
    }

    /// Each call with and without a refusal (there is none of `references`), and each condition of soundness but the two
    /// that the layout itself rules out.
    #[test]
    fn stored_cases_cover_the_calls_and_the_conditions() {
        let answers = answers(STORED).expect("the stored cases are answered");
        let numbers = NUMBER_CALLS.iter().map(|numbers| Call::NAMES[numbers.place]);
        for call in FORMS.iter().map(|form| form.0).chain(numbers) {
            let lines = || answers.lines().filter(|line| line.starts_with(&format!("{call} ")));
            assert!(lines().any(|line| !line.contains(" refusal ")), "{call} is never accepted");
            assert!(call == "references" || lines().any(|line| line.contains(" refusal ")), "{call} is never refused");
        }
        for condition in (1..=28).filter(|number| ![5, 18].contains(number)) {
            assert!(answers.contains(&format!("\nresume condition {condition}, ")), "condition {condition}");
        }
    }
}
