//! Holds the proved library, over its C interface, against the Rust original and the oracle's model.

mod edits;
mod faults;
mod lent;
mod library;
mod pages;
mod shrink;
mod texts;

use library::{Library, CALLS};
use oracle::case::Case;
use oracle::generate::lists::{recorded_histories, recorded_texts};
use oracle::generate::Random;
use oracle::kept::kept;
use oracle::reading::MAX_BYTES;
use pages::Held;
use std::process::ExitCode;
use std::time::{Duration, Instant};

/// Nothing, or what differs in a case.
pub fn held(library: &Library, case: &Case) -> Held {
    match case {
        Case::Text(text) => texts::text_holds(library, text),
        Case::Edits(history) => edits::history_holds(library, history),
        Case::Calls(calls) => pages::calls_hold(library, calls),
        Case::Free(free) => edits::free_edit_holds(library, free),
    }
}

/// A round of generated cases: so many of each list, 100 texts in all.
const ROUND: [(&str, usize); 7] = [
    ("texts", 87),
    ("long", 3),
    ("numbers", 10),
    ("edits", 8),
    ("scripts", 1),
    ("calls", 10),
    ("free", 20),
];

/// The texts of a round.
const ROUND_TEXTS: u64 = 100;

/// Failing cases of a list beyond this many are counted and not made small.
const SHRUNK: usize = 10;

/// What was compared.
#[derive(Default)]
struct Totals {
    texts: u64,
    lists: u64,
    edits: u64,
    calls: u64,
    free: u64,
    fixed: u64,
    failed: u64,
    printed: Vec<Case>,
    shrunk: Vec<&'static str>,
}

impl Totals {
    /// Counts a case that agrees.
    fn count(&mut self, case: &Case) {
        match case {
            Case::Text(_) => self.texts += 1,
            Case::Edits(history) => {
                self.lists += 1;
                self.edits += history.edits.len() as u64;
            }
            Case::Calls(_) => self.calls += 1,
            Case::Free(_) => self.free += 1,
        }
    }

    /// Compares one case; a failing one is made small and printed, the same small one once.
    fn compare(&mut self, library: &Library, case: Case) {
        if held(library, &case).is_ok() {
            return self.count(&case);
        }
        self.failed += 1;
        let of_list = self.shrunk.iter().filter(|list| **list == case.list());
        if of_list.count() >= SHRUNK {
            return;
        }
        self.shrunk.push(case.list());
        let small = shrink::shrunk(case, |case| held(library, case).is_err());
        if self.printed.contains(&small) {
            return;
        }
        let what = held(library, &small).err().unwrap_or_default();
        println!("differs: {what}\nto keep in oracle/kept/{}:", small.list());
        println!("{}", small.lines().join("\n"));
        self.printed.push(small);
    }

    /// Counts a fixed comparison; a failing one is printed.
    fn fixed(&mut self, name: &str, held: Held) {
        match held {
            Ok(()) => self.fixed += 1,
            Err(what) => {
                self.failed += 1;
                println!("differs: {name}: {what}");
            }
        }
    }

    /// The fresh page, the length limit, the recorded lists, and a large page.
    fn compare_recorded(&mut self, library: &Library) {
        self.fixed("fresh pages", edits::fresh_pages_hold(library));
        self.fixed("edits at the limit", edits::limit_holds(library, MAX_BYTES));
        self.fixed("no room", edits::limit_holds(library, MAX_BYTES - 1));
        self.fixed("texts at the limit", edits::long_texts_hold(library));
        self.fixed("numbers", texts::short_numbers_hold(library));
        self.fixed("numbers at the limit", texts::long_numbers_hold(library));
        let texts = recorded_texts().into_iter().map(Case::Text);
        let lists = recorded_histories()
            .into_iter()
            .chain([edits::large_history()])
            .map(Case::Edits);
        for case in texts.chain(lists).chain(kept("calls")).chain(kept("free")) {
            self.compare(library, case);
        }
    }

    /// One round of generated cases.
    fn compare_round(&mut self, library: &Library, random: &mut Random) {
        for (list, count) in ROUND {
            for _ in 0..count {
                let case = Case::generated(random, list).expect("a list that is generated");
                self.compare(library, case);
            }
        }
    }

    /// Prints what was compared; true if nothing failed.
    fn conclude(&self, library: &Library) -> bool {
        let Totals {
            texts,
            lists,
            edits,
            calls,
            free,
            fixed,
            failed,
            ..
        } = self;
        let counts = CALLS.iter().zip(library.counts());
        let counts: Vec<String> = counts.map(|(name, n)| format!("{name} {n}")).collect();
        println!("{texts} texts, {edits} edits in {lists} lists, {calls} pages with calls, {free} edits of unfaithful pages");
        println!("calls: {}", counts.join(", "));
        let passed = texts + edits + calls + free + fixed;
        println!("{passed} passed, {failed} failed");
        *failed == 0
    }
}

/// How long to go on.
enum Size {
    Minutes(f64),
    Cases(u64),
}

/// What the arguments ask for.
struct Options {
    size: Size,
    seed: u64,
    library: Library,
}

/// The recorded lists, then generated cases from the seed.
fn compare(options: Options) -> bool {
    let begun = Instant::now();
    let Options {
        size,
        seed,
        library,
    } = options;
    let mut random = Random::new(seed);
    let mut totals = Totals::default();
    totals.compare_recorded(&library);
    let mut rounds = 0;
    let goes_on = |rounds: u64| match size {
        Size::Minutes(minutes) => begun.elapsed() < Duration::from_secs_f64(60.0 * minutes),
        Size::Cases(cases) => rounds * ROUND_TEXTS < cases,
    };
    while goes_on(rounds) {
        totals.compare_round(&library, &mut random);
        rounds += 1;
    }
    let seconds = begun.elapsed().as_secs();
    println!("seed {seed}, {rounds} rounds, {seconds} seconds");
    totals.conclude(&library)
}

/// --minutes N or --cases N, and --seed S and --fault K, in any order.
fn parsed(arguments: &[String]) -> Option<Options> {
    let (mut size, mut seed, mut library) = (None, 1, Library::default());
    for pair in arguments.chunks(2) {
        let [name, value] = pair else { return None };
        match name.as_str() {
            "--minutes" => {
                let minutes: f64 = value.parse().ok()?;
                let sensible = (0.0..1e6).contains(&minutes);
                size = Some(sensible.then_some(Size::Minutes(minutes))?);
            }
            "--cases" => size = Some(Size::Cases(value.parse().ok()?)),
            "--seed" => seed = value.parse().ok()?,
            "--fault" => library = faults::broken(value.parse().ok()?)?,
            _ => return None,
        }
    }
    Some(Options {
        size: size?,
        seed,
        library,
    })
}

const USAGE: &str =
    "usage: compare --minutes N | --cases N, [--seed S] [--fault K]; compare --self-test";

/// compare --minutes N | --cases N, [--seed S] [--fault K]; or compare --self-test
fn main() -> ExitCode {
    let arguments: Vec<String> = std::env::args().skip(1).collect();
    let good = match (&arguments[..], parsed(&arguments)) {
        ([only], _) if only == "--self-test" => faults::all_found(),
        (_, Some(options)) => compare(options),
        _ => {
            eprintln!("{USAGE}");
            return ExitCode::from(2);
        }
    };
    match good {
        true => ExitCode::SUCCESS,
        false => ExitCode::FAILURE,
    }
}
