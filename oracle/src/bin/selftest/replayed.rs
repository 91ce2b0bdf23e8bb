//! The recorded lists that programs of the repository replay: what `record` writes now, and what it reaches.

use crate::tally::Tally;
use oracle::call::Call;
use oracle::case::Case as AnyCase;
use oracle::format::{recorded, Case};
use oracle::generate::lists::{recorded_histories, recorded_texts};
use oracle::generate::single_calls::{altered_calls, single_calls};
use oracle::generate::Random;
use oracle::kept::{kept, kept_lines, read_back};
use oracle::page::walk_output;
use oracle::reading::{fresh_reading, LAST_KIND, TOKEN_WORDS};
use std::collections::{BTreeMap, BTreeSet};
use std::fs;
use std::path::Path;

/// The programs that replay the lists, each with the list on its standard input and the one in which answers were made wrong.
const PROGRAMS: [(&str, [&str; 2]); 3] = [
    ("replay_texts", ["texts", "altered"]),
    ("replay_edits", ["edits", "altered-edits"]),
    ("replay_calls", ["calls", "altered-calls"]),
];

/// Where a program has its two lists.
const LISTS: [&str; 2] = ["stdin", "data/altered"];

/// The first numbers of the replies that each function's recorded calls have, and with 5 the buffers.
const REPLIES: [(&str, &[u64], &[u64]); 10] = [
    ("byte_value", &[0, 1, 2], &[]),
    ("check", &[0, 7], &[]),
    ("edit", &[0, 1, 2, 3, 4, 5, 6, 7], &[1, 2, 3, 4]),
    ("fresh", &[0, 5], &[3]),
    ("number_parts", &[0, 1, 2], &[]),
    ("panel_column", &[0, 1, 2, 6], &[]),
    ("read", &[0, 1, 2, 3, 4, 5], &[3, 4]),
    ("report", &[0, 1, 2, 4, 5], &[5]),
    ("token_text", &[0, 5, 6, 7], &[6]),
    ("walk_step", &[0], &[]),
];

/// What a program writes about a list if it finds each wrong answer and no other.
fn verdict(cases: &[Case]) -> String {
    let failed = cases.iter().filter(|case| case.wrong).count();
    let passed = cases.len() - failed;
    let first = match cases.iter().position(|case| case.wrong) {
        Some(before) => format!("first to differ: case {}\n", before + 1),
        None => String::new(),
    };
    format!("{first}{passed} passed, {failed} failed\n")
}

/// Each program's lists are those that `record` writes, and its standard output the verdicts on them. Sought from
/// the oracle's folder at the time of the run: a copied build must not look into another repository.
fn check_files(tally: &mut Tally) {
    for (program, lists) in PROGRAMS {
        let crates = Path::new("../crates");
        let held = |file| fs::read_to_string(crates.join(program).join(file)).unwrap_or_default();
        let mut verdicts = String::new();
        for (list, file) in lists.into_iter().zip(LISTS) {
            let cases = recorded(list).unwrap_or_default();
            let lines = cases.iter().map(|case| format!("{}\n", case.line));
            let written: String = lines.collect();
            tally.expect(held(file) == written, || {
                format!("crates/{program}/{file} is not what `oracle/record {list}` writes")
            });
            verdicts += &verdict(&cases);
        }
        tally.equal(held("stdout"), verdicts, program);
    }
}

/// The program that walks over the tokens of a text writes what the oracle does for it.
fn check_walk(tally: &mut Tally) {
    let held = |file| fs::read(Path::new("../crates/walk_tokens").join(file)).unwrap_or_default();
    tally.expect(held("stdout") == walk_output(&held("stdin")), || {
        "crates/walk_tokens/stdout is not what `oracle/walk` writes for its stdin".to_string()
    });
}

/// "What comes first in a reply", "Details", "Kinds": those of a reading of a short text are all among the recorded texts.
fn check_reach(tally: &mut Tally) {
    let (mut refusals, mut details, mut kinds) =
        (BTreeSet::new(), BTreeSet::new(), BTreeSet::new());
    for text in recorded_texts() {
        match fresh_reading(&text).map_err(|refusal| refusal.numbers()) {
            Ok(reading) => kinds.extend(reading.tokens.iter().step_by(TOKEN_WORDS).copied()),
            Err(reply) => {
                refusals.insert(reply[0]);
                if let [3, _, detail, ..] = reply[..] {
                    details.insert(detail);
                }
            }
        }
    }
    let spelled = (0..=LAST_KIND).filter(|kind| *kind != 66);
    tally.equal(refusals, (2..=4).collect(), "refusals recorded");
    tally.equal(details, (1..=12).collect(), "details recorded");
    tally.equal(kinds, spelled.collect(), "kinds recorded");
}

/// "What comes first in a reply": those of an edit from the fresh page on, which 7 is not, and the buffers of 5.
fn check_edits(tally: &mut Tally) {
    let (mut replies, mut buffers) = (BTreeSet::new(), BTreeSet::new());
    for history in recorded_histories() {
        let mut page = history.page();
        for edit in &history.edits {
            let reply = edit.apply(&mut page);
            replies.insert(reply[0]);
            if let [5, buffer, _] = reply[..] {
                buffers.insert(buffer);
            }
        }
    }
    tally.equal(replies, (0..=6).collect(), "replies to edits recorded");
    tally.equal(buffers, (1..=4).collect(), "buffers of edits recorded");
}

/// "What comes first in a reply": those that a function can have are all among its recorded calls, and among those that are altered.
fn check_calls(tally: &mut Tally) {
    for calls in [single_calls(), altered_calls()] {
        let mut reached: BTreeMap<&str, [BTreeSet<u64>; 2]> = BTreeMap::new();
        for mut call in calls {
            let [numbers, buffers] = reached.entry(call.name).or_default();
            let reply = call.answer();
            numbers.insert(reply[0]);
            if let [5, buffer, _] = reply[..] {
                buffers.insert(buffer);
            }
        }
        let set = |numbers: &[u64]| numbers.iter().copied().collect::<BTreeSet<u64>>();
        let all = REPLIES.map(|(name, numbers, buffers)| (name, [set(numbers), set(buffers)]));
        tally.equal(reached, all.into(), "replies to calls recorded");
    }
}

/// A call's line, by hand.
fn check_call_line(tally: &mut Tally) {
    let bytes = Call::of("f").number(7u64).bytes(b"ab").bytes(b"a########b");
    let call = bytes.bytes(b"").words(&[1, 2, 2]).words(&[]);
    let line = "f 1 7 3 6162 61,23*8,62 - 2 1,2*2 - 1 0";
    tally.equal(call.line(&[1, 0]), line.to_string(), "a call's line");
}

/// The lines of the kept lists are those of the cases that they are read back as.
fn check_kept(tally: &mut Tally) {
    for list in ["texts", "edits", "calls", "free"] {
        let lines: Vec<String> = kept(list).iter().flat_map(AnyCase::lines).collect();
        let held: Vec<&str> = kept_lines(list).lines().collect();
        tally.expect(held == lines, || {
            format!("oracle/kept/{list} has other answers")
        });
    }
}

/// A case of each list, read back from its lines, is the same.
fn check_read_back(tally: &mut Tally) {
    let mut random = Random::new(5);
    for list in [
        "texts", "long", "numbers", "edits", "scripts", "calls", "free",
    ] {
        for case in (0..100).filter_map(|_| AnyCase::generated(&mut random, list)) {
            let back = read_back(case.list(), &case.lines().join("\n"));
            let same = back == Some(vec![case.clone()]);
            tally.expect(same, || format!("{case:?} is not read back"));
        }
    }
}

/// All of them.
pub fn check(tally: &mut Tally) {
    check_files(tally);
    check_walk(tally);
    check_kept(tally);
    check_read_back(tally);
    check_reach(tally);
    check_edits(tally);
    check_calls(tally);
    check_call_line(tally);
}
