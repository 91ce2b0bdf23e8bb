//! The self-test: the library with one answer made wrong, which must be found, made small and printed.

use crate::held;
use crate::lent::{Lent, WORD};
use crate::library::{written, Call, Done, Fault, Library};
use crate::shrink::shrunk;
use oracle::case::Case;
use oracle::generate::Random;
use oracle::kept::read_back;

/// A fault, the list that must find it, and the input that is left of it: the first fields of the smallest case's lines.
struct Entry {
    name: &'static str,
    list: &'static str,
    smallest: &'static [&'static str],
    fault: Fault,
}

/// A call of this kind was accepted.
fn accepted(done: &Done, call: Call) -> bool {
    done.call == call && done.reply[0] == 0
}

/// The text holds these bytes.
fn holds(done: &Done, bytes: &[u8]) -> bool {
    done.text.windows(bytes.len()).any(|part| part == bytes)
}

/// Changes the reply's word `at` where the test says so.
fn word(done: &mut Done, test: bool, at: usize, change: u64) {
    if test {
        done.reply[at] = done.reply[at].wrapping_add(change);
    }
}

/// The parts of a number were asked for, and the text begins with these bytes.
fn number(done: &Done, front: &[u8]) -> bool {
    done.call == Call::NumberParts && done.text.starts_with(front)
}

/// Faults that a text by itself shows.
const OF_TEXTS: [Entry; 18] = [
    Entry {
        name: "read: one token more, where the text holds a tab",
        list: "texts",
        smallest: &["09 "],
        fault: |done| word(done, accepted(done, Call::Read) && holds(done, b"\t"), 3, 1),
    },
    Entry {
        name: "read: another kind of the first token, where the text holds an arrow",
        list: "long",
        smallest: &["2d3e "],
        fault: |done| {
            if accepted(done, Call::Read) && holds(done, b"->") {
                done.tokens[0] ^= 1;
            }
        },
    },
    Entry {
        name: "read: a word past the line records, where the text holds a bracket",
        list: "long",
        smallest: &["28 "],
        fault: |done| {
            if accepted(done, Call::Read) && holds(done, b"(") {
                let needed = 21 * (done.reply[2] as usize + 1);
                done.lines[needed..].fill(0);
            }
        },
    },
    Entry {
        name: "read: a word written before refusal 5",
        list: "texts",
        smallest: &["- "],
        fault: |done| {
            if done.call == Call::Read && done.reply[0] == 5 && !done.lines.is_empty() {
                done.lines[0] = 0;
            }
        },
    },
    Entry {
        name: "read: the least length in refusal 5 for the tokens",
        list: "texts",
        smallest: &["61 "],
        fault: |done| {
            let short = done.call == Call::Read && done.reply.starts_with(&[5, 4]);
            word(done, short, 2, 1);
        },
    },
    Entry {
        name: "report: the last byte of the message of a lone &",
        list: "long",
        smallest: &["26 "],
        fault: |done| {
            if accepted(done, Call::Report) && done.reply[1] > 0 && holds(done, b"&") {
                done.bytes[done.reply[1] as usize - 1] ^= 1;
            }
        },
    },
    Entry {
        name: "panel column: where the text holds a scalar of three bytes",
        list: "long",
        smallest: &["e9aead "],
        fault: |done| {
            word(
                done,
                accepted(done, Call::Column) && holds(done, b"\xE9"),
                1,
                1,
            )
        },
    },
    Entry {
        name: "byte value: one too high",
        list: "texts",
        smallest: &["62276127 "],
        fault: |done| {
            let value = done.call == Call::ByteValue && done.reply.starts_with(&[0, 1]);
            word(done, value, 2, 1);
        },
    },
    Entry {
        name: "check: yes for every page that holds a comment",
        list: "texts",
        smallest: &["23 "],
        fault: |done| {
            if accepted(done, Call::Check) && holds(done, b"#") {
                done.reply[1] = 1;
            }
        },
    },
    Entry {
        name: "token text: a part of three bytes is told as two",
        list: "texts",
        smallest: &["616161 "],
        fault: |done| {
            let part = accepted(done, Call::TokenText) && done.reply[1] == 1 && done.reply[3] == 3;
            word(done, part, 3, u64::MAX);
        },
    },
    Entry {
        name: "token text: a token that is not one is accepted",
        list: "texts",
        smallest: &["61 "],
        fault: |done| {
            if done.call == Call::TokenText && done.reply[..] == [7] {
                *done.reply = vec![0, 1, 0, 0];
            }
        },
    },
    Entry {
        name: "walk: a next number one higher past the end",
        list: "texts",
        smallest: &["- "],
        fault: |done| {
            let end = done.call == Call::WalkStep && done.reply[1] == 0;
            word(done, end, 2, 1);
        },
    },
    Entry {
        name: "number parts: base 10 behind 0X",
        list: "numbers",
        smallest: &["3058 "],
        fault: |done| {
            if accepted(done, Call::NumberParts) && number(done, b"0X") {
                done.reply[3] = 10;
            }
        },
    },
    Entry {
        name: "number parts: hex digits f64 are told as a suffix",
        list: "numbers",
        smallest: &["3078663634 "],
        fault: |done| {
            if accepted(done, Call::NumberParts) && number(done, b"0xf64") && done.reply[2] == 5 {
                done.reply[4..].copy_from_slice(&[2, 4]);
            }
        },
    },
    Entry {
        name: "number parts: the digits end before the _ that a suffix follows",
        list: "numbers",
        smallest: &["315f6678 "],
        fault: |done| {
            let told = accepted(done, Call::NumberParts) && number(done, b"1_fx");
            word(done, told, 4, u64::MAX);
        },
    },
    Entry {
        name: "number parts: a fraction alone is taken",
        list: "numbers",
        smallest: &["2e30 "],
        fault: |done| {
            if accepted(done, Call::NumberParts) && number(done, b".0") {
                *done.reply = vec![0, 1, 2, 10, 2, 0];
            }
        },
    },
    Entry {
        name: "number parts: a number is taken out of a text that is not well-formed",
        list: "numbers",
        smallest: &["30ff "],
        fault: |done| {
            if done.reply[0] == 2 && number(done, b"0") && holds(done, b"\xFF") {
                *done.reply = vec![0, 1, 1, 10, 1, 0];
            }
        },
    },
    Entry {
        name: "number parts: a byte of the text is written",
        list: "numbers",
        smallest: &["61 "],
        fault: |done| {
            if accepted(done, Call::NumberParts) && !done.bytes.is_empty() {
                done.bytes[0] ^= 1;
            }
        },
    },
];

/// Faults that a list of edits or a page with calls shows.
const OF_PAGES: [Entry; 8] = [
    Entry {
        name: "edit: one line more is counted, where the text holds a tab",
        list: "scripts",
        smallest: &["p 1500 1500 2100 2500", "e 0 0 09 "],
        fault: |done| word(done, accepted(done, Call::Edit) && holds(done, b"\t"), 4, 1),
    },
    Entry {
        name: "edit: a count of 0 is told as 1",
        list: "scripts",
        smallest: &["p 1500 1500 2100 2500", "e 0 0 0a ", "e 1 1 - "],
        fault: |done| {
            let none = accepted(done, Call::Edit) && done.reply[1] > 0 && done.reply[4] == 0;
            word(done, none, 4, 1);
        },
    },
    Entry {
        name: "edit: the spare after refusal 2",
        list: "edits",
        smallest: &["p 1500 1500 2100 2500", "e 0 0 ff "],
        fault: |done| {
            let refused = done.call == Call::Edit && done.reply[0] == 2;
            if refused && done.bytes.contains(&0xFF) {
                done.bytes[0] ^= 1;
            }
        },
    },
    Entry {
        name: "edit: the least length in refusal 5 for the tokens",
        list: "edits",
        smallest: &["p 1 1 42 0", "e 0 0 61 "],
        fault: |done| {
            let short = done.call == Call::Edit && done.reply.starts_with(&[5, 4]);
            word(done, short, 2, 1);
        },
    },
    Entry {
        name: "edit: the last word of the lines, where an edit leaves no text",
        list: "edits",
        smallest: &["p 1500 1500 2100 2500", "e 0 0 - "],
        fault: |done| {
            if accepted(done, Call::Edit) && done.reply[1] == 0 {
                let last = done.lines.len() - 1;
                done.lines[last] ^= 1;
            }
        },
    },
    Entry {
        name: "edit: refusal 6 is told as 7",
        list: "edits",
        smallest: &["p 1500 1500 2100 2500", "e 0 1 - "],
        fault: |done| {
            let outside = done.call == Call::Edit && done.reply[..] == [6];
            word(done, outside, 0, 1);
        },
    },
    Entry {
        name: "walk: a kind past the last is told as 0",
        list: "calls",
        smallest: &["- 0 2 0 1 2870616765202862797465732030"],
        fault: |done| {
            if done.call == Call::WalkStep && done.reply.get(3).is_some_and(|kind| *kind > 92) {
                done.reply[3] = 0;
            }
        },
    },
    Entry {
        name: "edit of an unfaithful page: one byte more",
        list: "free",
        smallest: &["- - 0 0 0 21 0 0 0 0 0 0 0 0 0 0 0 0 0 0 0 0 0 0 0 0 0 0 0 0 -"],
        fault: |done| word(done, accepted(done, Call::Edit), 1, 1),
    },
];

/// The library with the fault of this number, counted from 1.
pub fn broken(number: usize) -> Option<Library> {
    let mut entries = OF_TEXTS.iter().chain(&OF_PAGES);
    let entry = entries.nth(number.checked_sub(1)?)?;
    Some(Library::with_fault(entry.fault))
}

/// The most cases in which a fault must be found.
const MOST: usize = 50_000;

/// The smallest case that shows the fault, and how many cases it took to find one.
fn found(library: &Library, list: &str) -> Option<(usize, Case)> {
    let mut random = Random::new(1);
    let fails = |case: &Case| held(library, case).is_err();
    (1..=MOST).find_map(|number| {
        let case = Case::generated(&mut random, list).filter(fails)?;
        Some((number, shrunk(case, fails)))
    })
}

/// What is wrong with the search for one fault, if anything is.
fn failing(entry: &Entry) -> Result<String, String> {
    let broken = Library::with_fault(entry.fault);
    let (number, case) = found(&broken, entry.list).ok_or("not found")?;
    let lines = case.lines();
    let printed = lines.join("\n");
    let begins = |(line, smallest): (&String, &&str)| line.starts_with(*smallest);
    if lines.len() != entry.smallest.len() || !lines.iter().zip(entry.smallest).all(begins) {
        return Err(format!("not the smallest case:\n{printed}"));
    }
    if read_back(case.list(), &printed).as_deref() != Some(std::slice::from_ref(&case)) {
        return Err(format!("not read back as it was:\n{printed}"));
    }
    if let Err(what) = held(&Library::default(), &case) {
        return Err(format!("without the fault, {what}:\n{printed}"));
    }
    let smallest: Vec<&str> = entry.smallest.iter().map(|line| line.trim()).collect();
    Ok(format!("case {number}, shrunk to {}", smallest.join(" / ")))
}

/// An item beside a lent buffer that was written is found, on either side.
fn beside_found() -> bool {
    (0..2).all(|side| {
        let mut lent = Lent::filled(3, WORD);
        let before = lent.holds("lines", &[WORD; 3]).is_ok();
        *lent.beside()[side] = 0;
        before && lent.holds("lines", &[WORD; 3]).is_err()
    })
}

/// A word of the reply past its count that was written is found.
fn past_count_found() -> bool {
    let reply = |words: usize| {
        written(|reply| {
            (0..words).for_each(|word| unsafe { *reply.add(word) = 6 });
            1
        })
    };
    reply(1) == [6] && reply(2) != [6]
}

/// Every fault is found; the last line is `N passed, M failed`.
pub fn all_found() -> bool {
    let (mut passed, mut failed) = (0, 0);
    for entry in OF_TEXTS.iter().chain(&OF_PAGES) {
        match failing(entry) {
            Ok(how) => {
                passed += 1;
                println!("{}: {how}", entry.name);
            }
            Err(what) => {
                failed += 1;
                println!("{}: {what}", entry.name);
            }
        }
    }
    let others = [
        ("an item beside a buffer", beside_found()),
        ("a word past the reply's count", past_count_found()),
    ];
    for (name, found) in others {
        println!("{name}: {}", if found { "found" } else { "not found" });
        passed += usize::from(found);
        failed += usize::from(!found);
    }
    println!("{passed} passed, {failed} failed");
    failed == 0
}
