//! A failing case made small: parts are taken out and numbers made simpler while it still fails.

use oracle::case::Case;
use oracle::generate::calls::Calls;
use oracle::generate::edits::{Edit, History, AMPLE};
use oracle::generate::free::FreeEdit;
use oracle::page::{Lengths, Page};
use oracle::reading::{LINE_WORDS, TOKEN_WORDS};
use std::time::{Duration, Instant};

/// Smaller things, tried one after another.
type Smaller<'a, T> = Box<dyn Iterator<Item = T> + 'a>;

/// How long smaller cases are sought.
const LIMIT: Duration = Duration::from_secs(60);

/// The smallest case that the steps below reach and that still fails.
pub fn shrunk(case: Case, fails: impl Fn(&Case) -> bool) -> Case {
    let begun = Instant::now();
    let mut case = case;
    loop {
        let mut candidates = smaller(&case).take_while(|_| begun.elapsed() < LIMIT);
        let next = candidates.find(|candidate| fails(candidate));
        drop(candidates);
        match next {
            Some(smaller) => case = smaller,
            None => return case,
        }
    }
}

/// Cases that are smaller: fewer edits, then fewer bytes, then simpler bytes, then lower numbers.
fn smaller(case: &Case) -> Smaller<'_, Case> {
    match case {
        Case::Text(text) => Box::new(smaller_bytes(text).map(Case::Text)),
        Case::Edits(history) => Box::new(smaller_history(history).map(Case::Edits)),
        Case::Calls(calls) => Box::new(smaller_calls(calls).map(Case::Calls)),
        Case::Free(free) => Box::new(smaller_free(free).map(Case::Free)),
    }
}

/// Ranges to take out of so many items: half of them, then a quarter, and so on to one.
fn ranges(length: usize) -> impl Iterator<Item = (usize, usize)> {
    let sizes = std::iter::successors(Some(length), |size| Some(size / 2));
    let sizes = sizes.take_while(|size| *size > 0).chain([3]);
    sizes.flat_map(move |size| {
        let starts = (0..length).step_by(size.div_ceil(2));
        starts.map(move |start| (start, length.min(start + size)))
    })
}

/// The items without those of a range.
fn without<T: Clone>(items: &[T], (start, end): (usize, usize)) -> Vec<T> {
    [&items[..start], &items[end..]].concat()
}

/// The simplest bytes first.
const SIMPLE: &[u8] = b"a \n";

/// How simple a byte is.
fn rank(byte: u8) -> usize {
    let found = SIMPLE.iter().position(|simple| *simple == byte);
    found.unwrap_or(SIMPLE.len())
}

/// Fewer bytes, or one simpler byte.
fn smaller_bytes(bytes: &[u8]) -> Smaller<'_, Vec<u8>> {
    let shorter = ranges(bytes.len()).map(|range| without(bytes, range));
    Box::new(shorter.chain(simpler_bytes(bytes)))
}

/// Two bytes replaced by the simplest one, or one byte by a simpler one.
fn simpler_bytes(bytes: &[u8]) -> impl Iterator<Item = Vec<u8>> + '_ {
    let replaced = |at: usize, size: usize, simple: &u8| {
        let mut simpler = without(bytes, (at, at + size));
        simpler.insert(at, *simple);
        simpler
    };
    let pairs = (1..bytes.len()).map(move |end| replaced(end - 1, 2, &SIMPLE[0]));
    let single = (0..bytes.len()).flat_map(move |at| {
        let simple = SIMPLE[..rank(bytes[at])].iter();
        simple.map(move |simple| replaced(at, 1, simple))
    });
    pairs.chain(single)
}

/// Lower numbers.
fn lower(number: u64) -> impl Iterator<Item = u64> {
    let lower = [0, number / 2, number.saturating_sub(1)];
    lower.into_iter().filter(move |low| *low < number)
}

/// Fewer edits, shorter or simpler ones, or simpler lengths of the buffers.
fn smaller_history(history: &History) -> Smaller<'_, History> {
    let count = history.edits.len();
    let fewer = ranges(count).map(|range| History {
        edits: without(&history.edits, range),
        ..history.clone()
    });
    let joined = (2..=count).rev().map(|count| joined(history, count));
    let edited = (0..count).flat_map(|number| smaller_at(history, number));
    Box::new(
        fewer
            .chain(joined)
            .chain(edited)
            .chain(simpler_lengths(history)),
    )
}

/// The first edits, so many, as one that puts in the text that they lead to.
fn joined(history: &History, count: usize) -> History {
    let mut page = history.page();
    for edit in &history.edits[..count] {
        edit.apply(&mut page);
    }
    let first = Edit::new(0, 0, &page.text[..page.n as usize]);
    History {
        edits: [&[first], &history.edits[count..]].concat(),
        ..history.clone()
    }
}

/// The list with one edit smaller: fewer bytes, for which later edits may move, simpler bytes, lower places.
fn smaller_at(history: &History, number: usize) -> Smaller<'_, History> {
    let edit = &history.edits[number];
    let with = move |edit: Edit| {
        let mut smaller = history.clone();
        smaller.edits[number] = edit;
        smaller
    };
    let of_bytes = move |w: Vec<u8>| with(Edit { w, ..edit.clone() });
    let moved = move |range| moved(of_bytes(without(&edit.w, range)), number, range);
    let shorter = ranges(edit.w.len())
        .flat_map(move |range| [of_bytes(without(&edit.w, range)), moved(range)]);
    let simpler = simpler_bytes(&edit.w).map(of_bytes);
    let placed = lower_places(edit).map(with);
    Box::new(shorter.chain(simpler).chain(placed))
}

/// Later edits moved to the front by the bytes that this one no longer puts in.
fn moved(mut history: History, number: usize, (start, end): (usize, usize)) -> History {
    let (from, size) = (history.edits[number].a, (end - start) as u64);
    let from = from.saturating_add(start as u64);
    for edit in &mut history.edits[number + 1..] {
        for place in [&mut edit.a, &mut edit.b] {
            if *place > from {
                *place = from.max(place.saturating_sub(size));
            }
        }
    }
    history
}

/// The edit nearer to the front, or of fewer bytes.
fn lower_places(edit: &Edit) -> impl Iterator<Item = Edit> + '_ {
    let size = edit.b.saturating_sub(edit.a);
    let nearer = lower(edit.a).flat_map(move |a| [(a, a.saturating_add(size)), (a, edit.b)]);
    let narrower = lower(size).map(|size| (edit.a, edit.a.saturating_add(size)));
    let lower = lower(edit.b).map(|b| (edit.a, b));
    let places = nearer.chain(narrower).chain(lower);
    places
        .filter(|(a, b)| u128::from(*a) + u128::from(*b) < u128::from(edit.a) + u128::from(edit.b))
        .map(|(a, b)| Edit {
            a,
            b,
            w: edit.w.clone(),
        })
}

/// Ample buffers; where the case needs narrow ones, narrower ones.
fn simpler_lengths(history: &History) -> impl Iterator<Item = History> + '_ {
    let is = history.lengths;
    let with = |lengths| History {
        lengths,
        ..history.clone()
    };
    let low = |number: usize| lower(number as u64).map(|low| low as usize);
    let texts = low(is.text).map(move |text| Lengths { text, ..is });
    let spares = low(is.spare).map(move |spare| Lengths { spare, ..is });
    let lines = low(is.lines).map(move |lines| Lengths {
        lines: lines.max(LINE_WORDS),
        ..is
    });
    let tokens = low(is.tokens).map(move |tokens| Lengths { tokens, ..is });
    let narrower = texts.chain(spares).chain(lines).chain(tokens);
    let all = [AMPLE].into_iter().chain(narrower);
    all.filter(move |lengths| is != AMPLE && *lengths != is)
        .map(with)
}

/// A smaller page, or calls with lower numbers.
fn smaller_calls(calls: &Calls) -> Smaller<'_, Calls> {
    let pages = smaller_page(&calls.page).map(|page| Calls {
        page,
        ..calls.clone()
    });
    let offsets = lower(calls.offset).map(|offset| Calls {
        offset,
        ..calls.clone()
    });
    let tokens = lower(calls.token).map(|token| Calls {
        token,
        ..calls.clone()
    });
    let names = lower(calls.names as u64).map(|names| Calls {
        names: names as usize,
        ..calls.clone()
    });
    Box::new(pages.chain(offsets).chain(tokens).chain(names))
}

/// A smaller page, or a smaller edit of it.
fn smaller_free(free: &FreeEdit) -> Smaller<'_, FreeEdit> {
    let FreeEdit { page, edit } = free;
    let pages = smaller_page(page).map(|page| FreeEdit {
        page,
        edit: edit.clone(),
    });
    let bytes = smaller_bytes(&edit.w).map(|w| Edit { w, ..edit.clone() });
    let edits = bytes.chain(lower_places(edit)).map(|edit| FreeEdit {
        page: page.clone(),
        edit,
    });
    Box::new(pages.chain(edits))
}

/// A page with less of something, simpler bytes and words, or a lower number in its header.
fn smaller_page(page: &Page) -> Smaller<'_, Page> {
    let size = |page: &Page| {
        let bytes = page.text.len() + page.spare.len();
        bytes + page.lines.len() + page.tokens.len()
    };
    let steps = [shorter_text, shorter_spare, fewer_lines, fewer_tokens];
    let ends = [shorter_lines, shorter_tokens];
    let fewer = steps.into_iter().chain(ends).map(|fewer| fewer(page));
    let fewer = fewer.filter(move |fewer| size(fewer) < size(page));
    let bytes = simpler_bytes(&page.text).map(|text| Page {
        text,
        ..page.clone()
    });
    let spares = simpler_bytes(&page.spare).map(|spare| Page {
        spare,
        ..page.clone()
    });
    let simpler = bytes.chain(spares).chain(lower_headers(page));
    Box::new(fewer.chain(simpler).chain(zeros(page)))
}

/// The page with one thing changed.
fn changed(page: &Page, change: impl FnOnce(&mut Page)) -> Page {
    let mut changed = page.clone();
    change(&mut changed);
    changed
}

/// One number of the header lower.
fn lower_headers(page: &Page) -> impl Iterator<Item = Page> + '_ {
    let low = |number: u32| lower(number.into()).map(|low| low as u32);
    let bytes = low(page.n).map(|n| changed(page, |page| page.n = n));
    let lines = low(page.m).map(|m| changed(page, |page| page.m = m));
    let tokens = low(page.k).map(|k| changed(page, |page| page.k = k));
    bytes.chain(lines).chain(tokens)
}

/// One byte less, in the text.
fn shorter_text(page: &Page) -> Page {
    changed(page, |page| {
        page.text.pop();
        page.n = page.n.min(page.text.len() as u32);
    })
}

/// One byte less, in the spare.
fn shorter_spare(page: &Page) -> Page {
    changed(page, |page| {
        page.spare.pop();
    })
}

/// One line record less.
fn fewer_lines(page: &Page) -> Page {
    changed(page, |page| {
        let length = page.lines.len().saturating_sub(LINE_WORDS);
        page.lines.truncate(length);
        page.m = page.m.saturating_sub(1);
    })
}

/// One token record less.
fn fewer_tokens(page: &Page) -> Page {
    changed(page, |page| {
        let length = page.tokens.len().saturating_sub(TOKEN_WORDS);
        page.tokens.truncate(length);
        page.k = page.k.saturating_sub(1);
    })
}

/// One line word less.
fn shorter_lines(page: &Page) -> Page {
    changed(page, |page| {
        page.lines.pop();
    })
}

/// One token word less.
fn shorter_tokens(page: &Page) -> Page {
    changed(page, |page| {
        page.tokens.pop();
    })
}

/// One word of a record 0.
fn zeros(page: &Page) -> impl Iterator<Item = Page> + '_ {
    let lines = (0..page.lines.len())
        .filter(|at| page.lines[*at] != 0)
        .map(|at| changed(page, |page| page.lines[at] = 0));
    let tokens = (0..page.tokens.len())
        .filter(|at| page.tokens[*at] != 0)
        .map(|at| changed(page, |page| page.tokens[at] = 0));
    lines.chain(tokens)
}
