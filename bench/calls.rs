//! Calls on a text by itself, each on the texts that cost it most.

use crate::clock::{copy, medians, timed};
use crate::page::number_parts;
use crate::parts::{print, Row};
use crate::texts::repeated;

/// A call with its name and its text.
type Call = (&'static str, Vec<u8>, fn(&[u8], &mut [u64; 16]));

/// The calls, on texts of this size.
fn calls(size: usize) -> Vec<Call> {
    let digits = repeated("7", size);
    let letters = [b"7 ", &repeated("é", size - 2)[..]].concat();
    vec![
        ("parts of a number that is the text", digits, number_parts),
        (
            "parts of a number before letters of two bytes",
            letters,
            number_parts,
        ),
    ]
}

/// A call at one size, beside a plain copy of its text.
fn measured((name, text, call): Call, turns: usize) -> Row {
    let (mut bytes, mut reply) = (vec![0; text.len()], [0; 16]);
    let times = medians(turns, || {
        let (called, ()) = timed(|| call(&text, &mut reply));
        vec![called, copy(&text, &mut bytes)]
    });
    assert_eq!(reply[0], 0, "{name}: refused");
    (name, times[0], times[1])
}

/// Every call, for each size.
pub fn table(sizes: &[usize], turns: usize) {
    let at = |size: &usize| {
        let calls = calls(*size).into_iter();
        calls.map(|call| measured(call, turns)).collect()
    };
    let columns: Vec<Vec<Row>> = sizes.iter().map(at).collect();
    print("call", sizes, &columns);
}
