//! The texts on which a call takes the most for a byte: `read`, report, check and an edit of each, at every size.

use crate::clock::{medians, timed};
use crate::page::{agree, report, Page};
use crate::worst_texts::{texts, Worst};

/// The calls, as the table has them.
const CALLS: [&str; 4] = ["read", "report", "check", "edit"];

/// The text that is read: the page's, or the edited one where the edit is refused because it fails.
fn text_read(page: &mut Page, worst: &Worst) -> Vec<u8> {
    page.edit(worst.at, worst.at + worst.out, worst.w);
    if page.reply[0] == 0 {
        undo(page, worst);
        return worst.page.clone();
    }
    assert_eq!(page.reply[0], 3, "another refusal is due");
    page.spare[..worst.page.len() - worst.out + worst.w.len()].to_vec()
}

/// Takes out what the edit has put in.
fn undo(page: &mut Page, worst: &Worst) {
    let before = &worst.page[worst.at..worst.at + worst.out];
    page.change(worst.at, worst.at + worst.w.len(), before);
}

/// The nanoseconds a byte of each call. The Rust reads some of these texts in quadratic time, so it is not asked.
fn measured(worst: &Worst, turns: usize) -> Vec<f64> {
    let mut page = Page::with_room(&worst.page, 2 * worst.page.len());
    let text = text_read(&mut page, worst);
    let mut out = vec![0; 2 * text.len() + 256];
    let mut reply = [0; 16];
    let times = medians(turns, || {
        let (edited, ()) = timed(|| page.edit(worst.at, worst.at + worst.out, worst.w));
        if page.reply[0] == 0 {
            undo(&mut page, worst);
        }
        let (read, ()) = timed(|| page.read(&text));
        let (reported, ()) = timed(|| report(&text, &mut out, &mut reply));
        let (checked, ()) = timed(|| page.check(&text));
        vec![read, reported, checked, edited]
    });
    let a_byte = |time: f64| time * 1e6 / text.len() as f64;
    times.into_iter().map(a_byte).collect()
}

/// Every text, for each call at these sizes. Both read a short one of its kind alike.
pub fn table(sizes: &[usize], turns: usize) {
    let head = |call: &str| {
        let size = |size: &usize| format!(" {call}, {} KiB |", size >> 10);
        sizes.iter().map(size).collect::<String>()
    };
    println!("| text |{}", CALLS.map(head).concat());
    println!("|---|{}", "---|".repeat(CALLS.len() * sizes.len()));
    for (number, short) in texts(4096).iter().enumerate() {
        agree(&Page::new(&short.page));
        let of_size = |size: &usize| measured(&texts(size - 256)[number], turns);
        let columns: Vec<_> = sizes.iter().map(of_size).collect();
        let call = |call: usize| {
            let cell = |column: &Vec<f64>| format!(" {:.1} |", column[call]);
            columns.iter().map(cell).collect::<String>()
        };
        println!("| {} |{}", short.name, [0, 1, 2, 3].map(call).concat());
    }
}
