//! No contract says how long a call takes. Here each call is timed on the texts that cost it most, against plain ones.
mod worst;

use lexpage::{lent, number_parts, Header, Refusal};
use std::time::{Duration, Instant};

/// The bytes of each text: a call on the plain one takes about a millisecond or more.
const SIZE: usize = 1 << 19;

/// How many times longer a call may take than on the plain text. A text of LFs, with a record for each byte, comes to five.
const TIMES: u32 = 20;

/// The calls that are timed.
const CALLS: [&str; 4] = ["read", "report", "check", "edit"];

/// A page in lent buffers, an edit of it, and the text that is read: that of the page, or the edited one where it fails.
struct Lent<'a> {
    header: Header,
    buffers: (Vec<u8>, Vec<u8>, Vec<u32>, Vec<u32>),
    edit: (usize, usize, &'a [u8]),
    out: Vec<u8>,
    read: Vec<u8>,
}

impl<'a> Lent<'a> {
    fn new(page: &[u8], edit: (usize, usize, &'a [u8])) -> Lent<'a> {
        let (room, line_feeds) = (page.len() + 8, page.iter().filter(|byte| **byte == b'\n').count());
        let (mut lines, mut tokens) = (vec![0; 21 * (line_feeds + 8)], vec![0; 10 * room]);
        let header = lent::read(page, &mut lines, &mut tokens).unwrap();
        let text = [page, &[0; 8]].concat();
        let mut lent = Lent {
            header,
            buffers: (text, vec![0; room], lines, tokens),
            edit,
            out: vec![0; 2 * room + 256],
            read: page.to_vec(),
        };
        if !lent.edited().0 {
            let (_, out, w) = edit;
            lent.read = lent.buffers.1[..page.len() - out + w.len()].to_vec();
        }
        lent
    }

    /// The bytes a..b become w; whether that is accepted, and how long it took.
    fn put(&mut self, a: usize, b: usize, w: &[u8]) -> (bool, Duration) {
        let (text, spare, lines, tokens) = &mut self.buffers;
        let begun = Instant::now();
        let answer = lent::edit(self.header, text, spare, lines, tokens, a..b, w);
        let time = begun.elapsed();
        match answer {
            Ok(edited) => self.header = edited.header,
            Err(ref refusal) => assert!(matches!(refusal, Refusal::Failure(_)), "{refusal}"),
        }
        (answer.is_ok(), time)
    }

    /// The edit: whether it is accepted, and how long it took. It is then undone.
    fn edited(&mut self) -> (bool, Duration) {
        let (at, out, w) = self.edit;
        let before = self.buffers.0[at..at + out].to_vec();
        let (accepted, time) = self.put(at, at + out, w);
        if accepted {
            assert!(self.put(at, at + w.len(), &before).0);
        }
        (accepted, time)
    }

    /// How long a call takes.
    fn time(&mut self, call: &str) -> Duration {
        let (_, _, lines, tokens) = &mut self.buffers;
        let header = Header {
            bytes: self.read.len() as u32,
            ..self.header
        };
        let begun = Instant::now();
        match call {
            "read" => drop(lent::read(&self.read, lines, tokens)),
            "report" => drop(lent::report(&self.read, &mut self.out)),
            "check" => drop(lent::check(header, &self.read, lines, tokens)),
            _ => return self.edited().1,
        }
        begun.elapsed()
    }
}

/// One of three runs of a call takes no longer than is due.
fn hold(what: &str, due: Duration, mut run: impl FnMut() -> Duration) {
    let runs = (0..3).map(|_| run());
    let slow: Vec<Duration> = runs.take_while(|time| *time > due).collect();
    assert!(slow.len() < 3, "{what} took {slow:?}, due is {due:?}");
}

/// So many times what the call takes on a plain text.
fn due(plain: &mut Lent, call: &str) -> Duration {
    TIMES * (0..5).map(|_| plain.time(call)).min().unwrap()
}

fn worst_texts() {
    for text in worst::texts(SIZE) {
        let mut worst = Lent::new(&text.page, (text.at, text.out, text.w));
        let mut plain = Lent::new(&text.plain, (0, 0, b"(\n"));
        for call in CALLS {
            let what = format!("{}: {call}", text.name);
            hold(&what, due(&mut plain, call), || worst.time(call));
        }
    }
}

/// The parts of a number that fills its text, and of one before letters of two bytes, against a reading of a plain text.
fn long_numbers() {
    let mut plain = Lent::new(&b"x := 4;\n".repeat(SIZE / 8), (0, 0, b"(\n"));
    for (front, rest) in [("7", "7"), ("7", "_"), ("7.", "7"), ("0x", "f"), ("7 ", "é")] {
        let text = front.to_string() + &rest.repeat(SIZE / rest.len());
        hold(&format!("{front}{rest}: parts"), due(&mut plain, "read"), || {
            let begun = Instant::now();
            assert!(number_parts(text.as_bytes()).unwrap().is_some());
            begun.elapsed()
        });
    }
}

/// One test, so that no two run at the same time.
#[test]
fn no_text_takes_much_longer_than_a_plain_one() {
    worst_texts();
    long_numbers();
}
