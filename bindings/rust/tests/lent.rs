//! The calls on lent buffers: short ones, words past the records, stale records, headers that do not fit.
use lexpage::lent;
use lexpage::{Buffer, Header, Page, Refusal, TokenKind};

const TEXT: &[u8] = b"a\n  b\n";
const FILL: u32 = 0xAAAA_AAAA;

fn short(buffer: Buffer, least: usize) -> Refusal {
    Refusal::ShortBuffer { buffer, least }
}

/// The records of the text, with nothing to spare.
fn records() -> (Header, Vec<u32>, Vec<u32>) {
    let (mut lines, mut tokens) = (vec![0; 63], vec![0; 30]);
    let header = lent::read(TEXT, &mut lines, &mut tokens).unwrap();
    (header, lines, tokens)
}

#[test]
fn fresh_needs_21_words() {
    let mut lines = [FILL; 22];
    assert_eq!(lent::fresh(&mut lines[..20]), Err(short(Buffer::Lines, 21)));
    assert_eq!(lines, [FILL; 22]);
    assert_eq!(lent::fresh(&mut lines), Ok(Header::default()));
    assert_eq!((&lines[..21], lines[21]), (&[0; 21][..], FILL));
    assert_eq!(lent::fresh(&mut []), Err(short(Buffer::Lines, 21)));
}

#[test]
fn read_names_the_short_buffer() {
    let (mut lines, mut tokens) = ([FILL; 64], [FILL; 31]);
    assert_eq!(
        lent::read(TEXT, &mut lines[..62], &mut []),
        Err(short(Buffer::Lines, 63))
    );
    assert_eq!(
        lent::read(TEXT, &mut lines[..63], &mut tokens[..29]),
        Err(short(Buffer::Tokens, 30))
    );
    assert_eq!((lines, tokens), ([FILL; 64], [FILL; 31]));
    let header = lent::read(TEXT, &mut lines, &mut tokens).unwrap();
    assert_eq!(
        header,
        Header {
            bytes: 6,
            lines: 2,
            tokens: 6
        }
    );
    assert_eq!((header.line_words(), header.token_words()), (63, 30));
    assert_eq!((lines[63], tokens[30]), (FILL, FILL));
    let page = Page::read(TEXT).unwrap();
    assert_eq!((page.line_words(), page.token_words()), (&lines[..63], &tokens[..30]));
}

#[test]
fn edit_names_the_short_buffer() {
    let (mut text, mut spare, mut lines, mut tokens) = ([0; 6], [0; 6], [0; 63], [0; 30]);
    let header = lent::fresh(&mut lines).unwrap();
    let mut put = |lengths: [usize; 4]| {
        let (text, spare) = (&mut text[..lengths[0]], &mut spare[..lengths[1]]);
        lent::edit(
            header,
            text,
            spare,
            &mut lines[..lengths[2]],
            &mut tokens[..lengths[3]],
            0..0,
            TEXT,
        )
    };
    assert_eq!(put([5, 5, 21, 0]), Err(short(Buffer::Text, 6)));
    assert_eq!(put([6, 5, 21, 0]), Err(short(Buffer::Spare, 6)));
    assert_eq!(put([6, 6, 62, 0]), Err(short(Buffer::Lines, 63)));
    assert_eq!(put([6, 6, 63, 29]), Err(short(Buffer::Tokens, 30)));
    assert_eq!(put([6, 6, 20, 30]), Err(Refusal::Unfit));
    let edited = put([6, 6, 63, 30]).unwrap();
    assert_eq!((edited.reread, edited.header.tokens), (2, 6));
    assert_eq!((&text, &spare), (&TEXT.try_into().unwrap(), &TEXT.try_into().unwrap()));
    assert_eq!(
        (header, lines.to_vec(), tokens.to_vec()),
        (Header::default(), records().1, records().2)
    );
}

#[test]
fn check_finds_each_stale_word() {
    let (header, lines, tokens) = records();
    assert_eq!(lent::check(header, TEXT, &lines, &tokens), Ok(true));
    for i in 0..lines.len() {
        let mut stale = lines.clone();
        stale[i] ^= 1;
        assert_eq!(lent::check(header, TEXT, &stale, &tokens), Ok(false), "line word {i}");
    }
    for i in 0..tokens.len() {
        let mut stale = tokens.clone();
        stale[i] ^= 1;
        assert_eq!(lent::check(header, TEXT, &lines, &stale), Ok(false), "token word {i}");
    }
    assert_eq!(lent::check(header, b"a\n  &\n", &lines, &tokens), Ok(false));
    assert_eq!(lent::check(header, b"a\n  \xFF\n", &lines, &tokens), Ok(false));
}

#[test]
fn headers_that_do_not_fit() {
    let (header, lines, tokens) = records();
    let more = [
        Header { bytes: 7, ..header },
        Header { lines: 3, ..header },
        Header { tokens: 7, ..header },
        Header {
            lines: u32::MAX,
            ..header
        },
    ];
    for header in more {
        assert_eq!(lent::check(header, TEXT, &lines, &tokens), Err(Refusal::Unfit));
        assert_eq!(lent::token_text(header, TEXT, &lines, &tokens, 0), Err(Refusal::Unfit));
    }
    assert_eq!(Refusal::Unfit.number(), 7);
}

#[test]
fn token_text_tests_the_token() {
    let (header, lines, mut tokens) = records();
    assert_eq!(lent::token_text(header, TEXT, &lines, &tokens, 3), Ok(&b"b"[..]));
    assert_eq!(
        lent::token_text(header, TEXT, &lines, &tokens, 6),
        Err(Refusal::OutOfRange)
    );
    tokens[15] = 93;
    assert_eq!(lent::token_text(header, TEXT, &lines, &tokens, 3), Err(Refusal::Unfit));
    tokens[15] = TokenKind::Ident.number();
    tokens[17] = 3;
    assert_eq!(lent::token_text(header, TEXT, &lines, &tokens, 3), Err(Refusal::Unfit));
    tokens[17] = 2;
    assert_eq!(lent::token_text(header, TEXT, &lines, &tokens, 3), Ok(&b"b\n"[..]));
}

#[test]
fn walk_goes_by_the_header() {
    let (header, _, mut tokens) = records();
    let count = |words: &[u32]| lent::walk(header, words).count();
    assert_eq!(count(&tokens), 6);
    assert_eq!(count(&[&tokens[..], &[0; 40]].concat()), 6);
    assert_eq!(count(&tokens[..29]), 5);
    assert_eq!(count(&[]), 0);
    assert_eq!(lent::walk(Header::default(), &tokens).count(), 0);
    let mut short = lent::walk(header, &tokens[..29]);
    assert_eq!(short.nth(3).unwrap().unwrap().position, 4);
    assert_eq!(
        (short.len(), short.next().unwrap().unwrap().kind),
        (1, TokenKind::Newline)
    );
    assert_eq!(
        (short.next(), short.len(), short.nth(usize::MAX), short.next()),
        (None, 0, None, None)
    );
    tokens[5] = 93;
    let kinds: Vec<_> = lent::walk(header, &tokens)
        .map(|token| token.map(|t| t.kind.number()))
        .collect();
    assert_eq!(kinds, [Ok(45), Err(Refusal::Unfit), Ok(90), Ok(45), Ok(92), Ok(91)]);
}

#[test]
fn line_records_go_by_the_header() {
    let (header, lines, _) = records();
    let starts = |lines: &[u32]| {
        lent::line_records(header, lines)
            .map(|line| line.start)
            .collect::<Vec<_>>()
    };
    assert_eq!(starts(&lines), [0, 2, 6]);
    assert_eq!(starts(&[&lines[..], &[0; 42]].concat()), [0, 2, 6]);
    assert_eq!(starts(&lines[..62]), [0, 2]);
}

#[test]
fn report_names_the_length() {
    let mut out = [0x7E; 80];
    let length = lent::report(b"a & b", &mut out).unwrap();
    assert!(out[..length].ends_with(b" 1 | a & b\n  |   ^") && out[length..].iter().all(|byte| *byte == 0x7E));
    assert_eq!(
        lent::report(b"a & b", &mut out[..length - 1]),
        Err(short(Buffer::Out, length))
    );
    assert_eq!(lent::report(b"a && b", &mut []), Ok(0));
    assert_eq!(short(Buffer::Out, 9).to_string(), "the buffer out is shorter than 9");
}
