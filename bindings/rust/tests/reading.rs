//! Texts read by themselves: document 01's cases, the tables of kinds, failures and their messages, columns, values, parts of numbers.
use lexpage::{
    byte_value, number_parts, panel_column, report, Code, Detail, Failure, Group, Number, Page, Refusal, Suffix, Token,
    TokenKind, MAX_BYTES,
};
use std::fs;

/// A table of the rules, from the repository's definitions.
fn definitions(name: &str) -> String {
    let path = format!("{}/../../crates/rules/specs/{name}.antt", env!("CARGO_MANIFEST_DIR"));
    fs::read_to_string(&path).unwrap_or_else(|error| panic!("{path}: {error}"))
}

/// The tokens of a text: name, position, length, line, column.
fn tokens(text: &str) -> Vec<(&'static str, usize, usize, usize, usize)> {
    let page = Page::read(text.as_bytes()).unwrap();
    page.tokens()
        .map(|t| (t.kind.name(), t.position, t.length, t.line, t.column))
        .collect()
}

fn refusal(text: &[u8]) -> Refusal {
    Page::read(text).unwrap_err()
}

fn failure(text: &str) -> Failure {
    match refusal(text.as_bytes()) {
        Refusal::Failure(failure) => failure,
        other => panic!("{text:?}: {other:?}"),
    }
}

/// A line at width 0, one at width 1 and so on to this width.
fn ladder(deepest: usize) -> String {
    (0..=deepest).map(|width| " ".repeat(width) + "a\n").collect()
}

#[test]
fn l1_empty() {
    let page = Page::read(b"").unwrap();
    assert_eq!(page, Page::new());
    assert_eq!((page.lines().len(), page.tokens().count(), page.end().start), (0, 0, 0));
}

#[test]
fn l2_levels() {
    let told = [
        ("Ident", 0, 1, 1, 1),
        ("Newline", 1, 0, 1, 2),
        ("Indent", 2, 0, 2, 1),
        ("Ident", 4, 1, 2, 3),
    ];
    let end = [("Newline", 5, 0, 2, 4), ("Dedent", 6, 0, 3, 1)];
    assert_eq!(tokens("a\n  b\n"), [&told[..], &end[..]].concat());
}

#[test]
fn l2_line_records() {
    let page = Page::read(b"a\n  b\n").unwrap();
    let starts: Vec<_> = page
        .lines()
        .map(|line| (line.start, line.first_token, line.levels))
        .collect();
    assert_eq!(starts, [(0, 0, 0), (2, 2, 0)]);
    let end = page.end();
    assert_eq!(
        (end.start, end.first_token, end.depth, end.arrow, end.open_widths()),
        (6, 5, 0, false, &[2][..])
    );
    assert_eq!(end.widths[1..], [0; 15]);
    let open = Page::read(b"f( (\n# c\ng ->\n").unwrap();
    let states: Vec<_> = open
        .lines()
        .chain([open.end()])
        .map(|line| (line.depth, line.arrow))
        .collect();
    assert_eq!(states, [(0, false), (2, false), (2, false), (2, true)]);
}

#[test]
fn l3_l5_l6_l8_failures() {
    let place = |text| {
        let f = failure(text);
        (f.code, f.detail, f.found, f.position, f.line, f.column, f.range)
    };
    assert_eq!(place("a & b"), (Code::E0002, Detail::ExpectedAnd, None, 2, 1, 3, 2..3));
    assert_eq!(place("  a\n b"), (Code::E0101, Detail::BadIndent, None, 4, 2, 1, 4..5));
    assert_eq!(
        place(r"b'\x80'"),
        (Code::E0001, Detail::EscapeAbove7F, None, 4, 1, 5, 4..5)
    );
    assert_eq!(
        place("\"ab\r\n"),
        (Code::E0004, Detail::UnterminatedString, None, 0, 1, 1, 0..3)
    );
}

#[test]
fn l4_l6_l7_l9_tokens() {
    let names = |text| tokens(text).iter().map(|t| t.0).collect::<Vec<_>>();
    assert_eq!(names("f ->\n  x"), ["Ident", "Implies", "Newline", "Ident", "Newline"]);
    let indents = |text| names(text).iter().filter(|name| **name == "Indent").count();
    assert_eq!(indents("f ->\n# c\n  x"), 1);
    assert_eq!(tokens(r"b'\x7F'")[0], ("ByteLit", 0, 7, 1, 1));
    assert_eq!(tokens(r#""a\""#), [("String", 0, 4, 1, 1), ("Newline", 4, 0, 1, 5)]);
    assert_eq!(names("1..2"), ["Num", "DotDot", "Num", "Newline"]);
    assert_eq!(names("0x1f64"), ["Num", "Newline"]);
}

#[test]
fn l11_sixteen_levels() {
    let page = Page::read(ladder(16).as_bytes()).unwrap();
    assert_eq!(page.end().open_widths(), (1..=16).collect::<Vec<u32>>());
    assert_eq!(page.header().tokens, 66);
    let deeper = refusal(ladder(17).as_bytes());
    assert_eq!(
        (deeper.number(), deeper.to_string()),
        (4, "line 18: more than 16 levels".to_string())
    );
}

#[test]
fn kinds_are_those_of_the_rules() {
    let kinds = definitions("Kinds");
    let list = kinds.split("kind_names =").nth(1).unwrap().split("[]").next().unwrap();
    let names: Vec<&str> = list.split('"').skip(1).step_by(2).collect();
    assert_eq!(TokenKind::ALL.map(TokenKind::name).to_vec(), names);
    for (number, kind) in TokenKind::ALL.into_iter().enumerate() {
        assert_eq!(
            (kind.number() as usize, TokenKind::from_number(number as u32)),
            (number, Some(kind))
        );
    }
    assert_eq!(TokenKind::from_number(93), None);
    assert_eq!(TokenKind::from_number(u32::MAX), None);
}

#[test]
fn each_spelling_reads_as_its_kind() {
    let tables = definitions("Tables");
    let rows: Vec<(&str, &str)> = tables
        .split(" is \"")
        .zip(tables.split(" is \"").skip(1))
        .map(|(before, after)| (before.rsplit('"').nth(1).unwrap(), after.split('"').next().unwrap()))
        .collect();
    assert_eq!(rows.len(), 46 + 41);
    for (spelling, name) in rows {
        let page = Page::read(spelling.as_bytes()).unwrap();
        let token = page.tokens().next().unwrap();
        assert_eq!((token.kind.name(), page.token_text(0)), (name, Ok(spelling.as_bytes())));
        let word = spelling.as_bytes()[0].is_ascii_alphabetic();
        assert_eq!(word, token.kind.group() != Group::Sign, "{spelling}");
    }
}

#[test]
fn token_texts_are_parts_or_names() {
    let text = "if x\n  \"é\" b'\\n'\n";
    let page = Page::read(text.as_bytes()).unwrap();
    let parts: Vec<&[u8]> = (0..page.tokens().count())
        .map(|i| page.token_text(i).unwrap())
        .collect();
    let told = ["if", "x", "\\n", "<INDENT>", "\"é\"", "b'\\n'", "\\n", "<DEDENT>"];
    assert_eq!(parts, told.map(str::as_bytes));
    assert_eq!(page.token_text(8), Err(Refusal::OutOfRange));
    for (i, token) in page.tokens().enumerate().filter(|(_, token)| token.length > 0) {
        assert_eq!(page.token_text(i), Ok(&page.text()[token.range()]));
    }
}

#[test]
fn tokens_are_the_records() {
    let page = Page::read(b"let x = (1..2)\n  y\n").unwrap();
    let words: Vec<u32> = page
        .tokens()
        .flat_map(
            |Token {
                 kind,
                 position,
                 length,
                 line,
                 column,
             }| {
                [
                    kind.number(),
                    position as u32,
                    length as u32,
                    line as u32,
                    column as u32,
                ]
            },
        )
        .collect();
    assert_eq!(words, page.token_words());
    assert_eq!(
        (words.len(), page.tokens().len()),
        (5 * page.header().tokens as usize, words.len() / 5)
    );
    let all: Vec<Token> = page.tokens().collect();
    for i in 0..=all.len() {
        assert_eq!(page.tokens().skip(i).collect::<Vec<_>>(), all[i..]);
    }
}

/// A text with each detail, in the order of the details; the scalar found.
const FAILURES: [(&str, Option<char>); 12] = [
    ("é", Some('é')),
    ("&", None),
    ("x \"", None),
    ("  a\n b", None),
    ("b'", None),
    ("b''", None),
    (r"b'\x80'", None),
    (r"b'\x7g'", Some('g')),
    (r"b'\q'", Some('q')),
    ("b'\t'", Some('\t')),
    ("b'鮭'", Some('鮭')),
    ("b'ab'", Some('b')),
];

#[test]
fn failures_are_written_as_in_the_message() {
    for (i, (text, found)) in FAILURES.into_iter().enumerate() {
        let f = failure(text);
        assert_eq!((f.detail.number() as usize, f.found), (i + 1, found), "{text:?}");
        let message = report(text.as_bytes()).unwrap().unwrap();
        let (code, detail) = message.lines().next().unwrap()["error[".len()..]
            .split_once("]: ")
            .unwrap();
        let told = format!("line {}, column {}: {detail} ({code})", f.line, f.column);
        assert_eq!(refusal(text.as_bytes()).to_string(), told);
    }
}

#[test]
fn a_failure_takes_one_row() {
    assert_eq!(failure("\0").found, Some('\0'));
    assert_eq!(
        failure("\0").to_string(),
        "line 1, column 1: unexpected character 'U+0000' (E0001)"
    );
    assert_eq!(failure("b'a\r'").to_string().lines().count(), 1);
}

#[test]
fn messages() {
    let told = "error[E0101]: Bad Indent\n --> <input>:2:1\n  |\n 2 |  b\n  | ^";
    assert_eq!(report(b"  a\n b").unwrap().as_deref(), Some(told));
    assert_eq!(report(b"").unwrap(), None);
    let long = format!("{} &", "a".repeat(5000));
    let message = report(long.as_bytes()).unwrap().unwrap();
    assert!(message.len() > 10_000 && message.ends_with(" ^") && message.contains(&long));
    assert_eq!(report(b"\xC0\x80").unwrap_err(), Refusal::Malformed { prefix: 0 });
    assert_eq!(
        report(ladder(17).as_bytes()).unwrap_err(),
        Refusal::TooDeep { line: 18 }
    );
}

#[test]
fn columns_count_scalars() {
    let text = "a\né鮭\tx\r\n".as_bytes();
    let columns: Vec<_> = (0..=text.len() + 1)
        .map(|offset| panel_column(text, offset).unwrap_or(0))
        .collect();
    assert_eq!(columns, [1, 2, 1, 0, 2, 0, 0, 3, 4, 5, 6, 1, 0]);
    assert_eq!(panel_column(text, 3), Err(Refusal::OutOfRange));
    assert_eq!(panel_column(b"\xFF", 0), Err(Refusal::Malformed { prefix: 0 }));
}

#[test]
fn values_of_byte_literals() {
    let cases: [(&[u8], Option<u8>); 8] = [
        (b"b'a'", Some(97)),
        (br"b'\0'", Some(0)),
        (br"b'\''", Some(39)),
        (br"b'\x7F'", Some(127)),
        (b"b'''", Some(39)),
        (br"b'\x+7'", Some(7)),
        (br"b'\x80'", None),
        (b"b'", None),
    ];
    for (text, value) in cases {
        assert_eq!(byte_value(text), Ok(value), "{text:?}");
    }
    assert_eq!(byte_value(b"b'\xE9'"), Err(Refusal::Malformed { prefix: 2 }));
}

/// Numbers with their base, digits' end, suffix and end.
const NUMBERS: [(&str, u32, usize, Option<Suffix>, usize); 19] = [
    ("0xi32", 16, 2, Some(Suffix::I32), 5),
    ("0x_", 16, 3, None, 3),
    ("0x_i32", 16, 3, Some(Suffix::I32), 6),
    ("0x1f64", 16, 6, None, 6),
    ("0x1fx", 16, 4, None, 4),
    ("0X1Fu32", 16, 4, Some(Suffix::U32), 7),
    ("0x1.5", 16, 3, None, 3),
    ("1_", 10, 2, None, 2),
    ("1_i32", 10, 2, Some(Suffix::I32), 5),
    ("1.5f64", 10, 3, Some(Suffix::F64), 6),
    ("1.5_fx", 10, 4, Some(Suffix::Fx), 6),
    ("1._5", 10, 1, None, 1),
    ("1f642", 10, 1, Some(Suffix::F64), 4),
    ("1i32u32", 10, 1, Some(Suffix::I32), 4),
    ("1Fx", 10, 1, None, 1),
    ("00x1", 10, 2, None, 2),
    ("1..2", 10, 1, None, 1),
    ("1 ", 10, 1, None, 1),
    ("1\n", 10, 1, None, 1),
];

#[test]
fn parts_of_numbers() {
    for (text, base, digits, suffix, end) in NUMBERS {
        let number = Number {
            end,
            base,
            digits,
            suffix,
        };
        assert_eq!(number_parts(text.as_bytes()), Ok(Some(number)), "{text:?}");
        assert_eq!(tokens(text)[0], ("Num", 0, end, 1, 1), "{text:?}");
    }
    for text in ["", "x", " 1", "-1", ".5", "_1", "٣"] {
        assert_eq!(number_parts(text.as_bytes()), Ok(None), "{text:?}");
    }
    assert_eq!(number_parts(b"1\xFF"), Err(Refusal::Malformed { prefix: 1 }));
    assert_eq!(number_parts(b"\xFF"), Err(Refusal::Malformed { prefix: 0 }));
}

#[test]
fn a_number_may_fill_the_text() {
    let digits = Number {
        end: MAX_BYTES,
        base: 10,
        digits: MAX_BYTES,
        suffix: None,
    };
    let mut text = vec![b'7'; MAX_BYTES];
    assert_eq!(number_parts(&text), Ok(Some(digits)));
    text[MAX_BYTES - 3..].copy_from_slice(b"u32");
    let suffixed = Number {
        digits: MAX_BYTES - 3,
        suffix: Some(Suffix::U32),
        ..digits
    };
    assert_eq!(number_parts(&text), Ok(Some(suffixed)));
    text[1] = 0xFF;
    assert_eq!(number_parts(&text), Err(Refusal::Malformed { prefix: 1 }));
    text.push(0xFF);
    assert_eq!(number_parts(&text), Err(Refusal::TooLong { length: MAX_BYTES + 1 }));
}

#[test]
fn limits_of_a_text() {
    let mut text = vec![b'#'; MAX_BYTES];
    assert_eq!(Page::read(&text).unwrap().header().bytes as usize, MAX_BYTES);
    text.push(b'#');
    let long = Refusal::TooLong { length: MAX_BYTES + 1 };
    assert_eq!(long.to_string(), "the text has 1048577 bytes; at most 1048576 are read");
    assert_eq!(refusal(&text), long);
    assert_eq!(report(&text).unwrap_err(), long);
    assert_eq!(panel_column(&text, 0), Err(long.clone()));
    assert_eq!(byte_value(&text), Err(long.clone()));
    assert_eq!(number_parts(&text), Err(long));
}

#[test]
fn the_most_records() {
    let page = Page::read(&vec![b'\n'; MAX_BYTES]).unwrap();
    assert_eq!((page.line_words().len(), page.lines().len()), (22_020_117, MAX_BYTES));
    let page = Page::read(&b"+".repeat(MAX_BYTES)).unwrap();
    assert_eq!(page.tokens().count(), MAX_BYTES + 1);
    assert_eq!(page.tokens().last().unwrap().kind, TokenKind::Newline);
}
