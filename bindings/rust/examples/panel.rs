//! panel FILE: shows a script and applies edits to it, one on each line of standard input.
//!
//! The file itself is not changed. Exit status: 0, 1 (the file cannot be read or is refused), 2 (wrong arguments).
use lexpage::{number_parts, report, Group, Header, Line, Page, Refusal, Token, TokenKind};
use std::io::{self, BufRead, IsTerminal, Write};
use std::ops::Range;
use std::process::ExitCode;
use std::{env, fs};

/// The most lines that are shown after an edit.
const MOST_SHOWN: usize = 12;

const HELP: &str = r"  a b TEXT   put TEXT in the place of the bytes a to b (b not included);
             \n is a line end, \t a tab, \r a CR, \\ a backslash
  a b        take these bytes out
  show       show the whole script
  parts N    show line N in parts: bytes a to b, what has their colour, text
  help       show this
  quit       leave";

/// What a line of input asks for.
enum Command {
    Edit { a: usize, b: usize, bytes: Vec<u8> },
    Show,
    Parts { line: usize },
    Help,
    Quit,
    Nothing,
}

fn command(input: &[u8]) -> Result<Command, String> {
    let words = input.trim_ascii();
    match words {
        b"" => return Ok(Command::Nothing),
        b"show" => return Ok(Command::Show),
        b"help" | b"?" => return Ok(Command::Help),
        b"quit" | b"exit" => return Ok(Command::Quit),
        _ => {}
    }
    if let Some(rest) = words.strip_prefix(b"parts") {
        return line_number(rest).map(|line| Command::Parts { line });
    }
    let mut fields = input.trim_ascii_start().splitn(3, |byte| *byte == b' ');
    let (a, b) = (offset(fields.next())?, offset(fields.next())?);
    Ok(Command::Edit {
        a,
        b,
        bytes: unescaped(fields.next().unwrap_or(b""))?,
    })
}

fn line_number(field: &[u8]) -> Result<usize, String> {
    let number = String::from_utf8_lossy(field.trim_ascii()).parse();
    number.map_err(|_| "after `parts` comes the number of a line".to_string())
}

fn offset(field: Option<&[u8]>) -> Result<usize, String> {
    let field = String::from_utf8_lossy(field.unwrap_or(b""));
    field.parse().map_err(|_| match field.as_ref() {
        "" => "an edit is `a b TEXT`: an offset is missing; `help` shows all commands".to_string(),
        _ => format!(
            "an edit is `a b TEXT`: `{}` is no offset; `help` shows all commands",
            shown(&field, " ")
        ),
    })
}

fn unescaped(text: &[u8]) -> Result<Vec<u8>, String> {
    let mut bytes = Vec::new();
    let mut rest = text.iter();
    while let Some(byte) = rest.next() {
        bytes.push(match (byte, if *byte == b'\\' { rest.next() } else { None }) {
            (b'\\', Some(b'n')) => b'\n',
            (b'\\', Some(b't')) => b'\t',
            (b'\\', Some(b'r')) => b'\r',
            (b'\\', Some(b'\\')) => b'\\',
            (b'\\', _) => return Err("after a backslash comes n, t, r or a backslash".to_string()),
            _ => *byte,
        });
    }
    Ok(bytes)
}

/// Text for a screen: a tab as `tab`, other control characters as their pictures, so that a script cannot steer the terminal.
fn shown(text: &str, tab: &str) -> String {
    let mut row = String::new();
    for c in text.chars() {
        match c {
            '\t' => row.push_str(tab),
            '\0'..='\u{1F}' => row.push(char::from_u32(0x2400 + u32::from(c)).unwrap_or('?')),
            '\u{7F}' => row.push('\u{2421}'),
            c if c.is_control() => row.push('\u{FFFD}'),
            c => row.push(c),
        }
    }
    row
}

/// What has a colour, and the terminal's code for it.
type Colour = (&'static str, &'static str);

const COMMENTS: Colour = ("comments", "90");
const TYPES: Colour = ("types", "36");

fn colour(group: Group) -> Colour {
    match group {
        Group::Keyword => ("keywords", "1;34"),
        Group::Type => TYPES,
        Group::Literal => ("literals", "32"),
        Group::Sign => ("signs", "33"),
        Group::Name | Group::Layout => ("names", ""),
    }
}

/// Bytes of a line and their colour. Blanks may stand before them, and there may be none.
type Part = (Range<usize>, Colour);

/// A token's two parts: a number's digits and its suffix; of any other token the whole and nothing.
fn token_parts(page: &Page, token: &Token) -> [Part; 2] {
    let Range { start, end } = token.range();
    let number = match token.kind {
        TokenKind::Num => number_parts(&page.text()[start..end]).ok().flatten(),
        _ => None,
    };
    let suffix = number.map_or(end, |number| start + number.digits);
    [(start..suffix, colour(token.kind.group())), (suffix..end, TYPES)]
}

/// The parts of a line, up to the next.
fn line_parts(page: &Page, line: &Line, next: &Line) -> Vec<Part> {
    let count = next.first_token - line.first_token;
    let mut at = line.start;
    let mut parts = Vec::new();
    for token in page.tokens().skip(line.first_token).take(count) {
        parts.push((at..token.position.max(at), COMMENTS));
        parts.extend(token_parts(page, &token));
        at = at.max(token.range().end);
    }
    parts
}

/// The screen: where rows go, and whether they have colours.
struct Screen {
    out: io::Stdout,
    coloured: bool,
}

impl Screen {
    fn row(&mut self, row: &str) -> io::Result<()> {
        writeln!(self.out, "{row}")
    }

    fn paint(&self, bytes: &[u8], (_, code): Colour) -> String {
        let text = shown(&String::from_utf8_lossy(bytes), "    ");
        if self.coloured && !code.is_empty() && !text.trim().is_empty() {
            return format!("\x1b[{code}m{text}\x1b[0m");
        }
        text
    }

    /// The lines from `first` on, `count` of them: first byte, line, open levels, text.
    fn lines(&mut self, page: &Page, first: usize, count: usize) -> io::Result<()> {
        let records: Vec<_> = page.lines().chain([page.end()]).collect();
        for i in first..first + count {
            let (line, next) = (&records[i], &records[i + 1]);
            let mut row = format!("{:>6} {:>4} {:>5}  ", line.start, i + 1, next.levels);
            for (range, colour) in line_parts(page, line, next) {
                row += &self.paint(&page.text()[range], colour);
            }
            self.row(row.trim_end())?;
        }
        Ok(())
    }

    /// A line in parts, without its blanks: bytes a to b, what has their colour, text.
    fn parts(&mut self, page: &Page, line: usize) -> io::Result<()> {
        let records: Vec<_> = page.lines().chain([page.end()]).collect();
        if line == 0 || line >= records.len() {
            let lines = page.header().lines;
            return self.row(&format!("there is no line {line}: the script has {lines}"));
        }
        self.row("     a      b  colour of  text")?;
        for (range, colour) in line_parts(page, &records[line - 1], &records[line]) {
            let bytes = page.text()[range.clone()].trim_ascii_start();
            if !bytes.is_empty() {
                let (a, b, text) = (range.end - bytes.len(), range.end, self.paint(bytes, colour));
                self.row(format!("{a:>6} {b:>6}  {:<9}  {text}", colour.0).trim_end())?;
            }
        }
        Ok(())
    }

    fn page(&mut self, page: &Page) -> io::Result<()> {
        let Header { bytes, lines, tokens } = page.header();
        self.row(&format!("{bytes} bytes, {lines} lines, {tokens} tokens"))?;
        self.row("  byte line level")?;
        self.lines(page, 0, lines as usize)
    }

    /// Why a text is refused: for a failure the message that the library writes.
    fn refusal(&mut self, refusal: &Refusal, text: Option<&[u8]>) -> io::Result<()> {
        match text.and_then(|text| report(text).ok().flatten()) {
            None => self.row(&format!("refused ({}): {refusal}", refusal.number())),
            Some(message) => {
                self.row(&format!("refused ({}):", refusal.number()))?;
                message.split('\n').try_for_each(|row| self.row(&shown(row, " ")))
            }
        }
    }

    fn edit(&mut self, page: &mut Page, (a, b): (usize, usize), bytes: &[u8]) -> io::Result<()> {
        match page.edit(a..b, bytes) {
            Ok(edited) => {
                let first = page.text()[..a].iter().filter(|byte| **byte == b'\n').count();
                self.row(&format!(
                    "read again: {} of {} lines",
                    edited.reread, edited.header.lines
                ))?;
                self.lines(page, first, edited.reread.min(MOST_SHOWN))?;
                match edited.reread.saturating_sub(MOST_SHOWN) {
                    0 => Ok(()),
                    more => self.row(&format!("{:>18} and {more} more; `show` shows all", "")),
                }
            }
            Err(Refusal::OutOfRange) => self.row(&format!(
                "refused (6): {a} to {b} is no range of {} bytes",
                page.text().len()
            )),
            Err(refusal) => self.refusal(&refusal, page.refused_text()),
        }
    }
}

/// Reads commands to the end of the input. Where it does not come from a terminal, each is written out before its answer.
fn session(page: &mut Page, screen: &mut Screen) -> io::Result<()> {
    let typed = io::stdin().is_terminal();
    let mut input = Vec::new();
    loop {
        if typed {
            write!(screen.out, "> ")?;
            screen.out.flush()?;
        }
        input.clear();
        if io::stdin().lock().read_until(b'\n', &mut input)? == 0 {
            return Ok(());
        }
        let line = input.strip_suffix(b"\n").unwrap_or(&input);
        if !typed {
            screen.row(&format!("> {}", shown(&String::from_utf8_lossy(line), " ")))?;
        }
        match command(line) {
            Ok(Command::Edit { a, b, bytes }) => screen.edit(page, (a, b), &bytes)?,
            Ok(Command::Show) => screen.page(page)?,
            Ok(Command::Parts { line }) => screen.parts(page, line)?,
            Ok(Command::Help) => screen.row(HELP)?,
            Ok(Command::Quit) => return Ok(()),
            Ok(Command::Nothing) => {}
            Err(what) => screen.row(&what)?,
        }
    }
}

/// Opens the script and runs the session; an error is what to say of the file.
fn run(file: &str, screen: &mut Screen) -> Result<(), String> {
    let text = fs::read(file).map_err(|error| format!("{file}: {error}"))?;
    let written = match Page::read(&text) {
        Ok(mut page) => screen.page(&page).and_then(|()| session(&mut page, screen)),
        Err(refusal) => {
            screen
                .refusal(&refusal, Some(&text))
                .map_err(|error| error.to_string())?;
            return Err(format!("{file} is no script that reads"));
        }
    };
    match written {
        Err(error) if error.kind() != io::ErrorKind::BrokenPipe => Err(error.to_string()),
        _ => Ok(()),
    }
}

fn main() -> ExitCode {
    let files: Vec<String> = env::args().skip(1).collect();
    let [file] = files.as_slice() else {
        eprintln!("panel FILE: shows a script and applies edits to it, one on each line of standard input\n{HELP}");
        return ExitCode::from(2);
    };
    let out = io::stdout();
    let coloured = out.is_terminal() && env::var_os("NO_COLOR").is_none_or(|value| value.is_empty());
    match run(file, &mut Screen { out, coloured }) {
        Ok(()) => ExitCode::SUCCESS,
        Err(what) => {
            eprintln!("panel: {what}");
            ExitCode::from(1)
        }
    }
}
