//! The texts that are measured: a site's script, statements drawn at random, and texts on which one part of a reader has all the work.

/// Numbers that are the same in every run.
struct Random(u64);

impl Random {
    fn below(&mut self, n: u64) -> u64 {
        self.0 = self
            .0
            .wrapping_mul(6364136223846793005)
            .wrapping_add(1442695040888963407);
        (self.0 >> 33) % n
    }

    fn pick<'a>(&mut self, from: &[&'a str]) -> &'a str {
        from[self.below(from.len() as u64) as usize]
    }
}

const PENS: [&str; 8] = [
    "north_1",
    "north_2",
    "mid_3",
    "mid_4",
    "south_5",
    "south_6",
    "nursery",
    "cleaner_fish",
];

const NOTES: [&str; 6] = [
    "# the round of the morning, before the boat is out",
    "// stop at once where the fish do not take the feed",
    "# see the sheet of the pellets' maker",
    "// the sensor stands at ten metres",
    "# set by the vet, do not raise",
    "// pen by pen, from the north",
];

/// A pen's limits, rate and laws. `@` is the pen's name, `$` a number, `~` one with a fraction, `^` a note at a line's end or none.
const PEN: &str = "\
// ---- @ ----
record limits_@:
    max_rate: fx = $fx,
    pellet_mm: f64 = ~,
    oxygen_floor: f64 = ~,
    seconds: u32 = $_000,

fn rate_@(oxygen: f64, temp: f64, fish: u32) -> fx
    requires oxygen >= ~
    ensures result <= limits.max_rate
    let base: fx = fish * $fx / 1_000;^
    let low = oxygen < limits.oxygen_floor || temp > ~;
    if low && !override_on:
        log(\"@: low oxygen\", oxygen, temp);
        return base * $fx / 100;
    if temp < ~ { return base / 2; }
    return min(base, limits.max_rate);^

Law \"@ feeding\" When clock.hour >= $ && clock.hour < $ ->
    Pulse(spreader[$], rate_@(oxygen.@, temp.@, count.@))

Law \"@ stop\" When appetite.@ is F:
    valve[$] := false;
    blower.speed -= $;^

";

/// One round of a pen's plan.
const ROUNDS: [&str; 4] = [
    "    feed(@, $, $fx, [$, $, $]);^\n",
    "    if oxygen.@ > ~:\n        feed(@, $, $fx, [$, $]);^\n        wait($u32);\n",
    "    for i in 0..$:\n        feed(@, i * $ + $, $fx, []);^\n",
    "    guard silo[$].mass >= $ else { skip(@, \"silo $\"); }\n    feed(@, $, $fx, [$]);^\n",
];

/// A template's text, with numbers of one to three digits.
fn fill(r: &mut Random, pen: &str, template: &str, out: &mut String) {
    for c in template.chars() {
        match c {
            '@' => *out += pen,
            '$' => {
                let most = [10, 100, 1000][r.below(3) as usize];
                *out += &r.below(most).to_string();
            }
            '~' => *out += &format!("{}.{}", r.below(30), r.below(10)),
            '^' if r.below(4) == 0 => *out += &format!(" {}", r.pick(&NOTES)),
            '^' => {}
            _ => out.push(c),
        }
    }
}

/// A week of a site: its pens, and for each day the rounds of each pen.
fn week(r: &mut Random, number: usize, out: &mut String) {
    for pen in PENS {
        fill(r, pen, PEN, out);
    }
    for day in 1..=7 {
        *out += &format!("fn week_{number}_day_{day}(oxygen: quad, silo: ref) -> bool\n");
        for pen in PENS {
            for _ in 0..3 + r.below(4) {
                let round = r.pick(&ROUNDS);
                fill(r, pen, round, out);
            }
        }
        *out += "    return true;\n\n";
    }
}

/// A text of exactly this many bytes: parts as they are made, up to the last whole line, and a comment.
fn exactly(size: usize, mut part: impl FnMut(usize, &mut String)) -> Vec<u8> {
    let mut text = String::new();
    let mut number = 1;
    while text.len() < size {
        part(number, &mut text);
        number += 1;
    }
    let mut bytes = text.into_bytes();
    bytes.truncate(size);
    let whole = bytes
        .iter()
        .rposition(|b| *b == b'\n')
        .map_or(0, |lf| lf + 1);
    bytes[whole..].fill(b'#');
    bytes
}

/// A site's script: week by week, the same pens, with other numbers and rounds.
pub fn script(size: usize) -> Vec<u8> {
    let mut r = Random(1);
    exactly(size, |number, out| week(&mut r, number, out))
}

#[rustfmt::skip]
const NAMES: [&str; 24] = [
    "pen", "pens", "rate", "feed_rate", "oxygen", "depth_m", "silo", "blower", "valve", "line_pressure", "seconds", "pellet_size",
    "biomass", "i", "n", "total", "camera", "appetite", "max_rate", "water_temp", "fish_count", "daily_ration", "current", "spreader",
];

const KINDS: [&str; 6] = ["u32", "i32", "f64", "fx", "bool", "quad"];

/// A value: a name, a number, a field, a call or an element.
fn value(r: &mut Random) -> String {
    match r.below(8) {
        0 | 1 => r.pick(&NAMES).to_string(),
        2 => r.below(2000).to_string(),
        3 => format!("{}.{}", r.below(40), r.below(100)),
        4 => format!("{}fx", r.below(300)),
        5 => format!("{}.{}", r.pick(&NAMES), r.pick(&NAMES)),
        6 => format!("{}({}, {})", r.pick(&NAMES), r.pick(&NAMES), r.below(64)),
        _ => format!("{}[{}]", r.pick(&NAMES), r.pick(&NAMES)),
    }
}

/// A value, or a sum or a product of values.
fn term(r: &mut Random) -> String {
    match r.below(3) {
        0 => value(r),
        1 => format!(
            "{} {} {}",
            value(r),
            r.pick(&["+", "-", "*", "/", "%"]),
            value(r)
        ),
        _ => format!(
            "({} {} {}) {} {}",
            value(r),
            r.pick(&["+", "-"]),
            value(r),
            r.pick(&["*", "/"]),
            value(r)
        ),
    }
}

/// A comparison, or two.
fn test(r: &mut Random) -> String {
    let one = format!(
        "{} {} {}",
        value(r),
        r.pick(&["<", ">", "<=", ">=", "==", "!="]),
        term(r)
    );
    if r.below(3) == 0 {
        return format!("{one} {} {}", r.pick(&["&&", "||"]), r.pick(&NAMES));
    }
    one
}

/// A statement that opens no block, the one of this number.
fn plain(r: &mut Random, what: u64, pad: &str, note: &str) -> String {
    match what {
        0 | 1 => {
            let (name, kind) = (r.pick(&NAMES), r.pick(&KINDS));
            format!("{pad}let {name}: {kind} = {};{note}\n", term(r))
        }
        2 => format!("{pad}{} := {};{note}\n", r.pick(&NAMES), term(r)),
        3 => {
            let (name, sign) = (r.pick(&NAMES), r.pick(&["+=", "-=", "*="]));
            format!("{pad}{name} {sign} {};{note}\n", value(r))
        }
        4 => {
            let (one, other) = (r.pick(&NAMES), r.pick(&NAMES));
            format!("{pad}log(\"{one} {other}\", {});{note}\n", value(r))
        }
        5 => format!("{pad}return {};{note}\n", term(r)),
        6 => format!("{pad}{}\n", r.pick(&NOTES)),
        _ => {
            let (one, two, three) = (value(r), term(r), value(r));
            format!("{pad}spread({one},\n{pad}       {two},\n{pad}       {three});{note}\n")
        }
    }
}

/// The line that opens a block, the one of this number.
fn opening(r: &mut Random, what: u64, pad: &str, note: &str) -> String {
    match what {
        8 => format!("{pad}if {}:{note}\n", test(r)),
        9 => {
            let (name, from) = (r.pick(&NAMES), r.below(4));
            format!("{pad}for {name} in {from}..{}:{note}\n", value(r))
        }
        _ => format!("{pad}while {}:{note}\n", test(r)),
    }
}

/// A statement at this depth, with the block that it opens.
fn statement(r: &mut Random, depth: usize, out: &mut String) {
    let pad = "    ".repeat(depth);
    let note = match r.below(8) {
        0 => format!(" {}", r.pick(&NOTES)),
        _ => String::new(),
    };
    let what = r.below(if depth < 5 { 11 } else { 8 });
    if what < 8 {
        *out += &plain(r, what, &pad, &note);
        return;
    }
    *out += &opening(r, what, &pad, &note);
    for _ in 0..1 + r.below(3) {
        statement(r, depth + 1, out);
    }
}

/// Functions whose every statement, name and number is drawn at random: nothing that comes can be told from what came before.
pub fn drawn(size: usize) -> Vec<u8> {
    let mut r = Random(1);
    exactly(size, |_, out| {
        *out += &format!(
            "fn {}_{}({}: {})",
            r.pick(&NAMES),
            r.below(1000),
            r.pick(&NAMES),
            r.pick(&KINDS)
        );
        *out += &format!(
            " ->{}{}\n    requires {}\n",
            r.pick(&[" ", " ", "\n        "]),
            r.pick(&KINDS),
            test(&mut r)
        );
        for _ in 0..3 + r.below(6) {
            statement(&mut r, 1, out);
        }
        *out += "\n";
    })
}

/// A comment line.
pub const COMMENT: &str = "# the round of the morning, before the boat is out\n";

/// The first line of an indented script.
pub const TOP: &str = "Profile site\n";

/// A script of which every line stands in a level that opens below the first line.
pub fn indented(size: usize) -> Vec<u8> {
    let script = String::from_utf8(script(size)).unwrap();
    let mut text = TOP.to_string();
    for line in script.split_inclusive('\n') {
        let room = size - text.len();
        if line.len() + 4 > room {
            break;
        }
        text += "    ";
        text += line;
    }
    let mut bytes = text.into_bytes();
    bytes.resize(size, b'#');
    bytes
}

/// These bytes again and again, up to this size.
pub fn repeated(part: &str, size: usize) -> Vec<u8> {
    part.bytes().cycle().take(size).collect()
}
