//! Damaged scripts: a small good one, damaged in one of many ways.

use crate::dice::Dice;
use crate::draft::{ended, Draft};

const LIMIT: usize = 49_152;

/// A good script's lines, and where things are in them.
struct Base {
    lines: Vec<Vec<u8>>,
    workers: usize,
}

type Form = fn(&mut Dice, Base) -> Vec<u8>;

const FORMS: [Form; 36] = [
    first_line_other,
    worker_count,
    first_line_number,
    first_line_fields,
    total_too_large,
    count_too_large,
    schedule_too_long,
    first_line_digits,
    code,
    reserved_key,
    key_written_badly,
    key_digits,
    key_count,
    letter,
    empty_request,
    code_written_badly,
    double_space,
    trailing_space,
    leading_space,
    tab,
    carriage_return,
    nul,
    high_byte,
    entry_out_of_range,
    entry_written_badly,
    entry_digits,
    entry_count,
    no_last_newline,
    bytes_after,
    line_missing,
    line_twice,
    cut_short,
    over_the_limit,
    at_the_limit,
    nothing,
    two_places,
];

pub fn script(dice: &mut Dice, turn: u64) -> Vec<u8> {
    let base = base(dice);
    let form = (turn % FORMS.len() as u64) as usize;
    FORMS[form](dice, base)
}

fn base(dice: &mut Dice) -> Base {
    let mut draft = Draft::new(dice.between(1, 4));
    draft.add_vertices_first(&[-3, 5]);
    for n in 0..dice.between(2, 9) {
        let worker = n % draft.workers();
        draft.ask_any(dice, worker, &[-3, 5, 12]);
    }
    let length = dice.between(4, 60);
    draft.bursts(dice, length, 3);
    Base { workers: draft.workers(), lines: draft.lines() }
}

impl Base {
    /// Any request line's number.
    fn request(&self, dice: &mut Dice) -> usize {
        dice.between(1, self.lines.len() - 2)
    }

    fn any(&self, dice: &mut Dice) -> usize {
        dice.below(self.lines.len())
    }

    fn schedule(&self) -> usize {
        self.lines.len() - 1
    }

    /// The script with one field of one line replaced.
    fn with_field(mut self, line: usize, field: usize, text: &str) -> Vec<u8> {
        let mut fields: Vec<&[u8]> = self.lines[line].split(|byte| *byte == b' ').collect();
        let place = field.min(fields.len() - 1);
        fields[place] = text.as_bytes();
        self.lines[line] = fields.join(&b' ');
        ended(&self.lines)
    }

    fn with_line(mut self, line: usize, text: Vec<u8>) -> Vec<u8> {
        self.lines[line] = text;
        ended(&self.lines)
    }

    /// The script with something inserted at a place of a line.
    fn with_inserted(mut self, line: usize, place: usize, what: &[u8]) -> Vec<u8> {
        let place = place.min(self.lines[line].len());
        self.lines[line].splice(place..place, what.iter().copied());
        ended(&self.lines)
    }

    /// One field of a line, the last one if the line has fewer.
    fn field(&self, line: usize, field: usize) -> String {
        let fields: Vec<&[u8]> = self.lines[line].split(|byte| *byte == b' ').collect();
        String::from_utf8_lossy(fields[field.min(fields.len() - 1)]).into_owned()
    }

    /// Where the spaces of a line are.
    fn spaces(&self, line: usize) -> Vec<usize> {
        let bytes = self.lines[line].iter().enumerate();
        bytes.filter(|(_, byte)| **byte == b' ').map(|(place, _)| place).collect()
    }
}

/// A number too large for everything, of 10, 11, 20 or 30 digits.
fn too_large(dice: &mut Dice) -> String {
    let length = dice.pick(&[10, 11, 20, 30]);
    let known = ["4294967296", "4294967297", "9999999999", "18446744073709551616"];
    if dice.chance(30) {
        return dice.pick(&known).to_string();
    }
    let mut text = dice.pick(&['3', '5', '9']).to_string();
    text.extend((1..length).map(|_| char::from(b'0' + dice.below(10) as u8)));
    text
}

/// A field in a form that is not allowed.
fn badly(dice: &mut Dice, field: &str) -> String {
    match dice.below(6) {
        0 => format!("0{field}"),
        1 => format!("+{field}"),
        2 => "-0".to_string(),
        3 => format!("-0{}", field.trim_start_matches('-')),
        4 => "00".to_string(),
        _ => format!("--{field}"),
    }
}

fn first_line_other(dice: &mut Dice, base: Base) -> Vec<u8> {
    let text = dice.pick(&["", " ", "hello", "1", "1 0", "# 1 0 0", "-1 0 0", "1,0,0", "1 0 0 0"]);
    base.with_line(0, text.as_bytes().to_vec())
}

fn worker_count(dice: &mut Dice, base: Base) -> Vec<u8> {
    let text = dice.pick(&["0", "9", "10", "16", "256", "257", "8 "]);
    base.with_field(0, 0, text)
}

fn first_line_number(dice: &mut Dice, base: Base) -> Vec<u8> {
    let field = dice.below(base.workers + 2);
    let text = badly(dice, &base.field(0, field));
    base.with_field(0, field, &text)
}

fn first_line_fields(dice: &mut Dice, mut base: Base) -> Vec<u8> {
    if dice.chance(50) {
        base.lines[0].extend_from_slice(b" 0");
    } else {
        let last = base.spaces(0).pop().unwrap_or_default();
        base.lines[0].truncate(last);
    }
    ended(&base.lines)
}

fn total_too_large(dice: &mut Dice, _: Base) -> Vec<u8> {
    let counts = dice.pick(&[
        "2 1024 1 0",
        "2 1 1024 0",
        "3 512 512 1 4",
        "8 128 128 128 128 128 128 128 129 1",
    ]);
    let mut lines = vec![counts.as_bytes().to_vec()];
    lines.extend((0..1_025).map(|_| b"3 7".to_vec()));
    lines.push(Vec::new());
    ended(&lines)
}

fn count_too_large(dice: &mut Dice, base: Base) -> Vec<u8> {
    let field = dice.between(1, base.workers);
    let text = dice.pick(&["1025", "1026", "65536", "65537", "2000"]);
    base.with_field(0, field, text)
}

fn schedule_too_long(dice: &mut Dice, base: Base) -> Vec<u8> {
    if dice.chance(50) {
        let field = base.workers + 1;
        return base.with_field(0, field, "8193");
    }
    let schedule = vec!["0"; 8_193].join(" ");
    ended(&[b"1 0 8193".to_vec(), schedule.into_bytes()])
}

fn first_line_digits(dice: &mut Dice, base: Base) -> Vec<u8> {
    let field = dice.below(base.workers + 2);
    let text = too_large(dice);
    base.with_field(0, field, &text)
}

fn code(dice: &mut Dice, base: Base) -> Vec<u8> {
    let (line, text) = (base.request(dice), dice.pick(&["0", "7", "8", "10", "256", "257"]));
    base.with_field(line, 0, text)
}

fn reserved_key(dice: &mut Dice, base: Base) -> Vec<u8> {
    let text = dice.pick(&["-2147483648", "2147483647"]);
    let (line, field) = (base.request(dice), dice.between(1, 2));
    base.with_field(line, field, text)
}

fn key_written_badly(dice: &mut Dice, base: Base) -> Vec<u8> {
    let (line, field) = (base.request(dice), dice.between(1, 2));
    let text = badly(dice, &base.field(line, field));
    base.with_field(line, field, &text)
}

fn key_digits(dice: &mut Dice, base: Base) -> Vec<u8> {
    let (line, field) = (base.request(dice), dice.between(1, 2));
    let mut text = match dice.below(3) {
        0 => "2147483648".to_string(),
        1 => "2147483649".to_string(),
        _ => too_large(dice),
    };
    if dice.chance(50) {
        text.insert(0, '-');
    }
    base.with_field(line, field, &text)
}

fn key_count(dice: &mut Dice, mut base: Base) -> Vec<u8> {
    let line = base.request(dice);
    if dice.chance(50) {
        base.lines[line].extend_from_slice(b" 5 5");
    } else {
        let last = base.spaces(line).pop().unwrap_or_default();
        base.lines[line].truncate(last);
    }
    ended(&base.lines)
}

fn letter(dice: &mut Dice, base: Base) -> Vec<u8> {
    let line = base.any(dice);
    let place = dice.below(base.lines[line].len() + 1);
    let what = dice.pick(&["x", "O", ".", ",", "-", "+", "e", "_", "/", ":"]);
    base.with_inserted(line, place, what.as_bytes())
}

fn empty_request(dice: &mut Dice, base: Base) -> Vec<u8> {
    let line = base.request(dice);
    base.with_line(line, Vec::new())
}

fn code_written_badly(dice: &mut Dice, base: Base) -> Vec<u8> {
    let line = base.request(dice);
    let text = badly(dice, &base.field(line, 0));
    base.with_field(line, 0, &text)
}

fn double_space(dice: &mut Dice, base: Base) -> Vec<u8> {
    let line = base.any(dice);
    let places = base.spaces(line);
    let place = dice.pick(&places);
    base.with_inserted(line, place, b" ")
}

fn trailing_space(dice: &mut Dice, base: Base) -> Vec<u8> {
    let line = base.any(dice);
    base.with_inserted(line, usize::MAX, b" ")
}

fn leading_space(dice: &mut Dice, base: Base) -> Vec<u8> {
    let line = base.any(dice);
    base.with_inserted(line, 0, b" ")
}

fn tab(dice: &mut Dice, mut base: Base) -> Vec<u8> {
    let line = base.any(dice);
    let places = base.spaces(line);
    base.lines[line][dice.pick(&places)] = b'\t';
    ended(&base.lines)
}

fn carriage_return(dice: &mut Dice, mut base: Base) -> Vec<u8> {
    if dice.chance(30) {
        base.lines.iter_mut().for_each(|line| line.push(b'\r'));
        return ended(&base.lines);
    }
    let line = base.any(dice);
    base.with_inserted(line, usize::MAX, b"\r")
}

fn nul(dice: &mut Dice, base: Base) -> Vec<u8> {
    let line = base.any(dice);
    let place = dice.below(base.lines[line].len() + 1);
    base.with_inserted(line, place, b"\0")
}

fn high_byte(dice: &mut Dice, base: Base) -> Vec<u8> {
    let line = base.any(dice);
    let place = dice.below(base.lines[line].len() + 1);
    let what = dice.between(128, 255) as u8;
    base.with_inserted(line, place, &[what])
}

/// Any entry of the schedule, counted in fields.
fn entry(dice: &mut Dice, base: &Base) -> usize {
    dice.below(base.spaces(base.schedule()).len() + 1)
}

fn entry_out_of_range(dice: &mut Dice, base: Base) -> Vec<u8> {
    let (line, field) = (base.schedule(), entry(dice, &base));
    let text = (base.workers + dice.pick(&[0, 0, 0, 1, 5, 252, 256])).to_string();
    base.with_field(line, field, &text)
}

fn entry_written_badly(dice: &mut Dice, base: Base) -> Vec<u8> {
    let (line, field) = (base.schedule(), entry(dice, &base));
    let text = badly(dice, &base.field(line, field));
    base.with_field(line, field, &text)
}

fn entry_digits(dice: &mut Dice, base: Base) -> Vec<u8> {
    let (line, field) = (base.schedule(), entry(dice, &base));
    let text = too_large(dice);
    base.with_field(line, field, &text)
}

fn entry_count(dice: &mut Dice, base: Base) -> Vec<u8> {
    let line = base.schedule();
    match dice.below(4) {
        0 => base.with_inserted(line, usize::MAX, b" 0"),
        1 => base.with_inserted(line, 0, b"0 "),
        2 => base.with_line(line, Vec::new()),
        _ => {
            let short = base.lines[line].get(2..).unwrap_or_default().to_vec();
            base.with_line(line, short)
        }
    }
}

fn no_last_newline(_: &mut Dice, base: Base) -> Vec<u8> {
    let mut bytes = ended(&base.lines);
    bytes.pop();
    bytes
}

fn bytes_after(dice: &mut Dice, base: Base) -> Vec<u8> {
    let after = dice.pick(&["\n", " ", "0", "0\n", "\n\n", "\0", "1 5\n", "\r\n"]);
    let mut bytes = ended(&base.lines);
    bytes.extend_from_slice(after.as_bytes());
    bytes
}

fn line_missing(dice: &mut Dice, mut base: Base) -> Vec<u8> {
    let line = base.any(dice);
    base.lines.remove(line);
    ended(&base.lines)
}

fn line_twice(dice: &mut Dice, mut base: Base) -> Vec<u8> {
    let line = base.any(dice);
    base.lines.insert(line, base.lines[line].clone());
    ended(&base.lines)
}

fn cut_short(dice: &mut Dice, base: Base) -> Vec<u8> {
    let mut bytes = ended(&base.lines);
    bytes.truncate(dice.below(bytes.len()));
    bytes
}

fn over_the_limit(dice: &mut Dice, base: Base) -> Vec<u8> {
    let mut bytes = if dice.chance(50) { ended(&base.lines) } else { Vec::new() };
    let length = LIMIT + dice.pick(&[1, 2, 1_000, 100_000]);
    bytes.resize(length, dice.pick(b"\n0 x"));
    bytes
}

fn at_the_limit(dice: &mut Dice, base: Base) -> Vec<u8> {
    let mut bytes = if dice.chance(50) { ended(&base.lines) } else { Vec::new() };
    bytes.resize(LIMIT - dice.below(2), dice.pick(b"\n0 x9"));
    bytes
}

fn nothing(_: &mut Dice, _: Base) -> Vec<u8> {
    Vec::new()
}

fn two_places(dice: &mut Dice, mut base: Base) -> Vec<u8> {
    for _ in 0..2 {
        let line = base.any(dice);
        base.lines[line].push(b'?');
    }
    ended(&base.lines)
}
