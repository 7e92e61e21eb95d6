//! Reads room texts and case files, writes a case, and judges a text as the program does.
//!
//! A case file is a sequence of cases: a line `case NAME LANES`, then a room text in document 01's
//! form. Its rooms may be larger than the program's limits (refusal 10); the text's form (9) and the
//! field call's own refusals (1 to 6) are judged as document 01 says.

use std::fmt::Write;

use crate::interface::{FieldCall, Map, Refusal};

/// The lanes of program `sheet`.
pub const PROGRAM_LANES: usize = 8;

/// The limits of refusal 10.
pub const MOST_BYTES: usize = 8_192;
pub const MOST_ROWS: u32 = 60;
pub const MOST_COLUMNS: u32 = 60;
pub const MOST_BLOCKERS: usize = 64;
pub const MOST_RESOURCES: usize = 8;

pub struct Case {
    pub name: String,
    pub call: FieldCall,
}

impl Case {
    /// The line that stands above a case's room text, and above its answer.
    pub fn head(&self) -> String {
        format!("case {} {}\n", self.name, self.call.lanes)
    }

    /// The case as a case file has it.
    pub fn text(&self) -> String {
        self.head() + &room_text(&self.call)
    }
}

/// The room text of a call.
pub fn room_text(call: &FieldCall) -> String {
    let mut text = String::new();
    let mut line = |content: String| writeln!(text, "{content}").expect("a string takes it");
    let map = &call.map;
    line(map.height.to_string());
    for row in map.cells.chunks(map.width as usize) {
        line(
            row.iter()
                .map(|&cell| if cell == 1 { '.' } else { '#' })
                .collect(),
        );
    }
    for fours in [&call.blockers, &call.resources, &vec![call.targets]] {
        line(fours.len().to_string());
        for [left, top, right, bottom] in fours {
            line(format!("{left} {top} {right} {bottom}"));
        }
    }
    text
}

/// Judges a text as program `sheet` does: its bytes, its form, the other limits, and the field call.
pub fn read_room(text: &[u8]) -> Result<FieldCall, Refusal> {
    let too_large = Refusal {
        number: 10,
        place: 0,
    };
    if text.len() > MOST_BYTES {
        return Err(too_large);
    }
    // What is not UTF-8 breaks its line, as what takes its place does.
    let text = String::from_utf8_lossy(text);
    let (call, rest) = read_call(&text, PROGRAM_LANES)?;
    if !rest.is_empty() {
        let lines = text.len() - rest.len();
        return Err(Refusal {
            number: 9,
            place: text[..lines].matches('\n').count() + 1,
        });
    }
    if call.map.height > MOST_ROWS
        || call.map.width > MOST_COLUMNS
        || call.blockers.len() > MOST_BLOCKERS
        || call.resources.len() > MOST_RESOURCES
    {
        return Err(too_large);
    }
    call.judge()?;
    Ok(call)
}

/// Reads a whole case file. A case that document 01 refuses is an error, as is a broken case line.
pub fn read_cases(text: &str) -> Result<Vec<Case>, String> {
    let mut cases = Vec::new();
    let mut rest = text;
    while !rest.is_empty() {
        let (line, after) = rest.split_once('\n').unwrap_or((rest, ""));
        let (name, lanes) =
            read_head(line).ok_or_else(|| format!("not `case NAME LANES`: {line}"))?;
        let refused = |refusal| format!("case {name}: {refusal}");
        let (call, after) = read_call(after, lanes).map_err(refused)?;
        call.judge().map_err(refused)?;
        cases.push(Case {
            name: name.to_string(),
            call,
        });
        rest = after;
    }
    Ok(cases)
}

fn read_head(line: &str) -> Option<(&str, usize)> {
    let (name, lanes) = line.strip_prefix("case ")?.split_once(' ')?;
    let lanes = usize::try_from(read_number(lanes)?).ok()?;
    (!name.is_empty()).then_some((name, lanes))
}

/// Reads a room text at the start of `text` and gives back what follows it. Only refusal 9 is
/// judged here.
fn read_call(text: &str, lanes: usize) -> Result<(FieldCall, &str), Refusal> {
    let mut reader = Reader {
        rest: text,
        line: 0,
    };
    let map = reader.map()?;
    let blockers = reader.fours()?;
    let resources = reader.fours()?;
    if reader.count()? != 1 {
        return Err(reader.broken());
    }
    let targets = reader.four()?;
    let call = FieldCall {
        map,
        lanes,
        blockers,
        resources,
        targets,
    };
    Ok((call, reader.rest))
}

/// A place in a room text: what is left of it, and the number of the line last asked for.
struct Reader<'a> {
    rest: &'a str,
    line: usize,
}

impl<'a> Reader<'a> {
    fn broken(&self) -> Refusal {
        Refusal {
            number: 9,
            place: self.line,
        }
    }

    fn next_line(&mut self) -> Result<&'a str, Refusal> {
        self.line += 1;
        let (line, rest) = self.rest.split_once('\n').ok_or(self.broken())?;
        self.rest = rest;
        Ok(line)
    }

    fn count(&mut self) -> Result<usize, Refusal> {
        let line = self.next_line()?;
        read_number(line)
            .and_then(|number| usize::try_from(number).ok())
            .ok_or(self.broken())
    }

    fn four(&mut self) -> Result<[i32; 4], Refusal> {
        let line = self.next_line()?;
        let numbers: Option<Vec<i32>> = line.split(' ').map(read_number).collect();
        numbers
            .and_then(|numbers| numbers.try_into().ok())
            .ok_or(self.broken())
    }

    fn fours(&mut self) -> Result<Vec<[i32; 4]>, Refusal> {
        let count = self.count()?;
        (0..count).map(|_| self.four()).collect()
    }

    fn map(&mut self) -> Result<Map, Refusal> {
        let height = self.count()?;
        if height == 0 {
            return Err(self.broken());
        }
        let mut width = 0;
        let mut cells = Vec::new();
        for y in 0..height {
            let row = self.next_line()?;
            if y == 0 {
                width = row.len();
            }
            if row.is_empty() || row.len() != width {
                return Err(self.broken());
            }
            for byte in row.bytes() {
                cells.push(match byte {
                    b'.' => 1,
                    b'#' => 0,
                    _ => return Err(self.broken()),
                });
            }
        }
        Ok(Map {
            width: width as u32,
            height: height as u32,
            cells,
        })
    }
}

/// A decimal i32 in its only form: no leading zeros, no plus, no `-0`.
fn read_number(text: &str) -> Option<i32> {
    let number: i32 = text.parse().ok()?;
    (number.to_string() == text).then_some(number)
}

#[cfg(test)]
mod tests {
    use super::*;

    const ROOM: &str = "2\n...\n.#.\n1\n-5 0 1 8\n1\n8 8 16 16\n1\n0 0 2 1\n";

    fn message(text: &str) -> String {
        read_cases(text).err().expect("a refused case")
    }

    fn refusal(lanes: usize, room: &str) -> String {
        message(&format!("case room {lanes}\n{room}"))
    }

    #[test]
    fn a_case_file_is_read() {
        let cases = read_cases(&format!("case first 8\n{ROOM}case second 16\n{ROOM}")).unwrap();
        assert_eq!(cases.len(), 2);
        assert_eq!(cases[0].head(), "case first 8\n");
        assert_eq!(cases[1].head(), "case second 16\n");
        assert_eq!(
            cases[1].call,
            FieldCall {
                map: Map {
                    width: 3,
                    height: 2,
                    cells: vec![1, 1, 1, 1, 0, 1],
                },
                lanes: 16,
                blockers: vec![[-5, 0, 1, 8]],
                resources: vec![[8, 8, 16, 16]],
                targets: [0, 0, 2, 1],
            }
        );
    }

    #[test]
    fn a_case_is_written_as_it_was_read() {
        let text = format!("case room 16\n{ROOM}");
        assert_eq!(read_cases(&text).unwrap()[0].text(), text);
    }

    #[test]
    fn what_breaks_the_form_is_refused_at_its_line() {
        let edits = [
            ("2\n...", "0\n...", 1),
            ("2\n...", "02\n...", 1),
            ("2\n...", "-0\n...", 1),
            ("2\n...", "+2\n...", 1),
            ("2\n...", "2147483648\n...", 1),
            ("2\n...", "2147483647\n...", 4),
            ("...\n", "\n", 2),
            (".#.", ".#", 3),
            (".#.", ".x.", 3),
            ("-5 0 1 8", "-5 0  1 8", 5),
            ("-5 0 1 8", "-5 0 1", 5),
            ("-5 0 1 8", "-5 0 1 8 ", 5),
            ("16\n1\n", "16\n2\n", 8),
            ("0 0 2 1\n", "0 0 2 1", 9),
            ("0 0 2 1\n", "", 9),
        ];
        for (before, after, line) in edits {
            assert_eq!(ROOM.matches(before).count(), 1, "{before}");
            assert_eq!(
                refusal(8, &ROOM.replace(before, after)),
                format!("case room: refused 9 {line}"),
                "{before} becomes {after}"
            );
        }
    }

    #[test]
    fn what_the_field_call_refuses_is_refused() {
        let nine = "1\n.\n0\n9\n".to_string() + &"0 0 8 8\n".repeat(9) + "1\n0 0 0 0\n";
        let wide = format!("1\n{}\n0\n0\n1\n0 0 0 0\n", ".".repeat(1_025));
        let blockers = "1\n.\n4097\n".to_string() + &"0 0 0 0\n".repeat(4_097) + "0\n1\n0 0 0 0\n";
        assert_eq!(refusal(8, &wide), "case room: refused 1 0");
        assert_eq!(refusal(9, ROOM), "case room: refused 2 0");
        assert_eq!(refusal(8, &nine), "case room: refused 3 0");
        assert!(read_cases(&format!("case room 16\n{nine}")).is_ok());
        let beyond = ROOM.replace("1\n8 8 16 16", "2\n8 8 16 16\n8 8 16 17");
        assert_eq!(refusal(8, &beyond), "case room: refused 4 1");
        assert_eq!(refusal(8, &blockers), "case room: refused 5 0");
        let outside = ROOM.replace("0 0 2 1", "0 0 3 1");
        assert_eq!(refusal(8, &outside), "case room: refused 6 0");
    }

    #[test]
    fn what_is_not_a_case_line_is_an_error() {
        assert_eq!(message("case  8\n"), "not `case NAME LANES`: case  8");
        assert_eq!(
            message(&format!("case room 8\n{ROOM}more")),
            "not `case NAME LANES`: more"
        );
    }
}
