//! The table of slips: one line of one file, old and new.

use std::fs;

use crate::build::oracle_folder;

/// One slip.
#[derive(Clone, Debug, Default)]
pub struct Slip {
    pub name: String,
    /// The file, from the oracle's folder on.
    pub file: String,
    /// The line without the blanks around it.
    pub old: String,
    pub new: String,
    /// Which of several such lines, from 1 on; without it the line must stand once.
    pub nth: Option<usize>,
    /// Why it cannot show over the stream, where that is so.
    pub hidden: Option<String>,
}

impl Slip {
    /// The file's text with the slip in it.
    pub fn applied(&self, text: &str) -> Result<String, String> {
        let places: Vec<usize> = text
            .lines()
            .enumerate()
            .filter(|(_, line)| line.trim() == self.old)
            .map(|(place, _)| place)
            .collect();
        let wrong = |what: &str| format!("{}: its old line {what} in {}", self.name, self.file);
        let place = match self.nth {
            None if places.len() > 1 => return Err(wrong("stands more than once")),
            nth => places.get(nth.unwrap_or(1).saturating_sub(1)),
        };
        let place = *place.ok_or_else(|| wrong("does not stand"))?;
        let mut lines: Vec<&str> = text.lines().collect();
        lines[place] = &self.new;
        Ok(lines.join("\n") + "\n")
    }
}

/// Reads `slips.txt`: fields `name: value`, a blank line after each slip, `#` before a remark.
pub fn read() -> Result<Vec<Slip>, String> {
    let path = oracle_folder().join("mutants/slips.txt");
    let text = fs::read_to_string(&path).map_err(|error| format!("slips.txt: {error}"))?;
    let mut slips: Vec<Slip> = Vec::new();
    for (number, line) in text.lines().enumerate() {
        if line.trim().is_empty() || line.starts_with('#') {
            continue;
        }
        let wrong = || format!("slips.txt, line {}: {line}", number + 1);
        let (field, value) = line.split_once(": ").ok_or_else(wrong)?;
        let value = value.trim().to_string();
        if field == "slip" {
            slips.push(Slip { name: value, ..Slip::default() });
            continue;
        }
        let slip = slips.last_mut().ok_or_else(wrong)?;
        match field {
            "file" => slip.file = value,
            "old" => slip.old = value,
            "new" => slip.new = value,
            "nth" => slip.nth = Some(value.parse().map_err(|_| wrong())?),
            "hidden" => slip.hidden = Some(value),
            _ => return Err(wrong()),
        }
    }
    Ok(slips)
}
