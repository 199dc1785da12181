//! PLARS settings, read and written in one spelling.

use super::answer::Judged;
use super::nmea::fields_of;

/// A parameter: its name, the range of its values in steps, and its decimals.
struct Parameter {
    name: &'static str,
    least: u32,
    most: u32,
    decimals: usize,
}

/// The parameters, in the order of their numbers.
const PARAMETERS: [Parameter; 4] = [
    Parameter { name: "MC", least: 0, most: 99, decimals: 1 },
    Parameter { name: "BAL", least: 0, most: 1000, decimals: 3 },
    Parameter { name: "BUGS", least: 0, most: 50, decimals: 0 },
    Parameter { name: "QNH", least: 5000, most: 12_000, decimals: 1 },
];

impl Parameter {
    /// The one spelling of a value in range.
    fn spell(&self, value: u32) -> Option<String> {
        if !(self.least..=self.most).contains(&value) {
            return None;
        }
        let digits = format!("{value:0width$}", width = self.decimals + 1);
        let (whole, decimals) = digits.split_at(digits.len() - self.decimals);
        Some(if decimals.is_empty() { whole.to_string() } else { format!("{whole}.{decimals}") })
    }

    /// The value with this spelling.
    fn value(&self, text: &[u8]) -> Option<u32> {
        let digits: Vec<u8> = text.iter().copied().filter(|byte| *byte != b'.').collect();
        let value = std::str::from_utf8(&digits).ok()?.parse().ok()?;
        (self.spell(value)?.as_bytes() == text).then_some(value)
    }
}

/// Source, parameter and value: all else under the tag is 9.
pub fn setting(frame: &[u8]) -> Judged {
    let fields = fields_of(frame, b"PLARS")?;
    let [[source @ (b'L' | b'H')], name, text] = fields[..] else { return Err(9) };
    let number = PARAMETERS.iter().position(|parameter| parameter.name.as_bytes() == name).ok_or(9u32)?;
    let value = PARAMETERS[number].value(text).ok_or(9u32)?;
    Ok(vec![(*source).into(), number as i64, value.into()])
}

/// The body of the sentence for a setting, or 9.
pub fn body(source: u8, parameter: u8, value: u32) -> Result<Vec<u8>, u32> {
    let parameter = PARAMETERS.get(usize::from(parameter)).ok_or(9u32)?;
    let text = parameter.spell(value).ok_or(9u32)?;
    match source {
        b'L' | b'H' => Ok(format!("PLARS,{},{},{text}", char::from(source), parameter.name).into_bytes()),
        _ => Err(9),
    }
}
