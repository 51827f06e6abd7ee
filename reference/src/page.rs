//! The buying page's writer and reader.

use crate::net::Net;
use crate::plant::{Answer, Plant, Refusal};
use crate::search::quantity;

/// The bytes of a line, the last of them a newline.
pub const LINE: usize = 32;

/// What a buying page tells.
#[derive(Clone, Debug, PartialEq, Eq)]
pub struct Counts {
    pub switches: usize,
    /// The rules that each switch sends by, with zeros from S on.
    pub rules: [u16; Plant::MAX_SWITCHES],
    /// The links in service at each switch, with zeros from S on.
    pub links: [u16; Plant::MAX_SWITCHES],
    /// All rules.
    pub total: u16,
    /// The order quantity.
    pub quantity: u16,
}

impl Counts {
    /// The counts of a plan with a spare in percent; refusal 17.
    pub fn new(net: &Net, percent: u8) -> Answer<Counts> {
        let by = net.by_switch();
        let total = by.total as u16;
        let links_at = |switch: u8| {
            let links = net.plant.in_service();
            links
                .filter(|(_, link)| link.first == switch || link.second == switch)
                .count()
        };
        let each: Vec<(u16, u16)> = (0..net.plant.switches)
            .map(|switch| (by.rules[usize::from(switch)], links_at(switch) as u16))
            .collect();
        Ok(Counts::told(&each, total, quantity(total, percent)? as u16))
    }

    /// The counts with the rules and the links of each switch told.
    pub fn told(each: &[(u16, u16)], total: u16, quantity: u16) -> Counts {
        let mut counts = Counts {
            switches: each.len(),
            rules: [0; Plant::MAX_SWITCHES],
            links: [0; Plant::MAX_SWITCHES],
            total,
            quantity,
        };
        for (switch, (rules, links)) in each.iter().enumerate() {
            counts.rules[switch] = *rules;
            counts.links[switch] = *links;
        }
        counts
    }
}

/// The page as a text: a line for each switch, and that of the total.
pub fn text(counts: &Counts) -> String {
    let mut text = String::new();
    for switch in 0..counts.switches {
        let (rules, links) = (counts.rules[switch], counts.links[switch]);
        text += &format!("{switch:>6}{rules:>8}{links:>8}{:9}\n", "");
    }
    let (total, quantity) = (counts.total, counts.quantity);
    text + &format!("{:<6}{total:>8}{quantity:>8}{:9}\n", "total", "")
}

/// Writes the page to the front of the buffer and returns its length;
/// refusal 18.
pub fn write(counts: &Counts, buffer: &mut [u8]) -> Answer<usize> {
    let text = text(counts);
    let front = buffer.get_mut(..text.len()).ok_or(Refusal::PageUnfit)?;
    front.copy_from_slice(text.as_bytes());
    Ok(text.len())
}

/// A number of one to three digits with no leading zero.
pub fn number(digits: &[u8]) -> Option<u16> {
    let leading_zero = digits.len() > 1 && digits[0] == b'0';
    if !(1..=3).contains(&digits.len()) || leading_zero {
        return None;
    }
    digits.iter().try_fold(0, |sum, digit| {
        let value = char::from(*digit).to_digit(10)?;
        Some(10 * sum + value as u16)
    })
}

/// The number at the right of a field, after spaces alone.
fn right_aligned(field: &[u8]) -> Option<u16> {
    let spaces = field.iter().take_while(|byte| **byte == b' ').count();
    number(&field[spaces..])
}

/// The three fields of a line, if all else in it is as it must be.
fn fields(line: &[u8]) -> Option<[&[u8]; 3]> {
    let (first, line) = line.split_at(6);
    let (second, line) = line.split_at(8);
    let (third, rest) = line.split_at(8);
    (rest == b"         \n").then_some([first, second, third])
}

/// The counts of a page that is of the form.
fn counts(page: &[u8]) -> Option<Counts> {
    let lines = page.chunks_exact(LINE);
    if !lines.remainder().is_empty() {
        return None;
    }
    let mut lines: Vec<[&[u8]; 3]> = lines.map(fields).collect::<Option<_>>()?;
    let [name, total, quantity] = lines.pop()?;
    if name != b"total " || !(1..=Plant::MAX_SWITCHES).contains(&lines.len()) {
        return None;
    }
    let (total, quantity) = (right_aligned(total)?, right_aligned(quantity)?);
    let mut each = Vec::new();
    for [switch, rules, links] in lines {
        if usize::from(right_aligned(switch)?) != each.len() {
            return None;
        }
        each.push((right_aligned(rules)?, right_aligned(links)?));
    }
    let sum: u32 = each.iter().map(|(rules, _)| u32::from(*rules)).sum();
    (sum == u32::from(total)).then(|| Counts::told(&each, total, quantity))
}

/// Reads a page; refusal 18.
pub fn read(page: &[u8]) -> Answer<Counts> {
    counts(page).ok_or(Refusal::PageUnfit)
}

// No number on the page of a plan has more than three digits.
const _: () = assert!(2 * Plant::MAX_RULES < 1000 && Plant::MAX_LINKS < 1000);
