//! The listing's reader and writer.

use crate::plant::{Answer, Link, Plant, Refusal};

/// What a kind of part is made of: the widths in bytes of its three fields, of
/// bits 0 to 2, and the bits that its map may have.
#[derive(Clone, Copy)]
struct Form {
    widths: [usize; 3],
    defined: u8,
}

const HEADER: Form = Form {
    widths: [1, 2, 1],
    defined: 0b0111,
};
const RECORD: Form = Form {
    widths: [1, 1, 2],
    defined: 0b1111,
};
/// The record of a listing in which no link may be out of service.
const UNMARKED: Form = Form {
    defined: 0b0111,
    ..RECORD
};

/// The bit of a record's map that puts its link out of service. It has no
/// field.
pub const OUT_OF_SERVICE: u8 = 0b1000;

/// The lent listing and how far it has been read.
struct Reading<'a> {
    bytes: &'a [u8],
    at: usize,
}

impl Reading<'_> {
    /// One part: its map and the values of its fields. A field that is absent
    /// takes the value in `absent`. Refusals 1 to 4, the lowest first.
    fn part(&mut self, form: Form, absent: [u16; 3]) -> Answer<(u8, [u16; 3])> {
        let Form { widths, defined } = form;
        let map = *self.bytes.get(self.at).ok_or(Refusal::MapMissing)?;
        if map & !defined != 0 {
            return Err(Refusal::MapUndefined);
        }
        let mut at = self.at + 1;
        let mut values = absent;
        let mut needless = false;
        for bit in 0..3 {
            if map >> bit & 1 == 1 {
                let field = self
                    .bytes
                    .get(at..at + widths[bit])
                    .ok_or(Refusal::FieldMissing)?;
                at += widths[bit];
                values[bit] = match *field {
                    [low, high] => u16::from_le_bytes([low, high]),
                    _ => u16::from(field[0]),
                };
                needless |= values[bit] == absent[bit];
            }
        }
        if needless {
            return Err(Refusal::FieldRedundant);
        }
        self.at = at;
        Ok((map, values))
    }
}

/// Reads a listing; refusals 1 to 8.
pub fn read(listing: &[u8]) -> Answer<Plant> {
    read_as(listing, RECORD)
}

/// Reads a listing by document 01 alone, where no link can be out of service
/// and bit 3 of any map is undefined; refusals 1 to 8.
pub fn read_unmarked(listing: &[u8]) -> Answer<Plant> {
    read_as(listing, UNMARKED)
}

fn read_as(listing: &[u8], record: Form) -> Answer<Plant> {
    let mut reading = Reading {
        bytes: listing,
        at: 0,
    };
    let (_, [switches, links, start]) = reading.part(HEADER, [1, 0, 0])?;
    let mut plant = Plant::EMPTY;
    plant.switches = switches as u8;
    plant.links = links;
    plant.start = start as u8;
    if !plant.header_in_range() {
        return Err(Refusal::ValueOutOfRange);
    }
    let mut before = Link::default();
    for place in 0..usize::from(links) {
        let absent = [u16::from(before.first), u16::from(before.second), 0];
        let (map, [first, second, tag]) = reading.part(record, absent)?;
        let link = Link {
            first: first as u8,
            second: second as u8,
            tag,
            out_of_service: map & OUT_OF_SERVICE != 0,
        };
        plant.try_link(link)?;
        plant.link[place] = link;
        before = link;
    }
    if reading.at != listing.len() {
        return Err(Refusal::BytesRemain);
    }
    Ok(plant)
}

/// One part as the writer gives it: at most five bytes.
struct Part {
    bytes: [u8; 5],
    length: usize,
}

impl Part {
    fn new(form: Form, absent: [u16; 3], values: [u16; 3]) -> Part {
        let mut part = Part {
            bytes: [0; 5],
            length: 1,
        };
        for bit in 0..3 {
            if values[bit] != absent[bit] {
                part.bytes[0] |= 1 << bit;
                let [low, high] = values[bit].to_le_bytes();
                part.bytes[part.length] = low;
                if form.widths[bit] == 2 {
                    part.bytes[part.length + 1] = high;
                }
                part.length += form.widths[bit];
            }
        }
        part
    }
}

/// The parts of a plant's listing in turn.
fn parts(plant: &Plant) -> impl Iterator<Item = Part> + '_ {
    let header = [
        u16::from(plant.switches),
        plant.links,
        u16::from(plant.start),
    ];
    let mut before = Link::default();
    let records = plant.records().iter().map(move |link| {
        let absent = [u16::from(before.first), u16::from(before.second), 0];
        before = *link;
        let values = [u16::from(link.first), u16::from(link.second), link.tag];
        let mut part = Part::new(RECORD, absent, values);
        if link.out_of_service {
            part.bytes[0] |= OUT_OF_SERVICE;
        }
        part
    });
    std::iter::once(Part::new(HEADER, [1, 0, 0], header)).chain(records)
}

/// Writes a plant's listing to the front of the buffer and returns its
/// length; refusals 5, then 6 and 7 record by record, then 16.
pub fn write(plant: &Plant, buffer: &mut [u8]) -> Answer<usize> {
    if !plant.header_in_range()
        || plant.link[usize::from(plant.links)..]
            .iter()
            .any(|place| *place != Link::default())
    {
        return Err(Refusal::ValueOutOfRange);
    }
    for link in plant.records() {
        plant.try_link(*link)?;
    }
    let length = parts(plant).map(|part| part.length).sum();
    let front = buffer
        .get_mut(..length)
        .ok_or(Refusal::ListingBufferShort)?;
    let mut at = 0;
    for part in parts(plant) {
        front[at..at + part.length].copy_from_slice(&part.bytes[..part.length]);
        at += part.length;
    }
    Ok(length)
}

/// A sound plant's listing as a vector.
pub fn write_vec(plant: &Plant) -> Answer<Vec<u8>> {
    let mut buffer = vec![0; Plant::MAX_LISTING];
    let length = write(plant, &mut buffer)?;
    buffer.truncate(length);
    Ok(buffer)
}
