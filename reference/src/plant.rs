//! Plant values, their limits and the refusals.

/// A refusal, with its number in documents 01 and 02. No refusal has the number
/// 9.
#[derive(Clone, Copy, Debug, PartialEq, Eq, PartialOrd, Ord)]
#[repr(u8)]
pub enum Refusal {
    /// A part's map byte is missing.
    MapMissing = 1,
    /// A map has an undefined bit.
    MapUndefined = 2,
    /// The bytes end before a field whose bit is set.
    FieldMissing = 3,
    /// A field is given with the value that its absence means.
    FieldRedundant = 4,
    /// A header value is outside its range, the start is not below S, or a
    /// plant place past the last link is not zero.
    ValueOutOfRange = 5,
    /// A link's end is not below S.
    EndOutOfRange = 6,
    /// A link joins a switch to itself.
    SelfLink = 7,
    /// Bytes remain after the last record.
    BytesRemain = 8,
    /// The lent buffer has fewer places than the trail, or the round trail,
    /// has hops.
    TrailBufferShort = 10,
    /// A named switch is not below S.
    SwitchOutOfRange = 11,
    /// The lent trail, or round trail, differs from the listing's.
    TrailDiffers = 12,
    /// There are fewer link-state bytes than the listing has links, or fewer
    /// than twice as many where each label has its own.
    StatesShort = 13,
    /// A search state that cannot be, or cannot be of this plant.
    SearchUnsound = 14,
    /// A fate is given to, or a probe is wanted of, All up or Down; or a fate
    /// is given to the search of a console that has none.
    SearchEnded = 15,
    /// The buffer lent to the writer is shorter than the listing.
    ListingBufferShort = 16,
    /// The spare is above 100.
    SpareTooLarge = 17,
    /// The lent page is too short or, in reading, not of the form.
    PageUnfit = 18,
    /// The console is above 3.
    ConsoleOutOfRange = 19,
    /// The calling console's set has a bit at or above S.
    SetOutOfRange = 20,
    /// The switch is outside the calling console's set.
    SwitchOutsideSet = 21,
}

impl Refusal {
    pub fn number(self) -> u8 {
        self as u8
    }
}

pub type Answer<T> = Result<T, Refusal>;

/// A two-way link between two different switches.
#[derive(Clone, Copy, Debug, Default, PartialEq, Eq)]
pub struct Link {
    pub first: u8,
    pub second: u8,
    pub tag: u16,
    /// Laid up, in the word of order 7: the link keeps its place in the
    /// listing, its number and its labels, but joins nothing, and nothing
    /// crosses it.
    pub out_of_service: bool,
}

/// A plant: its header values and its links, with zeros past the last link.
#[derive(Clone, Debug, PartialEq, Eq)]
pub struct Plant {
    pub switches: u8,
    pub links: u16,
    pub start: u8,
    pub link: [Link; Plant::MAX_LINKS],
}

impl Plant {
    pub const MAX_SWITCHES: usize = 64;
    pub const MAX_LINKS: usize = 256;
    pub const MAX_HOPS: usize = 20_479;

    /// Arc labels: two for each link.
    pub const MAX_ARCS: usize = 2 * Plant::MAX_LINKS;
    /// Arcs in use: one for each link in service and one more for each bridge.
    pub const MAX_RULES: usize = Plant::MAX_LINKS + Plant::MAX_SWITCHES - 1;
    /// Header of five bytes and records of five bytes.
    pub const MAX_LISTING: usize = 5 + 5 * Plant::MAX_LINKS;

    /// One switch, no links.
    pub const EMPTY: Plant = Plant {
        switches: 1,
        links: 0,
        start: 0,
        link: [Link {
            first: 0,
            second: 0,
            tag: 0,
            out_of_service: false,
        }; Plant::MAX_LINKS],
    };

    /// The link places in use: the links of the listing, in service or not.
    pub fn records(&self) -> &[Link] {
        &self.link[..usize::from(self.links)]
    }

    /// The links in service with their numbers, rising. All that goes by links
    /// in service goes by these.
    pub fn in_service(&self) -> impl Iterator<Item = (usize, Link)> + '_ {
        let links = self.records().iter().copied().enumerate();
        links.filter(|(_, link)| !link.out_of_service)
    }

    /// Refusal 5 for the header values alone.
    pub(crate) fn header_in_range(&self) -> bool {
        (1..=Plant::MAX_SWITCHES).contains(&usize::from(self.switches))
            && usize::from(self.links) <= Plant::MAX_LINKS
            && self.start < self.switches
    }

    /// Refusals 6 and 7 for one link.
    pub(crate) fn try_link(&self, link: Link) -> Answer<()> {
        if link.first >= self.switches || link.second >= self.switches {
            return Err(Refusal::EndOutOfRange);
        }
        if link.first == link.second {
            return Err(Refusal::SelfLink);
        }
        Ok(())
    }
}

// Sets of switches are kept in 64-bit words.
const _: () = assert!(Plant::MAX_SWITCHES <= u64::BITS as usize);
// One crossing costs at most as many hops as its component has switches, and the
// return one fewer; bridges are entered links.
const _: () =
    assert!(Plant::MAX_HOPS == Plant::MAX_RULES * Plant::MAX_SWITCHES + Plant::MAX_SWITCHES - 1);
