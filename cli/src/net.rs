//! Where things stand in a file (docs/FORMAT.md), to be shown. Nothing is judged here: `Net::read` asks the library.

use crate::library::{self, Refusal};

#[derive(Clone, Copy, Debug, PartialEq, Eq, PartialOrd, Ord)]
pub struct Arc {
    pub transition: u16,
    pub direction: u8,
    pub place: u16,
    pub weight: u16,
    pub zero: u8,
}

impl Arc {
    pub fn adds(&self) -> bool {
        self.direction == 1
    }
}

/// The last 16 bytes of a file.
#[derive(Clone, Copy, Debug)]
pub struct Trailer {
    pub body: usize,
    pub places: usize,
    pub transitions: usize,
    pub arcs: usize,
    pub kind: u8,
    pub edition: u8,
    pub letters: [u8; 4],
}

impl Trailer {
    pub const LENGTH: usize = 16;

    pub fn of(file: &[u8]) -> Option<Trailer> {
        let t = &file[file.len().checked_sub(Trailer::LENGTH)?..];
        Some(Trailer {
            body: get32(t, 0)? as usize,
            places: get16(t, 4)?.into(),
            transitions: get16(t, 6)?.into(),
            arcs: get16(t, 8)?.into(),
            kind: t[10],
            edition: t[11],
            letters: [t[12], t[13], t[14], t[15]],
        })
    }

    pub fn is_slice(&self) -> bool {
        self.kind == 1
    }

    fn place_bytes(&self) -> usize {
        if self.edition == 2 {
            8
        } else {
            4
        }
    }

    /// How long the body is by the counts.
    pub fn body_by_counts(&self) -> usize {
        let origins = if self.is_slice() { 2 * (self.places + self.transitions) } else { 0 };
        self.place_bytes() * self.places + 8 * self.arcs + origins
    }
}

fn get16(bytes: &[u8], at: usize) -> Option<u16> {
    Some(u16::from_le_bytes(bytes.get(at..at + 2)?.try_into().ok()?))
}

fn get32(bytes: &[u8], at: usize) -> Option<u32> {
    Some(u32::from_le_bytes(bytes.get(at..at + 4)?.try_into().ok()?))
}

/// A file by its trailer. What its body has not is None.
#[derive(Clone, Copy)]
pub struct Net<'a> {
    pub file: &'a [u8],
    pub trailer: Trailer,
    start: usize,
}

impl<'a> Net<'a> {
    /// A file of either kind that the library reads.
    pub fn read(file: &'a [u8]) -> Result<Net<'a>, Refusal> {
        match library::refusal_of_file(file) {
            Some(refusal) => Err(refusal),
            None => Net::by_trailer(file).ok_or(Refusal::Body),
        }
    }

    /// A file whose trailer fits its length, whatever the body holds.
    pub fn by_trailer(file: &'a [u8]) -> Option<Net<'a>> {
        let trailer = Trailer::of(file)?;
        let start = file.len().checked_sub(Trailer::LENGTH + trailer.body)?;
        (trailer.body == trailer.body_by_counts()).then_some(Net { file, trailer, start })
    }

    pub fn kind(&self) -> &'static str {
        if self.trailer.is_slice() {
            "slice"
        } else {
            "plan"
        }
    }

    /// The bytes before the body.
    pub fn note(&self) -> &'a [u8] {
        &self.file[..self.start]
    }

    pub fn tokens(&self, place: usize) -> Option<u32> {
        get32(self.file, self.start + self.trailer.place_bytes() * place)
    }

    pub fn cap(&self, place: usize) -> Option<u32> {
        if self.trailer.edition != 2 {
            return None;
        }
        get32(self.file, self.start + 8 * place + 4).filter(|cap| *cap != 0)
    }

    pub fn arcs(&self) -> Vec<Arc> {
        let start = self.start + self.trailer.place_bytes() * self.trailer.places;
        arcs_of(&self.file[start..][..8 * self.trailer.arcs])
    }

    /// The plan's numbers of a slice's places and then of its transitions; none of a plan.
    pub fn origins(&self) -> Vec<u16> {
        let count = if self.trailer.is_slice() { self.trailer.places + self.trailer.transitions } else { 0 };
        let end = self.file.len() - Trailer::LENGTH;
        self.file[end - 2 * count..end].chunks_exact(2).map(|b| u16::from_le_bytes([b[0], b[1]])).collect()
    }
}

/// A place or a transition by its number, in a slice with the plan's number beside it.
#[derive(Clone, Copy, Debug, PartialEq, Eq)]
pub struct Node {
    /// `place` or `transition`.
    pub what: &'static str,
    pub number: u32,
    pub origin: Option<u16>,
}

/// The nodes of a file, by their numbers there.
pub struct Nodes {
    is_slice: bool,
    places: usize,
    origins: Vec<u16>,
}

impl Nodes {
    pub fn of(file: &[u8]) -> Nodes {
        let net = Net::by_trailer(file);
        Nodes {
            is_slice: net.is_some_and(|net| net.trailer.is_slice()),
            places: net.map_or(0, |net| net.trailer.places),
            origins: net.map_or(Vec::new(), |net| net.origins()),
        }
    }

    /// Whose numbers they are.
    pub fn is_slice(&self) -> bool {
        self.is_slice
    }

    pub fn place(&self, number: u32) -> Node {
        Node { what: "place", number, origin: self.origins.get(number as usize).copied() }
    }

    pub fn transition(&self, number: u32) -> Node {
        let origin = self.origins.get(self.places + number as usize).copied();
        Node { what: "transition", number, origin }
    }

    /// The slice's own number of a transition of the plan.
    pub fn own_transition(&self, origin: u16) -> Option<u16> {
        let own = self.origins.get(self.places..)?.iter().position(|n| *n == origin)?;
        u16::try_from(own).ok()
    }
}

/// The arcs that stand in so many bytes.
pub fn arcs_of(bytes: &[u8]) -> Vec<Arc> {
    let arc = |b: &[u8]| Arc {
        transition: u16::from_le_bytes([b[0], b[1]]),
        direction: b[2],
        zero: b[3],
        place: u16::from_le_bytes([b[4], b[5]]),
        weight: u16::from_le_bytes([b[6], b[7]]),
    };
    bytes.chunks_exact(8).map(arc).collect()
}

/// How many places a file has by its trailer; 0 where that does not fit.
pub fn places(file: &[u8]) -> usize {
    Net::by_trailer(file).map_or(0, |net| net.trailer.places)
}

pub fn transitions(file: &[u8]) -> usize {
    Net::by_trailer(file).map_or(0, |net| net.trailer.transitions)
}

#[cfg(test)]
mod tests {
    use super::*;
    use crate::library::Side;

    /// What stands where is what the proved calls say: markings by a replay of nothing, arcs by the call of that name.
    #[test]
    fn as_the_calls_say() {
        let empty = library::safety(include_bytes!("../../plans/loop.plan"), None, &[]).ok().unwrap().bytes;
        let mut count = 0;
        for entry in std::fs::read_dir(concat!(env!("CARGO_MANIFEST_DIR"), "/../plans")).unwrap() {
            let path = entry.unwrap().path();
            if path.extension().is_none_or(|end| end != "plan") {
                continue;
            }
            let plan = std::fs::read(path).unwrap();
            let slice = library::branching(&plan, None, &[0]).ok().unwrap().bytes;
            for (file, side) in [(&plan, Side::Plan), (&slice, Side::Slice)] {
                let net = Net::read(file).unwrap();
                let (_, marking) = library::replay(file, None, &[], net.trailer.places).unwrap();
                let tokens: Vec<u64> = (0..net.trailer.places).map(|p| net.tokens(p).unwrap().into()).collect();
                assert_eq!(tokens, marking);
                let other = if side == Side::Plan { &empty } else { &slice };
                let each: Vec<Arc> = (0..net.trailer.transitions)
                    .flat_map(|t| arcs_of(library::arcs(&plan, other, side, t as u32)))
                    .collect();
                assert_eq!(net.arcs(), each);
                count += 1;
            }
        }
        assert!(count >= 12);
    }
}
