//! A file as its fields, each of which can be set wrong.

use crate::net::{Direction, Net};

#[derive(Clone, Copy, PartialEq, Eq, Debug)]
pub struct DraftArc {
    pub transition: u16,
    pub direction: u8,
    pub zero: u8,
    pub place: u16,
    pub weight: u16,
}

impl DraftArc {
    pub fn new(transition: usize, direction: u8, place: usize, weight: u16) -> DraftArc {
        DraftArc { transition: transition as u16, direction, zero: 0, place: place as u16, weight }
    }
}

#[derive(Clone, Debug)]
pub struct Draft {
    pub note: Vec<u8>,
    pub marking: Vec<u32>,
    /// The caps of the first places; those of the others are 0.
    pub caps: Vec<u32>,
    /// Whether a place has 8 bytes, marking and cap, or only 4.
    pub wide: bool,
    pub arcs: Vec<DraftArc>,
    pub place_origins: Vec<u16>,
    pub transition_origins: Vec<u16>,
    pub body_length: u32,
    pub places: u16,
    pub transitions: u16,
    pub arc_count: u16,
    pub kind: u8,
    pub edition: u8,
    pub letters: [u8; 4],
}

impl Draft {
    /// A plan of edition 1 without a note, its trailer right.
    pub fn plan(marking: Vec<u32>, transitions: usize, arcs: Vec<DraftArc>) -> Draft {
        let mut draft = Draft {
            note: Vec::new(),
            marking,
            caps: Vec::new(),
            wide: false,
            arcs,
            place_origins: Vec::new(),
            transition_origins: Vec::new(),
            body_length: 0,
            places: 0,
            transitions: transitions as u16,
            arc_count: 0,
            kind: 0,
            edition: 1,
            letters: *b"BELL",
        };
        draft.count();
        draft
    }

    /// The same net as a slice with these origins.
    pub fn into_slice(mut self, place_origins: Vec<u16>, transition_origins: Vec<u16>) -> Draft {
        self.kind = 1;
        self.place_origins = place_origins;
        self.transition_origins = transition_origins;
        self.count();
        self
    }

    /// The same in edition 2, with these caps.
    pub fn with_caps(mut self, caps: Vec<u32>) -> Draft {
        self.caps = caps;
        self.set_edition(2);
        self
    }

    /// Edition 1 or 2, and the places written so; in edition 1 caps are lost.
    pub fn set_edition(&mut self, edition: u8) {
        self.edition = edition;
        self.wide = edition == 2;
        self.measure();
    }

    pub fn cap(&self, place: usize) -> u32 {
        self.caps.get(place).copied().unwrap_or(0)
    }

    pub fn has_caps(&self) -> bool {
        self.wide && self.caps.iter().any(|&cap| cap > 0)
    }

    pub fn of(net: &Net) -> Draft {
        let arc = |a: &crate::net::Arc| DraftArc {
            transition: a.transition,
            direction: if a.direction == Direction::In { 0 } else { 1 },
            zero: 0,
            place: a.place,
            weight: a.weight,
        };
        let mut draft = Draft::plan(net.marking.clone(), net.transitions(), net.arcs.iter().map(arc).collect());
        if net.edition == 2 {
            draft = draft.with_caps(net.caps.clone());
        }
        match net.kind {
            crate::net::Kind::Plan => draft,
            crate::net::Kind::Slice => draft.into_slice(net.place_origins.clone(), net.transition_origins.clone()),
        }
    }

    /// Sets the counts and the body length to what the tables are.
    pub fn count(&mut self) {
        self.places = self.marking.len() as u16;
        self.arc_count = self.arcs.len() as u16;
        if self.kind == 1 {
            self.transitions = self.transition_origins.len() as u16;
        }
        self.measure();
    }

    /// Sets the body length to what the trailer's counts ask for.
    pub fn measure(&mut self) {
        let (p, t, a) = (u32::from(self.places), u32::from(self.transitions), u32::from(self.arc_count));
        let each = if self.wide { 8 } else { 4 };
        self.body_length = each * p + 8 * a + if self.kind == 1 { 2 * p + 2 * t } else { 0 };
    }

    pub fn bytes(&self) -> Vec<u8> {
        let mut file = Vec::with_capacity(self.note.len() + self.body_length as usize % 65_536 + 32);
        file.extend(&self.note);
        for (p, m) in self.marking.iter().enumerate() {
            file.extend(m.to_le_bytes());
            if self.wide {
                file.extend(self.cap(p).to_le_bytes());
            }
        }
        for a in &self.arcs {
            file.extend(a.transition.to_le_bytes());
            file.extend([a.direction, a.zero]);
            file.extend(a.place.to_le_bytes());
            file.extend(a.weight.to_le_bytes());
        }
        for o in self.place_origins.iter().chain(&self.transition_origins) {
            file.extend(o.to_le_bytes());
        }
        file.extend(self.body_length.to_le_bytes());
        file.extend(self.places.to_le_bytes());
        file.extend(self.transitions.to_le_bytes());
        file.extend(self.arc_count.to_le_bytes());
        file.extend([self.kind, self.edition]);
        file.extend(self.letters);
        file
    }
}
