//! A net as its file gives it: markings, caps, arcs, and in a slice the origins.

/// Limits of a file.
pub const MAX_FILE: usize = 65_536;
pub const MAX_PLACES: usize = 1_024;
pub const MAX_TRANSITIONS: usize = 1_024;
pub const MAX_ARCS: usize = 4_096;
pub const MAX_LIST: usize = 65_535;
pub const TRAILER: usize = 16;

/// A number of paper 01's table of refusals, or of a request of paper 02.
pub type Refusal = u32;

#[derive(Clone, Copy, PartialEq, Eq, Debug)]
pub enum Kind {
    Plan,
    Slice,
}

/// From place to transition comes before from transition to place.
#[derive(Clone, Copy, PartialEq, Eq, PartialOrd, Ord, Debug)]
pub enum Direction {
    In,
    Out,
}

#[derive(Clone, Copy, PartialEq, Eq, Debug)]
pub struct Arc {
    pub transition: u16,
    pub direction: Direction,
    pub place: u16,
    pub weight: u16,
}

#[derive(Clone, Debug)]
pub struct Net {
    pub kind: Kind,
    /// 1 or 2.
    pub edition: u8,
    pub marking: Vec<u32>,
    /// The most tokens of each place, 0 for none; all 0 in edition 1.
    pub caps: Vec<u32>,
    /// In order by (transition, direction, place); equal neighbours are parallel arcs.
    pub arcs: Vec<Arc>,
    /// The arcs of transition t are those from starts[t] up to starts[t + 1].
    pub starts: Vec<usize>,
    /// Where the first arc stands in the file.
    pub arcs_at: usize,
    /// Numbers in the plan; both empty in a plan.
    pub place_origins: Vec<u16>,
    pub transition_origins: Vec<u16>,
}

impl Net {
    pub fn places(&self) -> usize {
        self.marking.len()
    }

    pub fn transitions(&self) -> usize {
        self.starts.len() - 1
    }

    /// A place's cap, where it has one.
    pub fn cap(&self, place: usize) -> Option<u64> {
        match self.caps[place] {
            0 => None,
            cap => Some(u64::from(cap)),
        }
    }

    pub fn has_caps(&self) -> bool {
        self.caps.iter().any(|&cap| cap > 0)
    }

    /// Of a set of places, those with a cap.
    pub fn capped_of(&self, set: &[bool]) -> Vec<bool> {
        set.iter().enumerate().map(|(p, &member)| member && self.cap(p).is_some()).collect()
    }

    /// The arcs of a transition: its input arcs, then its output arcs, each in order by place.
    pub fn arcs_of(&self, transition: usize) -> &[Arc] {
        &self.arcs[self.starts[transition]..self.starts[transition + 1]]
    }

    /// The arcs of a transition apart: from places to it, and from it to places.
    pub fn in_and_out(&self, transition: usize) -> (&[Arc], &[Arc]) {
        let arcs = self.arcs_of(transition);
        let middle = arcs.iter().take_while(|a| a.direction == Direction::In).count();
        arcs.split_at(middle)
    }

    /// in(p,t) for each place p.
    pub fn inputs(&self, transition: usize) -> Vec<u64> {
        let mut taken = vec![0; self.places()];
        for arc in self.in_and_out(transition).0 {
            taken[usize::from(arc.place)] += u64::from(arc.weight);
        }
        taken
    }

    /// Shows every place that the transition has an arc with, rising, and the effect there: out minus in.
    pub fn each_effect(&self, transition: usize, mut see: impl FnMut(usize, i32)) {
        let (mut ins, mut outs) = self.in_and_out(transition);
        loop {
            let place = match (ins.first(), outs.first()) {
                (None, None) => return,
                (Some(a), None) => a.place,
                (None, Some(b)) => b.place,
                (Some(a), Some(b)) => a.place.min(b.place),
            };
            let mut effect = 0;
            while let Some(a) = ins.first().filter(|a| a.place == place) {
                effect -= i32::from(a.weight);
                ins = &ins[1..];
            }
            while let Some(b) = outs.first().filter(|b| b.place == place) {
                effect += i32::from(b.weight);
                outs = &outs[1..];
            }
            see(usize::from(place), effect);
        }
    }

    /// The capped places with out above 0 from the transition, one for each arc.
    pub fn capped_outputs(&self, transition: usize) -> impl Iterator<Item = usize> + '_ {
        let (_, outs) = self.in_and_out(transition);
        outs.iter().map(|a| usize::from(a.place)).filter(|&p| self.cap(p).is_some())
    }

    /// Whether the transition has a wanted effect on a place of the set.
    pub fn has_effect(&self, transition: usize, set: &[bool], wanted: fn(i32) -> bool) -> bool {
        let mut found = false;
        self.each_effect(transition, |place, effect| found |= set[place] && wanted(effect));
        found
    }
}

/// The effect of a transition that changes a place.
pub fn changes(effect: i32) -> bool {
    effect != 0
}

/// The effect of a transition that raises a place.
pub fn raises(effect: i32) -> bool {
    effect > 0
}
