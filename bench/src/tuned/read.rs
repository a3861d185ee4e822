//! Reading a file: its counts and parts, or the first refusal of 1 to 8 and 16.

use super::bytes::*;

pub const PLAN: u64 = 0;
pub const SLICE: u64 = 1;
pub const EITHER: u64 = 2;

pub const PLACES: usize = 1_024;
pub const TRANSITIONS: usize = 1_024;
pub const ARCS: usize = 4_096;

/// A file that was read: its counts and where its parts start.
#[derive(Clone, Copy)]
pub struct Header {
    pub places: usize,
    pub transitions: usize,
    pub arcs: usize,
    /// Edition 2: a place has 8 bytes, the cap after the marking.
    pub wide: bool,
    /// Some place has a cap.
    pub capped: bool,
    pub markings_at: *const u8,
    pub arcs_at: *const u8,
    pub origins_at: *const u8,
}

impl Header {
    /// # Safety
    /// The header is that of a file that was read, still lent, and the number is below its arcs.
    #[inline(always)]
    pub unsafe fn arc(&self, number: usize) -> u64 {
        get64(self.arcs_at.add(8 * number))
    }

    /// # Safety
    /// As for an arc; the number is below the places.
    #[inline(always)]
    pub unsafe fn marking(&self, place: usize) -> u32 {
        get32(self.markings_at.add(place << (2 + u32::from(self.wide))))
    }

    /// A place of edition 2: its marking, and above it its cap.
    ///
    /// # Safety
    /// As for a marking, of a file of edition 2.
    #[inline(always)]
    pub unsafe fn wide_place(&self, place: usize) -> u64 {
        get64(self.markings_at.add(8 * place))
    }

    /// A place of either edition likewise.
    ///
    /// # Safety
    /// As for a marking.
    #[inline(always)]
    pub unsafe fn place(&self, place: usize) -> u64 {
        if self.wide {
            self.wide_place(place)
        } else {
            u64::from(get32(self.markings_at.add(4 * place)))
        }
    }

    /// # Safety
    /// As for an arc, of a slice; the number is below the places.
    #[inline(always)]
    pub unsafe fn place_origin(&self, place: usize) -> usize {
        get16(self.origins_at.add(2 * place))
    }

    /// # Safety
    /// As for an arc, of a slice; the number is below the transitions.
    #[inline(always)]
    pub unsafe fn transition_origin(&self, transition: usize) -> usize {
        get16(self.origins_at.add(2 * (self.places + transition)))
    }
}

/// The trailer and the caps: refusals 1 to 5 and 16, and the header.
#[inline(always)]
pub fn trailer(file: &[u8], due: u64) -> Result<Header, u32> {
    let n = file.len();
    if !(16..=65_536).contains(&n) {
        return Err(1);
    }
    // SAFETY: 16 bytes are there; the body is inside the file once refusal 5 is passed.
    unsafe {
        let end = file.as_ptr().add(n - 16);
        let (first, second) = (get64(end), get64(end.add(8)));
        let edition = (second >> 24).wrapping_sub(0x4C_4C45_4200);
        if edition.wrapping_sub(1) > 1 {
            return Err(2);
        }
        let wide = edition == 2;
        let kind = second >> 16 & 0xFF;
        if kind > SLICE || (due != EITHER && kind != due) {
            return Err(3);
        }
        let places = (first >> 32 & 0xFFFF) as usize;
        let transitions = (first >> 48) as usize;
        let arcs = (second & 0xFFFF) as usize;
        let nothing = places + transitions == 0 && kind == PLAN;
        if places > PLACES || transitions > TRANSITIONS || arcs > ARCS || nothing {
            return Err(4);
        }
        let origins = if kind == SLICE { 2 * places + 2 * transitions } else { 0 };
        let markings = if wide { 8 * places } else { 4 * places };
        let body = markings + 8 * arcs + origins;
        if (first & 0xFFFF_FFFF) as usize != body || n - 16 < body {
            return Err(5);
        }
        let markings_at = end.sub(body);
        let arcs_at = markings_at.add(markings);
        let origins_at = arcs_at.add(8 * arcs);
        let mut capped = false;
        if wide {
            let above;
            (capped, above) = caps(markings_at, places);
            if above {
                return Err(16);
            }
        }
        Ok(Header { places, transitions, arcs, wide, capped, markings_at, arcs_at, origins_at })
    }
}

/// Whether some place has a cap, and whether a marking is above its cap. No early leave, so that the loop is done by vectors.
#[inline(never)]
unsafe fn caps(at: *const u8, places: usize) -> (bool, bool) {
    let (mut some, mut above) = (0, false);
    for p in 0..places {
        let (marking, cap) = (get32(at.add(8 * p)), get32(at.add(8 * p + 4)));
        some |= cap;
        above |= (marking > cap) & (cap != 0);
    }
    (some != 0, above)
}

/// Gathers transition, direction and place, each within its limit, into one number with their order.
/// Multiplying adds the three fields' copies shifted; each field's sum stays below the next field's step.
const GATHER: u64 = 1 << 52 | 1 << 35 | 1 << 9;

/// What `each_arc` adds to an arc: it raises a field's highest bit where the field is at its limit or above.
#[inline(always)]
pub fn room(h: &Header) -> u64 {
    (0x8000 - h.transitions as u64) | (0x8000 - 2) << 16 | (0x8000 - h.places as u64) << 32
}

/// The arcs: refusals 6 and 7, or 0. Each good arc is shown, with its number. Callers are functions of their own, not
/// inlined, and get `room` made, so that all that the loop needs stays in registers.
#[inline(always)]
pub unsafe fn each_arc(at: *const u8, count: usize, room: u64, mut see: impl FnMut(usize, u64)) -> u32 {
    let mut before = -1i64;
    for j in 0..count {
        let arc = get64(at.add(8 * j));
        if (arc.wrapping_add(room) | arc) & 0x8000_8000_8000 != 0 || arc < 1 << 48 {
            return 6;
        }
        let key = (arc & 0xFFFF_FFFF_FFFF).wrapping_mul(GATHER) as i64;
        if key < before {
            return 7;
        }
        before = key;
        see(j, arc);
    }
    0
}

/// Checks the arcs and does no more.
#[cfg(not(feature = "vectors"))]
#[inline(never)]
pub unsafe fn arcs(at: *const u8, count: usize, room: u64) -> u32 {
    each_arc(at, count, room, |_, _| ())
}

#[cfg(feature = "vectors")]
pub use super::vectors::arcs;

/// Whether both tables of origins rise strictly.
#[inline(always)]
pub unsafe fn origins_rise(h: &Header) -> bool {
    rises(h.origins_at, h.places) && rises(h.origins_at.add(2 * h.places), h.transitions)
}

/// No early leave, so that the loop is done by vectors.
#[inline(always)]
unsafe fn rises(table: *const u8, count: usize) -> bool {
    let mut falls = false;
    for i in 1..count {
        falls |= get16(table.add(2 * i)) as u16 <= get16(table.add(2 * i - 2)) as u16;
    }
    !falls
}

/// Reads a whole file of the kind due.
#[inline(always)]
pub fn read(file: &[u8], due: u64) -> Result<Header, u32> {
    read_by(file, due, |h| unsafe { arcs(h.arcs_at, h.arcs, room(h)) })
}

/// Reads a whole file of the kind due, its arcs by a function that refuses them with 6 or 7.
#[inline(always)]
pub fn read_by(file: &[u8], due: u64, arcs: impl FnOnce(&Header) -> u32) -> Result<Header, u32> {
    let h = trailer(file, due)?;
    let refusal = arcs(&h);
    if refusal != 0 {
        return Err(refusal);
    }
    // A plan's body ends with its arcs.
    let slice = h.origins_at as usize != file.as_ptr() as usize + file.len() - 16;
    // SAFETY: the header's parts are inside the file.
    if slice && unsafe { !origins_rise(&h) } {
        return Err(8);
    }
    Ok(h)
}
