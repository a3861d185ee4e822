//! Reading a file: a net, or the first refusal of 1 to 8 and 16.

use crate::net::*;

fn two(bytes: &[u8], at: usize) -> u16 {
    u16::from_le_bytes([bytes[at], bytes[at + 1]])
}

fn four(bytes: &[u8], at: usize) -> u32 {
    u32::from_le_bytes([bytes[at], bytes[at + 1], bytes[at + 2], bytes[at + 3]])
}

/// Reads a file of the kind due, or of either kind if none is due.
pub fn read(file: &[u8], due: Option<Kind>) -> Result<Net, Refusal> {
    if file.len() < TRAILER || file.len() > MAX_FILE {
        return Err(1);
    }
    let trailer = &file[file.len() - TRAILER..];
    let edition = trailer[11];
    if &trailer[12..16] != b"BELL" || !(edition == 1 || edition == 2) {
        return Err(2);
    }
    let kind = match trailer[10] {
        0 => Kind::Plan,
        1 => Kind::Slice,
        _ => return Err(3),
    };
    if due.is_some_and(|due| due != kind) {
        return Err(3);
    }
    let places = usize::from(two(trailer, 4));
    let transitions = usize::from(two(trailer, 6));
    let arc_count = usize::from(two(trailer, 8));
    if places > MAX_PLACES || transitions > MAX_TRANSITIONS || arc_count > MAX_ARCS {
        return Err(4);
    }
    // An empty slice is the cut for no place; an empty plan is none.
    if kind == Kind::Plan && places == 0 && transitions == 0 {
        return Err(4);
    }
    let each = if edition == 2 { 8 } else { 4 };
    let mut length = each * places + 8 * arc_count;
    if kind == Kind::Slice {
        length += 2 * places + 2 * transitions;
    }
    let told = four(trailer, 0);
    if u64::from(told) != length as u64 || length > file.len() - TRAILER {
        return Err(5);
    }

    let body_at = file.len() - TRAILER - length;
    let arcs_at = body_at + each * places;
    let origins_at = arcs_at + 8 * arc_count;
    let (mut marking, mut caps) = (Vec::new(), Vec::new());
    for place in file[body_at..arcs_at].chunks_exact(each) {
        marking.push(four(place, 0));
        caps.push(if edition == 2 { four(place, 4) } else { 0 });
    }
    if marking.iter().zip(&caps).any(|(&marking, &cap)| cap != 0 && marking > cap) {
        return Err(16);
    }
    let arcs = read_arcs(&file[arcs_at..origins_at], places, transitions)?;
    let (mut place_origins, mut transition_origins) = (Vec::new(), Vec::new());
    if kind == Kind::Slice {
        place_origins = read_origins(&file[origins_at..origins_at + 2 * places])?;
        let from = origins_at + 2 * places;
        transition_origins = read_origins(&file[from..from + 2 * transitions])?;
    }
    let starts = find_starts(&arcs, transitions);
    Ok(Net { kind, edition, marking, caps, arcs, starts, arcs_at, place_origins, transition_origins })
}

/// Arcs one by one, each for 6 and then for 7.
fn read_arcs(bytes: &[u8], places: usize, transitions: usize) -> Result<Vec<Arc>, Refusal> {
    let mut arcs: Vec<Arc> = Vec::with_capacity(bytes.len() / 8);
    for b in bytes.chunks_exact(8) {
        let direction = match b[2] {
            0 => Direction::In,
            1 => Direction::Out,
            _ => return Err(6),
        };
        let arc = Arc { transition: two(b, 0), direction, place: two(b, 4), weight: two(b, 6) };
        if b[3] != 0
            || usize::from(arc.transition) >= transitions
            || usize::from(arc.place) >= places
            || arc.weight == 0
        {
            return Err(6);
        }
        let key = |a: &Arc| (a.transition, a.direction, a.place);
        if arcs.last().is_some_and(|before| key(&arc) < key(before)) {
            return Err(7);
        }
        arcs.push(arc);
    }
    Ok(arcs)
}

fn read_origins(bytes: &[u8]) -> Result<Vec<u16>, Refusal> {
    let table: Vec<u16> = bytes.chunks_exact(2).map(|b| two(b, 0)).collect();
    if table.windows(2).any(|w| w[0] >= w[1]) {
        return Err(8);
    }
    Ok(table)
}

/// Where each transition's arcs start, and one entry more for the end.
fn find_starts(arcs: &[Arc], transitions: usize) -> Vec<usize> {
    let mut starts = vec![0; transitions + 1];
    for arc in arcs {
        starts[usize::from(arc.transition) + 1] += 1;
    }
    for t in 0..transitions {
        starts[t + 1] += starts[t];
    }
    starts
}
