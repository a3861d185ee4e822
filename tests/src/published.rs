//! Nets that the sources print, with the cuts and end markings that they state or that follow.

use crate::gen::{Draft, DraftArc};
use crate::json::{parse, Json};

pub struct Published {
    pub name: String,
    pub plan: Vec<u8>,
    pub plan_bytes: usize,
    pub cuts: Vec<PublishedCut>,
    pub lists: Vec<PublishedList>,
    pub run_cuts: Vec<PublishedRun>,
}

pub struct PublishedCut {
    pub q: Vec<u16>,
    pub safety: Sets,
    pub branching: Sets,
}

pub struct Sets {
    pub places: Vec<u16>,
    pub transitions: Vec<u16>,
    pub arcs: usize,
    pub bytes: usize,
}

pub struct PublishedList {
    pub list: Vec<u16>,
    pub marking: Vec<u64>,
    /// Index and place, where the list sticks.
    pub stuck: Option<(i64, i64)>,
}

pub struct PublishedRun {
    pub list: Vec<u16>,
    pub q: Vec<u16>,
    pub places: Vec<u16>,
    pub transitions: Vec<u16>,
    /// Positions in the list, from 0.
    pub chosen: Vec<u16>,
}

pub fn nets() -> Vec<Published> {
    let text = include_str!("../data/published-nets.json");
    parse(text).list().iter().map(net).collect()
}

fn net(json: &Json) -> Published {
    let marking = json.get("marking").list().iter().map(|m| m.number() as u32).collect();
    let arcs = json.get("arcs").list().iter().map(|arc| {
        let n = arc.numbers();
        DraftArc::new(usize::from(n[0]), n[1] as u8, usize::from(n[2]), n[3])
    });
    let transitions = json.get("transitions").list().len();
    Published {
        name: json.get("name").text().into(),
        plan: Draft::plan(marking, transitions, arcs.collect()).bytes(),
        plan_bytes: json.get("plan_bytes").number() as usize,
        cuts: json.get("cuts").list().iter().map(cut).collect(),
        lists: json.get("lists").list().iter().map(list).collect(),
        run_cuts: match json.get("run_cuts") {
            Json::Null => Vec::new(),
            runs => runs.list().iter().map(run).collect(),
        },
    }
}

fn cut(json: &Json) -> PublishedCut {
    let sets = |json: &Json| Sets {
        places: json.get("places").numbers(),
        transitions: json.get("transitions").numbers(),
        arcs: json.get("arcs").number() as usize,
        bytes: json.get("bytes").number() as usize,
    };
    PublishedCut {
        q: json.get("Q").numbers(),
        safety: sets(json.get("safety")),
        branching: sets(json.get("branching")),
    }
}

fn list(json: &Json) -> PublishedList {
    let stuck = match json.get("stuck_index") {
        Json::Null => {
            assert_eq!(json.get("all_fired"), &Json::Yes(true));
            None
        }
        index => Some((index.number(), json.get("short_place").number())),
    };
    PublishedList {
        list: json.get("list").numbers(),
        marking: json.get("marking").list().iter().map(|m| m.number() as u64).collect(),
        stuck,
    }
}

fn run(json: &Json) -> PublishedRun {
    PublishedRun {
        list: json.get("list").numbers(),
        q: json.get("Q").numbers(),
        places: json.get("places").numbers(),
        transitions: json.get("transitions").numbers(),
        chosen: json.get("chosen").numbers(),
    }
}

#[cfg(test)]
mod tests {
    use super::*;
    use crate::cut::{self, Cut};
    use crate::net::Kind;
    use crate::read::read;

    #[test]
    fn files_have_the_length_told() {
        assert_eq!(nets().len(), 8);
        for net in nets() {
            assert_eq!(net.plan.len(), net.plan_bytes, "{}", net.name);
        }
    }

    #[test]
    fn cuts_keep_the_sets_told() {
        for net in nets() {
            for c in &net.cuts {
                for (which, sets) in [(Cut::Safety, &c.safety), (Cut::Branching, &c.branching)] {
                    let mut lent = vec![0; 65_536];
                    let written = cut::cut(which, &net.plan, &c.q, &mut lent).unwrap();
                    let slice = read(&lent[..written.length], Some(Kind::Slice)).unwrap();
                    assert_eq!(slice.place_origins, sets.places, "{} {:?}", net.name, c.q);
                    assert_eq!(slice.transition_origins, sets.transitions, "{} {:?}", net.name, c.q);
                    assert_eq!(slice.arcs.len(), sets.arcs, "{} {:?}", net.name, c.q);
                    assert_eq!(written.length, sets.bytes, "{} {:?}", net.name, c.q);
                }
            }
        }
    }
}
