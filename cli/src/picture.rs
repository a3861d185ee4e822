//! dot: a net, or a slice inside its plan, as Graphviz text.

use crate::answers;
use crate::call::{Call, Done};
use crate::diagnose::{no_such, Asked};
use crate::library::{self, Verdict};
use crate::net::Net;
use std::fmt::Write;

/// How a place or a transition is drawn.
#[derive(Clone, Copy, PartialEq, Eq)]
enum Shade {
    LeftOut,
    Drawn,
    /// A place of the criterion.
    Marked,
    /// A place of the criterion that is not kept.
    Missing,
}

const GREY: &str = "color=grey75 fontcolor=grey65";

impl Shade {
    fn colour(self) -> &'static str {
        match self {
            Shade::LeftOut => GREY,
            Shade::Drawn => "color=black",
            Shade::Marked => "color=firebrick penwidth=2.5",
            Shade::Missing => "color=firebrick penwidth=2.5 style=dashed fontcolor=grey65",
        }
    }

    fn is_kept(self) -> bool {
        matches!(self, Shade::Drawn | Shade::Marked)
    }

    /// The same for a place of the criterion.
    fn marked(self) -> Shade {
        match self.is_kept() {
            true => Shade::Marked,
            false => Shade::Missing,
        }
    }
}

/// dot FILE, dot PLAN SLICE [Q..]
pub fn dot(call: &mut Call) -> Done {
    match call.words.len() {
        1 => one(call),
        _ => inside(call),
    }
}

fn one(call: &mut Call) -> Done {
    let file = call.file(0)?;
    let asked = Asked { files: &[&file], ..Asked::default() };
    let net = asked.granted(Net::read(&file.bytes))?;
    let all = |count| vec![Shade::Drawn; count];
    call.tell(answers::picture(drawn(net, &all(net.trailer.places), &all(net.trailer.transitions), None)))
}

/// The slice inside the plan, with a note where it is not a part of it by rules 1 to 4: they do not depend on the criterion, and none
/// is asked.
fn inside(call: &mut Call) -> Done {
    let q = call.criterion(2..call.words.len())?.given;
    let (plan, slice) = (call.file(0)?, call.file(1)?);
    let asked = Asked { files: &[&plan, &slice], ..Asked::default() };
    let verdict = asked.granted(library::verdict(&plan.bytes, &slice.bytes, None, &[]))?;
    let (whole, part) = (asked.granted(Net::read(&plan.bytes))?, asked.granted(Net::read(&slice.bytes))?);

    let shades = |count: usize, kept: &[u16]| {
        let mut shades = vec![Shade::LeftOut; count];
        for &n in kept {
            if let Some(shade) = shades.get_mut(usize::from(n)) {
                *shade = Shade::Drawn;
            }
        }
        shades
    };
    let origins = part.origins();
    let (kept_places, kept_transitions) = origins.split_at(part.trailer.places);
    let mut places = shades(whole.trailer.places, kept_places);
    for n in q {
        let count = places.len() as u64;
        let place = places.get_mut(usize::from(n)).ok_or_else(|| no_such("plan", "place", n, count))?;
        *place = place.marked();
    }
    let transitions = shades(whole.trailer.transitions, kept_transitions);

    let Verdict::Broken { rule: rule @ 1..=4, number } = verdict else {
        return call.tell(answers::picture(drawn(whole, &places, &transitions, None)));
    };
    let why = answers::broken(rule, number).words();
    let title = format!("the slice is not a part of this plan: {}", String::from_utf8_lossy(&why));
    let mut answer = answers::picture(drawn(whole, &places, &transitions, Some(&title)));
    let note = [&slice.name[..], b" is not accepted as a part of ", &plan.name, b": ", &why].concat();
    if call.out.json {
        answer = answer.data("note", &note[..]);
    } else {
        call.out.note(&note);
    }
    call.tell(answer)
}

/// A title stands above all, in red. A place or a transition of a slice has the plan's number beside its own.
fn drawn(net: Net, places: &[Shade], transitions: &[Shade], title: Option<&str>) -> String {
    let mut out = String::from("digraph net {\n  rankdir=LR\n");
    if let Some(title) = title {
        let _ = writeln!(out, "  label=\"{title}\" labelloc=t fontname=\"Helvetica\" fontcolor=firebrick");
    }
    out += "  node [fontname=\"Helvetica\" fontsize=12]\n  edge [fontname=\"Helvetica\" fontsize=11]\n";
    let origins = net.origins();
    let of_plan = |i: usize, letter| origins.get(i).map_or(String::new(), |n| format!("\\nplan's {letter}{n}"));
    for (p, shade) in places.iter().enumerate() {
        let origin = of_plan(p, 'p');
        let tokens = net.tokens(p).filter(|n| *n != 0).map_or(String::new(), |n| format!("\\n{n}"));
        let cap = net.cap(p).map_or(String::new(), |n| format!("\\ncap {n}"));
        let missing = if *shade == Shade::Missing { "\\nnot kept" } else { "" };
        let _ = writeln!(out, "  p{p} [shape=circle label=\"p{p}{origin}{tokens}{cap}{missing}\" {}]", shade.colour());
    }
    for (t, shade) in transitions.iter().enumerate() {
        let origin = of_plan(places.len() + t, 't');
        let _ = writeln!(out, "  t{t} [shape=box label=\"t{t}{origin}\" {}]", shade.colour());
    }
    for arc in net.arcs() {
        let (p, t) = (usize::from(arc.place), usize::from(arc.transition));
        let (from, to) =
            if arc.adds() { (format!("t{t}"), format!("p{p}")) } else { (format!("p{p}"), format!("t{t}")) };
        let colour = if places[p].is_kept() && transitions[t].is_kept() { "color=black" } else { GREY };
        let label = if arc.weight == 1 { String::new() } else { format!(" label=\"{}\"", arc.weight) };
        let _ = writeln!(out, "  {from} -> {to} [{colour}{label}]");
    }
    out + "}\n"
}
