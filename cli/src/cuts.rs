//! safety, branching, run, and a cut for each place.

use crate::answers::{self, Answer};
use crate::call::{Call, Done};
use crate::diagnose::Asked;
use crate::files::{self, Out};
use crate::firing::stopped;
use crate::library::{self, Refusal, Slice, Start};
use crate::net::{places, Nodes};
use crate::numbers::LIST;
use crate::progress::Progress;
use std::ffi::OsString;
use std::os::unix::ffi::OsStrExt;
use std::path::{Path, PathBuf};

type Cut = fn(&[u8], Start, &[u16]) -> Result<Slice, Refusal>;

/// safety PLAN OUT [Q..] [from MARKING..]
pub fn safety(call: &mut Call) -> Done {
    cut(call, library::safety)
}

/// branching PLAN OUT [Q..] [from MARKING..]
pub fn branching(call: &mut Call) -> Done {
    cut(call, library::branching)
}

fn cut(call: &mut Call, cut: Cut) -> Done {
    call.has_out()?;
    let (criterion, start) = call.criterion_and_start(2..call.words.len())?;
    let (plan, start) = (call.file(0)?, start.as_deref());
    let asked = Asked { files: &[&plan], start, criterion: &criterion.given, ..Asked::default() };
    let slice = asked.granted(cut(&plan.bytes, start, &criterion.rising))?;
    let answer = answers::written(call.write("slice", &slice.bytes, "plan")?, &slice, &plan.bytes);
    call.tell(answer.for_no_place(&criterion.rising))
}

/// run PLAN OUT LIST for [Q..]
pub fn run(call: &mut Call) -> Done {
    let middle = call.find(2, "for").ok_or_else(|| call.misused())?;
    call.has_out()?;
    let list = call.list(2..middle, &LIST)?;
    let criterion = call.criterion(middle + 1..call.words.len())?;
    let plan = call.file(0)?;
    let asked = Asked { files: &[&plan], criterion: &criterion.given, list: &list, ..Asked::default() };
    let (slice, chosen) = library::run_cut(&plan.bytes, &criterion.rising, &list).map_err(|no| match no.refusal {
        Refusal::Stuck => answers::sticks(no.refusal.number(), stopped(&Nodes::of(&plan.bytes), &list, no.stop)),
        refusal => asked.refused(refusal),
    })?;
    let answer = answers::written(call.write("slice", &slice.bytes, "plan")?, &slice, &plan.bytes);
    let nodes = Nodes::of(&slice.bytes);
    let own = chosen.iter().filter_map(|&i| nodes.own_transition(list[usize::from(i)]));
    call.tell(answer.for_no_place(&criterion.rising).with_chosen(&chosen, &own.collect::<Vec<_>>()))
}

/// safety-each PLAN FOLDER
pub fn safety_each(call: &mut Call) -> Done {
    each(call, library::safety)
}

/// branching-each PLAN FOLDER
pub fn branching_each(call: &mut Call) -> Done {
    each(call, library::branching)
}

/// For each place P alone, FOLDER/P.slice; where one of them may not be written, none is.
fn each(call: &mut Call, cut: Cut) -> Done {
    let plan = call.file(0)?;
    let asked = Asked { files: &[&plan], ..Asked::default() };
    asked.granted(cut(&plan.bytes, None, &[]))?; // refused for the plan's sake alone
    let name = call.words[1].as_bytes().to_vec();
    let folder = files::path(&name);
    if !folder.is_dir() {
        if folder.exists() {
            return Err(answers::error_of(&name, "it is no folder"));
        }
        std::fs::create_dir_all(folder).map_err(|e| files::failed(&name, &e))?;
    }
    let outs = (0..places(&plan.bytes)).map(|p| {
        let out = folder.join(format!("{p}.slice"));
        Out::new(out.as_os_str(), "slice", &[("plan", &call.words[0])], call.force)
    });
    let outs: Vec<Out> =
        outs.collect::<Result<_, _>>().map_err(|answer: Answer| answer.because("; nothing was written"))?;

    let mut progress = Progress::new(outs.len(), "place");
    for (p, out) in outs.iter().enumerate() {
        progress.show(p);
        let slice = asked.granted(cut(&plan.bytes, None, &[p as u16]))?;
        out.write(&slice.bytes)?;
        progress.hide();
        call.out.criterion = Some(vec![p as u16]);
        call.tell(answers::written(out.name(), &slice, &plan.bytes).data("place", p))?;
        call.out.flush();
    }
    call.out.criterion = None;
    for (p, name) in beyond(folder, places(&plan.bytes)) {
        call.tell(answers::left(name.as_os_str().as_bytes(), p))?;
    }
    Ok(())
}

/// The files P.slice of a folder whose P is no place of the plan, by P.
pub fn beyond(folder: &Path, places: usize) -> Vec<(usize, PathBuf)> {
    let entries = std::fs::read_dir(folder).into_iter().flatten().flatten();
    let numbered = |name: OsString| {
        let digits = name.to_str()?.strip_suffix(".slice")?.to_string();
        let p: usize = digits.parse().ok()?;
        (p.to_string() == digits && p >= places).then(|| (p, folder.join(name)))
    };
    let mut found: Vec<(usize, PathBuf)> = entries.filter_map(|entry| numbered(entry.file_name())).collect();
    found.sort();
    found
}
