//! check: one slice, or many; and each of a folder.

use crate::answers::{self, Answer};
use crate::call::{Call, Done};
use crate::cuts::beyond;
use crate::diagnose::{no_such, Asked};
use crate::files::{self, File, Input};
use crate::library::{self, Start, Verdict};
use crate::net::places;
use crate::numbers::Criterion;
use crate::progress::Progress;
use std::os::unix::ffi::OsStrExt;

/// check PLAN SLICE [Q..] [from MARKING..], check PLAN [Q..] [from MARKING..] -- SLICE..
pub fn check(call: &mut Call) -> Done {
    match call.split {
        Some(0) => Err(call.misused()),
        Some(split) if split < call.words.len() => many(call, split),
        None if call.words.len() >= 2 => {
            let (criterion, start) = call.criterion_and_start(2..call.words.len())?;
            let (plan, slice) = (call.file(0)?, call.file(1)?);
            let answer = verdict(&plan, &slice, start.as_deref(), &criterion)?;
            call.tell(answer)
        }
        _ => Err(call.misused()),
    }
}

fn verdict(plan: &File, slice: &File, start: Start, criterion: &Criterion) -> Result<Answer, Answer> {
    let asked = Asked { files: &[plan, slice], start, criterion: &criterion.given, ..Asked::default() };
    Ok(match asked.granted(library::verdict(&plan.bytes, &slice.bytes, start, &criterion.rising))? {
        Verdict::Accepted => answers::accepted().for_no_place(&criterion.rising),
        Verdict::Broken { rule: 3, number } if start.is_some() => answers::broken_from(number),
        Verdict::Broken { rule, number } => answers::broken(rule, number),
    })
}

/// check-each PLAN FOLDER: what safety-each or branching-each wrote, each file for its place alone.
pub fn each(call: &mut Call) -> Done {
    let plan = call.file(0)?;
    let asked = Asked { files: &[&plan], ..Asked::default() };
    asked.granted(library::safety(&plan.bytes, None, &[]))?; // refused for the plan's sake alone
    let name = call.words[1].as_bytes().to_vec();
    let (folder, count) = (files::path(&name), places(&plan.bytes));
    if !folder.is_dir() {
        let why = if folder.exists() { "it is no folder" } else { "no such file or folder" };
        return Err(answers::error_of(&name, why));
    }
    let mut progress = Progress::new(count, "place");
    for p in 0..count {
        progress.show(p);
        let name = folder.join(format!("{p}.slice")).into_os_string();
        call.out.read.truncate(1); // the plan, and then this slice
        let slice = files::net(&name, &mut Input::default());
        let criterion = Criterion::new(vec![p as u16]);
        call.out.criterion = Some(criterion.given.clone());
        call.out.read.extend(slice.as_ref().ok().map(|slice| (slice.name.clone(), slice.bytes.len())));
        let answer = slice.and_then(|slice| verdict(&plan, &slice, None, &criterion));
        let answer = answer.unwrap_or_else(Answer::unnamed).data("place", p);
        progress.hide();
        call.out.tell_of(name.as_bytes(), &answer);
        call.out.flush();
    }
    call.out.read.truncate(1);
    call.out.criterion = None;
    for (p, name) in beyond(folder, count) {
        let answer = no_such("plan", "place", p, count as u64).data("place", p);
        call.out.tell_of(name.as_os_str().as_bytes(), &answer);
    }
    Ok(())
}

/// A line for each slice, whatever came of it. What is wrong with the plan, the start or the criterion is said once: a cut is refused
/// for their sake alone.
fn many(call: &mut Call, split: usize) -> Done {
    let (criterion, start) = call.criterion_and_start(1..split)?;
    let (plan, start) = (call.file(0)?, start.as_deref());
    let asked = Asked { files: &[&plan], start, criterion: &criterion.given, ..Asked::default() };
    asked.granted(library::safety(&plan.bytes, start, &criterion.rising))?;
    let mut progress = Progress::new(call.words.len() - split, "slice");
    for i in split..call.words.len() {
        progress.show(i - split);
        let name = call.words[i].as_bytes().to_vec();
        call.out.read.truncate(1); // the plan, and then this slice
        let answer = call.file(i).and_then(|slice| verdict(&plan, &slice, start, &criterion));
        let answer = answer.unwrap_or_else(Answer::unnamed);
        progress.hide();
        call.out.tell_of(&name, &answer);
        call.out.flush();
    }
    Ok(())
}
