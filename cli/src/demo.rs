//! demo: the verbs on a small kerb. Its files are in memory.

use crate::answers;
use crate::call::{Call, Done};
use crate::files::File;
use crate::library;
use crate::verbs;
use std::ffi::OsStr;

const PLAN: &[u8] = include_bytes!("../../plans/small-kerb.plan");

pub fn demo(call: &mut Call) -> Done {
    call.tell(answers::text(
        "demo: a small kerb with places 0 waiting, 1 bay free, 2 in bay, 3 left, 4 bell; no file is read or written",
    ))?;
    call.memory.push(File { name: "small-kerb.plan".into(), bytes: PLAN.into() });
    run(call, "show small-kerb.plan")?;
    run(call, "effect small-kerb.plan 3 2")?;
    call.tell(answers::command("safety small-kerb.plan kerb.slice 2"))?;
    if let Ok(slice) = library::safety(PLAN, None, &[2]) {
        call.tell(answers::written(b"kerb.slice", &slice, PLAN))?;
        call.memory.push(File { name: "kerb.slice".into(), bytes: slice.bytes });
    }
    run(call, "show kerb.slice")?;
    run(call, "check small-kerb.plan kerb.slice 2")?;
    run(call, "shadow small-kerb.plan kerb.slice 3 0 1")?;
    run(call, "replay kerb.slice 0 1")
}

/// The command, and what it answers.
fn run(call: &mut Call, command: &str) -> Done {
    call.tell(answers::command(command))?;
    call.words = command.split(' ').skip(1).map(Into::into).collect();
    (call.out.read, call.out.criterion) = (Vec::new(), None);
    let verb = command.split(' ').next().unwrap_or_default();
    (verbs::find(OsStr::new(verb))?.run)(call)
}
