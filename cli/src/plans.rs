//! transfer, normal and pnml: from an old plan to a new one, and the two verbs that write a plan.

use crate::answers::{self, Answer};
use crate::call::{Call, Done};
use crate::diagnose::Asked;
use crate::library;
use crate::net::{places, Net};
use crate::numbers::{MARKING, TABLE};
use crate::pnml::Drawing;

/// normal PLAN OUT
pub fn normal(call: &mut Call) -> Done {
    call.has_out()?;
    let plan = call.file(0)?;
    let asked = Asked { files: &[&plan], ..Asked::default() };
    let normal = asked.granted(library::normal(&plan.bytes))?;
    let answer = written(call, &normal, "plan")?;
    call.tell(answer)
}

/// pnml TEXT OUT
pub fn pnml(call: &mut Call) -> Done {
    call.has_out()?;
    let text = call.file(0)?;
    let asked = Asked { files: &[&text], ..Asked::default() };
    let plan = asked.granted(library::from_pnml(&text.bytes))?;
    let answer = written(call, &plan, "text")?;
    call.tell(match Drawing::of(&text.bytes) {
        Some(drawing) => answer.with_ids(drawing.places(), drawing.transitions()),
        None => answer,
    })
}

/// Writes the plan, and says so.
fn written(call: &Call, plan: &[u8], input: &'static str) -> Result<Answer, Answer> {
    let net = Net::by_trailer(plan).expect("the library writes plans that it reads");
    Ok(answers::written_plan(call.write("plan", plan, input)?, &net))
}

/// transfer OLD NEW TABLE.. with MARKING..
pub fn transfer(call: &mut Call) -> Done {
    let with = call.find(2, "with").ok_or_else(|| call.misused())?;
    let table = call.list(2..with, &TABLE)?;
    let running = call.list_from(with + 1, &MARKING)?;
    let (old, new) = (call.file(0)?, call.file(1)?);
    let asked = Asked { files: &[&old, &new], transfer: Some((&table, &running)), ..Asked::default() };
    let carried = library::transfer(&old.bytes, &new.bytes, &running, &table, places(&new.bytes));
    call.tell(answers::carried(&asked.granted(carried)?))
}
