//! Help: the page, a verb's own, and the manual, from the table of verbs.

use crate::answers::{Answer, Status, Value};
use crate::call::{Call, Done};
use crate::library::VERSION;
use crate::verbs::{self, Topic, Verb, NOTES, TOPICS, VERBS};

pub fn help(call: &mut Call) -> Done {
    match call.words.first() {
        Some(word) => match TOPICS.iter().find(|topic| word == topic.name) {
            Some(topic) => call.tell(of_topic(topic).say(topic.text.trim_end())),
            None => {
                let verb = verbs::find(word)?;
                call.tell(of(verb).say(entry(verb).trim_end()))
            }
        },
        None if call.out.json => VERBS.iter().try_for_each(|verb| call.tell(of(verb))),
        None => call.tell(Answer::new("help", Status::Good).say(page().trim_end())),
    }
}

/// A verb for JSON.
fn of(verb: &Verb) -> Answer {
    Answer::new("help", Status::Good)
        .data("of", verb.name)
        .data("usage", Value::Texts(verb.ways().collect()))
        .data("short", Value::Texts(verb.forms.iter().map(|(_, short)| short.to_string()).collect()))
        .data("text", verb.text)
}

fn of_topic(topic: &Topic) -> Answer {
    let short = Value::Texts(vec![topic.short.into()]);
    Answer::new("help", Status::Good).data("of", topic.name).data("short", short).data("text", topic.text)
}

/// Each way to use each verb, then the notes.
fn page() -> String {
    let mut page = String::from("nesfoal VERB ..: cut, check and replay place/transition nets\n\n");
    let width = VERBS.iter().flat_map(Verb::ways).map(|way| way.len()).max().unwrap_or(0);
    for verb in VERBS {
        for (way, (_, short)) in verb.ways().zip(verb.forms) {
            page += &format!("  {way:<width$}  {short}\n");
        }
    }
    page + "\n" + NOTES
}

/// How a verb is used, and its text.
fn entry(verb: &Verb) -> String {
    let ways: Vec<String> =
        verb.ways().zip(verb.forms).map(|(way, (_, short))| format!("nesfoal {way}\n    {short}\n")).collect();
    ways.concat() + "\n" + verb.text
}

/// The manual page.
pub fn manual() -> String {
    let mut page = format!(".TH NESFOAL 1 \"\" \"nesfoal {VERSION}\" Nesfoal\n");
    page += ".SH NAME\nnesfoal \\- cut, check and replay place/transition nets\n";
    page += ".SH SYNOPSIS\n.B nesfoal\n[\\-\\-json] [\\-\\-force] VERB ..\n.SH DESCRIPTION\n";
    page += &roff(NOTES);
    page += ".SH VERBS\n";
    for verb in VERBS {
        page += &format!(".SS {}\n{}", verb.name, roff(&entry(verb)));
    }
    for topic in TOPICS {
        page += &format!(".SH {}\n{}", topic.name.to_uppercase(), roff(topic.text));
    }
    page
        + ".SH FILES\nA run that the signal KILL ends may leave a file .nesfoal\\-* beside OUT; no other signal does.\n"
}

/// Indented lines as they are, the others filled.
fn roff(text: &str) -> String {
    let mut out = String::new();
    let mut kept = false;
    for line in text.lines() {
        let (is_kept, line) = match line.strip_prefix("    ") {
            Some(line) => (true, line),
            None => (false, line),
        };
        if is_kept != kept {
            out += if is_kept { ".RS\n.nf\n" } else { ".fi\n.RE\n" };
            kept = is_kept;
        }
        if line.is_empty() {
            out += ".PP\n";
            continue;
        }
        if line.starts_with(['.', '\'']) {
            out += "\\&";
        }
        out += &line.replace('\\', "\\e").replace('-', "\\-");
        out.push('\n');
    }
    out + if kept { ".fi\n.RE\n" } else { "" }
}

#[cfg(test)]
mod tests {
    use super::*;

    #[test]
    fn text_for_the_formatter() {
        assert_eq!(roff("a-b\n\n    .x \\\ny\n"), "a\\-b\n.PP\n.RS\n.nf\n\\&.x \\e\n.fi\n.RE\ny\n");
    }
}
