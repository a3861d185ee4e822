//! The table of verbs. Dispatch, usage, help, manual and the nearest verb come from it: a new verb is an entry here, a function and an
//! answer.

use crate::answers::{self, Answer};
use crate::call::{Call, Done};
use crate::words::{brief, nearest};
use crate::{checking, cuts, demo, firing, help, install, picture, plans, show};
use std::ffi::OsStr;
use std::ops::RangeInclusive;
use std::os::unix::ffi::OsStrExt;

pub struct Verb {
    pub name: &'static str,
    /// The ways to use it: the words after the verb, and what it does, in short.
    pub forms: &'static [(&'static str, &'static str)],
    /// How many words it takes.
    pub takes: RangeInclusive<usize>,
    pub run: fn(&mut Call) -> Done,
    /// What it does, examples, answers.
    pub text: &'static str,
}

const MANY: usize = usize::MAX;

pub fn find(word: &OsStr) -> Result<&'static Verb, Answer> {
    VERBS.iter().find(|verb| word == verb.name).ok_or_else(|| {
        let near = nearest(word, VERBS.iter().map(|verb| verb.name));
        let word = brief(word.as_bytes());
        answers::error(format!("no verb '{word}'; the nearest is '{near}', and nesfoal help lists all"))
    })
}

impl Verb {
    /// Each way to use it: `show FILE`.
    pub fn ways(&self) -> impl Iterator<Item = String> + '_ {
        self.forms.iter().map(|(words, _)| format!("{} {words}", self.name).trim_end().to_string())
    }

    /// `nesfoal dot FILE, or nesfoal dot PLAN SLICE [Q..]`.
    pub fn usage(&self) -> Answer {
        let ways: Vec<String> = self.ways().map(|way| format!("nesfoal {way}")).collect();
        answers::usage(ways.join(", or "))
    }
}

/// What the page of help says below the verbs.
pub const NOTES: &str = "\
FILE is a plan or a slice. Places and transitions are numbered from 0; place 3 may be written p3, and
transition 0 t0, as in pictures.
Q, the criterion, is place numbers in any order, each once; LIST is transition numbers; TABLE is place
numbers or none; MARKING and UPPER are tokens, a number for each place. Each may be empty; or @FILE, or
- for standard input: numbers in text with white space or a comma between them, and comments from # to
the end of a line; or bytes, low byte first, two an entry (four in UPPER, eight in MARKING).
One FILE may be - for standard input, and OUT for standard output.
OUT that exists is replaced where it is a slice or empty; else --force, anywhere before --, replaces it.
--json, anywhere before --: each answer is an object on a line of standard output, refusals and errors
too, with the version of the library, the files that were read with their lengths, and Q. --version: the
version of the library.
Verdicts and lists go to standard output, refusals and errors to standard error.
Exit status: 0; 1 stuck, full, not always fired or a rule broken; 2 refused, bad usage or an error.
";

/// A page of help that is no verb's.
pub struct Topic {
    pub name: &'static str,
    pub short: &'static str,
    pub text: &'static str,
}

pub static TOPICS: &[Topic] = &[
    Topic {
        name: "questions",
        short: "which question on which slice",
        text: "\
Which question about the places Q on which slice:

    can such tokens ever stand on Q? can they never?        safety
    how many tokens at most stand on a place of Q?          safety
    what stands on Q after this list?                       safety: shadow, then replay
    from here, can such tokens still come to stand on Q?    branching
    what fed Q in this one recorded run?                    run
    can it stand still, so that nothing can fire?           neither: ask the plan
    must it come about, sooner or later?                    neither: ask the plan

Safety: each list that fires in the plan fires in the slice once the transitions missing from it are
struck out, and ends with the plan's tokens on Q; each list of the slice fires in the plan. So the same
tokens can stand on Q. But the cut may leave out a transition that only takes from a kept place: what
can still follow may be less in the plan than in the slice.
Branching: the cut keeps every transition that changes a kept place, so that the plan's tokens stand on
every kept place after each list. It is the larger of the two, and check accepts it too.
Run: the slice is for that run alone, and says nothing of others.
Neither: a slice lacks transitions of the plan. The plan may go on with these where the slice stands
still, and may fire them for ever in place of what Q waits for.
",
    },
    Topic {
        name: "rules",
        short: "the ten rules of check",
        text: "\
Check goes through these rules in order; the first that is broken is the answer, with the lowest number
that breaks it. The number is the slice's own for 1 and 2, the plan's for 3 to 10.

     1  each place of the slice has an origin that is a place of the plan
     2  each transition of the slice has an origin that is a transition of the plan
     3  each kept place has the plan's marking (or the one after from) and the plan's cap
     4  each kept transition has exactly its plan arcs to kept places, arc by arc
     5  each place of Q is kept
     6  no transition that is left out changes a place of Q
     7  each input place of a kept transition is kept
     8  no transition that is left out raises a kept place
     9  each place with a cap that a kept transition adds to is kept
    10  no transition that is left out changes a kept place with a cap

Changes and raises are by the effect: what it adds less what it takes. From C the answer is 100 plus the
number of the rule.
",
    },
    Topic {
        name: "refusals",
        short: "what the numbers of refusals mean",
        text: "\
A refusal has the number of the first condition that is broken. Files come first, the plan before the
slice; then a marking after from, criterion, list, other markings.

     1  a file below 16 or above 65,536 bytes, or a text in PNML above 65,536
     2  the trailer: the letters BELL, or an edition that is neither 1 nor 2
     3  the trailer: a kind that is none, a slice for a plan or a plan for a slice
     4  the trailer: more than 1,024 places or transitions or 4,096 arcs; or a plan with neither place
        nor transition
     5  the trailer: a body of another length than the counts give, or than there is
     6  an arc: the zero byte, direction, place, transition or weight is out of range
     7  an arc: below the arc before it, by transition, direction and place
     8  an origin: not above the one before it
     9  a criterion in bytes: an odd number of them (from C alone)
    10  a criterion or a place: no such place, or a place twice
    11  a list: above 65,535 entries
    12  a list or a transition: no such transition
    13  a buffer: shorter than what is written (from C alone)
    14  the list of run: it is stuck
    15  the marking of together: not a number for each place
    16  a place: its marking is above its cap
    17  the plan of run or need: it has caps
    18  a text in PNML: not in the form that help pnml shows
    19  a text in PNML: an id that is used twice, or an arc whose ends are not a place and a transition
    20  a text in PNML: a number or a count past its limit
    21  the upper list of need: not a number for each place, or one below the plan's marking
    22  a marking after from, or a table: not an entry for each place, or no such new place
    23  a table: a place that has tokens has no new place
    24  a marking after from, or what a new place gets: above 4,294,967,295 or above the cap
    25  the plan of normal: parallel arcs that weigh more than 65,535 together
",
    },
    Topic {
        name: "format",
        short: "plan and slice files, byte by byte",
        text: "\
Numbers have the low byte first. A file is: a note of any bytes, the body, the trailer.

The body:
    for each place             marking (4); in edition 2 also its cap (4), 0 where it has none
    for each arc               transition (2), direction (1), zero (1), place (2), weight (2)
                               direction 0 from place to transition, 1 from transition to place
                               by transition, direction and place, none below the one before
    in a slice                 the plan's number (2) of each place, then of each transition, rising

The trailer, the last 16 bytes:
    0   length of the body (4)
    4   places P (2), transitions T (2), arcs A (2)
    10  kind (1): 0 a plan, 1 a slice
    11  edition (1): 1, or 2 with caps
    12  the letters BELL

A file has at most 65,536 bytes, 1,024 places, 1,024 transitions and 4,096 arcs. FORMAT.md (docs/, or
share/doc/nesfoal/ where it is installed) has examples. A list in bytes has 2 bytes an entry (4 in an
upper list, 8 in a marking).
",
    },
];

#[rustfmt::skip] // an entry as it reads
pub static VERBS: &[Verb] = &[
    Verb {
        name: "show",
        forms: &[
            ("FILE", "what a plan or a slice holds, in words"),
        ],
        takes: 1..=1,
        run: show::show,
        text: "\
The first line counts places, transitions, arcs and bytes; then a line for each place and each
transition; with --json all of it is one object. A place that has a cap says so. In a slice each has the
plan's number beside its own.

Example:
    nesfoal show plans/small-kerb.plan

Answers:
    plan of .., slice of ..    the file can be read
    refused N: ..              it breaks rule N of the files (1 to 8, 16)
",
    },
    Verb {
        name: "dot",
        forms: &[
            ("FILE", "the net as Graphviz text"),
            ("PLAN SLICE [Q..]", "the slice inside the plan, the rest grey, Q marked"),
        ],
        takes: 1..=MANY,
        run: picture::dot,
        text: "\
Circles are places with their tokens and caps, boxes are transitions. A slice by itself has the plan's
number below each of its own. Inside the plan the numbers are the plan's; places of Q are red, and
dashed with the words 'not kept' where the slice has them not. Where the slice is not a part of the
plan, as the checker's rules 1 to 4 have it, the picture may mislead: its title and standard error say
so.

Example:
    nesfoal dot plans/small-kerb.plan safety.slice 2 | dot -Tsvg > picture.svg

Answers:
    digraph net {..            the picture
    refused N: ..              a file breaks rule N of the files (1 to 8, 16); nothing is drawn
",
    },
    Verb {
        name: "effect",
        forms: &[
            ("FILE PLACE TRANSITION", "by how much one firing changes the place's tokens"),
        ],
        takes: 3..=3,
        run: firing::effect,
        text: "\
What the transition adds to the place less what it takes from it.

Example:
    nesfoal effect plans/small-kerb.plan 3 2

Answers:
    effect N on place P of transition T
    refused N: ..              the file (1 to 8, 16), the place (10) or the transition (12) is refused
",
    },
    Verb {
        name: "arcs",
        forms: &[
            ("PLAN TRANSITION", "what the transition takes and adds"),
            ("PLAN SLICE plan|slice TRANSITION", "the same in the file named"),
        ],
        takes: 2..=4,
        run: firing::arcs,
        text: "\
The transition's number is its number in the file named.

Examples:
    nesfoal arcs plans/small-kerb.plan 1
    nesfoal arcs plans/small-kerb.plan safety.slice slice 1

Answers:
    arcs N of transition T in the plan|slice: takes .., adds ..
    refused N: ..              a file breaks rule N of the files (1 to 8, 16)
",
    },
    Verb {
        name: "replay",
        forms: &[
            ("FILE LIST [from MARKING..]", "fires the list: the marking after it, or where it stops"),
        ],
        takes: 1..=MANY,
        run: firing::replay,
        text: "\
FILE is a plan or a slice, LIST the numbers of its transitions. They fire one after the other
from the file's own marking, or from MARKING: tokens for each place, at most 4294967295 and at most
the place's cap. The answer may be piped into a verb whose MARKING is then -.
Where the list stops, lines below say which other places are short, or over, the marking there, and
which transitions can fire there. In a slice the numbers are the slice's own, with the plan's beside.

Examples:
    nesfoal replay plans/small-kerb.plan 0 1 0 1 2
    nesfoal replay plans/small-kerb.plan 0 1 | nesfoal replay plans/small-kerb.plan 0 1 2 from -
    nesfoal shadow plans/small-kerb.plan safety.slice 3 0 1 | nesfoal replay safety.slice -

Answers:
    fired N transitions, ending ..    all fired; the tokens on each place
    stuck at index I: transition T, place P is short of N
                               the transition at that index, from 0, lacks tokens (status 1)
    full at index I: transition T, place P is over by N
                               it has its inputs, but would leave that place above its cap (status 1)
    also short: place P by N, .. or also over: ..
                               below these: the other places of that transition, where there are any
    marking there: ..          and the tokens on each place before that firing
    can fire there: ..         and the transitions that can fire there
    refused N: ..              the file (1 to 8, 16), the marking (22, 24) or the list (11, 12) is refused
",
    },
    Verb {
        name: "together",
        forms: &[
            ("PLAN TRANSITION [MARKING..]", "how often its inputs can be taken together from a marking"),
        ],
        takes: 2..=MANY,
        run: firing::together,
        text: "\
MARKING is a number of tokens, up to 18446744073709551615, for each place of the plan; without one
it is the plan's own. What the transition adds is not counted. The answer is the largest number of
times, and what is left on each place.

Examples:
    nesfoal together plans/small-kerb.plan 0
    nesfoal together plans/small-kerb.plan 2 0 0 0 5 0

Answers:
    taken N times, leaving ..  the tokens left on each place; one time more is not possible
    unlimited, leaving ..      the transition takes nothing; the marking is left as it is
    refused N: ..              the plan (1 to 7, 16), the transition (12) or the marking (15) is refused
",
    },
    Verb {
        name: "need",
        forms: &[
            ("PLAN LIST [upto UPPER..]", "from which markings the list fires, and what it needs"),
        ],
        takes: 1..=MANY,
        run: firing::need,
        text: "\
For tokens that are known only within a range: each place has at least the plan's tokens and at most
UPPER's, which is a number up to 4294967295 for each place. Without upto the range is the plan's own
marking alone. The answer ends with the least marking that the list needs: the list fires from a
marking exactly where each place has at least so many tokens. A plan with caps is refused, since there
more tokens can block a firing. The answer may be piped into a verb whose MARKING is then -.

Examples:
    nesfoal need plans/small-kerb.plan 0 1 0 1 0 upto 5 1 0 0 0
    nesfoal need plans/small-kerb.plan 0 1 0 1 2
    nesfoal need plans/small-kerb.plan 0 0 | nesfoal replay plans/small-kerb.plan 0 0 from -

Answers:
    always fires; needed ..    from every marking in the range
    sometimes fires: place P has N to N and needs N; needed ..
                               from some markings in the range, not from all; the lowest place that may
                               have too few (status 1)
    never fires: place P has N to N and needs N; needed ..
                               from none; the lowest place that has too few (status 1)
    refused N: ..              the plan (1 to 8, 16; 17 where it has caps), the list (11, 12) or the upper
                               list (21) is refused
",
    },
    Verb {
        name: "safety",
        forms: &[
            ("PLAN OUT [Q..] [from MARKING..]", "writes the safety cut for the criterion Q"),
        ],
        takes: 2..=MANY,
        run: cuts::safety,
        text: "\
The smallest slice that the checker accepts for Q; with no place, the slice with no places and no
transitions, and the answer ends in: for no place. It starts from the plan's own marking, or from
MARKING, as with replay: such a slice is right for the runs from there, and is checked from there.
OUT appears whole or not at all. A file that exists is replaced only where it is a slice or empty, and
may be written; --force replaces any plain file but the plan and the list. A link is followed, and stays.
A new file has the mode that the umask leaves, a replaced one keeps its mode. OUT is no number alone (a
file of that name is ./2, say). OUT may be -: the slice goes to standard output, and the answer to
standard error.

Examples:
    nesfoal safety plans/small-kerb.plan safety.slice 2
    nesfoal safety plans/small-kerb.plan - 2 | nesfoal show -
    nesfoal replay plans/small-kerb.plan 0 | nesfoal safety plans/small-kerb.plan later.slice 2 from -

Answers:
    written OUT: N bytes, N of N places, N of N transitions
    refused N: ..              the plan (1 to 7, 16), the marking (22, 24) or the criterion (10) is refused;
                               nothing is written
",
    },
    Verb {
        name: "branching",
        forms: &[
            ("PLAN OUT [Q..] [from MARKING..]", "writes the branching cut"),
        ],
        takes: 2..=MANY,
        run: cuts::branching,
        text: "\
The same for the slice that also keeps every transition that changes a kept place, for questions
about what can still happen later. OUT and MARKING as with safety.

Example:
    nesfoal branching plans/small-kerb.plan branching.slice 2

Answers:
    written OUT: N bytes, N of N places, N of N transitions
    refused N: ..              the plan (1 to 7, 16), the marking (22, 24) or the criterion (10) is refused;
                               nothing is written
",
    },
    Verb {
        name: "run",
        forms: &[
            ("PLAN OUT LIST for [Q..]", "writes the cut for one recorded run"),
        ],
        takes: 3..=MANY,
        run: cuts::run,
        text: "\
LIST is transitions of the plan that fire one after the other. Back from the last firing, each that
raised a place of Q, or a place that a chosen one took from, is chosen. The slice has Q, the places
that they took from and their transitions; the second line has their positions in the list, from 0, the
third their transitions by the slice's own numbers. Fired in order in the slice, the chosen ones leave
each place of Q at least the plan's tokens. The slice is for that run, and need not be accepted. OUT as
with safety. The answer may be piped into replay of OUT, whose LIST is then -.
A plan with caps is refused: use safety, which cuts for all runs, and replay for the list.

Examples:
    nesfoal run plans/small-kerb.plan run.slice 3 0 1 for 3
    nesfoal run plans/small-kerb.plan run.slice 3 0 1 for 3 | nesfoal replay run.slice -

Answers:
    written OUT: N bytes, N of N places, N of N transitions
    chosen positions ..        below it: where the chosen firings stand in LIST, rising
    the slice's list ..        and the same firings, by the slice's numbers
    refused N: ..              the plan (1 to 7, 16; 17 where it has caps), the criterion (10) or the list
                               (11, 12; 14 where it is stuck) is refused; nothing is written
",
    },
    Verb {
        name: "safety-each",
        forms: &[
            ("PLAN FOLDER", "the safety cut for each place P alone, as FOLDER/P.slice"),
        ],
        takes: 2..=2,
        run: cuts::safety_each,
        text: "\
The folder is made where it is not there, with those that it stands in. Each file is written as with
safety; where one of them may not be replaced, none is written. A file P.slice that is there for a P
that is no place of the plan, as of an earlier, larger plan, is named and left. Where standard error is
a terminal, a bar shows how far it is.

Example:
    nesfoal safety-each plans/small-kerb.plan cuts

Answers:
    written FOLDER/P.slice: N bytes, N of N places, N of N transitions
                               a line for each place
    left FOLDER/P.slice: ..    a line for each file of another plan
    refused N: ..              the plan is refused (1 to 7, 16); nothing is written
",
    },
    Verb {
        name: "branching-each",
        forms: &[
            ("PLAN FOLDER", "the same with branching cuts"),
        ],
        takes: 2..=2,
        run: cuts::branching_each,
        text: "\
As safety-each.

Example:
    nesfoal branching-each plans/small-kerb.plan cuts

Answers:
    written FOLDER/P.slice: N bytes, N of N places, N of N transitions
                               a line for each place
    left FOLDER/P.slice: ..    a line for each file of another plan
    refused N: ..              the plan is refused (1 to 7, 16); nothing is written
",
    },
    Verb {
        name: "check",
        forms: &[
            ("PLAN SLICE [Q..] [from MARKING..]", "is the slice right for Q: accepted, or the rule broken"),
            ("PLAN [Q..] [from MARKING..] -- SLICE..", "the same for many slices, a line each"),
        ],
        takes: 1..=MANY,
        run: checking::check,
        text: "\
A slice that is accepted, whoever made it, loses no run of the plan and makes none up: runs from the
plan's own marking, or from MARKING, as with replay; the slice then has MARKING's tokens. With -- each
slice has a line on standard output that starts with its name, whatever came of it; the status is 2
where one is refused or cannot be read, else 1 where one breaks a rule. Where standard error is a
terminal, a bar shows how far it is.

Examples:
    nesfoal check plans/small-kerb.plan safety.slice 2
    nesfoal check plans/small-kerb.plan 2 -- *.slice

Answers:
    accepted                   and where Q is empty: accepted, for no place
    rule N broken by ..        the first rule that is broken, and the lowest number that breaks it, the
                               plan's or the slice's (status 1)
    refused N: ..              a file (1 to 8, 16), the marking (22, 24) or the criterion (10) is refused
",
    },
    Verb {
        name: "check-each",
        forms: &[
            ("PLAN FOLDER", "checks what safety-each or branching-each wrote there"),
        ],
        takes: 2..=2,
        run: checking::each,
        text: "\
Each FOLDER/P.slice is checked for place P alone, with a line that starts with its name. A file that is
missing, or whose P is no place of the plan, is an error on its line. The status is that of check with
many slices.

Example:
    nesfoal check-each plans/small-kerb.plan cuts

Answers:
    FOLDER/P.slice: accepted
    FOLDER/P.slice: rule N broken by ..
    FOLDER/P.slice: refused N: ..
    FOLDER/P.slice: error: ..  as with check, a line for each place
    refused N: ..              the plan is refused (1 to 7, 16)
",
    },
    Verb {
        name: "shadow",
        forms: &[
            ("PLAN SLICE LIST", "fires the list in the plan, and tells its shadow in the slice"),
        ],
        takes: 2..=MANY,
        run: firing::shadow,
        text: "\
LIST is transitions of the plan. The first lines are those of replay. The last has the firings that
the slice has, by the slice's own numbers, the others struck out; where the list is stuck or full, of
those before that index. In a slice that is accepted the shadow always fires. The answer may be piped
into replay, whose LIST is then -.

Example:
    nesfoal shadow plans/small-kerb.plan safety.slice 3 0 1 2

Answers:
    fired N transitions, ending ..    all fired; the tokens on each place of the plan
    stuck at index I: transition T, place P is short of N
                               the transition at that index, from 0, lacks tokens (status 1)
    full at index I: transition T, place P is over by N
                               it has its inputs, but would leave that place above its cap (status 1)
    also short: .., marking there: .., can fire there: ..
                               below these, as with replay
    shadow ..                  last: the slice's numbers, in order
    refused N: ..              a file (1 to 8, 16) or the list (11, 12) is refused
",
    },
    Verb {
        name: "transfer",
        forms: &[
            ("OLD NEW TABLE.. with MARKING..", "carries the tokens that stand in an old plan to a new one"),
        ],
        takes: 3..=MANY,
        run: plans::transfer,
        text: "\
For a change of plan while buses are on the road. MARKING is the tokens of each place of the plan OLD as
they stand; TABLE has for each of these places its place in the plan NEW, or none (65535). Each new place
gets the sum of what is sent there. No token is lost: a place that has tokens must have a new place. The
answer may be piped into replay, safety, branching or check of the new plan, with from - at the end.

Examples:
    nesfoal transfer old.plan new.plan 0 0 1 2 none with 0 1 1 3 0
    nesfoal replay old.plan 0 1 | nesfoal transfer old.plan new.plan @table with - \\
        | nesfoal replay new.plan 0 1 from -

Answers:
    carried N tokens, ending ..    all of them; the tokens on each place of the new plan
    refused N: ..              a plan (1 to 8, 16), the table or the marking (22; 23 where a place with tokens
                               has no new one; 24 where a new place gets too many) is refused
",
    },
    Verb {
        name: "normal",
        forms: &[
            ("PLAN OUT", "writes the normal form: the same for two drawings of one plan"),
        ],
        takes: 2..=2,
        run: plans::normal,
        text: "\
The plan without note, in edition 2, parallel arcs joined into one. Two plans have the same normal form,
byte for byte, exactly where they have the same numbers of places and transitions, the same marking and
cap on each place, and each transition takes and adds the same. Places and transitions keep their
numbers: a net that is numbered anew is another plan. Every list fares alike in a plan and its normal
form. OUT as with safety: an older plan there is replaced with --force alone.

Examples:
    nesfoal normal plans/small-kerb.plan kerb.normal
    cmp <(nesfoal normal old.plan -) <(nesfoal normal new.plan -)

Answers:
    written OUT: N bytes, N places, N transitions, N arcs
    refused N: ..              the plan is refused (1 to 8, 16), or parallel arcs are together too heavy
                               for one (25); nothing is written
",
    },
    Verb {
        name: "pnml",
        forms: &[
            ("TEXT OUT", "writes the plan that a text in PNML draws"),
        ],
        takes: 2..=2,
        run: plans::pnml,
        text: "\
TEXT is a net in PNML (ISO/IEC 15909-2, the grammar of 2009) in this form, and in no other:

    <pnml xmlns=\"http://www.pnml.org/version-2009/grammar/pnml\">
      <net id=\"n\" type=\"http://www.pnml.org/version-2009/grammar/ptnet\">
        <page id=\"g\">
          <place id=\"waiting\"><initialMarking><text>2</text></initialMarking></place>
          <transition id=\"arrive\"/>
          <arc id=\"a\" source=\"waiting\" target=\"arrive\"><inscription><text>1</text></inscription></arc>
        </page>
      </net>
    </pnml>

It has one net with one page, and there places, transitions and arcs in any order. Without an
initialMarking a place has 0 tokens, without an inscription an arc has the weight 1. Attributes stand in
this order, with one space before each. White space may stand between two tags, but not beside a number.
Remove what else a tool has written: declarations, comments, entities, names, graphics, parts of its own.
An id has 1 to 32 characters, each a letter from A to Z or a to z, a digit, - _ or . and is used once. The
text has at most 65536 bytes.
Places and transitions are numbered in the order in which they appear; the answer has their ids in
that order. OUT as with safety: an older plan there is replaced with --force alone.

Example:
    nesfoal pnml plans/small-kerb.pnml kerb.plan

Answers:
    written OUT: N bytes, N places, N transitions, N arcs
    places ..                  below it: the ids of places 0, 1, ..
    transitions ..             and of transitions 0, 1, ..
    refused N: ..              the text is too long (1) or not in that form (18: line, column and what is
                               expected there), an id is wrong (19), or a number (20); nothing is written
",
    },
    Verb {
        name: "demo",
        forms: &[
            ("", "the verbs on a small kerb"),
        ],
        takes: 0..=0,
        run: demo::demo,
        text: "\
No file is read or written.

Example:
    nesfoal demo

Answers:
    each command, and its answer below it
",
    },
    Verb {
        name: "build",
        forms: &[
            ("", "builds the program where a source changed, and does no more"),
        ],
        takes: 0..=0,
        run: install::build,
        text: "\
The program is compiled and linked with the library: with dist/libnesfoal.a where that was proved from
the sources in the tree, else with what the toolchain (rt) proves and builds first. ./nesfoal build
--prove has it proved in any case. In the repository any other verb builds first where code is newer
than the program; build also looks at definitions and proofs, and at files that came with an older
time. A build needs cargo and cc. An installed nesfoal does not build.

Example:
    ./nesfoal build

Answers:
    built target/cli/release/nesfoal
    error: ..                  with the toolchain's own words above it
",
    },
    Verb {
        name: "install",
        forms: &[
            ("PREFIX", "puts program, library, header and manual below PREFIX"),
        ],
        takes: 1..=1,
        run: install::install,
        text: "\
Below PREFIX: bin/nesfoal, lib/libnesfoal.a, lib/pkgconfig/nesfoal.pc, include/nesfoal.h, share/man,
share/nesfoal and share/doc, with the page of the files (FORMAT.md) and the samples in C. What is
installed runs without the repository and without the toolchain, and may be moved. An older one there is
replaced.

Example:
    ./nesfoal install ~/.local

Answers:
    installed N files below PREFIX
",
    },
    Verb {
        name: "uninstall",
        forms: &[
            ("PREFIX", "takes away what install put there"),
        ],
        takes: 1..=1,
        run: install::uninstall,
        text: "\
The folders that install made go too, where nothing else is in them.

Example:
    ./nesfoal uninstall ~/.local

Answers:
    removed N files below PREFIX
",
    },
    Verb {
        name: "help",
        forms: &[
            ("[VERB]", "this page, or a verb's own"),
            ("questions|rules|refusals|format", "which question on which slice; the numbers; the files"),
        ],
        takes: 0..=1,
        run: help::help,
        text: "\
The same as --help and -h, which may stand after a verb.

Examples:
    nesfoal help check
    nesfoal help questions

Answers:
    how the verb is used, what it does, an example, what its answers mean; or the page of that name
",
    },
];

#[cfg(test)]
mod tests {
    use super::*;

    #[test]
    fn each_verb_has_its_words() {
        for verb in VERBS {
            assert!(!verb.forms.is_empty() && verb.text.contains("\nExample"), "{}", verb.name);
            assert!(verb.text.contains("\nAnswers:\n"), "{}", verb.name);
            assert!(verb.text.lines().all(|line| line.len() <= 110), "{}", verb.name);
            assert!(std::ptr::eq(find(OsStr::new(verb.name)).ok().unwrap(), verb));
        }
    }

    #[test]
    fn each_topic_is_no_verb() {
        let help = VERBS.iter().find(|verb| verb.name == "help").unwrap();
        let named: Vec<&str> = help.forms[1].0.split('|').collect();
        assert_eq!(named, TOPICS.iter().map(|topic| topic.name).collect::<Vec<_>>());
        for topic in TOPICS {
            assert!(find(OsStr::new(topic.name)).is_err(), "{}", topic.name);
            assert!(topic.text.lines().all(|line| line.len() <= 110), "{}", topic.name);
        }
        let page = |name: &str| TOPICS.iter().find(|topic| topic.name == name).unwrap().text;
        for (name, last) in [("rules", crate::answers::RULES.len()), ("refusals", crate::library::REFUSALS.len())] {
            for n in 1..=last {
                assert_eq!(page(name).matches(&format!("\n{n:>6}  ")).count(), 1, "{name} {n}");
            }
        }
    }
}
