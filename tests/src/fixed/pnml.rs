//! Fixed cases of texts in PNML (02, A10): a text for each way to be inside the profile, and for each way to be outside.

use super::*;

const HEAD: &str = "<pnml xmlns=\"http://www.pnml.org/version-2009/grammar/pnml\">\
    <net id=\"n\" type=\"http://www.pnml.org/version-2009/grammar/ptnet\"><page id=\"g\">";
const TAIL: &str = "</page></net></pnml>";

fn case(text: &[u8], len: usize) -> PnmlCase {
    PnmlCase { text: lent(text), plan: buffer(len) }
}

/// A text of these elements.
fn page(elements: &str) -> String {
    format!("{HEAD}{elements}{TAIL}")
}

fn place(id: &str, marking: &str) -> String {
    format!("<place id=\"{id}\"><initialMarking><text>{marking}</text></initialMarking></place>")
}

fn arc(id: &str, source: &str, target: &str) -> String {
    format!("<arc id=\"{id}\" source=\"{source}\" target=\"{target}\"/>")
}

fn heavy(id: &str, source: &str, target: &str, weight: &str) -> String {
    let inner = format!("<inscription><text>{weight}</text></inscription>");
    format!("<arc id=\"{id}\" source=\"{source}\" target=\"{target}\">{inner}</arc>")
}

/// The kerb in words.
fn kerb() -> String {
    let mut text = place("waiting", "2") + &place("bay-free", "1");
    ["in_bay", "left", "bell"].iter().for_each(|id| text += &format!("<place id=\"{id}\"/>"));
    ["arrive", "depart", "ring", "go.home"].iter().for_each(|id| text += &format!("<transition id=\"{id}\"/>"));
    let arcs = [
        ("waiting", "arrive"),
        ("bay-free", "arrive"),
        ("arrive", "in_bay"),
        ("in_bay", "depart"),
        ("depart", "bay-free"),
        ("depart", "left"),
        ("ring", "bell"),
        ("waiting", "go.home"),
    ];
    arcs.iter().enumerate().for_each(|(i, (from, to))| text += &arc(&format!("a{i}"), from, to));
    page(&(text + &heavy("a9", "left", "ring", "2")))
}

/// A text that has every form of the profile: elements that close in their own tags and by another, with a number and without.
pub fn every_form() -> Vec<u8> {
    let elements = place("p", "20")
        + "<place id=\"q\"/>\n<place id=\"r\"></place>"
        + "<transition id=\"t\"/><transition id=\"u\"> </transition>"
        + &arc("a", "p", "t")
        + &heavy("b", "u", "q", "3")
        + "<arc id=\"c\" source=\"t\" target=\"r\"></arc>";
    page(&elements).into_bytes()
}

/// 1,024 places, 1,024 transitions, in 36 KB.
fn many(places: usize, transitions: usize) -> String {
    let places: String = (0..places).map(|i| format!("<place id=\"p{i}\"/>")).collect();
    let transitions: String = (0..transitions).map(|i| format!("<transition id=\"t{i}\"/>")).collect();
    page(&(places + &transitions))
}

pub fn texts() -> Vec<Fixed<PnmlCase>> {
    let mut list = Vec::new();
    // Written into just as many bytes, and into more; into one less it is refused.
    let mut drawn = |name: &str, text: &str, plan: &Draft| {
        let plan = plan.bytes();
        let n = plan.len();
        for more in [0, 1, 50] {
            let mut one =
                fixed(format!("{name}, {more} bytes more lent"), case(text.as_bytes(), n + more), 0, [n as i64]);
            one.cells = Some(vec![Cells::Bytes(after(n + more, &plan))]);
            list.push(one);
        }
        let mut one = fixed(format!("{name}, a byte short"), case(text.as_bytes(), n - 1), 13, [0]);
        one.cells = Some(vec![Cells::Bytes(buffer(n - 1).cells)]);
        list.push(one);
    };
    let a = DraftArc::new;
    let one = |tokens| Draft::plan(vec![tokens], 0, vec![]);
    drawn("kerb", &kerb(), &small_plan());
    let spread = kerb().replace("><", ">\t\r\n <").replace("<text>\t", "<text>");
    drawn("kerb, spread", &format!(" \n{spread}\r\n\t "), &small_plan());
    drawn("a place", &page("<place id=\"p\"/>"), &one(0));
    drawn("a place, closed by a tag", &page("<place id=\"p\"></place>"), &one(0));
    drawn("a place, white within", &page("<place id=\"p\"> \n</place>"), &one(0));
    drawn("a place of 3", &page(&place("p", "3")), &one(3));
    drawn("a place of 0", &page(&place("p", "0")), &one(0));
    drawn("a place of 007", &page(&place("p", "007")), &one(7));
    drawn("the largest marking", &page(&place("p", "4294967295")), &one(u32::MAX));
    drawn("200 zeros and a 5", &page(&place("p", &("0".repeat(200) + "5"))), &one(5));
    drawn("a transition", &page("<transition id=\"t\"/>"), &Draft::plan(vec![], 1, vec![]));
    drawn(
        "a transition, closed by a tag",
        &page("<transition id=\"t\">\n</transition>"),
        &Draft::plan(vec![], 1, vec![]),
    );
    let longest = "abcdefghijklmnopqrstuvwxyz-_.012";
    drawn("an id of 32", &page(&place(longest, "1")), &one(1));
    drawn("an id of one point", &page(&place(".", "1")), &one(1));
    drawn("ids that differ in case", &page(&(place("p", "1") + &place("P", "2"))), &Draft::plan(vec![1, 2], 0, vec![]));
    drawn("an id like a tag", &page(&place("pnml", "1")), &one(1));
    // Numbers by order of appearance, arcs before what they join, sorted, parallels in order.
    let mixed = heavy("a", "p", "t", "007") + "<transition id=\"t\"/>" + &arc("b", "p", "t") + "<place id=\"q\"/>";
    let mixed =
        mixed + &place("p", "4") + &heavy("c", "t", "q", "65535") + &arc("d", "t", "p") + &heavy("e", "p", "t", "1");
    let arcs = vec![a(0, 0, 1, 7), a(0, 0, 1, 1), a(0, 0, 1, 1), a(0, 1, 0, 65_535), a(0, 1, 1, 1)];
    drawn("mixed", &page(&mixed), &Draft::plan(vec![0, 4], 1, arcs));
    let falling = "<place id=\"p\"/><transition id=\"s\"/><transition id=\"t\"/>".to_string()
        + &heavy("a", "t", "p", "9")
        + &heavy("b", "p", "t", "8")
        + &heavy("c", "s", "p", "3")
        + &heavy("d", "s", "p", "2")
        + &heavy("e", "p", "s", "1");
    let arcs = vec![a(0, 0, 0, 1), a(0, 1, 0, 3), a(0, 1, 0, 2), a(1, 0, 0, 8), a(1, 1, 0, 9)];
    drawn("falling", &page(&falling), &Draft::plan(vec![0], 2, arcs));
    drawn("1,024 of both", &many(1_024, 1_024), &Draft::plan(vec![0; 1_024], 1_024, vec![]));
    let full = kerb() + &" ".repeat(65_536 - kerb().len());
    drawn("65,536 bytes", &full, &small_plan());

    let mut refused = |name: String, text: &[u8], number: u32| {
        let mut one = fixed(name, case(text, 9), number, [0]);
        one.cells = Some(vec![Cells::Bytes(buffer(9).cells)]);
        list.push(one);
    };
    refused("65,537 bytes".into(), (full.clone() + " ").as_bytes(), 1);
    refused("65,537 bytes of nothing".into(), &[0; 65_537], 1);
    refused("65,536 bytes of nothing".into(), &[0; 65_536], 18);
    refused("no bytes".into(), b"", 18);
    refused("white space".into(), b" \n", 18);
    refused("a plan".into(), &small_plan().bytes(), 18);
    // Elements outside the profile.
    let p = "<place id=\"p\"/>";
    let with = |inner: &str| format!("<place id=\"p\">{inner}</place>");
    let marking = |inner: &str| with(&format!("<initialMarking>{inner}</initialMarking>"));
    let arc_with =
        |inner: &str| format!("{p}<transition id=\"t\"/><arc id=\"a\" source=\"p\" target=\"t\">{inner}</arc>");
    let outside: Vec<String> = [
        "<place/>",
        "<place></place>",
        "<place id=\"\"/>",
        "<place id=\"p q\"/>",
        "<place id=\"p:q\"/>",
        "<place id=\"p\u{e9}\"/>",
        "<place id='p'/>",
        "<place id=p/>",
        "<place id=\"p/>",
        "<place id=\"p\" />",
        "<place id=\"p\" ></place>",
        "<place id=\"p\"></place >",
        "<place  id=\"p\"/>",
        "<place\tid=\"p\"/>",
        "<place\nid=\"p\"/>",
        "<place id =\"p\"/>",
        "<place id= \"p\"/>",
        "< place id=\"p\"/>",
        "<place id=\"p\"/ >",
        "<place id=\"p\"//>",
        "<Place id=\"p\"/>",
        "<place Id=\"p\"/>",
        "<place id=\"p\" id=\"q\"/>",
        "<place id=\"p\" name=\"q\"/>",
        "<place name=\"p\"/>",
        "<places id=\"p\"/>",
        "<plac id=\"p\"/>",
        "<placeid=\"p\"/>",
        "<place id=\"p\">",
        "</place>",
        "<place id=\"p\"></transition>",
        "<place id=\"p\"/></place>",
        "<place id=\"p\"><place id=\"q\"/></place>",
        "<place id=\"abcdefghijklmnopqrstuvwxyz-_.0123\"/>",
        "<transition id=\"t\"><text>1</text></transition>",
        "<transition id=\"t\"><inscription><text>1</text></inscription></transition>",
        "<initialMarking><text>1</text></initialMarking>",
        "<text>1</text>",
        "<page id=\"h\"></page>",
        "<page id=\"h\"/>",
        "<name><text>p</text></name>",
        "<!-- p -->",
        "<?p?>",
        "&#32;",
        "x",
        "1",
        "\u{b}",
        "\u{c}",
        "\u{a0}",
        "\0",
        "<",
        ">",
        "<>",
        "</>",
        "</page><page id=\"h\">",
    ]
    .iter()
    .map(|one| one.to_string())
    .chain([with("1"), with("<text>1</text>"), with("<inscription><text>1</text></inscription>"), with("<name/>")])
    .chain(["", " ", "1", "<text/>", "<text></text>", "<text> </text>", "<text>1</text><text>1</text>"].map(marking))
    .chain(
        ["1 ", " 1", "\n1", "+1", "-1", "1.0", "1e3", "0x1", "1,000", "\u{661}", "1</text><text>2", "&#49;"]
            .map(|n| marking(&format!("<text>{n}</text>"))),
    )
    .chain([
        marking("<text >1</text>"),
        marking("<text>1</text >"),
        marking("<text>1</Text>"),
        marking("<value>1</value>"),
    ])
    .chain([with("<initialMarking><text>1</text></initialMarking><initialMarking><text>1</text></initialMarking>")])
    .chain([with("<initialMarking/>"), with("<initialMarking id=\"m\"><text>1</text></initialMarking>")])
    .chain(
        ["<initialMarking><text>1</text></initialMarking>", "1", "<inscription/>", "<inscription></inscription>"]
            .map(arc_with),
    )
    .chain([arc_with("<inscription><text>1</text></inscription><inscription><text>1</text></inscription>")])
    .chain(
        [
            "id=\"a\"",
            "id=\"a\" source=\"p\"",
            "id=\"a\" target=\"t\" source=\"p\"",
            "source=\"p\" target=\"t\" id=\"a\"",
            "id=\"a\" source=\"p\" target=\"\"",
        ]
        .map(|keys| format!("{p}<transition id=\"t\"/><arc {keys}/>")),
    )
    .collect();
    for one in &outside {
        refused(format!("outside: {one:?}"), page(one).as_bytes(), 18);
        // Found after an id that is used twice, and before what is past a limit: the whole text is tested first.
        refused(
            format!("outside, behind others: {one:?}"),
            page(&format!("{p}{p}{}{one}", place("m", "9999999999"))).as_bytes(),
            18,
        );
    }
    // The three tags around.
    let good = page(p);
    let changes = [
        ("2009", "2013"),
        ("grammar/pnml\"", "grammar/pnml/\""),
        ("grammar/pnml\"", "grammar/ptnet\""),
        ("grammar/ptnet\"", "grammar/pnml\""),
        ("grammar/ptnet", "grammar/symmetricnet"),
        ("http:", "https:"),
        (" xmlns", ""),
        ("<pnml xmlns", "<pnml  xmlns"),
        ("pnml\">", "pnml\" >"),
        ("pnml\">", "pnml\"/>"),
        ("<pnml ", "<PNML "),
        ("<net id=\"n\" type", "<net type"),
        ("<net id=\"n\"", "<net"),
        ("ptnet\">", "ptnet\" id=\"m\">"),
        ("<page id=\"g\">", "<page>"),
        ("<page id=\"g\">", "<page id=\"g\"/>"),
        ("<page id=\"g\">", ""),
        ("</page>", ""),
        ("</net>", ""),
        ("</pnml>", ""),
        ("</pnml>", "</pnml"),
        ("</pnml>", "</pnml></pnml>"),
        ("</pnml>", "</pnml>x"),
        ("</pnml>", "</pnml>\0"),
        ("</page></net>", "</net></page>"),
        ("</net>", "</net><net id=\"m\" type=\"http://www.pnml.org/version-2009/grammar/ptnet\"></net>"),
        ("<pnml", "x<pnml"),
        ("<pnml", "\u{feff}<pnml"),
        ("<pnml", "<?xml version=\"1.0\"?><pnml"),
        ("<pnml", "<!DOCTYPE pnml><pnml"),
        ("<net", "1<net"),
        ("<page", "1<page"),
    ];
    for (from, to) in changes {
        let text = good.replacen(from, to, 1);
        assert_ne!(text, good);
        refused(format!("{from:?} as {to:?}"), text.as_bytes(), 18);
    }
    for end in 0..good.len() {
        refused(format!("the first {end} bytes"), &good.as_bytes()[..end], 18);
    }
    // Ids and ends; what is past a limit comes after.
    let t = "<transition id=\"t\"/>";
    let limit = place("m", "4294967296");
    let wrong: Vec<String> = vec![
        format!("{p}{p}"),
        format!("{p}<transition id=\"p\"/>"),
        "<place id=\"n\"/>".into(),
        "<transition id=\"g\"/>".into(),
        format!("{p}{t}{}", arc("p", "p", "t")),
        format!("{p}{t}{}{}", arc("a", "p", "t"), arc("a", "t", "p")),
        format!("{p}{t}{}", arc("n", "p", "t")),
        format!("{p}{t}{}", arc("a", "p", "q")),
        format!("{p}{t}{}", arc("a", "q", "t")),
        format!("{p}{t}{}", arc("a", "P", "t")),
        format!("{p}{t}{}", arc("a", "p", "tt")),
        format!("{p}{t}{}", arc("a", "n", "t")),
        format!("{p}{t}{}", arc("a", "p", "g")),
        format!("{p}{t}{}", arc("a", "p", "a")),
        format!("{p}{t}{}{}", arc("a", "p", "t"), arc("b", "p", "a")),
        format!("{p}<place id=\"q\"/>{}", arc("a", "p", "q")),
        format!("{p}{}", arc("a", "p", "p")),
        format!("{t}<transition id=\"s\"/>{}", arc("a", "s", "t")),
        arc("a", "p", "t"),
    ];
    for one in &wrong {
        refused(format!("ids: {one}"), page(one).as_bytes(), 19);
        refused(format!("ids, before a number: {one}"), page(&format!("{limit}{one}")).as_bytes(), 19);
    }
    refused("net and page of one id".into(), good.replace("\"g\"", "\"n\"").as_bytes(), 19);
    // Numbers and counts.
    refused("neither place nor transition".into(), page("").as_bytes(), 20);
    for marking in [
        "4294967296",
        "04294967296",
        "10000000000",
        "18446744073709551616",
        "18446744073709551617",
        "340282366920938463463374607431768211456",
    ] {
        refused(format!("marking {marking}"), page(&place("p", marking)).as_bytes(), 20);
    }
    for weight in ["0", "000", "65536", "0065536", "131073", "4294967297", "18446744073709551617"] {
        refused(format!("weight {weight}"), page(&format!("{p}{t}{}", heavy("a", "p", "t", weight))).as_bytes(), 20);
        refused(
            format!("weight {weight} out"),
            page(&format!("{p}{t}{}", heavy("a", "t", "p", weight))).as_bytes(),
            20,
        );
    }
    refused("1,025 places".into(), many(1_025, 0).as_bytes(), 20);
    refused("1,025 transitions".into(), many(1, 1_025).as_bytes(), 20);
    refused("2,900 places".into(), many(2_900, 0).as_bytes(), 20);
    refused("a long number".into(), page(&place("p", &"9".repeat(60_000))).as_bytes(), 20);
    refused("20 before the buffer".into(), page(&limit).as_bytes(), 20);
    let mut null = case(b"", 0);
    (null.text.null, null.plan.null) = (true, true);
    list.push(fixed("null text", null, 18, [0]));
    let mut none = case(good.as_bytes(), 0);
    none.plan.null = true;
    list.push(fixed("null buffer", none, 13, [0]));
    list
}
