//! DTD texts: what they are turned into, where they are refused, and each limit. By this program alone; a § in a text marks the spot.

use second::make::{bad_texts, schemas, texts};
use second::paper::dtd::{grammar, import, names, spot, Spot};
use second::paper::expression::Expression::{self, Choice, Name, Optional, Plus, Sequence, Star};
use second::paper::grammar::{Content, Declaration, Grammar, Model};
use second::paper::{numbers, occurrences, schema_file};
use second::random::Random;

fn taken(text: &str, file: &[u32]) {
    assert_eq!(spot(text.as_bytes()), Spot { number: 0, offset: 0 }, "{text}");
    assert_eq!(import(text.as_bytes(), 10_000), Ok(numbers::file_of(file)), "{text}");
    assert_eq!(import(text.as_bytes(), file.len() - 1), Err(5), "{text}");
}

/// A text that is refused at its mark.
fn refused(number: u32, marked: &str) {
    let offset = marked.find('§').expect("a mark") as u64;
    let text = marked.replacen('§', "", 1);
    assert_eq!(spot(text.as_bytes()), Spot { number, offset }, "{marked}");
    assert_eq!(import(text.as_bytes(), 0), Err(number));
    assert_eq!(names(text.as_bytes(), 0), Err(number));
}

#[test]
fn what_texts_are_turned_into() {
    let shade = "<!ELEMENT shade (panel+, use*)><!ATTLIST shade title CDATA #REQUIRED>\n<!ELEMENT panel (row*)> <!-- - -->
        <!ELEMENT row ( #PCDATA )><!ELEMENT use EMPTY ><!ATTLIST panel id ID #REQUIRED ><!ATTLIST use of\tIDREF\r\n#REQUIRED>";
    taken(shade, &[4, 0, 2, 5, 0, 4, 6, 3, 8, 1, 0, 0, 0, 2, 2, 3, 7, 1, 1, 1, 0, 1, 0, 0, 1, 2, 2, 0]);
    assert_eq!(names(shade.as_bytes(), 35), Ok(b"shade\npanel\nrow\nuse\ntitle\nid\nof\n".to_vec()));
    assert_eq!(names(shade.as_bytes(), 31), Err(5));
    let models: [(&str, &[u32]); 7] = [
        ("(a,a,a)", &[0, 5, 0, 5, 5]),
        ("(a|a|a|a)", &[1, 5, 1, 5, 1, 5, 5]),
        ("((a?)?)", &[2, 2, 5]),
        ("((((a))))", &[5]),
        ("((a,a),a)", &[0, 0, 5, 5, 5]),
        ("( (a, a)*|\na+ )?", &[2, 1, 3, 0, 5, 5, 4, 5]),
        ("(a)", &[5]),
    ];
    for (model, symbols) in models {
        taken(&format!("<!ELEMENT a {model}>"), &[&[1, 0, 2, symbols.len() as u32], symbols, &[0]].concat());
    }
    // Numbers of attributes are those of the whole text, an element's lists go together.
    let lists = "<!ATTLIST b y ID #IMPLIED x CDATA #REQUIRED><!ELEMENT a (b|a)><!ATTLIST a z IDREFS #IMPLIED x ID #REQUIRED>\
        <!ELEMENT b EMPTY><!ATTLIST b><!ATTLIST b z IDREF #IMPLIED>";
    taken(lists, &[2, 0, 2, 3, 1, 6, 5, 2, 1, 1, 0, 2, 3, 1, 0, 3, 0, 1, 1, 1, 0, 0, 2, 2, 1]);
    taken("<!ELEMENT EMPTY (EMPTY?)><!ATTLIST EMPTY ID ID #REQUIRED>", &[1, 0, 2, 2, 2, 5, 1, 0, 1, 0]);
}

#[test]
fn where_texts_are_refused() {
    for content in
        ["(a) §*>", "(a §*)>", "(a , a §| a)>", "(a §a)>", "(a,§)>", "(§)>", "((a)§", "§ANY>", "EMPTY§X>", "EMP§>", "(#PCDATA)§*>"]
    {
        refused(14, &format!("<!ELEMENT a {content}"));
    }
    for content in ["(#PCDATA§|a)*>", "((§#PCDATA))>", "(a)?§?>", "(a)§<!-- -->>", "(a§é)>", "EMPTY §", "§empty>", "(a*§*)>", "(§%a;)>"]
    {
        refused(14, &format!("<!ELEMENT a {content}"));
    }
    for list in
        ["x §NMTOKEN #IMPLIED", "x §(a|b) #IMPLIED", "x CDATA §'y'", "x CDATA #§FIXED 'y'", "x ID§X #IMPLIED", "x IDREFS§S", "x CDATA§>"]
    {
        refused(14, &format!("<!ATTLIST a {list}"));
    }
    for inside in ["--§x-->", "--§->", "-§", "§", "§\0-->", "a§\u{b}-->", "->§", "-->§"] {
        refused(14, &format!("<!--{inside}"));
    }
    for text in ["§", "<!E§NTITY a 'b'>", "<§?xml?>", "<!§[INCLUDE[", "<!ELEMENT a§(b)>", "<!ELEMENT a§", "§%a;", "§\u{feff}", "<!-§x"]
    {
        refused(14, text);
    }
    for text in ["<!ELEMENT a EMPTY><!ELEMENT §a", "<!ATTLIST a x ID #IMPLIED><!ATTLIST a §x", "<!ELEMENT a (a,§b)><!ATTLIST c>"] {
        refused(14, text);
    }
    refused(14, "<!ATTLIST a x CDATA #IMPLIED>§");
    refused(14, "<!ATTLIST a x ID #IMPLIED y ID§X #IMPLIED>");
    refused(2, "<!ATTLIST a x ID #IMPLIED><!ATTLIST a y §ID #IMPLIED>");
    refused(2, "<!ATTLIST a x ID #IMPLIED y §ID>");
}

/// In a comment, the byte with which no Char goes on.
#[test]
fn bytes_of_comments() {
    let at = |inside: &[u8]| spot(&[b"<!--", inside, b"--><!ELEMENT a EMPTY>"].concat());
    for good in ["\u{80}", "\u{7ff}", "\u{800}", "\u{d7ff}", "\u{e000}", "\u{fffd}", "\u{10000}", "\u{1ffff}", "\u{10ffff}"] {
        assert_eq!(at(good.as_bytes()), Spot { number: 0, offset: 0 });
        for cut in 1..good.len() {
            assert_eq!(at(&good.as_bytes()[..cut]), Spot { number: 14, offset: 4 + cut as u64 });
        }
    }
    let bad: [(&[u8], u64); 10] = [
        (b"\x80", 0),
        (b"\xc0\x80", 0),
        (b"\xc1", 0),
        (b"\xe0\x9f\x80", 1),
        (b"\xed\xa0\x80", 1),
        (b"\xef\xbf\xbe", 2),
        (b"\xf0\x8f\x80\x80", 1),
        (b"\xf4\x90\x80\x80", 1),
        (b"\xf5", 0),
        (b"\xc3\xc3", 1),
    ];
    for (bytes, offset) in bad {
        assert_eq!(at(bytes), Spot { number: 14, offset: 4 + offset }, "{bytes:?}");
    }
}

#[test]
fn limits() {
    let elements = |count: usize| (0..count).map(|k| format!("<!ELEMENT e{k} EMPTY>")).collect::<String>();
    assert_eq!(spot(elements(48).as_bytes()).number, 0);
    refused(2, &(elements(48) + "<!ELEMENT §e48"));
    refused(14, &(elements(48) + "<!ELEMENT §e7 EMPTY>"));
    let lists = |count: usize| elements(2) + &(0..count).map(|k| format!("<!ATTLIST e{} a{k} CDATA #IMPLIED>", k % 2)).collect::<String>();
    assert_eq!(spot(lists(64).as_bytes()).number, 0);
    refused(2, &(lists(64) + "<!ATTLIST never §new"));
    refused(14, &(lists(64) + "<!ATTLIST §never a63 ID #IMPLIED>"));
    let nested = |count: usize| format!("{}a{})", "(".repeat(count + 1), "?)".repeat(count));
    assert_eq!(spot(format!("<!ELEMENT a {}>", nested(254)).as_bytes()).number, 0);
    refused(2, &format!("<!ELEMENT a §{}", nested(255)));
    refused(14, &format!("<!ELEMENT a {}§$)>", nested(255).strip_suffix(')').expect("a bracket")));
    let row = |count: usize| vec!["a"; count].join(" | ");
    assert_eq!(spot(format!("<!ELEMENT a ({})>", row(64)).as_bytes()).number, 0);
    refused(2, &format!("<!ELEMENT a §({})>", row(65)));
    let deep = |count: usize, end: &str| format!("<!ELEMENT a {}a{}", "(".repeat(count), end.repeat(count));
    assert_eq!(spot((deep(10_000, ")") + ">").as_bytes()).number, 0);
    refused(14, &(deep(10_000, ")") + "§)"));
    refused(2, &deep(10_000, ")*").replacen('(', "§(", 1));
}

/// A text says the schema that it was spelled from, with the numbers of its order; and every limit's maker meets 0 and a refusal.
#[test]
fn texts_of_schemas() {
    let mut ambiguous = 0;
    for number in 0..1_500 {
        let mut random = Random::new(21, number);
        let mut schema = schemas::schema(&mut random);
        if random.chance(50) {
            schema = schemas::drawn_models(&mut random, &schema);
        }
        let spelled = texts::spelled(&mut random, &schema);
        let renumbered = renumbered(&schema, &spelled);
        let file = numbers::file_of(&schema_file::numbers_of(&renumbered));
        assert_eq!(import(&spelled.text(), usize::MAX), Ok(file.clone()), "{}", String::from_utf8_lossy(&spelled.text()));
        let is_ambiguous = renumbered.elements.iter().any(|element| match &element.content {
            Content::Model(model) => occurrences::of(&model.expression).ambiguous,
            _ => false,
        });
        ambiguous += usize::from(is_ambiguous);
        assert_eq!(grammar(&spelled.text()).err(), is_ambiguous.then_some(3));
        assert_eq!(schema_file::read(&file).err(), is_ambiguous.then_some(3));
    }
    assert!(ambiguous > 100);
    for which in 0..bad_texts::LIMITS {
        let numbers: Vec<u32> = (0..60).map(|k| spot(&bad_texts::at_limit(&mut Random::new(22, k), which)).number).collect();
        let expected: &[u32] = if [1, 3].contains(&which) { &[14] } else { &[0, 2] };
        assert!(expected.iter().all(|number| numbers.contains(number)), "{which}");
    }
}

/// The schema with the numbers that its text gives.
fn renumbered(schema: &Grammar, spelled: &texts::Spelled) -> Grammar {
    let at = |list: &[u16], number: u16| list.iter().position(|known| *known == number).expect("a number of the text") as u16;
    let elements = spelled.elements.iter().map(|e| {
        let element = &schema.elements[usize::from(*e)];
        let content = match &element.content {
            Content::Model(model) => Content::Model(Model::new(renamed(&model.expression, &|name| at(&spelled.elements, name)))),
            Content::Text => Content::Text,
            _ => Content::Empty,
        };
        let mut attributes = element.attributes.clone();
        for attribute in &mut attributes {
            // A text has no value numbers: what is fixed is spelled as implied.
            (attribute.number, attribute.fixed) = (at(&spelled.attributes, attribute.number), None);
        }
        attributes.sort_by_key(|attribute| attribute.number);
        Declaration { content, attributes }
    });
    Grammar { root: 0, elements: elements.collect() }
}

fn renamed(expression: &Expression, name: &dyn Fn(u16) -> u16) -> Expression {
    let part = |one: &Expression| Box::new(renamed(one, name));
    match expression {
        Sequence(one, two) => Sequence(part(one), part(two)),
        Choice(one, two) => Choice(part(one), part(two)),
        Optional(one) => Optional(part(one)),
        Star(one) => Star(part(one)),
        Plus(one) => Plus(part(one)),
        Name(old) => Name(name(*old)),
    }
}
