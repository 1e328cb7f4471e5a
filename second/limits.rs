// Rules and queries as text that are about as large as they may be (document 02, C-13).
use crate::dice::Dice;
use crate::item::Item;
use crate::prints::name;
use crate::stream;
use crate::text::{self, Texts};
use crate::texts::{SIGNS, asked_item, rules_item};

/// Of a part, so many with commas between.
fn listed(part: &str, how_many: usize) -> String {
    vec![part; how_many].join(",")
}

/// f(f(..a)), so many of f.
fn tower(levels: usize) -> String {
    format!("{}a{}", "f(".repeat(levels), ")".repeat(levels))
}

/// Arguments, formulas of a body, nodes of a clause, variables and clauses.
fn counted(n: i32) -> Vec<String> {
    let about = |most: i32| (most + n) as usize;
    let variables: Vec<String> = (0..about(64)).map(|v| format!("f(V{v},V{v})")).collect();
    let (head, body) = variables.split_at(56);
    let eights: Vec<String> = head.chunks(8).map(|eight| format!("g({})", eight.join(","))).collect();
    vec![
        format!("p({}).", listed("a", about(8))),
        format!("p(q,f({},X)).", listed("a", about(7))),
        format!("p :- {}.", listed("q", about(16))),
        format!("p({}).", tower(about(254))),
        format!("p({}) :- q({}).", tower(100), tower(about(152))),
        format!("p({}) :- q({}), r({}).", eights.join(","), body[..4].join(","), body[4..].join(",")),
        format!("p({}) :- q({}), r({}).", listed("_", 8), listed("f(_,_,_,_,_,_,_)", 7), listed("_", about(7))),
        "p. ".repeat(about(512)),
        format!("{}q :- p, p. q :- q.", "p.% \n".repeat(about(510))),
    ]
}

/// A book of so many bytes.
fn book_of(bytes: usize) -> String {
    let mut left = bytes - 1;
    let mut text = String::new();
    while left > 1500 {
        text += &format!("p({}).\n", tower(250));
        left -= 9 + 1000;
    }
    let few = if left % 4 == 0 { 4 } else { left % 4 };
    let levels = (left - 9 * few) / 4;
    (0..few).for_each(|n| text += &format!("p({}).\n", tower(levels / few + (n < levels % few) as usize)));
    text
}

/// So many names of one sort, in clauses with about as many as there is room for.
fn many_names(sort: u32, how_many: u32) -> String {
    let names: Vec<String> = (0..how_many).map(|n| String::from_utf8_lossy(&name(n, 1)).into_owned()).collect();
    let clause = |part: &[String]| match sort {
        0 => format!("p({}).\n", part.chunks(8).map(|eight| format!("f({})", eight.join(","))).collect::<Vec<_>>().join(",")),
        1 => format!("p({}(a{}.\n", part.join("("), ")".repeat(part.len() + 1)),
        _ => format!("{}{}.\n", part[0], if part.len() > 1 { format!(":-{}", part[1..].join(",")) } else { String::new() }),
    };
    names.chunks([64, 250, 17][sort as usize]).map(clause).collect()
}

/// A text of 65,536 bytes has fewer than 512 of these.
const LINE: &str = "r. % .................................................................................................................................\n";

/// A text of so many bytes, the rest of it blanks, a comment or clauses.
fn text_of(rules: &str, bytes: usize, with: &str) -> String {
    let rest = with.repeat((bytes - rules.len()) / with.len());
    format!("{rules}{rest}{}", " ".repeat(bytes - rules.len() - rest.len()))
}

fn large() -> Vec<String> {
    let mut all: Vec<String> = (-2..=2).flat_map(counted).collect();
    all.extend((32764..32774).map(book_of));
    all.extend([0, 1, 2].iter().flat_map(|sort| [7000, 8000, 9000, 12000].map(|n| many_names(*sort, n))));
    for bytes in 65534..=65538 {
        all.extend(["%", " ", "%\n", LINE].map(|with| text_of("p(X) :- q(X), r.\n", bytes, with)));
    }
    all
}

/// Cut at every byte, and with each byte changed to one that means something, or to one that does not, and with one more.
fn at_every_byte(text: &[u8]) -> Vec<Vec<u8>> {
    let mut all: Vec<Vec<u8>> = (0..text.len()).map(|n| text[..n].to_vec()).collect();
    for place in 0..=text.len() {
        for sign in SIGNS {
            let (before, behind) = text.split_at(place);
            all.push([before, &[*sign], behind].concat());
            if place < text.len() {
                all.push([before, &[*sign], &behind[1..]].concat());
            }
        }
    }
    all
}

/// Arguments, formulas and nodes of a query, and new names of each sort.
fn asked_counted(n: i32) -> Vec<String> {
    let about = |most: i32| (most + n) as usize;
    vec![
        format!("p({})", listed("a", about(8))),
        format!("p(f({},X),q)", listed("a", about(8))),
        listed("q", about(512)),
        format!("p({})", tower(about(4094))),
        format!("p({}),q({})", tower(2000), tower(about(2092))),
        format!("{},q({})", listed("p(a,X,a,Y,a,b,a)", 511), listed("_", about(7))),
    ]
}

/// So many words as names, by sevens, one in the other, or as formulas.
fn asked_names(sort: usize, how_many: u32) -> String {
    let names: Vec<String> = (0..how_many).map(|n| String::from_utf8_lossy(&name(n, 1)).into_owned()).collect();
    let variables: Vec<String> = (0..how_many).map(|n| format!("V{n}")).collect();
    let sevens = |words: &[String]| words.chunks(7).map(|seven| format!("p({})", seven.join(","))).collect::<Vec<_>>().join(", ");
    match sort {
        0 => sevens(&names),
        1 => format!("p({}(a{}", names.join("("), ")".repeat(names.len() + 1)),
        2 => names.join(",\n"),
        _ => sevens(&variables),
    }
}

fn asked() -> Vec<String> {
    let mut all: Vec<String> = (-2..=2).flat_map(asked_counted).collect();
    all.extend([(0, 3584), (1, 4094), (2, 512), (3, 3584)].map(|(sort, many)| asked_names(sort, many)));
    for bytes in 65534..=65538 {
        all.extend(["%", " ", "%\n"].map(|with| text_of("p(X,f(X)), q(X)", bytes, with)));
    }
    all
}

const QUERY: &str = "p(X,f(a)),% c\n r,q(_) .";
const RULES: &str = "p(X,f(a)):-q(_),% c\n r. q(b) .";

pub fn items(dice: &mut Dice) -> Vec<Item> {
    let mut items: Vec<Item> = large().iter().map(|text| rules_item(text.as_bytes(), dice)).collect();
    items.extend(at_every_byte(RULES.as_bytes()).iter().map(|text| rules_item(text, dice)));
    let Texts { image, names } = text::rules(RULES.as_bytes()).expect("good rules");
    let queries = asked().into_iter().map(String::into_bytes).chain(at_every_byte(QUERY.as_bytes()));
    items.extend(queries.map(|text| asked_item(&text, &image, &names, dice)));
    items.extend(stream::at_every_byte(&names).iter().map(|list| asked_item(QUERY.as_bytes(), &image, list, dice)));
    items.extend(stream::at_every_byte(&image).iter().map(|book| asked_item(QUERY.as_bytes(), book, &names, dice)));
    items
}
