//! The edges of reading, of the stores and of the log format.

use super::damage::Item;
use super::libraries::{constants, WORKED};
use super::random::Chance;
use super::Writer;
use crate::log::Reply;

const ODD: [u8; 16] =
    [0, 9, 11, 13, 31, 127, 128, 255, b'-', b'>', b'0', b'9', b'\'', b'/', b'.', b'%'];

/// Lines that hold over the worked library, the last one if `type'` is declared.
const SOUND: &str = "\
    claim pf (all [x] eq x x) -> pf (eq z z)=[h] inst ([x] eq x x) z h|\
    claim nat -> nat=[x] s (s x)|\
    claim {x:nat} {x:nat} pf (eq x x) -> nat=[x] [y] [x] s y|\
    claim (nat -> nat) -> o=[f] all [x] eq (f x) x|\
    declare NEW : {p:nat -> o} ({x:nat} pf (p x)) -> pf (all [x] p x)|\
    declare NEW : {x:nat} ({y:nat} pf (eq x y)) -> type|\
    declare NEW : nat|\
    declare NEW:(nat->nat->o)->(o->type')->o";

const SMALL: &str = "declare |declare  |declare % only \u{80}\0\u{ff}|declare NEW|declare NEW :|\
    declare type : type|declare type' : type|declare types : type|declare typex : type|\
    declare NEW : type type|declare NEW : type -> type|declare NEW : [x] nat|declare NEW : NEW|\
    declare NEW : nat -> [x] nat|declare NEW : {x:nat} x|declare NEW : {x:type} nat|\
    declare NEW : {x:x} nat|declare NEW : (nat)(nat)|declare NEW : pf nat|declare NEW : pf type|\
    declare NEW : pf ({x:nat} nat)|declare NEW : {all:nat} pf (eq all all)|declare 0x : nat|\
    declare NEW : {x:nat} {x:pf (eq x x)} {y:nat} pf (eq y x)|declare NEW : nat - > nat|\
    declare NEW : pf (all [x] all [x] eq x x) % x|declare 'x : nat|declare NEW : nat -|claim =|\
    claim =z|claim nat=|claim nat % = z|claim nat % a\u{2}b=s z % c=d|claim % nat=z|\
    claim nat=s [x] x|claim o=all [x] eq x [x] x|claim o=all ([x] eq x x)|claim type=nat|\
    claim [x] nat=[x] z|claim type -> type=[x] x|claim nat=type|claim nat=nat|\
    claim nat=nat -> nat|claim nat -> nat=s|claim nat -> nat=[x] [y] x|claim nat=(s) z|\
    declare NEW % a\r: nat|declare %\rNEW : nat%|claim nat=s % %\r%\rz";

const TOKENS: &str = "{|}|[|]|(|)|:|->|type|nat|z|s|x|y|none|pf|{x:|[x]|{x:nat}|-|% z";

const STORES: &str = "store flat|store module|store|store Flat|store  flat|store tree";

const DECIMALS: &str = "65535|65536|65537|000065536|999999999|1000000000||-1|+1|1 | 1|0x10|1_000|\
    32769|4294967296|1\r|1\t";

/// Lines that are, or nearly are, requests.
const NEARLY: &str =
    "count|count |count x|count  |seal x|look-up|look-up |look-up nat |look-up nat|\
    look-up inst|look-up in|look-up type|look-up \u{ff}\0|claim|claim |claim =|claim nat z|\
    claim nat==z|claim nat=z=z|claim nat=z % =|claim = nat=z|declare|declare |Declare q : type|\
    DECLARE q : type|declare\tq : type| declare q : type|declare  q : type|declare q : type\r|%|\
    % declare q : type| % not passed over|| \t\r |\r|lookup nat|rests-on|carries |rests-on nat|\
    rests_on 0|table|numbers |claim nat=z\r|count\r|seal\r|seal |\0count|count\0|storeflat|\
    claim\tnat=z|=|claim=";

fn worked(w: &mut Writer) {
    for (name, e) in constants(&[WORKED]) {
        let line = Item::Declare(name.clone(), e).line(w);
        w.line(line);
        w.names.push((name.clone(), name));
    }
}

/// One of the lines, its declared name new.
fn new_line(chance: &mut Chance, list: &'static str) -> Vec<u8> {
    chance.word(list).replace("NEW", &chance.fresh()).into_bytes()
}

pub fn reading(w: &mut Writer) {
    worked(w);
    let end = 45 + w.chance.below(40);
    for _ in 0..end {
        let line = match w.chance.below(10) {
            0 => names(&mut w.chance),
            1 => {
                // Twice the bytes of one text, or of two, at the longest, and about that.
                let length = *w.chance.pick(&[8_191, 8_192, 8_193, 16_384, 32_768, 32_768]);
                w.line(format!("table {length}"));
                long(&mut w.chance)
            }
            2 | 3 => nested(&mut w.chance),
            4 | 5 => soup(&mut w.chance),
            6 => {
                let mut line = new_line(&mut w.chance, SOUND);
                let start = line.iter().position(|&b| b == b' ').unwrap_or(0) + 1;
                line.truncate(start + w.chance.below(line.len() - start));
                line
            }
            7 => {
                let mut line = new_line(&mut w.chance, SOUND);
                let i = 6 + w.chance.below(line.len() - 5);
                let piece = match w.chance.below(3) {
                    0 => b"% (\r".to_vec(),
                    _ => vec![*w.chance.pick(&ODD)],
                };
                line.splice(i..i, piece);
                line
            }
            8 => new_line(&mut w.chance, SMALL),
            _ => new_line(&mut w.chance, SOUND),
        };
        w.line(line);
    }
}

/// Names at and above the longest length, wherever a name or none may stand.
fn names(chance: &mut Chance) -> Vec<u8> {
    let length = *chance.pick(&[1, 31, 32, 32, 33, 33, 34, 200]);
    let first = chance.word("_|Z|q|type");
    let name = format!("{first:'<length$}");
    let n = &name[..length];
    let new = chance.fresh();
    let line = match chance.below(9) {
        0 => format!("declare {n} : type"),
        1 => format!("declare {new} : {{{n}:nat}} pf (eq {n} {n})"),
        2 => format!("declare {new} : {n}"),
        3 => format!("claim nat -> nat=[{n}] s {n}"),
        4 => format!("claim nat=s {n}"),
        5 => format!("declare {new} {n} : nat"),
        6 => format!("declare {new} : (nat) {n}"),
        7 => format!("claim {n}=z"),
        _ => format!("declare {new} : [x {n}"),
    };
    line.into_bytes()
}

/// Texts of about 4,096 bytes, padded in front, inside or at the end, or in earnest.
fn long(chance: &mut Chance) -> Vec<u8> {
    let length = *chance.pick(&[4_095, 4_096, 4_096, 4_097, 4_097, 6_000]);
    let new = chance.fresh();
    let (front, back) = match chance.below(4) {
        0 => (format!("{new} : "), "nat"),
        1 => (format!("{new} : nat -> nat "), ""),
        2 => (format!("{new} : nat %"), "="),
        _ => (String::new(), "("),
    };
    let room = length - front.len() - back.len();
    let fill = chance.word(" |\t| z|nat |(|x -> |\r").repeat(room);
    let text = format!("{front}{}{back}", &fill[..room]);
    let spine = format!("{:<length$}", format!("s{}", " z".repeat(2_000)));
    let deep = format!("{}{}", "s (".repeat(60), "z".to_string() + &")".repeat(60));
    let padded = format!("{deep}{:>1$}", "%", length - deep.len());
    let line = match chance.below(8) {
        0..=2 => format!("declare {text}"),
        3 => format!("claim nat=%{}", &spine[1..]),
        4 => format!("claim nat={padded}"),
        5 => format!("claim {:>length$}={padded}", "nat"),
        6 => format!("claim {:<length$}=z", "nat"),
        _ => format!("claim nat={spine}"),
    };
    line.into_bytes()
}

/// Nestings about 64 deep, of one opener or of all.
fn nested(chance: &mut Chance) -> Vec<u8> {
    let depth = *chance.pick(&[8, 62, 63, 64, 64, 65, 65, 66, 100]);
    let only = chance.below(12);
    let objects = chance.one_in(3);
    let mut text = if objects { "z" } else { "nat" }.to_string();
    for _ in 0..depth {
        let which = if only < 8 { only } else { chance.below(8) };
        text = match (objects, which) {
            (_, 0) => format!("({text})"),
            (false, 1) => format!("{{x:{text}}}nat"),
            (false, 2) => format!("{{x:nat}}{text}"),
            (false, 3) => format!("nat->{text}"),
            (false, 4) => format!("({text})->nat"),
            (_, 5) => format!("[x]{text}"),
            (_, 6) => format!("all[x]{text}"),
            (false, _) => format!("{{x:nat}}{text}"),
            _ => format!("s({text})"),
        };
    }
    let line = match (objects, chance.below(3)) {
        (true, 0) => format!("claim {}nat={text}", "nat->".repeat(depth)),
        (true, _) => format!("claim nat={text}"),
        (_, 0) => format!("claim {text}=z"),
        _ => format!("declare {}:{text}", chance.fresh()),
    };
    line.into_bytes()
}

/// Tokens in any order, behind a start that often fits.
fn soup(chance: &mut Chance) -> Vec<u8> {
    let mut text = match chance.below(4) {
        0 => String::new(),
        1 => "nat=".to_string(),
        _ => format!("{} : ", chance.fresh()),
    };
    for _ in 0..chance.below(9) {
        text.push_str(chance.word(TOKENS));
        text.push_str(chance.word(" | ||\t"));
    }
    let word = if text.contains('=') { "claim" } else { "declare" };
    format!("{word} {text}").into_bytes()
}

/// Names of a store: some in modules, some not.
struct Names {
    modules: Vec<String>,
    taken: Vec<String>,
}

impl Names {
    fn next(&mut self, chance: &mut Chance) -> String {
        let n = self.taken.len();
        match chance.below(3) {
            0 => format!("n{n}"),
            _ => format!("{}n{n}", chance.pick(&self.modules)),
        }
    }
}

/// A classifier of `size` nodes, at most 180 and not 3, over nat and the family g.
fn sized(size: usize) -> String {
    let (end, own) = match size % 3 {
        1 => ("type", 1),
        2 => ("nat", 2),
        _ => ("g [x] x", 6),
    };
    "nat -> ".repeat((size - own) / 3) + end
}

pub fn stores(w: &mut Writer, turn: usize) {
    let (in_modules, limit) = (turn % 2 == 1, turn / 2 % 3);
    w.line(if in_modules { "store module" } else { "store flat" });
    w.line("declare nat : type");
    w.line("declare g : (nat -> nat) -> type");
    let parts = ["a/", "a//", "a/b/", "a/b/c/", "_/", "_//", "A/", "a'/", "type/"];
    let numbered = (parts.len()..15).map(|i| format!("m{}/", i * i));
    let modules = parts.iter().map(|part| part.to_string()).chain(numbered);
    let mut names =
        Names { modules: modules.collect(), taken: vec!["nat".to_string(), "g".to_string()] };
    if limit == 2 && in_modules {
        // Fifteen modules, then a sixteenth and more.
        for name in ["a/", "a//b", "a/b/c", "_/x", "_//"] {
            w.line(format!("declare {name} : type"));
        }
        for module in &names.modules {
            w.line(format!("declare {module}k : nat"));
        }
        for name in ["b/b/q", "new/q", "a/q", "q", "a/b/c/d", "new/", "b/b/r", "b/q"] {
            w.line(format!("declare {name} : type"));
        }
    } else {
        fill(w, &mut names, if in_modules { 128 } else { 256 }, limit);
    }
    names.modules.extend(["b/b/", "new/", "a/b/c/d/", ""].map(String::from));
    let end = 20 + w.chance.below(20);
    for _ in 0..end {
        let blank = w.chance.word("||| |\t  ");
        let name = blank.to_string() + &names.next(&mut w.chance);
        let old = w.chance.pick(&names.taken).clone();
        let n = w.chance.below(w.count() + 2);
        let line = match w.chance.below(16) {
            0..=3 => format!("declare {name} : type"),
            4 => format!("declare {name} : nat"),
            5 => format!("declare {name} : {}", sized(4 + 3 * w.chance.below(50))),
            6 => format!("declare {blank}{old} : type"),
            7 => format!("declare {blank}{old} : [x] type"),
            8 => format!("declare {blank}{old} : {name}"),
            9 => format!("declare {name} : nat nat"),
            10 => format!("declare {name} : type -> type"),
            11 => format!("look-up {}", w.chance.pick(&[old, name.clone()])),
            12 => format!("carries {n}"),
            13 => format!("rests-on {n}"),
            14 => format!("claim {}=[x] x", w.chance.word("nat -> nat|nat|g [x] x")),
            _ => "count".to_string(),
        };
        if let Some(Reply::Declared { .. }) = w.line(line) {
            names.taken.push(name.trim().to_string());
        }
    }
}

/// Fills the store up to its constants, to its last node, or to what comes first.
fn fill(w: &mut Writer, names: &mut Names, cap: usize, limit: usize) {
    let mut left = 2_040;
    while left > 0 && w.count() < cap {
        let size = match limit {
            0 => 1 + w.chance.below(2),
            1 if left > 150 => 60 + w.chance.below(90),
            1 if w.chance.one_in(2) => left,
            _ => 1 + w.chance.below(left.min(20)),
        };
        let size = if size == 3 { 2 } else { size };
        if left < 150 && left != 2 && w.chance.one_in(3) {
            // One node too many for the room.
            w.line(format!("declare over : {}", sized(left + 1)));
        }
        let name = names.next(&mut w.chance);
        w.line(format!("declare {name} : {}", sized(size)));
        names.taken.push(name.trim().to_string());
        left -= size;
    }
}

pub fn noise(w: &mut Writer, turn: usize) {
    if turn % 10 == 3 {
        return;
    }
    for _ in 0..w.chance.below(4) {
        let line = w.chance.word("% store flat||store tree|Store flat| count|count x|hello");
        w.line(line);
    }
    for _ in 0..w.chance.below(3) {
        let line = w.chance.word(STORES);
        w.line(line);
    }
    worked(w);
    let end = 40 + w.chance.below(50);
    let seal = w.chance.below(2 * end);
    for turn in 0..end {
        if turn == seal {
            w.line("seal");
        }
        let line = match w.chance.below(8) {
            0 | 1 => tables(w),
            2 => queries(w),
            3 | 4 => w.chance.word(NEARLY).into(),
            5 => new_line(&mut w.chance, SOUND),
            6 => w.chance.word(STORES).into(),
            _ => {
                let many = *w.chance.pick(&[1, 3, 12, 40, 40, 9_000]);
                (0..many).map(|_| w.chance.below(256) as u8).collect()
            }
        };
        let line = nearly(&mut w.chance, line);
        w.line(line);
    }
}

/// A setting of a table, its decimal often at an edge.
fn tables(w: &mut Writer) -> Vec<u8> {
    let count = w.count();
    let edge = *w.chance.pick(&[0, 1, 20, 300, count, count - 1, 1_024, 32_768, 32_768]);
    let decimal = match w.chance.below(4) {
        0 => format!("{edge:0>9}"),
        1 => format!("{edge:0>10}"),
        2 => edge.to_string(),
        _ => w.chance.word(DECIMALS).to_string(),
    };
    format!("{} {decimal}", w.chance.word("table|numbers")).into_bytes()
}

/// A question about a constant at an edge.
fn queries(w: &mut Writer) -> Vec<u8> {
    let count = w.count();
    let n = *w.chance.pick(&[0, count - 1, count - 1, count, count + 1, 65_535, 65_536]);
    let zeros = *w.chance.pick(&[0, 0, 0, 9, 10]);
    format!("{} {n:0>zeros$}", w.chance.word("rests-on|carries")).into_bytes()
}

/// The line, or one that differs from it a little.
fn nearly(chance: &mut Chance, mut line: Vec<u8>) -> Vec<u8> {
    let i = chance.below(line.len() + 1);
    match chance.below(24) {
        0 => line.push(b'\r'),
        1 => line.insert(0, b' '),
        2 => line.insert(i, b' '),
        3 => line.insert(i, b'\t'),
        4 if i < line.len() => line[i] = line[i].to_ascii_uppercase(),
        5 if i < line.len() => drop(line.remove(i)),
        6 => line.insert(0, b'%'),
        _ => {}
    }
    line
}
