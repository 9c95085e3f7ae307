//! Small cases, at least one for each refusal, most over the worked library of eight constants.

use second::substitution::{put, shape, Outcome};
use second::tree::{node, Binder, Form, Head};
use second::{deep, replay, Fault, Kind, Library, Reply, Session};

const WORKED: [&str; 8] = [
    "declare nat : type",
    "declare z : nat",
    "declare s : nat -> nat",
    "declare o : type",
    "declare eq : nat -> nat -> o",
    "declare all : (nat -> o) -> o",
    "declare pf : o -> type",
    "declare inst : {p:nat -> o} {t:nat} pf (all [x] p x) -> pf (p t)",
];

/// The reply to the last of the lines.
fn last(lines: &[String]) -> String {
    let mut session = Session::new();
    let mut reply = String::new();
    for line in lines {
        reply = session.take(line.as_bytes()).map_or(reply, |r| r.line());
    }
    reply
}

/// Checks the replies to single lines, each after the worked library and a table length.
fn check(cases: &[(usize, &str, &str)]) {
    for (table, line, expected) in cases {
        let mut lines: Vec<String> = WORKED.iter().map(|l| l.to_string()).collect();
        lines.push(format!("table {table}"));
        lines.push(line.to_string());
        assert_eq!(last(&lines), *expected, "{line} with a table of {table}");
    }
}

/// The reply of a refusal: its word, number, text, place and judgement.
fn no(word: &str, number: u32, text: u32, place: usize, judgement: u32) -> String {
    let layer = number / 10;
    format!("{word} refused {number} layer {layer} text {text} place {place} judgement {judgement}")
}

#[test]
fn declarations() {
    const CASES: [(&str, u32, usize, u32); 46] = [
        ("q : nat # z", 13, 8, 0),
        ("q : nat - > o", 13, 8, 0),
        ("q : nat -", 13, 8, 0),
        ("q : 0", 13, 4, 0),
        ("=", 13, 0, 0),
        ("q : a23456789012345678901234567890123", 14, 4, 0),
        ("q a23456789012345678901234567890123", 14, 2, 0),
        ("q : a2345678901234567890123456789012", 21, 4, 0),
        ("", 15, 0, 0),
        ("type : nat", 15, 0, 0),
        ("q nat", 15, 2, 0),
        ("q : nat )", 15, 8, 0),
        ("q : (nat", 15, 8, 0),
        ("q : (nat  % )", 15, 13, 0),
        ("q : (nat}", 15, 8, 0),
        ("q : type nat", 15, 9, 0),
        ("q : (nat) nat", 15, 10, 0),
        ("q : nat {x:nat} nat", 15, 8, 0),
        ("q : {type:nat} nat", 15, 5, 0),
        ("q : nat : nat", 15, 8, 0),
        ("q : [x] nat ->", 15, 14, 0),
        ("q : nat -> foo", 21, 11, 0),
        ("q : nat foo #", 21, 8, 0),
        ("q : q", 21, 4, 0),
        ("q : {x:x} nat", 21, 7, 0),
        ("q : ({x:nat} nat) -> x", 21, 21, 0),
        ("nat : foo", 21, 6, 0),
        (" nat : [x] nat", 42, 1, 0),
        ("% is taken", 15, 10, 0),
        ("q : nat -> [x] nat", 31, 11, 1),
        ("q : ([x] nat) -> o", 31, 5, 2),
        ("q : pf type", 31, 7, 3),
        ("q : pf (nat -> o)", 31, 12, 3),
        ("q : {x:nat} x", 32, 12, 2),
        ("q : pf nat", 32, 7, 3),
        ("q : nat -> z", 32, 11, 2),
        ("q : pf (all s)", 33, 12, 3),
        ("q : pf (all [x] [y] eq x y)", 34, 16, 3),
        ("q : o -> pf", 35, 9, 4),
        ("q : pf (eq z) z", 35, 8, 4),
        ("q : pf (eq z z (s z))", 36, 16, 4),
        ("q : pf (eq z z) ([x] z)", 36, 17, 4),
        ("q : pf z", 37, 7, 3),
        ("q : pf (all [x] x)", 37, 16, 3),
        ("q : pf (all all)", 33, 12, 3),
        ("q : f [x] nat", 21, 4, 0),
    ];
    deep(|| {
        for (text, number, place, judgement) in CASES {
            let expected = no("declare", number, 0, place, judgement);
            check(&[(32768, &format!("declare {text}"), &expected)]);
        }
    });
}

#[test]
fn claims() {
    const CASES: [(usize, &str, u32, u32, usize, u32); 21] = [
        (32768, "nat=z $", 13, 1, 2, 0),
        (32768, "nat $=)", 13, 0, 4, 0),
        (32768, "nat=", 15, 1, 0, 0),
        (32768, "nat= (z", 15, 1, 3, 0),
        (32768, "nat=z =", 13, 1, 2, 0),
        (32768, "nat=s foo", 21, 1, 2, 0),
        (32768, "type=z", 31, 0, 0, 2),
        (32768, "nat=s type", 31, 1, 2, 3),
        (32768, "nat=nat", 32, 1, 0, 3),
        (32768, "nat -> nat=s", 33, 1, 0, 3),
        (32768, "nat=[x] x", 34, 1, 0, 3),
        (32768, "nat=s", 35, 1, 0, 4),
        (32768, "nat=z (s z)", 36, 1, 3, 4),
        (32768, "o=s z", 37, 1, 0, 3),
        (34, "o=inst", 39, 1, 0, 3),
        (35, "o=inst", 35, 1, 0, 4),
        (20, "nat=s (s z)", 39, 1, 3, 3),
        (22, "nat=s (s z)", 39, 1, 5, 3),
        (24, "nat=s (s z)", 39, 1, 5, 4),
        (26, "nat=s (s z)", 39, 1, 3, 4),
        (19, "nat=s (s z)", 12, 0, 0, 0),
    ];
    deep(|| {
        for (table, texts, number, text, place, judgement) in CASES {
            let expected = no("claim", number, text, place, judgement);
            check(&[(table, &format!("claim {texts}"), &expected)]);
        }
        check(&[(27, "claim nat=s (s z)", "claim accepted: work 27")]);
    });
}

#[test]
fn sizes() {
    deep(|| {
        let (long, longest) = ("a".repeat(4097), " ".repeat(4096));
        check(&[
            (0, &format!("declare {long}"), &no("declare", 11, 0, 0, 0)),
            (0, &format!("claim {long}=z"), &no("claim", 11, 0, 0, 0)),
            (0, &format!("claim {long}={long}"), &no("claim", 11, 0, 0, 0)),
            (0, &format!("claim nat={long}"), &no("claim", 11, 1, 0, 0)),
            (8191, &format!("declare {longest}"), &no("declare", 12, 0, 0, 0)),
            (8192, &format!("declare {longest}"), &no("declare", 15, 0, 4096, 0)),
            (32769, "declare q : nat", &no("declare", 12, 0, 0, 0)),
            (13, "declare q : nat", &no("declare", 12, 0, 0, 0)),
            (14, "declare q : nat", "declare accepted: constant 8, work 3"),
            (0, "declare", &no("declare", 15, 0, 0, 0)),
            (20, "declare \tq\r:\rnat\t", "declare accepted: constant 8, work 3"),
        ]);
    });
}

#[test]
fn depths() {
    deep(|| {
        let arrows = |n| format!("declare q : {}nat", "nat -> ".repeat(n));
        let brackets = |n| format!("declare q : {}nat", "[x] ".repeat(n));
        let braces = |n| format!("declare q : {}nat", "{x:nat}".repeat(n));
        let nested = |n| format!("declare q : {}nat", "{x:".repeat(n));
        let deeper = |place| no("declare", 16, 0, place, 0);
        check(&[
            (32768, &arrows(64), "declare accepted: constant 8, work 259"),
            (32768, &arrows(65), &deeper(456)),
            (32768, &brackets(64), &no("declare", 31, 0, 4, 1)),
            (32768, &brackets(65), &deeper(262)),
            (32768, &braces(64), "declare accepted: constant 8, work 259"),
            (32768, &braces(65), &deeper(454)),
            (32768, &nested(64), &no("declare", 15, 0, 199, 0)),
            (32768, &nested(65), &deeper(198)),
        ]);
    });
}

#[test]
fn room() {
    deep(|| {
        let full = |line: &str, lines: &[String]| {
            let mut lines = lines.to_vec();
            lines.push(line.to_string());
            last(&lines)
        };
        // Constants: the cap is 256 in a flat table and 128 in a module table.
        for (kind, cap) in [("flat", 256), ("module", 128)] {
            let mut lines = vec![format!("store {kind}")];
            lines.extend((0..cap).map(|i| format!("declare c{i} : type")));
            let accepted = format!("declare accepted: constant {}, work 1", cap - 1);
            assert_eq!(last(&lines), accepted);
            assert_eq!(full("declare  c : type", &lines), no("declare", 43, 0, 1, 0));
            assert_eq!(full("declare c0 : type", &lines), no("declare", 42, 0, 0, 0));
            assert_eq!(full("declare c : c0 c0", &lines), no("declare", 36, 0, 7, 4));
        }
        // Nodes: a product of 64 arrows has 194, so 1 + 10 * 194 = 1941 stand.
        let product = "nat -> ".repeat(64);
        let mut lines = vec!["declare nat : type".to_string()];
        lines.extend((0..10).map(|i| format!("declare c{i} : {product}nat")));
        let more = format!("declare c : {product}nat");
        assert_eq!(full(&more, &lines), no("declare", 43, 0, 0, 0));
        // 107 more fit: 35 arrows have 107 nodes.
        let rest = format!("declare c : {}nat", "nat -> ".repeat(35));
        assert_eq!(full(&rest, &lines), "declare accepted: constant 11, work 143");
        lines.push(rest);
        assert_eq!(full("declare d : type", &lines), no("declare", 43, 0, 0, 0));
        // Modules: a seventeenth is one too many.
        let mut lines = vec!["store module".to_string()];
        lines.extend((0..16).map(|i| format!("declare m/{i}/c : type")));
        assert_eq!(full("declare m/c : type", &lines), no("declare", 43, 0, 0, 0));
        let accepted = "declare accepted: constant 16, work 1";
        assert_eq!(full("declare m/15/d : type", &lines), accepted);
        assert_eq!(full("declare m : type", &lines), accepted);
        lines[0] = "store flat".to_string();
        assert_eq!(full("declare m/c : type", &lines), accepted);
    });
}

#[test]
fn queries() {
    deep(|| {
        check(&[
            (0, "rests-on 8", &no("rests-on", 51, 0, 0, 0)),
            (0, "carries 65535", &no("carries", 51, 0, 0, 0)),
            (0, "carries 65536", "not a request"),
            (0, "rests-on 0000000004", "not a request"),
            (0, "rests-on 000000004", "rests-on 3: 0 3 4"),
            (0, "carries 2", "carries 1: 2"),
            (0, "look-up", "look-up none"),
            (0, "look-up inst", "look-up 7"),
            (0, "store flat", "not a request"),
            (0, " count", "not a request"),
            (0, "count ", "count 8"),
            (0, "claim nat", "not a request"),
        ]);
        let mut lines: Vec<String> = WORKED.iter().map(|l| l.to_string()).collect();
        for (line, expected) in [
            ("numbers 8", "numbers 8".to_string()),
            ("rests-on 0", "rests-on 1: 0".to_string()),
            ("numbers 7", "numbers 7".to_string()),
            ("rests-on 0", no("rests-on", 52, 0, 0, 0)),
            ("carries 0", no("carries", 52, 0, 0, 0)),
            ("carries 8", no("carries", 51, 0, 0, 0)),
        ] {
            lines.push(line.to_string());
            assert_eq!(last(&lines), expected);
        }
    });
}

#[test]
fn variables_keep_their_binders() {
    deep(|| {
        let mut lines: Vec<String> = WORKED.iter().map(|l| l.to_string()).collect();
        for (line, expected) in [
            ("declare vec : nat -> type", "declare accepted: constant 8, work 5".to_string()),
            ("declare mk : {n:nat} vec n", "declare accepted: constant 9, work 16".to_string()),
            (
                "declare d : {n:nat} ({m:nat} vec n) -> o",
                "declare accepted: constant 10, work 24".to_string(),
            ),
            ("claim nat -> o=[k] d k [m] mk k", "claim accepted: work 66".to_string()),
            ("claim nat -> o=[k] d k [m] mk m", no("claim", 37, 1, 12, 3)),
            ("claim nat -> o=[k] d k [k] mk k", no("claim", 37, 1, 12, 3)),
        ] {
            lines.push(line.to_string());
            assert_eq!(last(&lines), expected, "{line}");
        }
    });
}

#[test]
fn arguments_are_put_below_binders() {
    deep(|| {
        // After some declarations, claims that hold, and claims that are refused 37 at the place.
        let again = "declare again : {x:(nat -> o) -> o} pf (x [z] x [w] eq z w)";
        let mixed =
            "declare mixed : {f:(nat -> nat -> nat) -> nat -> nat} pf (eq (f ([x] [y] s x) z) z)";
        let cases: [(&str, &str, Option<usize>); 8] = [
            (again, "pf (all [a] all [b] eq a b)=again [g] all [y] g y", None),
            (again, "pf (all [a] all [b] eq b b)=again [g] all [y] g y", Some(0)),
            (again, "pf (all [a] all [b] eq b a)=again [g] all [y] g y", Some(0)),
            (mixed, "pf (eq (s z) z)=mixed [g] [y] g y y", None),
            (mixed, "pf (eq z z)=mixed [g] [y] g y y", Some(0)),
            (mixed, "pf (eq z z)=mixed [g] [y] y", None),
            ("", "({x:nat} pf (eq x x)) -> {y:nat} pf (eq y y)=[h] [k] h k", None),
            ("", "({x:nat} pf (eq x z)) -> {y:nat} pf (eq y y)=[h] [k] h k", Some(8)),
        ];
        for (declaration, texts, refused) in cases {
            let mut lines: Vec<String> = WORKED.iter().map(|l| l.to_string()).collect();
            lines.extend([declaration.to_string(), format!("claim {texts}")]);
            let reply = last(&lines);
            match refused {
                Some(place) => assert_eq!(reply, no("claim", 37, 1, place, 3), "{texts}"),
                None => assert!(reply.starts_with("claim accepted: work "), "{texts}: {reply}"),
            }
        }
    });
}

#[test]
fn a_put_without_a_result_is_counted() {
    let (x, y) = (Binder::fresh(), Binder::fresh());
    let variable = |x| node(0, Form::Headed(Head::Variable(x), Vec::new()));
    let m = node(0, Form::Abstraction(y, variable(y)));
    let base = shape(&node(0, Form::Type));
    // The empty spine is 1 node and the lifted abstraction is 3.
    let with = |budget| put(&m, &base, x, &variable(x), budget);
    assert!(matches!(with(4), Outcome::NoResult(4)));
    assert!(matches!(with(3), Outcome::TooLong));
    // A head stands at an arrow: the empty spine is 1 node, the lifted head is 2.
    let nat = || node(0, Form::Headed(Head::Constant(0), Vec::new()));
    let arrow = shape(&node(0, Form::Product(y, nat(), nat())));
    assert!(matches!(put(&nat(), &arrow, x, &variable(x), 9), Outcome::NoResult(3)));
}

#[test]
fn a_comment_ends_at_a_line_feed() {
    let mut library = Library::new(Kind::Flat);
    let fault = |number, place| Err(Fault { number, text: 0, place, judgement: 0 });
    assert_eq!(library.declare(b"nat %\n: %:\n\n%\ntype % (", 99), Ok((0, 1)));
    assert_eq!(library.declare(b"z % a\n: % b\n -", 99), fault(13, 13));
    assert_eq!(library.declare(b"z % a\r: nat", 99), fault(15, 11));
}

#[test]
fn only_requests_bar_a_store() {
    let replies = |lines: &[&str]| last(&lines.iter().map(|l| l.to_string()).collect::<Vec<_>>());
    assert_eq!(replies(&["hello", "% x", "", "store module"]), "store module");
    assert_eq!(replies(&["table 9", "store module"]), "not a request");
    assert_eq!(replies(&["store flat", "store module"]), "not a request");
}

#[test]
fn a_line_can_be_left_out() {
    let mut session = Session::new();
    let reply = session.leave_out(b"declare nat : type");
    assert_eq!(reply, Reply::LeftOut { word: "declare" });
    assert_eq!(reply.line(), "declare not carried out: not served yet");
    assert_eq!(session.take(b"store flat"), Some(Reply::NotARequest));
    assert_eq!(session.lines_taken(), 2);
    let closing = "0 accepted, 0 refused, 0 answered, 2 not carried out, 0 constants";
    assert_eq!(session.closing(), closing);
}

#[test]
fn every_byte_string_is_answered() {
    deep(|| {
        let parts: [&[u8]; 24] = [
            b"declare ",
            b"claim ",
            b"\n",
            b"\n",
            b"=",
            b"nat ",
            b"z ",
            b"q ",
            b": ",
            b"type ",
            b"-> ",
            b"(",
            b") ",
            b"[x] ",
            b"{x:",
            b"} ",
            b"x ",
            b"table 40\n",
            b"rests-on 0\n",
            b"seal\n",
            b"\xff",
            b"%",
            b"look-up ",
            b"\r",
        ];
        let mut seed: u32 = 1;
        for _ in 0..20000 {
            let mut log = b"declare nat : type\ndeclare z : nat\n".to_vec();
            for _ in 0..40 {
                seed = seed.wrapping_mul(1664525).wrapping_add(1013904223);
                log.extend_from_slice(parts[(seed >> 16) as usize % parts.len()]);
            }
            assert!(replay(&log).ends_with(" constants\n"));
        }
        assert_eq!(
            replay(b""),
            "0 accepted, 0 refused, 0 answered, 0 not carried out, 0 constants\n"
        );
    });
}
