//! The comparison sees a difference, and leaves out only what may be left out.

use second::compare::compare_log;

const LOG: &[u8] = b"declare nat : type\ntable 9\ndeclare q : nat\ncount";

/// What a program prints that serves everything.
const ALL: &str = "1: declare accepted: constant 0, work 1
2: table 9
3: declare refused 12 layer 1 text 0 place 0 judgement 0 - a reason
4: count 1
1 accepted, 1 refused, 1 answered, 0 not carried out, 1 constants
";

/// What a program prints that serves the size limits only.
const PART: &str = "1: declare not carried out: not served yet
2: table 9
3: declare refused 12 layer 1 text 0 place 0 judgement 0 - a reason
4: count 0
0 accepted, 1 refused, 1 answered, 1 not carried out, 0 constants
";

#[test]
fn equal_outputs_agree() {
    let outcome = compare_log(LOG, ALL.as_bytes());
    assert_eq!(outcome.difference, None);
    assert_eq!((outcome.compared, outcome.left_out), (5, 0));
}

#[test]
fn what_is_not_served_is_left_out_and_counted() {
    let outcome = compare_log(LOG, PART.as_bytes());
    assert_eq!(outcome.difference, None);
    assert_eq!((outcome.compared, outcome.left_out), (4, 1));
}

#[test]
fn differences_are_seen() {
    let refused = "declare refused 12 layer 1 text 0 place 0 judgement 0 - a reason";
    let changes = [
        ("constant 0", "constant 1"),
        ("work 1", "work 2"),
        ("table 9", "table 09"),
        ("refused 12", "refused 11"),
        ("layer 1", "layer 2"),
        ("text 0", "text 1"),
        ("place 0", "place 1"),
        ("judgement 0", "judgement 1"),
        (" - a reason", ""),
        (" - a reason", " - "),
        // a refusal by size is served
        (refused, "declare not carried out: not served yet"),
        // the wrong word, and the wrong line
        ("1: declare accepted: constant 0, work 1", "1: claim not carried out: not served yet"),
        ("1: declare accepted: constant 0, work 1", "2: declare not carried out: not served yet"),
        ("4: count", "5: count"),
        ("count 1", "count 0"),
        ("4: count 1\n", ""),
        ("4: count 1\n", "4: count 1\n4: count 1\n"),
        ("1 accepted", "2 accepted"),
        ("1 constants\n", "1 constants"),
        ("1 constants\n", "1 constants\n\n"),
        ("1 accepted, 1 refused, 1 answered, 0 not carried out, 1 constants\n", ""),
    ];
    for (from, to) in changes {
        assert!(ALL.contains(from), "{from}");
        let output = ALL.replacen(from, to, 1);
        let outcome = compare_log(LOG, output.as_bytes());
        assert!(outcome.difference.is_some(), "{from:?} as {to:?} is not seen");
    }
}
