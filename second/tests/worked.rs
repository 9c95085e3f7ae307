//! The small library that is worked by hand, and the example of the log format.

use second::{deep, replay};

#[test]
fn the_worked_library() {
    deep(|| {
        let output = replay(include_bytes!("worked.log"));
        assert_eq!(output, include_str!("worked.expected"));
    });
}

#[test]
fn the_example_of_the_log_format() {
    let log = "% a short log\ntable 19\ncount\ndeclare nat : type\n\nlook-up nat\nrests-on 0\n\
               hello\ncount 3\nseal\ndeclare nat : type\n";
    let expected = "2: table 19\n3: count 0\n\
                    4: declare refused 12 layer 1 text 0 place 0 judgement 0\n\
                    6: look-up none\n\
                    7: rests-on refused 51 layer 5 text 0 place 0 judgement 0\n\
                    8: not a request\n9: not a request\n10: sealed\n\
                    11: declare not carried out: the library is sealed\n\
                    0 accepted, 2 refused, 3 answered, 3 not carried out, 0 constants\n";
    deep(move || assert_eq!(replay(log.as_bytes()), expected));
}
