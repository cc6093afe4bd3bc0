//! The wire at the edges of its rules. The protocol's example is in `check`, which reads it where it stands.

use account::limits::LONGEST_LINE;
use account::wire::Wire;

const EDGES: [(&str, &str); 19] = [
    ("enter 11 7 1 10 G 2", "ok"),
    ("enter 11 7 1 10 G 2", "refused 6"),
    ("publish 1", "ok"),
    ("day 5", "listed 1 0 11"),
    ("day 4001", "refused 3"),
    ("mask 4 0000000000000081", "ticked 2 1 - 11"),
    ("mask 65535 8000000000000000", "refused 3"),
    ("mask 4 81", "malformed"),
    ("mask 4 000000000000008a", "malformed"),
    ("room 0", "ok"),
    ("day 5", "refused 11"),
    ("days", "listed 0 -"),
    ("mask 4 0000000000000081", "refused 11"),
    ("mask 65535 0000000000000000", "ticked 0 0 -"),
    ("mask", "malformed"),
    ("take-back", "ok"),
    ("take-back", "refused 9"),
    ("write", "text 0"),
    ("Day 5", "malformed"),
];

/// The answers of a fresh service, with spaces for their tabs and a bar behind each line.
fn answers(stream: &[u8]) -> String {
    let answers = Wire::default().answers(stream).concat();
    String::from_utf8(answers).expect("answers are in ASCII").replace('\t', " ").replace('\n', "|")
}

#[test]
fn one_request_after_another() {
    let requests: String = EDGES.map(|(request, _)| request.replace(' ', "\t") + "\n").concat();
    assert_eq!(answers(requests.as_bytes()), EDGES.map(|(_, answer)| answer.to_string() + "|").concat());
}

#[test]
fn the_longest_line() {
    let longest = ["days\t10".to_string(), "\t1".repeat((LONGEST_LINE - 8) / 2), "\n".to_string()].concat();
    assert_eq!(longest.len(), LONGEST_LINE);
    assert_eq!(answers(longest.as_bytes()), "refused 10|");
    assert_eq!(answers(format!("x{longest}publish\t1\n").as_bytes()), "malformed|ok|");
}

#[test]
fn texts_behind_a_line() {
    assert_eq!(answers(b"read\t0\nread\t3\na\nbpublish\t1\n"), "ok|refused 12 1|ok|");
    assert_eq!(answers(&[b"read\t65537\n", &b"\n".repeat(65_537)[..], b"publish\t1\n"].concat()), "refused 12 0|ok|");
    assert_eq!(
        answers(b"read\t00\nread\t12345678901\nroom\t65537\nroom\t65536\n"),
        "malformed|malformed|malformed|ok|"
    );
}

#[test]
fn input_that_ends_inside_a_request() {
    assert_eq!(answers(b"publish\t1\npublish"), "ok|");
    assert_eq!(answers(b"read\t5\nabcd"), "");
    assert_eq!(answers(&b"x".repeat(70_000)), "");
    assert_eq!(answers(b""), "");
}
