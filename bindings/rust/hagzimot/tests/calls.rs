//! Each function with good arguments and bad ones, and four threads with a relay each.
use hagzimot::{canonical, first_break, is_canonical, version, Answers, Error, Forms, Limits, Relay};

const SCHEMA: &str = r#"[{"id": 1, "name": "P", "data": 1, "pointers": 1, "fields": [
    {"name": "a", "type": "UInt16", "offset": 0}, {"name": "t", "type": "Text", "offset": 0}]}]"#;
const OTHER: &str = r#"[{"id": 1, "name": "P", "data": 1, "pointers": 1, "fields": [
    {"name": "a", "type": "UInt16", "offset": 1}, {"name": "t", "type": "Text", "offset": 0}]}]"#;
const CALLS: &str =
    r#"{"calls": [{"path": ["a"], "verb": "set", "value": {"number": 9}}, {"path": ["t"], "verb": "get"}]}"#;
/// (a = 7, t = "hi"), framed, in canonical form.
const MESSAGE: [u8; 40] = [
    0, 0, 0, 0, 4, 0, 0, 0, 0, 0, 0, 0, 1, 0, 1, 0, 7, 0, 0, 0, 0, 0, 0, 0, 1, 0, 0, 0, 26, 0, 0, 0, b'h', b'i', 0, 0,
    0, 0, 0, 0,
];
/// (a = 7), with a second data word of zeros.
const WIDE: [u8; 32] = [0, 0, 0, 0, 3, 0, 0, 0, 0, 0, 0, 0, 2, 0, 0, 0, 7, 0, 0, 0, 0, 0, 0, 0, 0, 0, 0, 0, 0, 0, 0, 0];
/// Its canonical form.
const NARROW: [u8; 24] = [0, 0, 0, 0, 2, 0, 0, 0, 0, 0, 0, 0, 1, 0, 0, 0, 7, 0, 0, 0, 0, 0, 0, 0];

fn open(forms: Forms) -> Relay {
    Relay::open(SCHEMA.as_bytes(), "P", CALLS.as_bytes(), forms).unwrap()
}

fn edited() -> Vec<u8> {
    let mut message = MESSAGE.to_vec();
    message[16] = 9;
    message
}

/// Any number of the message, one after the other.
fn many(count: usize) -> Vec<u8> {
    MESSAGE.repeat(count)
}

#[test]
fn the_version_is_that_of_the_header() {
    assert_eq!(version(), hagzimot_sys::HAGZIMOT_VERSION);
}

#[test]
fn a_message_is_edited() {
    let answers = open(Forms::default()).relay(&MESSAGE).unwrap();
    assert_eq!(answers.out, edited());
    assert_eq!(answers.log_text(), "message 1 written; done; \"hi\"\n");
}

#[test]
fn no_message_is_no_answer() {
    assert_eq!(open(Forms::default()).relay(&[]).unwrap(), Answers::default());
}

#[test]
fn a_long_log_is_taken() {
    let answers = open(Forms::default()).relay(&many(1000)).unwrap();
    assert_eq!(answers.out, edited().repeat(1000));
    assert_eq!(answers.log_text().lines().count(), 1000);
}

#[test]
fn memory_of_answers_is_used_again() {
    let mut relay = open(Forms::default());
    let mut answers = Answers::default();
    for count in [1000, 1, 0, 3] {
        relay.relay_into(&many(count), &mut answers).unwrap();
        assert_eq!(answers.out, edited().repeat(count));
        assert_eq!(answers.log_text().lines().count(), count);
    }
}

#[test]
fn a_cut_input_has_the_answers_before() {
    let mut relay = open(Forms::default());
    let stopped = relay.relay(&many(200)[..7990]).unwrap_err();
    assert_eq!(stopped.error, Error::Framing);
    assert_eq!(stopped.answers.out, edited().repeat(199));
    assert_eq!(stopped.answers.log_text().lines().count(), 199);
    assert_eq!(relay.relay(&MESSAGE).unwrap().out, edited());
}

#[test]
fn messages_go_out_packed_and_come_so() {
    let packed = open(Forms { packed_out: true, ..Forms::default() }).relay(&MESSAGE).unwrap().out;
    assert!(packed.len() < MESSAGE.len());
    let again = open(Forms { packed_in: true, ..Forms::default() }).relay(&packed).unwrap().out;
    assert_eq!(again, edited());
    let plain = open(Forms { plain: true, ..Forms::default() }).relay(&WIDE).unwrap().out;
    assert_eq!(is_canonical(&plain, Limits::default()), Ok(false));
}

#[test]
fn a_message_is_shown() {
    let mut relay = open(Forms::default());
    assert_eq!(relay.show(&MESSAGE).unwrap(), "(a = 7, t = \"hi\")");
    let text = "z".repeat(5000);
    let calls = format!(r#"{{"calls": [{{"path": ["t"], "verb": "set", "value": {{"text": "{text}"}}}}]}}"#);
    let out =
        Relay::open(SCHEMA.as_bytes(), "", calls.as_bytes(), Forms::default()).unwrap().relay(&MESSAGE).unwrap().out;
    assert_eq!(relay.show(&out).unwrap(), format!("(a = 7, t = \"{text}\")"));
}

#[test]
fn messages_that_cant_be_shown_are_errors() {
    let mut relay = open(Forms::default());
    assert_eq!(relay.show(&MESSAGE[..39]), Err(Error::Framing));
    // The pointer of the text leads out of the message.
    let mut message = MESSAGE;
    message[24] = 101;
    assert_eq!(relay.show(&message), Err(Error::Value));
    assert_eq!(relay.show(&MESSAGE).unwrap(), "(a = 7, t = \"hi\")");
}

#[test]
fn refusals_have_their_sentence() {
    let refused = |schema: &str, root: &str, calls: &str| match Relay::open(
        schema.as_bytes(),
        root,
        calls.as_bytes(),
        Forms::default(),
    )
    .unwrap_err()
    {
        Error::Refused(text) => text,
        error => panic!("{error:?}"),
    };
    assert!(refused("no schema", "P", CALLS).starts_with("schema: "));
    assert!(refused(SCHEMA, "P", "{").starts_with("calls: "));
    assert!(refused(SCHEMA, "Q", CALLS).contains('Q'));
}

#[test]
fn the_canonical_form_is_written() {
    let limits = Limits::default();
    assert_eq!(canonical(&WIDE, limits).unwrap(), NARROW);
    assert_eq!(canonical(&MESSAGE, limits).unwrap(), MESSAGE);
    assert_eq!(is_canonical(&WIDE, limits), Ok(false));
    assert_eq!(is_canonical(&NARROW, limits), Ok(true));
    assert_eq!(is_canonical(&[], limits), Err(Error::Framing));
    assert_eq!(canonical(&WIDE[..9], limits), Err(Error::Framing));
    assert_eq!(canonical(&MESSAGE, Limits { levels: 0, ..limits }), Err(Error::Value));
    assert_eq!(canonical(&MESSAGE, Limits { words: 3, ..limits }), Err(Error::Framing));
}

#[test]
fn versions_are_compared() {
    let compared = |older: &str, newer: &str| first_break(older.as_bytes(), newer.as_bytes(), "P", b"");
    assert_eq!(compared(SCHEMA, SCHEMA), Ok(None));
    let sentence = "P: field \"a\" lies elsewhere in the newer schema";
    assert_eq!(compared(SCHEMA, OTHER), Ok(Some(sentence.to_owned())));
    match compared(SCHEMA, "x") {
        Err(Error::Refused(text)) => assert!(text.starts_with("newer: ")),
        other => panic!("{other:?}"),
    }
}

#[test]
fn threads_have_relays_of_their_own() {
    let wanted = open(Forms::default()).relay(&many(500)).unwrap();
    let threads: Vec<_> =
        (0..4).map(|_| std::thread::spawn(|| open(Forms::default()).relay(&many(500)).unwrap())).collect();
    for thread in threads {
        assert_eq!(thread.join().unwrap(), wanted);
    }
}
