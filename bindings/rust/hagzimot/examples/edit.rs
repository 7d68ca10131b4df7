//! Edits a message: sets its field `a`, and shows it before and after.
//!
//! usage: HAGZIMOT_LIB_DIR=FOLDER cargo run --example edit        (FOLDER: what tools/c_library.py made)
use hagzimot::{Error, Forms, Relay};

const SCHEMA: &[u8] = br#"[{"id": 1, "name": "P", "data": 1, "pointers": 1, "fields": [
    {"name": "a", "type": "UInt16", "offset": 0}, {"name": "t", "type": "Text", "offset": 0}]}]"#;
const CALLS: &[u8] = br#"{"calls": [{"path": ["a"], "verb": "set", "value": {"number": 9}}]}"#;
/// The framed message (a = 7, t = "hi").
const MESSAGE: &[u8] = &[
    0, 0, 0, 0, 4, 0, 0, 0, 0, 0, 0, 0, 1, 0, 1, 0, 7, 0, 0, 0, 0, 0, 0, 0, 1, 0, 0, 0, 26, 0, 0, 0, b'h', b'i', 0, 0,
    0, 0, 0, 0,
];

fn main() -> Result<(), Error> {
    let mut relay = Relay::open(SCHEMA, "P", CALLS, Forms::default())?;
    println!("{}", relay.show(MESSAGE)?);
    let answers = relay.relay(MESSAGE)?;
    print!("{}", answers.log_text());
    println!("{}", relay.show(&answers.out)?);
    Ok(())
}
