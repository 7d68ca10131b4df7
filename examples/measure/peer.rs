//! What Rust's `capnp` takes for the relay's work: reads each message, sets the number at the front of its root's data
//! to 7, and writes it as one canonical message in the same form.
//!
//! usage: peer framed|packed < MESSAGES > MESSAGES
//!
//!     registry=/usr/share/cargo/registry/capnp-0.14.11             (Debian package librust-capnp-dev)
//!     rustc -O --edition 2018 --crate-name capnp --crate-type rlib --cfg 'feature="std"' $registry/src/lib.rs
//!     rustc -O --edition 2021 -L . --extern capnp -o peer_rs peer.rs
use capnp::message::{Builder, ReaderOptions, ScratchSpaceHeapAllocator};
use capnp::private::layout::{PointerBuilder, StructBuilder, StructSize};
use capnp::traits::FromPointerBuilder;
use capnp::{any_pointer, serialize, serialize_packed, Result, Word};
use std::io::{BufRead, BufReader, BufWriter, Write};

/// Words of memory that are used for message after message.
const WORDS: usize = 1 << 18;

/// A root whose data begin with a number.
struct Root<'a>(StructBuilder<'a>);

impl<'a> FromPointerBuilder<'a> for Root<'a> {
    fn init_pointer(builder: PointerBuilder<'a>, _size: u32) -> Self {
        Root(builder.init_struct(StructSize { data: 1, pointers: 0 }))
    }

    fn get_from_pointer(builder: PointerBuilder<'a>, default: Option<&'a [Word]>) -> Result<Self> {
        Ok(Root(builder.get_struct(StructSize { data: 1, pointers: 0 }, default)?))
    }
}

fn main() -> Result<()> {
    let packed = std::env::args().nth(1).as_deref() == Some("packed");
    let mut source = BufReader::new(std::io::stdin().lock());
    let mut sink = BufWriter::new(std::io::stdout().lock());
    let options = ReaderOptions::new();
    let mut words = [Word::allocate_zeroed_vec(WORDS), Word::allocate_zeroed_vec(WORDS)];
    let [first, second] = &mut words;
    let mut edited = ScratchSpaceHeapAllocator::new(Word::words_to_bytes_mut(first));
    let mut copied = ScratchSpaceHeapAllocator::new(Word::words_to_bytes_mut(second));
    while !source.fill_buf()?.is_empty() {
        let message = match packed {
            true => serialize_packed::read_message(&mut source, options)?,
            false => serialize::read_message(&mut source, options)?,
        };
        let mut built = Builder::new(&mut edited);
        built.set_root(message.get_root::<any_pointer::Reader>()?)?;
        built.get_root::<Root>()?.0.set_data_field::<u16>(0, 7);
        let mut canonical = Builder::new(&mut copied);
        canonical.set_root_canonical(built.get_root_as_reader::<any_pointer::Reader>()?)?;
        match packed {
            true => serialize_packed::write_message(&mut sink, &canonical)?,
            false => serialize::write_message(&mut sink, &canonical)?,
        }
    }
    sink.flush()?;
    Ok(())
}
