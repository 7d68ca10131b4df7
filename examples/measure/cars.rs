//! Cap'n Proto's own car sales by Rust's `capnp`, with the layout calls that its generated code makes: cars are built,
//! written framed into memory, or read and summed.
//!
//! usage: cars build|write|read COUNT ROUNDS
//!
//! `capnp` is compiled as for peer.rs, and then
//!
//!     rustc -O --edition 2021 -L . --extern capnp -o cars_rs cars.rs
use capnp::message::{Builder, Reader, ReaderOptions, ReaderSegments, ScratchSpaceHeapAllocator, SegmentArray};
use capnp::private::layout::{ElementSize, PointerBuilder, PointerReader, StructBuilder, StructReader, StructSize};
use capnp::traits::{FromPointerBuilder, FromPointerReader};
use capnp::{serialize, Result, Word};

const LOT: StructSize = StructSize { data: 0, pointers: 1 };
const CAR: StructSize = StructSize { data: 3, pointers: 4 };
const PART: StructSize = StructSize { data: 1, pointers: 0 };
const MAKES: [&str; 5] = ["Toyota", "GM", "Ford", "Honda", "Tesla"];
const MODELS: [&str; 7] = ["Camry", "Prius", "Volt", "Accord", "Leaf", "Model S", "Fiesta"];

/// Words of memory that are used for message after message.
const WORDS: usize = 8192;

/// A parking lot that is built.
struct Lot<'a>(StructBuilder<'a>);

impl<'a> FromPointerBuilder<'a> for Lot<'a> {
    fn init_pointer(builder: PointerBuilder<'a>, _size: u32) -> Self {
        Lot(builder.init_struct(LOT))
    }

    fn get_from_pointer(builder: PointerBuilder<'a>, default: Option<&'a [Word]>) -> Result<Self> {
        Ok(Lot(builder.get_struct(LOT, default)?))
    }
}

/// A parking lot that is read.
struct LotReader<'a>(StructReader<'a>);

impl<'a> FromPointerReader<'a> for LotReader<'a> {
    fn get_from_pointer(reader: &PointerReader<'a>, default: Option<&'a [Word]>) -> Result<Self> {
        Ok(LotReader(reader.get_struct(default)?))
    }
}

fn fill(car: StructBuilder, i: u32) {
    car.reborrow_field(0).set_text(MAKES[(i % 5) as usize]);
    car.reborrow_field(1).set_text(MODELS[(i % 7) as usize]);
    car.set_data_field::<u16>(0, (i % 9) as u16);
    car.set_data_field::<u8>(2, (2 + i % 6) as u8);
    car.set_data_field::<u8>(3, (2 + i % 3) as u8);
    let mut wheels = car.reborrow_field(2).init_struct_list(4, PART);
    for k in 0..4 {
        let wheel = wheels.reborrow().get_struct_element(k);
        wheel.set_data_field::<u16>(0, (25 + i % 15) as u16);
        wheel.set_data_field::<u32>(1, 30 + (i + k) % 20);
        wheel.set_bool_field(16, i % 16 == 0);
    }
    car.set_data_field::<u16>(2, (170 + i % 150) as u16);
    car.set_data_field::<u16>(3, (48 + i % 36) as u16);
    car.set_data_field::<u16>(4, (54 + i % 48) as u16);
    car.set_data_field::<u32>(3, 7 * i);
    let engine = car.reborrow_field(3).init_struct(PART);
    engine.set_data_field::<u16>(0, (100 * (i % 400)) as u16);
    engine.set_data_field::<u8>(2, (4 + 2 * (i % 3)) as u8);
    engine.set_data_field::<u32>(1, 800 + i % 10000);
    engine.set_bool_field(24, true);
    engine.set_bool_field(25, i % 2 != 0);
    car.set_data_field::<u32>(4, 100 + i % 300);
    car.set_data_field::<u32>(5, i % 100);
    car.set_bool_field(80, i % 2 != 0);
    car.set_bool_field(81, i % 3 == 0);
    car.set_bool_field(82, i % 4 == 0);
    car.set_data_field::<u8>(11, (i % 12) as u8);
    car.set_bool_field(83, i % 5 == 0);
}

/// The pointer of a struct, as generated code's `reborrow` gets it.
trait Field<'a> {
    fn reborrow_field(&self, index: usize) -> PointerBuilder<'a>;
}

impl<'a> Field<'a> for StructBuilder<'a> {
    fn reborrow_field(&self, index: usize) -> PointerBuilder<'a> {
        (*self).get_pointer_field(index)
    }
}

fn sum_of(car: StructReader) -> Result<u64> {
    let mut sum = (car.get_pointer_field(0).get_text(None)?.len() + car.get_pointer_field(1).get_text(None)?.len()) as u64;
    sum += car.get_data_field::<u16>(0) as u64 + car.get_data_field::<u8>(2) as u64 + car.get_data_field::<u8>(3) as u64;
    let wheels = car.get_pointer_field(2).get_list(ElementSize::InlineComposite, None)?;
    for k in 0..wheels.len() {
        let wheel = wheels.get_struct_element(k);
        sum += wheel.get_data_field::<u16>(0) as u64 + wheel.get_data_field::<u32>(1) as u64;
        sum += wheel.get_bool_field(16) as u64;
    }
    sum += car.get_data_field::<u16>(2) as u64 + car.get_data_field::<u16>(3) as u64;
    sum += car.get_data_field::<u16>(4) as u64 + car.get_data_field::<u32>(3) as u64;
    let engine = car.get_pointer_field(3).get_struct(None)?;
    sum += engine.get_data_field::<u16>(0) as u64 + engine.get_data_field::<u8>(2) as u64;
    sum += engine.get_data_field::<u32>(1) as u64;
    sum += engine.get_bool_field(24) as u64 + engine.get_bool_field(25) as u64;
    sum += car.get_data_field::<u32>(4) as u64 + car.get_data_field::<u32>(5) as u64 + car.get_data_field::<u8>(11) as u64;
    for bit in 80..84 {
        sum += car.get_bool_field(bit) as u64;
    }
    Ok(sum)
}

fn build<A: capnp::message::Allocator>(message: &mut Builder<A>, count: u32) {
    let lot = message.init_root::<Lot>();
    let mut cars = lot.0.get_pointer_field(0).init_struct_list(count, CAR);
    for i in 0..count {
        fill(cars.reborrow().get_struct_element(i), i);
    }
}

fn main() -> Result<()> {
    let words: Vec<String> = std::env::args().collect();
    let (count, rounds): (u32, u32) = (words[2].parse().unwrap(), words[3].parse().unwrap());
    let (mut scratch, mut written, mut sum) = (Word::allocate_zeroed_vec(WORDS), Vec::with_capacity(1 << 22), 0u64);
    let mut memory = ScratchSpaceHeapAllocator::new(Word::words_to_bytes_mut(&mut scratch));
    if words[1] == "read" {
        let mut message = Builder::new(&mut memory);
        build(&mut message, count);
        let segments = message.get_segments_for_output();
        for _ in 0..rounds {
            let mut options = ReaderOptions::new();
            options.traversal_limit_in_words(None);
            let array = SegmentArray::new(&segments);
            assert!(array.get_segment(0).is_some());
            let reader = Reader::new(array, options);
            let cars = reader.get_root::<LotReader>()?.0.get_pointer_field(0).get_list(ElementSize::InlineComposite, None)?;
            for i in 0..cars.len() {
                sum += sum_of(cars.get_struct_element(i))?;
            }
        }
    } else {
        for _ in 0..rounds {
            let mut message = Builder::new(&mut memory);
            build(&mut message, count);
            if words[1] == "write" {
                written.clear();
                serialize::write_message(&mut written, &message)?;
                sum += written.len() as u64;
            }
        }
    }
    println!("{sum}");
    Ok(())
}
