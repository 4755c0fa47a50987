//! The calls as a user of the crate has them: document 01's worked frames, every kind of event, refusals, and lent memory.
use bogtassel::{
    is_written, read, read_into, size, write, write_into, Event, EventList, Order, Refusal, LARGEST_FRAME,
};
use Event::*;

const LITTLE: Order = Order::Little;

fn events<'f>(signature: &str, frame: &'f [u8]) -> Result<Vec<Event<'f>>, Refusal> {
    Ok(read(signature, LITTLE, 0, frame)?.events().collect())
}

fn written(signature: &str, order: Order, events: &[Event]) -> Result<Vec<u8>, Refusal> {
    write(signature, order, &events.iter().copied().collect())
}

#[test]
fn worked_frames_are_read() {
    let readings = [0xd7, 0, 0, 0, 2, 2, 4];
    assert_eq!(
        events("amn", &readings),
        Ok(vec![Array, Present, Int16(215), Nothing, Present, Int16(0), Close])
    );
    assert_eq!(
        events("amn", &[0, 0, 0]),
        Ok(vec![Array, Nothing, Nothing, Nothing, Close])
    );
    assert_eq!(events("(ymn)", &[7, 0]), Ok(vec![Structure, Byte(7), Nothing, Close]));
    assert_eq!(
        events("a{sy}", &[0x6b, 0, 9, 2, 4]),
        Ok(vec![Dictionary, Text("k"), Byte(9), Close])
    );
    assert_eq!(
        events("v", &[7, 0, 0, 0, 0, 0x75]),
        Ok(vec![Variant, Signature("u"), Uint32(7), Close])
    );
    assert_eq!(events("ms", b"a\0\0"), Ok(vec![Present, Text("a")]));
    assert_eq!(events("s", b""), Ok(vec![Text("")]));
    assert_eq!(
        size("amn", LITTLE, 0, &readings).map(|size| (size.used, size.events)),
        Ok((7, 7))
    );
    assert_eq!(read("as", LITTLE, 0, &[1]).map(|reading| reading.used()), Ok(0));
}

#[test]
fn refusals_have_their_numbers() {
    let deep = |letter: &str, count: usize| letter.repeat(count) + "y";
    let structures = "(".repeat(33) + "y" + &")".repeat(33);
    let cases: [(&str, &[u8], Refusal, u8); 12] = [
        ("()", &[0], Refusal::Type, 1),
        ("ay", &[0; LARGEST_FRAME + 1], Refusal::Limits, 2),
        ("as", &[2], Refusal::Bounds, 3),
        ("(ymn)", &[7, 1], Refusal::Padding, 4),
        ("s", b"a\0b", Refusal::Nul, 5),
        ("s", b"\xff\0", Refusal::Utf8, 6),
        ("ms", &[0x61, 0, 1], Refusal::Maybe, 7),
        ("v", b"u", Refusal::Separator, 8),
        ("v", b"\0\0)", Refusal::VariantType, 9),
        (&structures, &[5], Refusal::StructureDepth, 10),
        (
            &deep("a", 33),
            &std::array::from_fn::<u8, 32, _>(|i| i as u8),
            Refusal::ArrayDepth,
            11,
        ),
        (
            &deep("m", 65),
            &std::array::from_fn::<u8, 65, _>(|i| if i == 0 { 5 } else { 0 }),
            Refusal::Depth,
            12,
        ),
    ];
    for (signature, frame, refusal, number) in cases {
        assert_eq!(size(signature, LITTLE, 0, frame), Err(refusal));
        assert_eq!(events(signature, frame), Err(refusal));
        assert_eq!(is_written(signature, LITTLE, frame), Err(refusal));
        assert_eq!((refusal.number(), Refusal::of(number)), (number, Some(refusal)));
    }
    assert_eq!(size("y", LITTLE, LARGEST_FRAME + 1, &[0]), Err(Refusal::Limits));
    assert_eq!([0, 14, 18, 255].map(Refusal::of), [None; 4]);
}

#[test]
fn a_refusal_is_an_error_that_says_what_it_means() {
    let error: Box<dyn std::error::Error> = Box::new(Refusal::Room);
    assert_eq!(
        error.to_string(),
        "the lent room is too small for the whole answer (refusal 13)"
    );
}

#[test]
fn numbers_come_in_their_own_types() {
    let numbers = [
        ("b", Bool(true)),
        ("y", Byte(255)),
        ("n", Int16(-300)),
        ("q", Uint16(65_535)),
        ("i", Int32(i32::MIN)),
        ("u", Uint32(u32::MAX)),
        ("x", Int64(-1)),
        ("t", Uint64(u64::MAX)),
        ("d", Double(-1.5)),
        ("o", Path("/not a path")),
        ("g", Signature("any text")),
        ("s", Text("é€😀")),
    ];
    for order in [Order::Little, Order::Big] {
        for (signature, event) in numbers {
            let frame = written(signature, order, &[event]).expect("one value");
            assert_eq!(
                read(signature, order, 0, &frame)
                    .expect("what was written")
                    .events()
                    .collect::<Vec<_>>(),
                [event]
            );
            assert_eq!(is_written(signature, order, &frame), Ok(()));
        }
    }
    assert_eq!(written("n", Order::Big, &[Int16(-300)]), Ok(vec![0xfe, 0xd4]));
}

#[test]
fn what_is_read_writes_the_same_frame() {
    let signature = "(a{sv}asmxay)";
    let value = [
        Structure,
        Dictionary,
        Text("k"),
        Variant,
        Signature("(ns)"),
        Structure,
        Int16(-1),
        Text("inner"),
        Close,
        Close,
        Close,
        Array,
        Text(""),
        Text("kk"),
        Close,
        Present,
        Int64(i64::MIN),
        Array,
        Byte(1),
        Byte(2),
        Close,
        Close,
    ];
    let frame = written(signature, LITTLE, &value).expect("a value");
    let reading = read(signature, LITTLE, 0, &frame).expect("what was written");
    assert_eq!((reading.events().len(), reading.used()), (value.len(), frame.len()));
    assert_eq!(
        write(signature, LITTLE, &reading.into_iter().collect()),
        Ok(frame.clone())
    );
    assert_eq!(is_written(signature, LITTLE, &frame), Ok(()));
}

#[test]
fn texts_outlive_the_reading() {
    let frame = *b"kept\0";
    let text = match read("s", LITTLE, 0, &frame).expect("a text").events().next() {
        Some(Text(text)) => text,
        other => panic!("{other:?}"),
    };
    assert_eq!((text, text.as_ptr()), ("kept", frame.as_ptr()));
}

#[test]
fn lent_room_is_as_it_was_behind_the_answer_and_where_it_is_refused() {
    let frame = [0xd7, 0, 0, 0, 2, 2, 4];
    let mut room = [u64::MAX; 23];
    let (used, found) = read_into("amn", LITTLE, 0, &frame, &mut room).expect("room for seven events");
    assert_eq!((used, found.len()), (7, 7));
    assert_eq!(room[21..], [u64::MAX; 2]);
    let mut small = [u64::MAX; 20];
    assert_eq!(
        read_into("amn", LITTLE, 0, &frame, &mut small).map(|_| ()),
        Err(Refusal::Room)
    );
    assert_eq!(small, [u64::MAX; 20]);
    assert_eq!(
        read_into("amn", LITTLE, 0, &frame, &mut []).map(|_| ()),
        Err(Refusal::Room)
    );

    let three: EventList = [Array, Nothing, Nothing, Nothing, Close].into_iter().collect();
    let mut out = [0xa5; 5];
    assert_eq!(write_into("amn", LITTLE, &three, &mut out), Ok(3));
    assert_eq!(out, [0, 0, 0, 0xa5, 0xa5]);
    assert_eq!(write_into("amn", LITTLE, &three, &mut out[3..]), Err(Refusal::Room));
    assert_eq!(out, [0, 0, 0, 0xa5, 0xa5]);
}

#[test]
fn events_that_spell_no_value_are_refused() {
    assert_eq!(written("n", LITTLE, &[Uint16(1)]), Err(Refusal::Value));
    assert_eq!(written("n", LITTLE, &[]), Err(Refusal::Value));
    assert_eq!(written("ay", LITTLE, &[Array, Byte(1)]), Err(Refusal::Value));
    assert_eq!(written("y", LITTLE, &[Byte(1), Byte(1)]), Err(Refusal::Value));
    assert_eq!(written("s", LITTLE, &[Text("a\0")]), Err(Refusal::Nul));
    assert_eq!(
        written("v", LITTLE, &[Variant, Signature("yy"), Byte(1), Close]),
        Err(Refusal::VariantType)
    );
    assert_eq!(
        written("s", LITTLE, &[Text(&"a".repeat(LARGEST_FRAME))]),
        Err(Refusal::Limits)
    );
    assert_eq!(
        written("s", LITTLE, &[Text(&"a".repeat(LARGEST_FRAME - 1))]).map(|frame| frame.len()),
        Ok(LARGEST_FRAME)
    );
    assert_eq!(is_written("b", LITTLE, &[2]), Err(Refusal::NotWritten));
}

#[test]
fn calls_run_in_threads_at_once() {
    let frame = [0xd7, 0, 0, 0, 2, 2, 4];
    std::thread::scope(|scope| {
        for _ in 0..4 {
            scope.spawn(|| (0..200).for_each(|_| assert_eq!(events("amn", &frame).map(|found| found.len()), Ok(7))));
        }
    });
}
