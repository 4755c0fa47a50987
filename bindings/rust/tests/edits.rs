//! Edits as a user of the crate has them: document 01's worked edits, numbers of every type, refusals in their order, and what is left of the buffer.
use bogtassel::{edit, is_written, read, Bits, Event, Order, Refusal, LARGEST_FRAME};

const LITTLE: Order = Order::Little;
const READINGS: [u8; 7] = [0xd7, 0, 0, 0, 2, 2, 4];

#[test]
fn worked_edits() {
    let (mut buffer, mut used) = (READINGS, 7);
    assert_eq!(edit("amn", LITTLE, &mut buffer, &mut used, 0, None), Ok(()));
    assert_eq!((buffer, used), ([0, 0, 0, 0, 2, 0, 0], 5));
    assert_eq!(edit("amn", LITTLE, &mut buffer, &mut used, 2, None), Ok(()));
    assert_eq!((buffer, used), ([0, 0, 0, 0, 0, 0, 0], 3));
    assert_eq!(
        edit("amn", LITTLE, &mut buffer, &mut used, 0, Some(Bits::from(215_i16))),
        Ok(())
    );
    assert_eq!(
        edit("amn", LITTLE, &mut buffer, &mut used, 2, Some(Bits::from(0_i16))),
        Ok(())
    );
    assert_eq!((buffer, used), (READINGS, 7));
}

#[test]
fn numbers_of_every_type_are_put() {
    let numbers = [
        ("mb", Bits::from(true), Event::Bool(true)),
        ("my", Bits::from(200_u8), Event::Byte(200)),
        ("mn", Bits::from(-300_i16), Event::Int16(-300)),
        ("mq", Bits::from(65_535_u16), Event::Uint16(65_535)),
        ("mi", Bits::from(i32::MIN), Event::Int32(i32::MIN)),
        ("mu", Bits::from(u32::MAX), Event::Uint32(u32::MAX)),
        ("mx", Bits::from(-1_i64), Event::Int64(-1)),
        ("mt", Bits::from(u64::MAX), Event::Uint64(u64::MAX)),
        ("md", Bits::from(-1.5), Event::Double(-1.5)),
    ];
    for order in [Order::Little, Order::Big] {
        for (signature, bits, event) in numbers {
            let (mut buffer, mut used) = ([0xa5; 9], 0);
            assert_eq!(edit(signature, order, &mut buffer, &mut used, 0, Some(bits)), Ok(()));
            let reading = read(signature, order, 0, &buffer[..used]).expect("what was edited");
            assert_eq!(reading.events().collect::<Vec<_>>(), [Event::Present, event]);
            assert_eq!(
                (is_written(signature, order, &buffer[..used]), buffer[8]),
                (Ok(()), 0xa5)
            );
        }
    }
}

#[test]
fn refusals_leave_buffer_and_used_length() {
    let wide = Some(Bits::from(65_536_u32));
    let one = Some(Bits::from(1_u8));
    let cases: [(&str, usize, usize, Option<Bits>, Refusal); 7] = [
        ("()", 8, 0, None, Refusal::Type),
        ("amn", 8, 0, None, Refusal::Limits),
        ("amn", 1, 9, wide, Refusal::Bounds),
        ("ab", 7, 9, wide, Refusal::NotWritten),
        ("amn", 7, 3, wide, Refusal::NoReading),
        ("amn", 7, 1, wide, Refusal::Value),
        ("amn", 7, 1, one, Refusal::Room),
    ];
    for (signature, length, number, new, refusal) in cases {
        let (mut buffer, mut used) = (READINGS, length);
        assert_eq!(
            edit(signature, LITTLE, &mut buffer, &mut used, number, new),
            Err(refusal),
            "{signature} {length}"
        );
        assert_eq!((buffer, used), (READINGS, length));
    }
}

#[test]
fn a_nothing_inside_64_containers_stays() {
    let signature = "m".repeat(65) + "y";
    let (mut buffer, mut used) = ([0; 80], 64);
    assert_eq!(
        edit(&signature, LITTLE, &mut buffer, &mut used, 0, Some(Bits::from(256_u16))),
        Err(Refusal::Value)
    );
    assert_eq!(
        edit(&signature, LITTLE, &mut buffer, &mut used, 0, Some(Bits::from(5_u8))),
        Err(Refusal::Depth)
    );
    assert_eq!(edit(&signature, LITTLE, &mut buffer, &mut used, 0, None), Ok(()));
    assert_eq!((buffer, used), ([0; 80], 64));
}

#[test]
fn a_new_frame_over_the_limit_is_refused_before_a_small_room() {
    let body = LARGEST_FRAME - 4;
    let mut before = vec![0; LARGEST_FRAME];
    before[body..body + 2].copy_from_slice(&(body as u16).to_le_bytes());
    for new in [Some(Bits::from(1_i16)), Some(Bits::from(-1_i16))] {
        let (mut buffer, mut used) = (before.clone(), body + 2);
        assert_eq!(
            edit("(aymn)", LITTLE, &mut buffer, &mut used, 0, new),
            Err(Refusal::Limits)
        );
        assert_eq!((buffer == before, used), (true, body + 2));
        assert_eq!(edit("(aymn)", LITTLE, &mut buffer, &mut used, 0, None), Ok(()));
        assert_eq!((buffer == before, used), (true, body + 2));
    }
}
