//! Both ends of the figures that the gateway lives by, with real bytes.
use fjord_gateway::{
    decode, decode_frame, decode_header, encode_frame, DescKind, Draft, KindTable, Memory, Message, MessageKind,
    PredicateShape, Receiver, Refusal, Shape,
};

const MAX: usize = 67_108_864;

#[test]
fn a_fetch_of_4096_ids_is_the_largest() {
    let ids: Vec<u64> = (0..4097u64).map(|i| (i % 900) << 40 | i).collect();
    for n in [0, 1, 4095, 4096] {
        let payload = Draft::fetch(None, &ids[..n]).to_vec().unwrap();
        let mut memory = Memory::new(0, n, 0);
        let message = decode(MessageKind::Fetch, &payload, memory.lend()).unwrap();
        assert_eq!(message, Message::Fetch { digest: None, ids: &ids[..n] });
        if n > 0 {
            let short = decode(MessageKind::Fetch, &payload, Memory::new(0, n - 1, 0).lend()).unwrap_err();
            assert_eq!(short, Refusal { number: 16, a: 2, b: n as u64 });
        }
    }
    let refusal = Refusal { number: 12, a: 4097, b: 4096 };
    assert_eq!(Draft::fetch(None, &ids).to_vec(), Err(refusal));
    assert_eq!(decode(MessageKind::Fetch, &[0, 0x81, 0x20], Memory::new(0, 9, 0).lend()), Err(refusal));
}

/// A payload whose bytes tell their places apart.
fn payload(len: usize) -> Vec<u8> {
    (0..len).map(|i| (i ^ i >> 8 ^ i >> 16) as u8).collect()
}

#[test]
fn a_frame_of_64_mib_is_the_longest() {
    let long = payload(MAX + 1);
    let mut out = vec![9; MAX + 10];
    assert_eq!(encode_frame(b'D', 1, &long, &mut out), Err(Refusal { number: 12, a: MAX as u64 + 1, b: MAX as u64 }));
    assert_eq!(out, vec![9; MAX + 10]);
    for len in [0, 1, MAX - 1, MAX] {
        let used = encode_frame(b'D', 1, &long[..len], &mut out).unwrap();
        assert_eq!(used, 9 + len);
        assert!(out[used..].iter().all(|b| *b == 0));
        let (header, read, end) = decode_frame(&out).unwrap();
        assert_eq!((header.length as usize, end), (len, used));
        assert_eq!(read, &long[..len]);
        // whole, and in pieces of an odd length
        for size in [used, 1_048_573] {
            let (mut hold, mut memory) = (vec![9; len], Memory::new(len, 1, 1));
            let mut receiver = Receiver::open(&KindTable::opaque(), &mut hold);
            let mut frames = 0;
            for mut piece in out[..used].chunks(size) {
                while let Some(frame) = receiver.next(&mut piece, memory.lend()).unwrap() {
                    assert_eq!(frame.message, Ok(Message::Opaque { payload: &long[..len] }));
                    frames += 1;
                }
            }
            assert_eq!((frames, receiver.held()), (1, 0));
        }
        // a hold one byte short
        if len > 0 {
            let mut hold = vec![0; len - 1];
            let mut receiver = Receiver::open(&KindTable::opaque(), &mut hold);
            let stop = receiver.next(&mut &out[..used], Memory::new(len, 0, 0).lend()).unwrap_err();
            assert_eq!(stop, Refusal { number: 16, a: 4, b: len as u64 });
        }
    }
    let header = [b'D', 1, 0, 0, 0, 1, 0, 0, 4];
    let refusal = Refusal { number: 12, a: MAX as u64 + 1, b: MAX as u64 };
    assert_eq!(decode_header(&header), Err(refusal));
    let mut hold = vec![0; MAX + 1];
    let mut receiver = Receiver::open(&KindTable::opaque(), &mut hold);
    let mut piece = header.as_slice();
    assert_eq!(receiver.next(&mut piece, Memory::new(0, 0, 0).lend()), Err(refusal));
    assert_eq!((piece.len(), receiver.stopped()), (0, Some(refusal)));
}

#[test]
fn a_payload_over_64_mib_is_refused_before_it_is_read() {
    let long = vec![0xFF; MAX + 1];
    let refusal = Refusal { number: 12, a: MAX as u64 + 1, b: MAX as u64 };
    for number in 1..=12 {
        let kind = MessageKind::from_number(number).unwrap();
        assert_eq!(decode(kind, &long, Memory::new(0, 0, 0).lend()), Err(refusal), "{kind:?}");
    }
    // an error's text of just the maximum, and its bytes after the text are ignored
    let mut most = vec![b'a'; MAX];
    most[..5].copy_from_slice(&[1, 0xF8, 0xFF, 0xFF, 0x1F]);
    let mut memory = Memory::new(MAX, 0, 0);
    let Ok(Message::Error { text, .. }) = decode(MessageKind::Error, &most, memory.lend()) else { panic!() };
    assert_eq!(text.len(), MAX - 8);
}

#[test]
fn nine_hundred_types_come_back() {
    let names: Vec<String> = (0..900).map(|i| format!("ward.Predicate{i}")).collect();
    let dose = Shape::Record(vec![
        ("drug".into(), Shape::Fact(7)),
        ("amount".into(), Shape::Record(vec![("value".into(), Shape::Int), ("unit".into(), Shape::String)])),
        ("route".into(), Shape::Union(vec![("oral".into(), 0, Shape::Bytes), ("line".into(), 1, Shape::Int)])),
    ]);
    let types = names.iter().enumerate().map(|(i, name)| PredicateShape {
        id: i as u32,
        name,
        is_virtual: i % 9 == 0,
        key: dose.clone(),
        value: (i % 2 == 0).then_some(Shape::String),
    });
    let payload = Draft::types(types).to_vec().unwrap();
    let mut memory = Memory::for_payload(payload.len());
    let message = decode(MessageKind::Types, &payload, memory.lend()).unwrap();
    assert_eq!(Draft::from(&message).to_vec().unwrap(), payload);
    let Message::Types { types } = message else { panic!() };
    assert_eq!(types.len(), 900);
    for (i, t) in types.enumerate() {
        assert_eq!((t.id, t.name, t.is_virtual), (i as u32, names[i].as_str(), i % 9 == 0));
        assert_eq!(Shape::from(t.key), dose);
        assert_eq!(t.value.map(|v| v.kind()), (i % 2 == 0).then_some(DescKind::String));
    }
}
