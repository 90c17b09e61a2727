//! Messages of realistic sizes, with the original's decoder and encoder of each.
use fjord_gateway::{Claim, ControlOp, ControlReply, Draft, ErrorCode, Mode, PredicateShape, Shape, Step};
use fjord_wire::protocol as original;
use std::hint::black_box;

/// An encoder of the original, over its own message.
type Encode = Box<dyn Fn() -> Vec<u8>>;

pub struct Sample {
    pub name: &'static str,
    pub number: u64,
    pub kind: u8,
    pub payload: Vec<u8>,
    pub decode: fn(&[u8]),
    pub encode: fn(&[u8]) -> Encode,
}

macro_rules! sample {
    ($name:literal, $number:literal, $kind:literal, $draft:expr, $decode:ident, |$m:ident| $encode:expr) => {
        Sample {
            name: $name,
            number: $number,
            kind: $kind,
            payload: $draft.to_vec().expect("a sample is a message"),
            decode: |bytes| {
                black_box(original::$decode(bytes).is_ok());
            },
            encode: |bytes| {
                let $m = original::$decode(bytes).expect("a sample is a message");
                Box::new(move || $encode)
            },
        }
    };
}

fn names(prefix: &str, count: usize) -> Vec<String> {
    (0..count).map(|i| format!("{prefix}{i}")).collect()
}

/// A prescription's dose: nested records and a union.
fn dose() -> Shape {
    let amount = Shape::Record(vec![("value".into(), Shape::Int), ("unit".into(), Shape::String)]);
    Shape::Record(vec![
        ("drug".into(), Shape::Fact(7)),
        ("amount".into(), amount),
        ("route".into(), Shape::Union(vec![("oral".into(), 0, Shape::Bytes), ("line".into(), 1, Shape::Int)])),
    ])
}

pub fn samples() -> Vec<Sample> {
    let claims = names("ward.prescription.Predicate", 27);
    let claims = claims.iter().map(|name| Claim { name, fingerprint: 0x9E37_79B9_7F4A_7C15 });
    let predicates = names("ward.prescription.Predicate", 900);
    let types = predicates.iter().enumerate().map(|(i, name)| PredicateShape {
        id: i as u32,
        name,
        is_virtual: i % 30 == 0,
        key: dose(),
        value: (i % 2 == 0).then_some(Shape::String),
    });
    let labels = names("scan ward.prescription.Predicate by drug ", 64);
    let steps =
        labels.iter().enumerate().map(|(i, label)| Step { label, examined: i as u64 * 1000, full_scan: i % 9 == 0 });
    let ids: Vec<u64> = (0..4096u64).map(|i| ((i % 27) << 40) | (i * 37)).collect();
    let text = "The database \"ward-7\" is open for writing in another session. ".repeat(17);
    let query = "D where ward.prescription.Dose { drug: D, amount: { unit: \"mg\" } }; ".repeat(61);
    vec![
        sample!(
            "startup, 27 claims",
            1,
            b'S',
            Draft::startup(4, "ward-7", Mode::ReadWrite, 1 << 63, claims),
            decode_startup,
            |m| original::encode_startup(&m)
        ),
        sample!("ready", 2, b'R', Draft::ready(4, 1 << 63, 900), decode_ready, |m| original::encode_ready(&m)),
        sample!("error, 1 KiB", 3, b'E', Draft::error(ErrorCode::InUse, &text[..1022]), decode_error, |m| {
            original::encode_error(m.0, &m.1)
        }),
        sample!("complete", 4, b'C', Draft::complete(4096, 1 << 40), decode_complete, |m| original::encode_complete(
            m.0, m.1
        )),
        sample!("ids, 4,096", 5, b'i', Draft::ids(&ids), decode_ids, |m| original::encode_ids(&m)),
        sample!("types, 900 predicates", 6, b'y', Draft::types(types), decode_types, |m| original::encode_types(&m)),
        sample!("control", 7, b'L', Draft::control(ControlOp::Create, "ward-7", false, &query), decode_control, |m| {
            original::encode_control(&m)
        }),
        sample!(
            "control reply",
            8,
            b'M',
            Draft::reply(ControlReply::Finished {
                fingerprint: 1 << 63,
                facts: 1 << 30,
                bytes: 1 << 40,
                already_complete: false
            }),
            decode_control_reply,
            |m| original::encode_control_reply(&m)
        ),
        sample!("profile, 64 steps", 9, b'p', Draft::profile(steps), decode_profile, |m| original::encode_profile(&m)),
        sample!("page, 4 KiB query", 10, b'G', Draft::page(500, &[0xA5; 40], &query[..4096]), decode_page, |m| {
            original::encode_page(&m)
        }),
        sample!("fetch, 4,096 ids", 11, b'F', Draft::fetch(Some(1 << 63), &ids), decode_fetch, |m| {
            original::encode_fetch(&m.0, m.1)
        }),
        sample!("listing digest", 12, b'l', Draft::listing_digest(7, 1 << 63), decode_listing_digest, |m| {
            original::encode_listing_digest(m.0, m.1)
        }),
    ]
}
