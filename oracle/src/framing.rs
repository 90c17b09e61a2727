//! Varints and single frames.
use crate::coding::{same, written};
use crate::library::{self, Parts, Reply, DIRT};
use crate::refusal::refusal_of;
use crate::subject::{Class, Desk, Seen};
use fjord_wire::frame::{self, FrameHeader, FrameKind, StreamId};
use fjord_wire::{varint as leb128, WireError};

/// The class of what the original says, and the parts that the library must answer.
fn expected<T>(said: &Result<T, WireError>, parts: impl FnOnce(&T) -> Parts) -> (Class, Parts) {
    match said {
        Ok(value) => (Class::Accepted, parts(value)),
        Err(e) => {
            let refusal = refusal_of(e);
            (
                Class::Refused(refusal[0]),
                Parts {
                    refusal,
                    ..Parts::default()
                },
            )
        }
    }
}

/// A varint is read, and its value written.
pub fn varint(bytes: &[u8], desk: &mut Desk) -> Seen {
    let said = leb128::get_u64(bytes);
    let (class, parts) = expected(&said, |(value, used)| Parts {
        used: *used as u64,
        fields: [*value, 0, 0, 0, 0, 0],
        ..Parts::default()
    });
    let read = same(Reply::of(&parts), library::get_u64(bytes), || "read".into());
    let both = read.and_then(|()| said.map_or(Ok(()), |(value, _)| varint_written(value, desk)));
    (class, both)
}

fn varint_written(value: u64, desk: &mut Desk) -> Result<(), String> {
    let mut want = Vec::new();
    leb128::put_u64(&mut want, value);
    if leb128::len_u64(value) != want.len() {
        return Err(format!(
            "the original's length of {value} is not what it writes"
        ));
    }
    for room in [want.len(), want.len() - 1, want.len() + 3] {
        desk.out.lend(room, DIRT[room % 2]);
        let reply = library::put_u64(value, &mut desk.out);
        written(&want, reply, &desk.out).map_err(|how| format!("{value} written {how}"))?;
    }
    Ok(())
}

fn head(h: &FrameHeader) -> [u64; 3] {
    [
        u64::from(h.kind.0),
        u64::from(h.stream.0),
        u64::from(h.length),
    ]
}

pub fn header(bytes: &[u8]) -> Seen {
    let said = frame::decode_header(bytes);
    let (class, parts) = expected(&said, |h| Parts {
        head: head(h),
        ..Parts::default()
    });
    (
        class,
        same(Reply::of(&parts), library::decode_header(bytes), || {
            "read".into()
        }),
    )
}

/// A frame is read, and written again.
pub fn frame(bytes: &[u8], desk: &mut Desk) -> Seen {
    let said = frame::decode_frame(bytes);
    let (class, parts) = expected(&said, |(h, _, used)| Parts {
        used: *used as u64,
        head: head(h),
        ..Parts::default()
    });
    let read = same(Reply::of(&parts), library::decode_frame(bytes), || {
        "read".into()
    });
    let both = read.and_then(|()| match said {
        Ok((h, payload, _)) => frame_written(h.kind.0, h.stream.0, payload, desk),
        Err(_) => Ok(()),
    });
    (class, both)
}

/// A frame of this payload, in rooms as needed, one short and larger; over the maximum both refuse.
pub fn frame_written(kind: u8, stream: u32, payload: &[u8], desk: &mut Desk) -> Result<(), String> {
    let mut want = Vec::new();
    let said = frame::encode_frame(&mut want, FrameKind(kind), StreamId(stream), payload);
    let whole = frame::HEADER_LEN + payload.len();
    for room in [whole, whole - 1, whole + 5] {
        desk.out.lend(room, DIRT[room % 2]);
        let reply = library::encode_frame(kind, stream, payload, &mut desk.out);
        match &said {
            Ok(()) => written(&want, reply, &desk.out)?,
            Err(e) => {
                same(Reply::refused(refusal_of(e)), reply, || "written".into())?;
                if !desk.out.is_kept() {
                    return Err("refused, and out was written".into());
                }
            }
        }
    }
    Ok(())
}
