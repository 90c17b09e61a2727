//! A message as the original's own types have it: read and written by the original, laid out here.
use crate::form::Form;
use crate::layout::{Layout, NO_NAME};
use fjord_schema::{id::FactId, schema::PredicateId};
use fjord_wire::desc::{self, Desc};
use fjord_wire::protocol::{
    self, Control, ControlReply, ErrorCode, Page, PredicateDesc, QueryProfile, Ready, Startup,
};
use fjord_wire::WireError;

pub enum Said {
    Startup(Startup),
    Ready(Ready),
    Error(ErrorCode, String),
    Complete(u64, u64),
    Ids(Vec<FactId>),
    Types(Vec<PredicateDesc>),
    Control(Control),
    Reply(ControlReply),
    Profile(QueryProfile),
    Page(Page),
    Fetch(Vec<FactId>, Option<u64>),
    ListingDigest(PredicateId, u64),
    /// With the bytes that it took.
    Desc(Desc, usize),
}

impl Said {
    pub fn read(form: Form, bytes: &[u8]) -> Result<Said, WireError> {
        Ok(match form.number() {
            1 => Said::Startup(protocol::decode_startup(bytes)?),
            2 => Said::Ready(protocol::decode_ready(bytes)?),
            3 => protocol::decode_error(bytes).map(|(code, text)| Said::Error(code, text))?,
            4 => protocol::decode_complete(bytes).map(|(a, b)| Said::Complete(a, b))?,
            5 => Said::Ids(protocol::decode_ids(bytes)?),
            6 => Said::Types(protocol::decode_types(bytes)?),
            7 => Said::Control(protocol::decode_control(bytes)?),
            8 => Said::Reply(protocol::decode_control_reply(bytes)?),
            9 => Said::Profile(protocol::decode_profile(bytes)?),
            10 => Said::Page(protocol::decode_page(bytes)?),
            11 => protocol::decode_fetch(bytes).map(|(ids, digest)| Said::Fetch(ids, digest))?,
            12 => protocol::decode_listing_digest(bytes).map(|(p, d)| Said::ListingDigest(p, d))?,
            _ => desc::decode_desc(bytes).map(|(desc, used)| Said::Desc(desc, used))?,
        })
    }

    pub fn write(&self) -> Vec<u8> {
        match self {
            Said::Startup(startup) => protocol::encode_startup(startup),
            Said::Ready(ready) => protocol::encode_ready(ready),
            Said::Error(code, text) => protocol::encode_error(*code, text),
            Said::Complete(first, second) => protocol::encode_complete(*first, *second),
            Said::Ids(ids) => protocol::encode_ids(ids),
            Said::Types(types) => protocol::encode_types(types),
            Said::Control(control) => protocol::encode_control(control),
            Said::Reply(reply) => protocol::encode_control_reply(reply),
            Said::Profile(profile) => protocol::encode_profile(profile),
            Said::Page(page) => protocol::encode_page(page),
            Said::Fetch(ids, digest) => protocol::encode_fetch(ids, *digest),
            Said::ListingDigest(predicate, digest) => {
                protocol::encode_listing_digest(*predicate, *digest)
            }
            Said::Desc(desc, _) => {
                let mut out = Vec::new();
                desc::encode_desc(&mut out, desc);
                out
            }
        }
    }

    /// The bytes used, where the answer gives them.
    pub fn used(&self) -> u64 {
        match self {
            Said::Desc(_, used) => *used as u64,
            _ => 0,
        }
    }

    /// Puts the message into memory, and gives its fields.
    pub fn lay(&self, l: &mut Layout) -> [u64; 6] {
        match self {
            Said::Startup(startup) => lay_startup(startup, l),
            Said::Ready(r) => l.fields(&[u64::from(r.version), r.schema_fingerprint, r.predicates]),
            Said::Error(code, text) => {
                let [start, len] = l.put(text.as_bytes());
                l.fields(&[*code as u64, start, len])
            }
            Said::Complete(first, second) => l.fields(&[*first, *second]),
            Said::Ids(ids) => lay_ids(ids, l),
            Said::Types(types) => lay_types(types, l),
            Said::Control(control) => lay_control(control, l),
            Said::Reply(reply) => lay_reply(reply, l),
            Said::Profile(profile) => lay_profile(profile, l),
            Said::Page(page) => lay_page(page, l),
            Said::Fetch(ids, digest) => lay_fetch(ids, *digest, l),
            Said::ListingDigest(predicate, digest) => l.fields(&[u64::from(predicate.0), *digest]),
            Said::Desc(desc, _) => {
                l.desc(desc, NO_NAME, 0);
                [0; 6]
            }
        }
    }
}

fn lay_startup(startup: &Startup, l: &mut Layout) -> [u64; 6] {
    let [start, len] = l.put(startup.database.as_bytes());
    for (name, fingerprint) in &startup.predicates {
        let [start, len] = l.put(name.as_bytes());
        l.row(&[start, len, *fingerprint]);
    }
    l.fields(&[
        u64::from(startup.version),
        start,
        len,
        u64::from(startup.mode.as_byte()),
        startup.schema_fingerprint,
        startup.predicates.len() as u64,
    ])
}

fn lay_ids(ids: &[FactId], l: &mut Layout) -> [u64; 6] {
    for id in ids {
        l.row(&[id.raw()]);
    }
    l.fields(&[ids.len() as u64])
}

fn lay_types(types: &[PredicateDesc], l: &mut Layout) -> [u64; 6] {
    for t in types {
        let [start, len] = l.put(t.name.as_bytes());
        let key = l.node_count();
        l.desc(&t.key, NO_NAME, 0);
        if let Some(value) = &t.value {
            l.desc(value, NO_NAME, 0);
        }
        let flags = [u64::from(t.is_virtual), u64::from(t.value.is_some())];
        l.row(&[u64::from(t.id.0), start, len, flags[0], flags[1], key]);
    }
    l.fields(&[types.len() as u64])
}

fn lay_control(control: &Control, l: &mut Layout) -> [u64; 6] {
    let database = l.put(control.database.as_bytes());
    let schema = l.put(control.schema.as_bytes());
    let flag = u64::from(control.allow_zero_facts);
    l.fields(&[
        control.op as u64,
        database[0],
        database[1],
        flag,
        schema[0],
        schema[1],
    ])
}

fn lay_reply(reply: &ControlReply, l: &mut Layout) -> [u64; 6] {
    match reply {
        ControlReply::Created { instance } => {
            let [start, len] = l.put(instance.as_bytes());
            l.fields(&[1, start, len])
        }
        ControlReply::Finished {
            fingerprint,
            facts,
            bytes,
            already_complete,
        } => l.fields(&[
            2,
            *fingerprint,
            *facts,
            *bytes,
            u64::from(*already_complete),
        ]),
        ControlReply::Removed => l.fields(&[3]),
    }
}

fn lay_profile(profile: &QueryProfile, l: &mut Layout) -> [u64; 6] {
    for step in &profile.steps {
        let [start, len] = l.put(step.label.as_bytes());
        l.row(&[start, len, step.examined, u64::from(step.full_scan)]);
    }
    l.fields(&[profile.steps.len() as u64])
}

fn lay_page(page: &Page, l: &mut Layout) -> [u64; 6] {
    let cursor = l.put(&page.cursor);
    let query = l.put(page.query.as_bytes());
    l.fields(&[page.limit, cursor[0], cursor[1], query[0], query[1]])
}

fn lay_fetch(ids: &[FactId], digest: Option<u64>, l: &mut Layout) -> [u64; 6] {
    lay_ids(ids, l);
    let value = digest.unwrap_or_else(|| l.unread());
    l.fields(&[u64::from(digest.is_some()), value, ids.len() as u64])
}
