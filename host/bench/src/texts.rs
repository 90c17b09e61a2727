//! The functions below the messages beside Rust's own: the test of UTF-8, copying and clearing. Both sides go over the same memory, since its address matters too.
use crate::{best, Table};
use std::hint::black_box;
use std::slice::from_raw_parts_mut;

extern "C" {
    fn bench_is_utf8(s: *const u8, len: usize) -> bool;
    fn bench_copy(src: *const u8, src_len: usize, dst: *mut u8, dst_len: usize);
    fn bench_clear_bytes(out: *mut u8, len: usize);
    fn bench_clear_numbers(out: *mut u64, len: usize);
}

fn is_utf8(s: &[u8]) -> bool {
    unsafe { bench_is_utf8(s.as_ptr(), s.len()) }
}

fn from_utf8(s: &[u8]) -> bool {
    std::str::from_utf8(s).is_ok()
}

fn copy(src: &[u8], dst: &mut [u8]) {
    unsafe { bench_copy(src.as_ptr(), src.len(), dst.as_mut_ptr(), dst.len()) }
}

fn clear_bytes(out: &mut [u8]) {
    unsafe { bench_clear_bytes(out.as_mut_ptr(), out.len()) }
}

fn clear_numbers(out: &mut [u64]) {
    unsafe { bench_clear_numbers(out.as_mut_ptr(), out.len()) }
}

const ASCII: [&str; 2] = [
    "The quick brown fox jumps over the lazy dog, and then it rests for a while in the long grass.",
    "Every message has a length, a kind and a body; a reader that finds less asks for more.",
];
const PROSE: [&str; 4] = [
    "Die Männer aus dem Dorf gingen früh am Morgen über die Brücke und sprachen über das schöne Wetter.",
    "Il a été décidé que le garçon resterait à la maison pendant l'hiver.",
    "Später saßen sie im Garten und aßen Äpfel.",
    "Cette façon de voir les choses est très répandue en Europe.",
];
const RUSSIAN: [&str; 2] = [
    "Сульфат морфина вводят медленно, а показания насоса сверяют каждый час.",
    "Фармацевт проверяет название и дозу лекарства перед тем, как насос начнёт подачу.",
];
const CHINESE: [&str; 3] = [
    "道可道，非常道；名可名，非常名。",
    "无名，天地之始；有名，万物之母。",
    "學而時習之，不亦說乎？有朋自遠方來，不亦樂乎？",
];
const EMOJI: [&str; 3] =
    ["Great 😀😃😄 work 🎉🎉 today 🚀 ok 👍👍👍", "🍎🍐🍊🍋🍌 fruit 🥝🍅 and 🌍🌎🌏 worlds", "see you 👋 soon 😴"];

/// The sentences over and over, `size` bytes of them, the last ones full stops where no whole character fits.
fn text(sentences: &[&str], size: usize) -> Vec<u8> {
    let mut bytes = Vec::with_capacity(size);
    'all: loop {
        for sentence in sentences {
            for c in sentence.chars().chain([' ']) {
                if bytes.len() + c.len_utf8() > size {
                    break 'all;
                }
                bytes.extend_from_slice(c.encode_utf8(&mut [0; 4]).as_bytes());
            }
        }
    }
    bytes.resize(size, b'.');
    bytes
}

/// Both say the same of each text with one byte changed.
fn compare(s: &[u8]) {
    let mut changed = s.to_vec();
    for i in 0..s.len() {
        for b in
            [0x00, 0x7F, 0x80, 0x8F, 0x90, 0x9F, 0xA0, 0xBF, 0xC1, 0xC2, 0xDF, 0xE0, 0xED, 0xEF, 0xF0, 0xF4, 0xF5, 0xFF]
        {
            changed[i] = b;
            assert_eq!(is_utf8(&changed), from_utf8(&changed));
        }
        changed[i] = s[i];
    }
}

const SIZES: [usize; 3] = [64, 1024, 65536];

pub fn testing(table: &mut Table) {
    let mix: Vec<&str> = [&PROSE[..], &RUSSIAN, &CHINESE, &EMOJI, &ASCII].concat();
    let texts: [(&str, &[&str]); 6] = [
        ("ascii", &ASCII),
        ("prose", &PROSE),
        ("russian", &RUSSIAN),
        ("chinese", &CHINESE),
        ("emoji", &EMOJI),
        ("mix", &mix),
    ];
    for (name, sentences) in texts {
        compare(&text(sentences, 1024));
        for size in SIZES {
            let s = text(sentences, size);
            assert!(is_utf8(&s) && from_utf8(&s));
            let times = best(&mut [
                &mut || {
                    black_box(from_utf8(black_box(&s)));
                },
                &mut || {
                    black_box(is_utf8(black_box(&s)));
                },
            ]);
            table.add(format!("{name}, {size} bytes"), &times);
        }
    }
}

/// Times two stores into the same memory, after each did what it should.
fn storing_in<T: Copy + PartialEq>(
    what: &str,
    memory: &mut [T],
    wanted: &[T],
    dirty: T,
    rust: fn(&mut [T], &[T]),
    own: fn(&mut [T], &[T]),
) -> Vec<f64> {
    for store in [rust, own] {
        memory.fill(dirty);
        store(memory, wanted);
        assert!(memory == wanted, "{what}");
    }
    let (start, len) = (memory.as_mut_ptr(), memory.len());
    // SAFETY: the two sides run in turn, and nothing else uses the memory meanwhile.
    let lent = || unsafe { from_raw_parts_mut(black_box(start), len) };
    best(&mut [&mut || rust(lent(), black_box(wanted)), &mut || own(lent(), black_box(wanted))])
}

pub fn storing(table: &mut Table) {
    for size in SIZES {
        let (source, zeros, no_numbers) = (text(&ASCII, size), vec![0; size], vec![0; size / 8]);
        let (mut bytes, mut numbers) = (vec![0; size], vec![0; size / 8]);
        let times = storing_in("copy", &mut bytes, &source, 0xA5, |m, s| m.copy_from_slice(s), |m, s| copy(s, m));
        table.add(format!("copy, {size} bytes"), &times);
        let times = storing_in("clear bytes", &mut bytes, &zeros, 0xA5, |m, _| m.fill(0), |m, _| clear_bytes(m));
        table.add(format!("clear bytes, {size} bytes"), &times);
        let times =
            storing_in("clear numbers", &mut numbers, &no_numbers, 0xA5, |m, _| m.fill(0), |m, _| clear_numbers(m));
        table.add(format!("clear numbers, {size} bytes"), &times);
    }
}
