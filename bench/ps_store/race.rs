//! Ten million look-ups in Rust's own `HashMap`, with a key of the same form as the store's: a name of
//! at most 127 bytes held in itself, compared and hashed by its bytes, or a number, or a truth value.
use std::collections::HashMap;
use std::hash::{Hash, Hasher};
use std::hint::black_box;
use std::time::Instant;

#[derive(Clone, Copy)]
struct Name {
    len: u8,
    text: [u8; 127],
}

impl Name {
    fn of(bytes: &[u8]) -> Name {
        let mut text = [0; 127];
        text[..bytes.len()].copy_from_slice(bytes);
        Name { len: bytes.len() as u8, text }
    }

    fn bytes(&self) -> &[u8] {
        &self.text[..self.len as usize]
    }
}

#[derive(Clone, Copy)]
#[allow(dead_code)]
enum Key {
    Named(Name),
    Real(i64),
    Truth(bool),
}

impl PartialEq for Key {
    fn eq(&self, other: &Key) -> bool {
        match (self, other) {
            (Key::Named(a), Key::Named(b)) => a.bytes() == b.bytes(),
            (Key::Real(a), Key::Real(b)) => a == b,
            (Key::Truth(a), Key::Truth(b)) => a == b,
            _ => false,
        }
    }
}

impl Eq for Key {}

impl Hash for Key {
    fn hash<H: Hasher>(&self, state: &mut H) {
        match self {
            Key::Named(name) => name.bytes().hash(state),
            Key::Real(raw) => raw.hash(state),
            Key::Truth(b) => b.hash(state),
        }
    }
}

fn main() {
    let keys: Vec<Key> = (0..1000)
        .map(|n| Key::Named(Name::of(format!("name{n:03}").as_bytes())))
        .collect();
    let map: HashMap<Key, [u64; 17]> = keys.iter().map(|key| (*key, [0; 17])).collect();
    let start = Instant::now();
    let mut found = 0;
    for _ in 0..10_000 {
        for key in &keys {
            found += black_box(&map).get(black_box(key)).is_some() as u32;
        }
    }
    println!("{} ms in Rust's own map, {found} found", start.elapsed().as_millis());
}
