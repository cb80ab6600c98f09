//! Answers rows of values on the Rust crate `pagable`: for each line `TYPE read HEX ..` or `blob weigh BLOB ..` that it
//! reads, it prints a line for each input, as docs/PROOFS.md says (Rows), with every value shown. A refusal that has no
//! number here is printed as the original tells it. `tools/original_rows.py` puts this file among the examples of a copy
//! of that crate, builds it there, and compares.

use std::collections::{BTreeMap, BTreeSet, HashMap};
use std::io::stdin;
use std::path::PathBuf;
use std::sync::OnceLock;
use std::sync::atomic::{AtomicI64, Ordering};
use std::time::Duration;

use indexmap::{IndexMap, IndexSet};
use pagable::context::{PagableDeserializerImpl, PagableSerializerImpl};
use pagable::oracle_access::{Mode, set_mode};
use pagable::storage::data::{DataKey, PagableData};
use pagable::storage::handle::PagableStorageHandle;
use pagable::storage::in_memory::InMemoryPagableStorage;
use pagable::traits::{PagableDeserialize, PagableDeserializer, PagableSerialize};
use regex::Regex;
use smallvec::SmallVec;

type Json = serde_json::Value;
type PhantomData = std::marker::PhantomData<u8>;

/// What stands in the text of a refusal, and its number in rows. An array's reader loses its item's cause.
const REFUSALS: [(&str, u32); 6] = [
    ("Hit the end of buffer", 1),
    ("varint that didn't terminate", 2),
    ("bool that wasn't 0 or 1", 3),
    ("invalid utf-8", 4),
    ("invalid serde_json::Value case", 8),
    ("invalid regex", 11),
];

/// A value that rows show: numbers and flags as they are printed, texts in quotes, and what holds others by these.
trait Show {
    fn show(&self) -> String;
}

macro_rules! shows_as_printed {
    ($($type:ty),+) => { $(impl Show for $type { fn show(&self) -> String { self.to_string() } })+ };
}
shows_as_printed!(u8, u16, u32, u64, u128, usize, i8, i16, i32, i64, i128, bool, Json);

/// A text in quotes, with a number for a quote, a stroke and what isn't printed.
fn quoted(text: &str) -> String {
    let is_plain = |sign: char| !sign.is_control() && sign != '"' && sign != '\\';
    let shown = |sign| if is_plain(sign) { sign.to_string() } else { format!("\\u{:04x}", sign as u32) };
    format!("\"{}\"", text.chars().map(shown).collect::<String>())
}

macro_rules! shows_as_text {
    ($($type:ty, $value:ident => $text:expr);+) => {
        $(impl Show for $type { fn show(&self) -> String { let $value = self; quoted($text) } })+
    };
}
shows_as_text!(String, text => text; Box<str>, text => text; char, sign => &sign.to_string();
    PathBuf, path => path.to_str().expect("UTF-8"); Regex, regex => regex.as_str());

impl Show for () {
    fn show(&self) -> String {
        "()".into()
    }
}

impl Show for PhantomData {
    fn show(&self) -> String {
        "()".into()
    }
}

impl Show for Duration {
    fn show(&self) -> String {
        format!("{} s {} ns", self.as_secs(), self.subsec_nanos())
    }
}

impl Show for AtomicI64 {
    fn show(&self) -> String {
        self.load(Ordering::SeqCst).to_string()
    }
}

impl<T: Show> Show for Box<T> {
    fn show(&self) -> String {
        (**self).show()
    }
}

fn optional<T: Show>(value: Option<&T>) -> String {
    value.map_or("none".into(), |value| format!("some {}", value.show()))
}

impl<T: Show> Show for Option<T> {
    fn show(&self) -> String {
        optional(self.as_ref())
    }
}

impl<T: Show> Show for OnceLock<T> {
    fn show(&self) -> String {
        optional(self.get())
    }
}

impl<T: Show, X: Show> Show for Result<T, X> {
    fn show(&self) -> String {
        match self {
            Ok(value) => format!("ok {}", value.show()),
            Err(value) => format!("err {}", value.show()),
        }
    }
}

macro_rules! shows_parts {
    ($($name:ident $place:tt),+) => {
        impl<$($name: Show),+> Show for ($($name,)+) {
            fn show(&self) -> String { format!("({})", [$(self.$place.show()),+].join(", ")) }
        }
    };
}
shows_parts!(A 0, B 1);
shows_parts!(A 0, B 1, C 2);
shows_parts!(A 0, B 1, C 2, D 3);
shows_parts!(A 0, B 1, C 2, D 3, F 4);

fn joined(texts: impl Iterator<Item = String>) -> String {
    texts.collect::<Vec<String>>().join(", ")
}

macro_rules! shows_items {
    ($([$($bounds:tt)*] $type:ty, $form:literal);+) => {
        $(impl<T: Show, $($bounds)*> Show for $type {
            fn show(&self) -> String { format!($form, joined(self.iter().map(Show::show))) }
        })+
    };
}
shows_items!([] Vec<T>, "[{}]"; [] Box<[T]>, "[{}]"; [const N: usize] [T; N], "[{}]"; [] BTreeSet<T>, "{{{}}}";
    [] IndexSet<T>, "{{{}}}");

impl Show for SmallVec<[String; 4]> {
    fn show(&self) -> String {
        format!("[{}]", joined(self.iter().map(Show::show)))
    }
}

fn entry<K: Show, V: Show>((key, value): (&K, &V)) -> String {
    format!("{}: {}", key.show(), value.show())
}

impl<K: Show, V: Show> Show for BTreeMap<K, V> {
    fn show(&self) -> String {
        format!("{{{}}}", joined(self.iter().map(entry)))
    }
}

impl<K: Show, V: Show> Show for IndexMap<K, V> {
    fn show(&self) -> String {
        format!("{{{}}}", joined(self.iter().map(entry)))
    }
}

/// A hash map's entries are shown in the order of their texts.
impl<K: Show, V: Show> Show for HashMap<K, V> {
    fn show(&self) -> String {
        let entries: BTreeSet<String> = self.iter().map(entry).collect();
        format!("{{{}}}", joined(entries.into_iter()))
    }
}

fn refused(cause: &anyhow::Error) -> String {
    let text = format!("{cause:#}");
    match REFUSALS.iter().find(|(part, _)| text.contains(part)) {
        Some((_, number)) if !text.contains("Failed to deserialize array") => format!("refused {number}"),
        _ => format!("refused by the original: {}", text.replace('\n', " ")),
    }
}

fn bytes_of(hex: &str) -> Vec<u8> {
    let digits = hex.trim_start_matches('-');
    (0..digits.len() / 2).map(|at| u8::from_str_radix(&digits[2 * at..2 * at + 2], 16).expect("hex")).collect()
}

fn hex_of(bytes: &[u8]) -> String {
    if bytes.is_empty() { "-".into() } else { bytes.iter().map(|byte| format!("{byte:02x}")).collect() }
}

/// Reads a value at the front of the input, and counts the bytes that were read.
fn read<T: for<'a> PagableDeserialize<'a>>(input: &[u8]) -> anyhow::Result<(T, usize)> {
    let storage = InMemoryPagableStorage::new();
    let handle = PagableStorageHandle::new(storage.handle());
    let mut source = PagableDeserializerImpl::new(input, &[], &handle);
    let value = T::pagable_deserialize(&mut source)?;
    Ok((value, PagableDeserializer::position(&source).byte_pos))
}

fn written<T: PagableSerialize + ?Sized>(value: &T) -> Vec<u8> {
    let mut out = PagableSerializerImpl::testing_new();
    value.pagable_serialize(&mut out).expect("a value that was read is written");
    out.finish().expect("what was written is there").data
}

/// Writes a hash map, and then what it wrote in the order of the keys.
fn written_in_order(map: &HashMap<String, i32>) -> Vec<u8> {
    let (ordered, _) = read::<BTreeMap<String, i32>>(&written(map)).expect("a map that was written is read");
    written(&ordered)
}

/// Reads a value, writes it again in this way, and tells of both.
fn answer_by<T>(input: &[u8], write: impl Fn(&T) -> Vec<u8>) -> String
where
    T: Show + for<'a> PagableDeserialize<'a>,
{
    match read::<T>(input) {
        Err(cause) => refused(&cause),
        Ok((value, count)) => {
            let bytes = write(&value);
            let other = if bytes == input[..count] { String::new() } else { format!(" {}", hex_of(&bytes)) };
            format!("ok {count}{other} = {}", value.show())
        }
    }
}

/// Returns the answer for the one of these types that has the name.
macro_rules! answer_for {
    ($name:expr, $input:expr; $($type:ty),+ $(,)?) => {
        $(if stringify!($type).replace(' ', "") == $name {
            return answer_by::<$type>($input, |value| written(value));
        })+
    };
}

/// Reads an input as the type of this name, and writes the value again.
fn answer(name: &str, input: &[u8]) -> String {
    match name {
        "&[i32]" => return answer_by::<Vec<i32>>(input, |list| written(&list.as_slice())),
        "[i32]" => return answer_by::<Vec<i32>>(input, |list| written(list.as_slice())),
        "HashMap<String,i32>" => return answer_by(input, written_in_order),
        _ => (),
    }
    answer_for!(name, input; (), bool, char, PhantomData, u8, u16, u32, u64, u128, usize, i8, i16, i32, i64, i128);
    answer_for!(name, input; String, Box<str>, PathBuf, Duration, AtomicI64, OnceLock<u16>, Regex, Json, Box<u16>);
    answer_for!(name, input; Option<u8>, Option<Option<i32>>, Result<String, String>, (bool, String), (u8, u16, i32));
    answer_for!(name, input; (u8, String, Vec<u64>, Option<i8>), (u128, i128, char, bool, ()), [u16; 2], [String; 3]);
    answer_for!(name, input; Vec<()>, Vec<u8>, Vec<i32>, Vec<u64>, Vec<String>, Box<[u32]>, SmallVec<[String; 4]>);
    answer_for!(name, input; BTreeMap<(u8, bool), Vec<String>>, IndexMap<String, u8>, BTreeSet<i16>, IndexSet<u64>);
    answer_for!(name, input; IndexMap<String, BTreeSet<Option<i8>>>);
    format!("no type {name}")
}

/// The key of a blob, which stands as its bytes and behind a colon the keys of its children.
fn key_of(blob: &str) -> String {
    let (data, keys) = blob.split_once(':').unwrap_or((blob, ""));
    let keys = keys.split(',').filter(|key| !key.is_empty());
    let arcs = keys.map(|key| DataKey(key.parse().expect("a key"))).collect();
    PagableData { data: bytes_of(data), arcs }.compute_key().0.to_string()
}

fn main() {
    set_mode(Mode::Weigh);
    for line in stdin().lines() {
        let line = line.expect("a line of text");
        let words: Vec<&str> = line.split(' ').collect();
        match words.as_slice() {
            ["blob", "weigh", blobs @ ..] => blobs.iter().for_each(|blob| println!("{}", key_of(blob))),
            [name, "read", inputs @ ..] => inputs.iter().for_each(|hex| println!("{}", answer(name, &bytes_of(hex)))),
            _ => panic!("no such row: {line}"),
        }
    }
}
