//! The rows of tools/speed on the Rust crate `pagable`, with keys by SHA-256: `speed ROW COUNT RUNS [FILE]` does the same by that crate's own calls, reads
//! the value that stands in FILE and writes it again where the row is one of values, and prints the least times in the same form.
//! `tools/compare_speed.py` puts this file among the examples of a copy of that crate, builds it there, and makes the files.

use std::collections::BTreeMap;
use std::hint::black_box;
use std::sync::Arc;
use std::time::{Duration, Instant};

use dashmap::DashMap;
use indexmap::IndexMap;
use pagable::context::{PagableDeserializerImpl, PagableSerializerImpl};
use pagable::arc_erase::ArcEraseDyn;
use pagable::oracle_access::{Mode, key, set_mode};
use pagable::storage::handle::PagableStorageHandle;
use pagable::storage::in_memory::InMemoryPagableStorage;
use pagable::storage::support::SerializerForPaging;
use pagable::traits::{PagableDeserialize, PagableSerialize};
use pagable::{PagableArc, PinnedPagableArc};

/// The parts of a row, with the time that each took.
type Parts = Vec<(&'static str, Duration)>;

/// What is paged out as items: their bytes and references.
type Items = Vec<(Vec<u8>, Vec<Box<dyn ArcEraseDyn>>)>;

/// What is made, and how long that took.
fn timed<T>(make: impl FnOnce() -> T) -> (T, Duration) {
    let start = Instant::now();
    let made = black_box(make());
    (made, start.elapsed())
}

fn read<T: for<'a> PagableDeserialize<'a>>(form: &[u8]) -> T {
    let storage = InMemoryPagableStorage::new();
    let handle = PagableStorageHandle::new(storage.handle());
    let mut source = PagableDeserializerImpl::new(form, &[], &handle);
    T::pagable_deserialize(&mut source).unwrap()
}

/// The value that is read has to be written alike.
fn codec<T: PagableSerialize + for<'a> PagableDeserialize<'a>>(form: &[u8]) -> Parts {
    let (value, read) = timed(|| read::<T>(form));
    let (bytes, write) = timed(|| {
        let mut out = PagableSerializerImpl::testing_new();
        value.pagable_serialize(&mut out).unwrap();
        out.finish().unwrap().data
    });
    assert!(bytes == form, "another form is written");
    vec![("read", read), ("write", write)]
}

/// A node, written as the rows' own: a byte, references to values of its own type, and to texts.
#[derive(Default, pagable::Pagable)]
struct Node {
    tag: u8,
    shared: Vec<Arc<Node>>,
    loose: Vec<PagableArc<Node>>,
    pinned: Vec<PinnedPagableArc<String>>,
    loose_names: Vec<PagableArc<String>>,
    names: Vec<Arc<String>>,
}

/// The root of a tree of so many levels, each of at most 2 to the power of `most` nodes: each node gets the two below it, from its place on, and a text of
/// its own.
fn tree<T: Clone>(tree: usize, levels: usize, most: usize, mut node: impl FnMut(Vec<T>, Arc<String>) -> T) -> T {
    let mut below: Vec<T> = Vec::new();
    for level in (0..levels).rev() {
        let lower: &Vec<T> = &below;
        let kids = |place: usize| (0..2).filter_map(move |next| lower.get((2 * place + next) % lower.len().max(1)).cloned()).collect();
        let name = |place| Arc::new(format!("tree {tree} level {level} node {place}"));
        below = (0..1 << usize::min(level, most)).map(|place| node(kids(place), name(place))).collect();
    }
    below.remove(0)
}

/// A pager without cells.
struct Filling {
    storage: InMemoryPagableStorage,
    handle: PagableStorageHandle,
}

impl Filling {
    fn new() -> Filling {
        let storage = InMemoryPagableStorage::new();
        let handle = PagableStorageHandle::new(storage.handle());
        Filling { storage, handle }
    }

    /// A cell that is pinned.
    fn cell<T: pagable::Pagable>(&self, value: T) -> PagableArc<T> {
        PagableArc::new(value, self.handle.clone())
    }

    /// A cell that waits for its page-out.
    fn listed<T: pagable::Pagable>(&self, value: T) -> PagableArc<T> {
        let cell = self.cell(value);
        cell.unpin();
        cell
    }

    fn texts(&self, count: usize) -> Vec<Arc<String>> {
        (0..count).map(|number| Arc::new(format!("shared text number {number}"))).collect()
    }

    /// The root of a tree whose nodes refer to each other by shared references.
    fn shared_tree(&self, number: usize, levels: usize, most: usize) -> PagableArc<Node> {
        let root = tree(number, levels, most, |shared, name| Arc::new(Node { shared, names: vec![name], ..Node::default() }));
        self.listed(Arc::into_inner(root).unwrap())
    }

    /// The first of a chain of so many cells, of which only that one waits for its page-out.
    fn chain(&self, count: usize) -> PagableArc<Node> {
        let mut loose = Vec::new();
        for number in 0..count {
            let names = vec![Arc::new(format!("chain text number {number}"))];
            loose = vec![self.cell(Node { loose, names, ..Node::default() })];
        }
        let first = loose.remove(0);
        first.unpin();
        first
    }

    /// Page-out of the cells that wait, and the time of their loads.
    fn out_and_in<T: pagable::Pagable>(&mut self, cells: Vec<PagableArc<T>>) -> Parts {
        let (_, out) = timed(|| self.storage.page_out_pending());
        let (_pins, back) = timed(|| cells.iter().map(|cell| cell.pin_sync().unwrap()).collect::<Vec<_>>());
        vec![("out", out), ("in", back)]
    }

    /// Page-out of items on one table, and the time in which their keys are read.
    fn items(&self, items: Vec<Vec<Arc<String>>>) -> Parts {
        let store = self.storage.handle();
        let context = store.session_context();
        let written = self.written(items);
        let table = DashMap::new();
        let paged_out = |(data, arcs)| store.page_out_item(data, arcs, &table, context).unwrap_or_else(|_| panic!("an item isn't paged out"));
        let (keys, out) = timed(|| written.into_iter().map(paged_out).collect::<Vec<_>>());
        let (_, back) = timed(|| {
            for key in &keys {
                let data = store.fetch_data_blocking(key).unwrap();
                let mut source = PagableDeserializerImpl::new(&data.data, &data.arcs, &self.handle);
                black_box(Vec::<Arc<String>>::pagable_deserialize(&mut source).unwrap());
            }
        });
        vec![("out", out), ("in", back)]
    }

    /// Lists of eight drawn references each, to 2,000 texts.
    fn drawn_items(&self, count: usize) -> Vec<Vec<Arc<String>>> {
        let texts = self.texts(2_000);
        let mut state = 8u64;
        let mut draw = || {
            state = state.wrapping_add(0x9E37_79B9_7F4A_7C15);
            let mut mixed = state;
            mixed = (mixed ^ (mixed >> 30)).wrapping_mul(0xBF58_476D_1CE4_E5B9);
            mixed = (mixed ^ (mixed >> 27)).wrapping_mul(0x94D0_49BB_1331_11EB);
            ((mixed ^ (mixed >> 31)) % 2_000) as usize
        };
        (0..count).map(|_| (0..8).map(|_| texts[draw()].clone()).collect()).collect()
    }

    /// Cells are made; each is cloned, the clone unpinned, pinned and released, in an order that jumps.
    fn calls(&self, count: usize) -> Parts {
        let jump = |place: &mut usize| {
            *place = (*place + 7_919) % count;
            *place
        };
        let text = |number| self.cell(format!("the text of cell number {number}"));
        let (cells, make) = timed(|| (0..count).map(text).collect::<Vec<_>>());
        let mut place = 0;
        let (mut copies, clone) = timed(|| (0..count).map(|_| Some(cells[jump(&mut place)].clone())).collect::<Vec<_>>());
        let turned = |copy: &PagableArc<String>| {
            copy.unpin();
            copy.pin_sync().unwrap()
        };
        let (_pins, turn) = timed(|| copies.iter().flatten().map(turned).collect::<Vec<_>>());
        let (_, release) = timed(|| (0..count).for_each(|_| drop(copies[jump(&mut place)].take())));
        vec![("make", make), ("clone", clone), ("unpin_and_pin", turn), ("release", release)]
    }
}

/// The numbers from 0 on, dealt out to so many threads.
fn dealt<T>(threads: usize, list: Vec<T>) -> Vec<Vec<T>> {
    let mut hands: Vec<Vec<T>> = (0..threads).map(|_| Vec::new()).collect();
    for (place, one) in list.into_iter().enumerate() {
        hands[place % threads].push(one);
    }
    hands
}

/// What each thread makes of its hand, all at once. A pin asks for the runtime.
fn at_once<T: Send, R: Send>(hands: Vec<T>, work: impl Fn(T) -> R + Sync) -> Vec<R> {
    let (work, runtime) = (&work, &tokio::runtime::Handle::current());
    let inside = |hand| move || {
        let _inside = runtime.enter();
        work(hand)
    };
    std::thread::scope(|scope| {
        let threads: Vec<_> = hands.into_iter().map(|hand| scope.spawn(inside(hand))).collect();
        threads.into_iter().map(|thread| thread.join().unwrap()).collect()
    })
}

impl Filling {
    /// Each thread clones its cells' handles, has the clones let their pins go, pins them, and lets pins and clones go.
    fn locked_calls(&self, count: usize, threads: usize) -> Parts {
        let text = |number| self.cell(format!("the text of cell number {number}"));
        let cells = dealt(threads, (0..count).map(text).collect());
        let (clones, clone) = timed(|| at_once(cells.iter().collect(), |own: &Vec<PagableArc<String>>| own.to_vec()));
        let (_, unpin) = timed(|| at_once(clones.iter().collect(), |own: &Vec<PagableArc<String>>| own.iter().for_each(PagableArc::unpin)));
        let pinned = |own: &Vec<PagableArc<String>>| own.iter().map(|cell| cell.pin_sync().unwrap()).collect::<Vec<_>>();
        let (pins, pin) = timed(|| at_once(clones.iter().collect(), pinned));
        let held: Vec<_> = pins.into_iter().zip(clones).collect();
        let (_, release) = timed(|| at_once(held, drop));
        vec![("clone", clone), ("unpin", unpin), ("pin", pin), ("release", release)]
    }

    /// One thread pages out the list, since the call takes the storage for itself, and then each pins its own cells.
    fn locked_cells(&mut self, count: usize, threads: usize) -> (Parts, u128) {
        let text = |number| self.listed(format!("the text of cell number {number}"));
        let cells = dealt(threads, (0..count).map(text).collect());
        let (_, out) = timed(|| self.storage.page_out_pending());
        let pinned = |own: &Vec<PagableArc<String>>| own.iter().map(|cell| cell.pin_sync().unwrap()).collect::<Vec<_>>();
        let (_pins, back) = timed(|| at_once(cells.iter().collect(), pinned));
        let keys = cells.iter().flatten().map(|cell| key(cell));
        (vec![("out", out), ("in", back)], keys.map(|key| key.unwrap().0).fold(0, u128::wrapping_add))
    }

    fn written<T: PagableSerialize>(&self, items: Vec<T>) -> Items {
        let store = self.storage.handle();
        let written = |item: T| {
            let mut serializer = SerializerForPaging::new(store.session_context());
            item.pagable_serialize(&mut serializer).unwrap();
            serializer.finish()
        };
        items.into_iter().map(written).collect()
    }

    /// Workers page out items on one table, item i by worker i modulo how many they are. The claims are the slots of the table.
    fn by_workers(&self, items: Items, workers: usize) -> (Parts, u128) {
        let store = self.storage.handle();
        let context = store.session_context();
        let table = DashMap::new();
        let paged_out = |(data, arcs)| store.page_out_item(data, arcs, &table, context).unwrap_or_else(|_| panic!("an item isn't paged out"));
        let hands = dealt(workers, items);
        let (keys, out) = timed(|| at_once(hands, |hand: Items| hand.into_iter().map(paged_out).collect::<Vec<_>>()));
        let sum = keys.iter().flatten().map(|key| key.0).fold(table.len() as u128, u128::wrapping_add);
        (vec![("out", out)], sum)
    }

    /// So many trees of 319 nodes, each of which an item refers to.
    fn roots(&self, count: usize) -> Vec<Vec<Arc<Node>>> {
        let node = |shared, name| Arc::new(Node { shared, names: vec![name], ..Node::default() });
        (0..count).map(|number| vec![tree(number, 10, 6, node)]).collect()
    }
}

/// A row once, by so many threads, and the sum of what it came to.
fn once_by(row: &str, count: usize, threads: usize) -> (Parts, Option<u128>) {
    let mut filling = Filling::new();
    let (parts, sum) = match row {
        "locked_calls" => return (filling.locked_calls(count, threads), None),
        "locked_cells" => filling.locked_cells(count, threads),
        "worker_items" => filling.by_workers(filling.written(filling.drawn_items(count)), threads),
        "worker_trees" => filling.by_workers(filling.written(filling.roots(count)), threads),
        "worker_texts" => {
            let items = filling.texts(count).chunks(100).map(<[_]>::to_vec).collect();
            filling.by_workers(filling.written(items), threads)
        }
        _ => panic!("no such row: {row}"),
    };
    (parts, Some(sum))
}

/// A chain of shared nodes that is let go. Its drops call each other, so that it gets a stack of its own.
fn falls(count: usize) -> Parts {
    let run = move || {
        let mut shared = Vec::new();
        for _ in 0..count {
            shared = vec![Arc::new(Node { shared, ..Node::default() })];
        }
        vec![("fall", timed(|| drop(shared)).1)]
    };
    std::thread::Builder::new().stack_size(4 << 30).spawn(run).unwrap().join().unwrap()
}

/// A row once. `NAME/THREADS` is the row NAME by so many threads.
fn once(row: &str, count: usize, form: &[u8]) -> (Parts, Option<u128>) {
    match row.split_once('/') {
        Some((name, threads)) => once_by(name, count, threads.parse().unwrap()),
        None => (once_alone(row, count, form), None),
    }
}

fn once_alone(row: &str, count: usize, form: &[u8]) -> Parts {
    let mut filling = Filling::new();
    match row {
        "numbers" => codec::<Vec<u64>>(form),
        "bytes" => codec::<Vec<u8>>(form),
        "texts" => codec::<Vec<String>>(form),
        "maps" => codec::<BTreeMap<u64, BTreeMap<u64, u64>>>(form),
        "ordered" => codec::<IndexMap<String, u32>>(form),
        "cells" => {
            let cells = (0..count).map(|number| filling.listed(format!("the text of cell number {number}"))).collect();
            filling.out_and_in(cells)
        }
        "items" => filling.items(filling.drawn_items(count)),
        "wide_item" => filling.items(vec![filling.texts(count)]),
        "trees" => {
            let cells = (0..count).map(|number| filling.shared_tree(number, 10, 6)).collect();
            filling.out_and_in(cells)
        }
        "cell_trees" => {
            let node = |loose, name| filling.listed(Node { loose, names: vec![name], ..Node::default() });
            let cells = (0..count).map(|number| tree(number, 10, 6, node)).collect();
            filling.out_and_in(cells)
        }
        "tree" => filling.out_and_in(vec![filling.shared_tree(0, count, 40)]),
        "chain" => filling.out_and_in(vec![filling.chain(count)]),
        "wide_shared" => {
            let names = filling.texts(count);
            filling.out_and_in(vec![filling.listed(Node { names, ..Node::default() })])
        }
        "wide_loose" => {
            let loose_names = (0..count).map(|number| filling.cell(format!("loose text number {number}"))).collect();
            filling.out_and_in(vec![filling.listed(Node { loose_names, ..Node::default() })])
        }
        "calls" => filling.calls(count),
        "falls" => falls(count),
        _ => panic!("no such row: {row}"),
    }
}

fn main() {
    set_mode(Mode::Sha256);
    let threads = tokio::runtime::Builder::new_multi_thread().worker_threads(2).build().unwrap();
    let _inside = threads.enter();
    let words: Vec<String> = std::env::args().skip(1).collect();
    let [row, count, runs, file @ ..] = words.as_slice() else {
        eprintln!("usage: speed ROW COUNT RUNS [FILE]");
        std::process::exit(2);
    };
    let form = file.first().map(|file| std::fs::read(file).unwrap()).unwrap_or_default();
    let count = count.parse().unwrap();
    let (mut parts, sum) = once(row, count, &form);
    for _ in 1..runs.parse::<u64>().unwrap() {
        for (part, again) in parts.iter_mut().zip(once(row, count, &form).0) {
            part.1 = part.1.min(again.1);
        }
    }
    let mut told: Vec<String> = parts.iter().map(|(name, least)| format!("{name} {:.6}", least.as_secs_f64())).collect();
    told.extend(sum.map(|sum| format!("sum {sum}")));
    println!("{row} {count} {}", told.join(" "));
}
