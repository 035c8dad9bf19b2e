//! The oracle: plays a testbench script on the crate and prints the answers that the testbench should give. It answers only inside document
//! 01's port domain; anything else gets a line that begins with `? `, which no comparison lets pass.
mod store;
mod words;

use stacker::fastcmp::fast_short_slice_compare;
use stacker::fastcpy::fast_short_slice_copy;
use stacker::{MemoryArena, address, number};
use std::io::{BufRead, Write};
use store::{Lent, PAGE, Store, is_good, lent_span, place_of};
use words::{Fault, bytes, decimal, decimal32, outside, shown, spaced};

type Said = Result<String, Fault>;

const STATE: &str = "seed words key_bytes list_bytes buckets end keys key_page key_used list_page list_used page_size";

/// A name that both sides take: the port refuses a longer one, and by document 02's Seven the empty one.
fn compared_name(word: &str) -> Result<Vec<u8>, Fault> {
    let name = bytes(word)?;
    if name.is_empty() || name.len() > 65_535 {
        return outside("no name, or a long one");
    }
    Ok(name)
}

/// What is lent, the store on it once it is created, and before that a bare arena on the list pages.
#[derive(Default)]
struct Bench {
    lent: Lent,
    bare: MemoryArena,
    store: Option<Store>,
}

impl Bench {
    fn lend(&mut self, w: &[&str]) -> Said {
        let lent = Lent { words: decimal(w[0])?, key_bytes: decimal(w[1])?, list_bytes: decimal(w[2])? };
        if w[3] != "00" {
            return outside("pages are cleared");
        }
        if !(1..=2).any(|n| n * PAGE == lent.key_bytes) || !(1..=3).any(|n| n * PAGE == lent.list_bytes) {
            return outside("pages are whole");
        }
        if lent.words > 131_072 || lent.words % 2 == 1 {
            return outside("such a table");
        }
        *self = Bench { lent, ..Bench::default() };
        Ok("lent".to_string())
    }

    fn create(&mut self, w: &[&str]) -> Said {
        let capacity = decimal(w[0])?;
        if decimal32(w[1])? != murmurhash32::SEED {
            return outside("another seed");
        }
        if capacity == 0 || self.lent.words / 2 < 1 << capacity.ilog2() {
            return outside("a capacity of 0, or no room for it");
        }
        if self.store.is_some() || !self.bare.is_empty() {
            return outside("the pages aren't cleared any more");
        }
        self.store = Some(Store::create(self.lent, capacity));
        Ok("created".to_string())
    }

    fn store(&self) -> Result<&Store, Fault> {
        self.store.as_ref().ok_or_else(|| "outside the comparison: no store".to_string())
    }

    /// The store, for a name that may be asked for.
    fn asked(&self, word: &str) -> Result<(&Store, Vec<u8>), Fault> {
        let (store, name) = (self.store()?, compared_name(word)?);
        if store.is_full() && !store.is_listed(&name) {
            return outside("here the crate never ends");
        }
        Ok((store, name))
    }

    fn append(&mut self, w: &[&str]) -> Said {
        let (name, added) = (compared_name(w[0])?, bytes(w[1])?);
        let Some(store) = self.store.as_mut() else {
            return outside("no store");
        };
        if !store.append(&name, &added) {
            return outside("no room");
        }
        Ok("accepted".to_string())
    }

    fn lookup(&self, w: &[&str]) -> Said {
        let (store, name) = self.asked(w[0])?;
        Ok(store.lookup(&name).map_or("absent".to_string(), |at| format!("at {at}")))
    }

    fn length(&self, w: &[&str]) -> Said {
        let (store, name) = self.asked(w[0])?;
        Ok(store.get(&name).map_or("absent".to_string(), |list| format!("length {}", store.reading(&list).len())))
    }

    fn read(&self, w: &[&str]) -> Said {
        let (store, name) = self.asked(w[0])?;
        let room = decimal(w[1])?;
        let Some(list) = store.get(&name) else {
            return Ok("absent kept".to_string());
        };
        let got = store.reading(&list);
        if room < got.len() {
            return outside("a short output");
        }
        Ok(format!("reading {} {} kept", got.len(), shown(&got)))
    }

    fn block(&self, w: &[&str]) -> Said {
        let (store, name) = self.asked(w[0])?;
        let index = decimal(w[1])?;
        let Some(list) = store.get(&name) else {
            return Ok("absent".to_string());
        };
        Ok(store.block(&list, index).map_or("no such block".to_string(), |(at, n)| format!("block {at} {n}")))
    }

    fn show(&self, w: &[&str]) -> Said {
        let (store, at, n) = (self.store()?, decimal32(w[0])?, decimal(w[1])?);
        if !is_good(&store.lists, at, n) {
            return outside("no good span");
        }
        Ok(shown(store.lists.slice(address(at), n)))
    }

    fn next(&self, w: &[&str]) -> Said {
        let index = decimal(w[0])?;
        Ok(self.store()?.next(index).map_or("none".to_string(), |(i, at)| format!("bucket {i} {at}")))
    }

    fn count(&self) -> Said {
        Ok(format!("keys {}", self.store()?.key_count()))
    }

    fn state(&self) -> Said {
        let store = self.store()?;
        store.check_listing();
        let told = STATE.split(' ').zip(store.state()).map(|(name, n)| format!(" {name}={n}"));
        Ok(format!("state{}", told.collect::<String>()))
    }

    fn dump(&self, w: &[&str]) -> Said {
        let (at, n) = (decimal(w[1])?, decimal(w[2])?);
        let lent = match w[0] {
            "table" => self.lent.words,
            "keys" => self.lent.key_bytes,
            _ => self.lent.list_bytes,
        };
        if lent < n || lent - n < at {
            return outside("past the end");
        }
        match (w[0], &self.store) {
            ("table", Some(store)) => Ok(spaced(store.table_words(at, n))),
            ("keys", Some(store)) => Ok(shown(&store.key_span(at, n))),
            ("lists", Some(store)) => Ok(shown(&lent_span(&store.lists, at, n))),
            ("lists", None) => Ok(shown(&lent_span(&self.bare, at, n))),
            _ => outside("no such area, or no store"),
        }
    }

    /// The lent areas whole, and the state: all zeros but for the bare arena's pages before a store is created.
    fn areas(&self) -> [Vec<u8>; 4] {
        let lent = self.lent;
        let Some(store) = &self.store else {
            let pages = lent_span(&self.bare, 0, lent.list_bytes);
            return [vec![0; 4 * lent.words], vec![0; lent.key_bytes], pages, vec![0; 8 * STATE.split(' ').count()]];
        };
        store.check_listing();
        let table = store.table_words(0, lent.words).iter().flat_map(|n| n.to_le_bytes()).collect();
        let state = store.state().iter().flat_map(|n| n.to_le_bytes()).collect();
        [table, store.key_span(0, lent.key_bytes), lent_span(&store.lists, 0, lent.list_bytes), state]
    }

    fn sum(&self) -> Said {
        let sums = self.areas().map(|area| format!(" {}", murmurhash32::murmurhash2_with_seed(&area, 0)));
        Ok(format!("sum{}", sums.concat()))
    }
}

/// The bare arena, on the first LENGTH bytes of the list pages: only with the state that its last allocation gave.
impl Bench {
    fn bare(&self, w: &[&str]) -> Result<&MemoryArena, Fault> {
        let (page, used, length) = (decimal(w[0])?, decimal(w[1])?, decimal(w[2])?);
        if self.store.is_some() || place_of(&self.bare) != (page, used) {
            return outside("no bare arena in that state");
        }
        if length > self.lent.list_bytes || length % PAGE != 0 || length < self.bare.mem_usage() {
            return outside("such pages");
        }
        Ok(&self.bare)
    }

    fn allocate(&mut self, w: &[&str]) -> Said {
        self.bare(w)?;
        let (length, n) = (decimal(w[2])?, decimal(w[3])?);
        if n == 0 || n > PAGE {
            return outside("such an allocation");
        }
        let at = number(self.bare.allocate_space(n));
        if self.bare.mem_usage() > length {
            return outside("no room");
        }
        let (page, used) = place_of(&self.bare);
        Ok(format!("at {at} {page} {used}"))
    }

    fn get(&self, w: &[&str]) -> Said {
        let arena = self.bare(w)?;
        let (at, n) = (decimal32(w[3])?, decimal(w[4])?);
        if !is_good(arena, at, n) {
            return outside("no good span");
        }
        let addr = address(at);
        Ok(match n {
            1 => shown(&arena.read::<[u8; 1]>(addr)),
            2 => shown(&arena.read::<u16>(addr).to_le_bytes()),
            4 => shown(&arena.read::<u32>(addr).to_le_bytes()),
            8 => shown(&arena.read::<u64>(addr).to_le_bytes()),
            16 => shown(&arena.read::<[u8; 16]>(addr)),
            _ => shown(arena.slice(addr, n)),
        })
    }

    fn put(&mut self, w: &[&str]) -> Said {
        let (at, written) = (decimal32(w[3])?, bytes(w[4])?);
        if !is_good(self.bare(w)?, at, written.len()) {
            return outside("no good span");
        }
        let addr = address(at);
        match written.len() {
            4 => self.bare.write_at(addr, u32::from_le_bytes(written[..].try_into().unwrap())),
            8 => self.bare.write_at(addr, u64::from_le_bytes(written[..].try_into().unwrap())),
            n => self.bare.slice_mut(addr, n).copy_from_slice(&written),
        }
        Ok("put".to_string())
    }
}

fn hash(w: &[&str]) -> Said {
    Ok(format!("hash {}", murmurhash32::murmurhash2_with_seed(&bytes(w[1])?, decimal32(w[0])?)))
}

fn vint(w: &[&str]) -> Said {
    Ok(format!("vint {}", shown(common::serialize_vint_u32(decimal32(w[0])?, &mut [0; 8]))))
}

fn equal(w: &[&str]) -> Said {
    let alike = fast_short_slice_compare(&bytes(w[0])?, &bytes(w[1])?);
    Ok(if alike { "equal" } else { "different" }.to_string())
}

fn copy(w: &[&str]) -> Said {
    let (from, mut to) = (bytes(w[0])?, bytes(w[1])?);
    if from.len() != to.len() {
        return outside("a copy of unequal lengths");
    }
    fast_short_slice_copy(&from, &mut to);
    Ok(if from == to { "copied" } else { "? copied wrong" }.to_string())
}

fn play(bench: &mut Bench, line: &str) -> Said {
    let words: Vec<&str> = line.split(' ').collect();
    let w = &words[1..];
    match (words[0], w.len()) {
        ("lend", 4) => bench.lend(w),
        ("create", 2) => bench.create(w),
        ("append", 2) => bench.append(w),
        ("lookup", 1) => bench.lookup(w),
        ("length", 1) => bench.length(w),
        ("read", 2) => bench.read(w),
        ("block", 2) => bench.block(w),
        ("show", 2) => bench.show(w),
        ("next", 1) => bench.next(w),
        ("count", 0) => bench.count(),
        ("state", 0) => bench.state(),
        ("dump", 3) => bench.dump(w),
        ("sum", 0) => bench.sum(),
        ("hash", 2) => hash(w),
        ("vint", 1) => vint(w),
        ("equal", 2) => equal(w),
        ("copy", 2) => copy(w),
        ("allocate", 4) => bench.allocate(w),
        ("get", 5) => bench.get(w),
        ("put", 5) => bench.put(w),
        _ => outside("no command that is compared"),
    }
}

fn main() -> std::io::Result<()> {
    let mut out = std::io::BufWriter::new(std::io::stdout().lock());
    let mut bench = Bench::default();
    for line in std::io::stdin().lock().lines() {
        let line = line?;
        if line.is_empty() || line.starts_with('#') {
            continue;
        }
        match play(&mut bench, &line) {
            Ok(said) => writeln!(out, "{said}")?,
            Err(why) => writeln!(out, "? {why}")?,
        }
    }
    out.flush()
}
