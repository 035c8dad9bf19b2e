//! The crate's map, its two arenas and their lists, seen in the forms that document 01 gives them.
use stacker::expull::{self, ExpUnrolledLinkedList};
use stacker::shared_arena_hashmap::{self, SharedArenaHashMap};
use stacker::{Addr, MemoryArena, address, number};

pub const PAGE: usize = 1 << 20;

/// How much the script lent. The crate takes its own memory; these numbers say how it lies in the lent one.
#[derive(Clone, Copy, Default)]
pub struct Lent {
    pub words: usize,
    pub key_bytes: usize,
    pub list_bytes: usize,
}

/// An arena's current page and the bytes used there.
pub fn place_of(arena: &MemoryArena) -> (usize, usize) {
    let page = arena.mem_usage() / PAGE - 1;
    (page, arena.len() - page * PAGE)
}

/// Document 01's good span: the only kind that the comparison asks of the crate, which checks none.
pub fn is_good(arena: &MemoryArena, at: u32, n: usize) -> bool {
    let (page, used) = place_of(arena);
    let (its_page, its_place) = (at as usize / PAGE, at as usize % PAGE);
    let room = if its_page < page { PAGE } else { used };
    its_page <= page && its_place + n <= room
}

/// A span of an arena in lent pages, which were cleared before: pages that the crate hasn't made yet are zeros.
pub fn lent_span(arena: &MemoryArena, at: usize, n: usize) -> Vec<u8> {
    let mut out = Vec::with_capacity(n);
    let mut at = at;
    while out.len() < n {
        let part = (n - out.len()).min(PAGE - at % PAGE);
        if at < arena.mem_usage() {
            out.extend_from_slice(&arena.slice_from(address(at as u32))[..part]);
        } else {
            out.resize(out.len() + part, 0);
        }
        at += part;
    }
    out
}

/// A header in document 01's order.
fn header_bytes(list: &ExpUnrolledLinkedList) -> [u8; 16] {
    let f = expull::fields(list);
    let mut out = [0u8; 16];
    out[0..4].copy_from_slice(&f.block_num.to_le_bytes());
    out[4..8].copy_from_slice(&number(f.head).to_le_bytes());
    out[8..12].copy_from_slice(&number(f.tail).to_le_bytes());
    out[12..14].copy_from_slice(&f.remaining.to_le_bytes());
    out
}

pub struct Store {
    lent: Lent,
    map: SharedArenaHashMap,
    keys: MemoryArena,
    pub lists: MemoryArena,
    /// The lent table: the crate's table at the end where it stands, and what growth left behind.
    words: Vec<u32>,
    back: bool,
}

impl Store {
    pub fn create(lent: Lent, capacity: usize) -> Store {
        let mut store = Store {
            lent,
            map: SharedArenaHashMap::with_capacity(capacity),
            keys: MemoryArena::default(),
            lists: MemoryArena::default(),
            words: vec![0; lent.words],
            back: false,
        };
        store.lay_out();
        store
    }

    pub fn table_len(&self) -> usize {
        self.map.mem_usage() / 8
    }

    pub fn key_count(&self) -> usize {
        self.map.len()
    }

    fn first_word(&self) -> usize {
        if self.back { self.lent.words - 2 * self.table_len() } else { 0 }
    }

    /// Writes the crate's table to the end of the lent one where it stands.
    fn lay_out(&mut self) {
        let first = self.first_word();
        for (i, (addr, hash)) in shared_arena_hashmap::buckets(&self.map).enumerate() {
            self.words[first + 2 * i] = number(addr);
            self.words[first + 2 * i + 1] = hash;
        }
    }

    /// Says whether it stayed within the lent memory. A table that has grown goes to the other end.
    pub fn append(&mut self, name: &[u8], bytes: &[u8]) -> bool {
        let old = self.table_len();
        let lists = &mut self.lists;
        self.map.mutate_or_create(name, &mut self.keys, |standing: Option<ExpUnrolledLinkedList>| {
            let mut list = standing.unwrap_or_default();
            list.writer(lists).extend_from_slice(bytes);
            list
        });
        if self.table_len() != old {
            if self.lent.words < 2 * (old + self.table_len()) {
                return false;
            }
            self.back = !self.back;
        }
        self.lay_out();
        self.keys.mem_usage() <= self.lent.key_bytes && self.lists.mem_usage() <= self.lent.list_bytes
    }

    /// With one bucket and one key the crate's `get` of another name never ends.
    pub fn is_full(&self) -> bool {
        self.key_count() == self.table_len()
    }

    pub fn is_listed(&self, name: &[u8]) -> bool {
        self.map.iter(&self.keys).any(|(key, _)| key == name)
    }

    /// The crate's `get`.
    pub fn get(&self, name: &[u8]) -> Option<ExpUnrolledLinkedList> {
        self.map.get(name, &self.keys)
    }

    /// The place of a name's record. `get` says whether there is one; the listing knows the value's address, behind length and key.
    pub fn lookup(&self, name: &[u8]) -> Option<u32> {
        let got = self.get(name)?;
        let (_, value) = self.map.iter(&self.keys).find(|(key, _)| *key == name).expect("what get finds is listed");
        let standing: ExpUnrolledLinkedList = self.keys.read(value);
        assert_eq!(header_bytes(&got), header_bytes(&standing));
        Some(number(value) - 2 - name.len() as u32)
    }

    pub fn reading(&self, list: &ExpUnrolledLinkedList) -> Vec<u8> {
        let mut out = Vec::new();
        list.read_to_end(&self.lists, &mut out);
        out
    }

    /// Place and written length of block i, by the links that the crate wrote.
    pub fn block(&self, list: &ExpUnrolledLinkedList, i: usize) -> Option<(u32, u32)> {
        let count = expull::block_count(list);
        if i >= count as usize {
            return None;
        }
        let mut at: Addr = expull::fields(list).head;
        for k in 0..i as u32 {
            at = self.lists.read(at.offset(expull::block_room(k)));
        }
        let room = expull::block_room(i as u32);
        let left = if i as u32 + 1 == count { expull::fields(list).remaining as u32 } else { 0 };
        Some((number(at), room - left))
    }

    /// The next occupied bucket from i.
    pub fn next(&self, i: usize) -> Option<(usize, u32)> {
        let numbered = shared_arena_hashmap::buckets(&self.map).enumerate().skip(i);
        numbered.map(|(k, (addr, _))| (k, addr)).find(|(_, addr)| !addr.is_null()).map(|(k, addr)| (k, number(addr)))
    }

    /// The buckets that are seen must be those that the crate's `iter` lists, in its order, under the hash of their key.
    pub fn check_listing(&self) {
        let seen = shared_arena_hashmap::buckets(&self.map).filter(|(addr, _)| !addr.is_null());
        let mut listed = 0;
        for ((addr, hash), (key, value)) in seen.zip(self.map.iter(&self.keys)) {
            assert_eq!(number(addr) + 2 + key.len() as u32, number(value));
            assert_eq!(hash, murmurhash32::murmurhash2(key));
            listed += 1;
        }
        assert_eq!(listed, self.key_count());
    }

    /// The numbers that the state remembers, in the testbench's order; the page size is the one that the crate has.
    pub fn state(&self) -> [u64; 12] {
        let (key_page, key_used) = place_of(&self.keys);
        let (list_page, list_used) = place_of(&self.lists);
        let lent = self.lent;
        let sizes = [lent.words, lent.key_bytes, lent.list_bytes, self.table_len(), self.back as usize, self.key_count()];
        let arenas = [key_page, key_used, list_page, list_used, PAGE];
        let mut out = [murmurhash32::SEED as u64; 12];
        for (i, n) in sizes.iter().chain(&arenas).enumerate() {
            out[i + 1] = *n as u64;
        }
        out
    }

    pub fn table_words(&self, at: usize, n: usize) -> &[u32] {
        &self.words[at..at + n]
    }

    /// A span of the lent key pages. Rust orders a header's fields as it likes, so values are rewritten in document 01's order.
    pub fn key_span(&self, at: usize, n: usize) -> Vec<u8> {
        let mut out = lent_span(&self.keys, at, n);
        for (_, value) in self.map.iter(&self.keys) {
            let place = number(value) as usize;
            if place + 16 <= at || at + n <= place {
                continue;
            }
            let list: ExpUnrolledLinkedList = self.keys.read(value);
            for (i, b) in header_bytes(&list).into_iter().enumerate() {
                if (at..at + n).contains(&(place + i)) {
                    out[place + i - at] = b;
                }
            }
        }
        out
    }
}
