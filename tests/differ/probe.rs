// What check-differ asks of the library crates, which stand before this text as plain Rust: one line for each call, with all memory after it.
// It calls public functions alone. Wrong versions have to differ in some line; lines that begin with `writes` show the order of the writes alone.
use std::cell::RefCell;
use std::fmt::Debug;
use std::io::{BufWriter, Stdout, Write};
use std::panic::{catch_unwind, AssertUnwindSafe};

thread_local! { static OUT: RefCell<BufWriter<Stdout>> = RefCell::new(BufWriter::new(std::io::stdout())); }

const PAGE: u64 = 4096;
const KIB16: u64 = 16384;
const MIB2: u64 = 1 << 21;
const MIB32: u64 = 1 << 25;
const GIB: u64 = 1 << 30;
const TOP: u64 = 1 << 48;
const BASE: u64 = 0x4000_0000;
const MORE: u64 = 0x5000_0000; // where a second region stands

fn line(text: &str) {
    OUT.with(|o| writeln!(o.borrow_mut(), "{text}").unwrap())
}

// The answer of a call, or `panic`.
fn tried<T: Debug>(call: impl FnOnce() -> T) -> String {
    catch_unwind(AssertUnwindSafe(|| format!("{:?}", call()))).unwrap_or("panic".to_string())
}

macro_rules! ask {
    ($of:ident::$name:ident, $($argument:expr),*) => {
        line(&format!("{}::{}{:?} = {}", stringify!($of), stringify!($name), ($($argument,)*), tried(|| $of::$name($($argument),*))))
    };
}

// The same of a method of a tree.
macro_rules! tree {
    ($tree:expr, $name:ident, $($argument:expr),*) => {
        line(&format!("{:?}.{}{:?} = {}", $tree, stringify!($name), ($($argument,)*), tried(|| $tree.$name($($argument),*))))
    };
}

fn tree(granule: u64, base: u64, tables: u16, base2: u64, tables2: u16) -> links::Tree {
    links::Tree { granule, base, tables, base2, tables2 }
}

fn mixed(hash: u64, value: u64) -> u64 {
    let h = (hash ^ value).wrapping_mul(0x9E37_79B9_7F4A_7C15);
    h ^ (h >> 29)
}

fn hash(values: impl Iterator<Item = u64>) -> u64 {
    values.fold(1, mixed)
}

struct Random(u64);

impl Random {
    fn next(&mut self) -> u64 {
        self.0 ^= self.0 << 13;
        self.0 ^= self.0 >> 7;
        self.0 ^= self.0 << 17;
        self.0.wrapping_mul(0x2545_F491_4F6C_DD1D) >> 11
    }

    fn below(&mut self, n: u64) -> u64 {
        self.next() % n
    }

    fn of<T: Copy>(&mut self, choices: &[T]) -> T {
        choices[self.below(choices.len() as u64) as usize]
    }
}

// Numbers at and around the limits of the papers.
fn numbers() -> Vec<u64> {
    let mut all = vec![11, 15, 16, 17, 2048, 1 << 40, (1 << 39) + (2 << 30) + (3 << 21) + (4 << 12) + 5, u64::MAX];
    all.extend(0..6);
    for limit in [64, 512, PAGE, KIB16, MIB2, MIB32, GIB, 1 << 36, 1 << 39, 1 << 47, TOP] {
        all.extend([limit - 1, limit, limit + 1]);
    }
    for size in [PAGE, KIB16, MIB2, MIB32, GIB] {
        all.extend([TOP - size, 0u64.wrapping_sub(size), 3 * size, 512 * size - size]);
    }
    all
}

// The entries of a table, where a number names a granule.
fn entries_with(granule: u64) -> u64 {
    if granule == KIB16 { 2048 } else { 512 }
}

fn one_region(granule: u64, levels: u64, base: u64, tables: u64, free: u64) -> path::Setup {
    path::Setup { levels, base, tables, free, base2: 0, tables2: 0, granule }
}

// Setups with two regions, good ones and bad ones, and what may be added.
fn second_regions(granule: u64) {
    let (page, entries) = (granule, entries_with(granule) as usize);
    for (base, tables) in [(BASE, 2), (BASE, 1), (BASE, 509), (0, 2), (TOP - 2 * page, 2)] {
        for more in [0, 1, 3, 510, 511, 512, 1 << 50, u64::MAX] {
            let (end, bytes) = (base + page * tables, page.wrapping_mul(more));
            let below = base.wrapping_sub(bytes);
            for at in [0, 1, MORE, MORE + 8, MORE + PAGE, end, end.wrapping_sub(page), below, below.wrapping_add(page), base, TOP.wrapping_sub(bytes), TOP, u64::MAX - page + 1] {
                let (words, second, places) = (entries * tables as usize, entries.wrapping_mul(more as usize), tables.wrapping_add(more) as usize);
                ask!(setups::good_numbers, granule, 3, base, tables, at, more, words, second, places);
                for free in [0, tables - 1, tables, (places as u64).wrapping_sub(1), places as u64] {
                    let two = path::Setup { levels: 3, base, tables, free, base2: at, tables2: more, granule };
                    ask!(setups::good_setup, two, words, second, places);
                    ask!(setups::good_adding, one_region(granule, 3, base, tables, free), at, more, words, second, places);
                    ask!(setups::good_adding, two, at, more, words, second, places);
                }
            }
        }
    }
    let (two, three) = (2 * entries, 3 * entries);
    for (words, second, places) in [(two, three, 5), (two - 1, three, 5), (two, three - 1, 5), (two, three + 1, 5), (two, three, 2), (two, three, 6), (three, two, 5), (two, 0, 5)] {
        for levels in [3, 4] {
            ask!(setups::good_numbers, granule, levels, BASE, 2, MORE, 3, words, second, places);
            ask!(setups::good_adding, one_region(granule, levels, BASE, 2, 1), MORE, 3, words, second, places);
        }
    }
    ask!(setups::good_adding, path::Setup { levels: 3, base: BASE, tables: 2, free: 1, base2: MORE, tables2: 0, granule }, MORE, 3, two, three, 5);
}

// Setups with one region, good ones and bad ones.
fn first_regions(granule: u64) {
    let (page, entries) = (granule, entries_with(granule));
    for levels in 0..7 {
        for base in [0, 1, page / 2, PAGE, page, BASE, TOP - 64 * page, TOP - page, TOP, TOP + page, 0u64.wrapping_sub(page), 0u64.wrapping_sub(64 * page)] {
            for tables in [0, 1, 2, 3, 4, 63, 64, 65, 511, 512, 513, 1 << 53, u64::MAX] {
                for words in [entries.wrapping_mul(tables), (entries - 1).wrapping_mul(tables), tables.wrapping_add(1)] {
                    for places in [tables, tables.wrapping_sub(1), levels] {
                        ask!(setups::good_numbers, granule, levels, base, tables, 0, 0, words as usize, 0, places as usize);
                    }
                }
            }
        }
        for tables in [1, 2, 3, 4, 8, 64] {
            for free in [0, 1, 2, 3, 4, 5, 7, 8, 63, 64, u64::MAX] {
                ask!(setups::good_setup, one_region(granule, levels, BASE, tables, free), (entries * tables) as usize, 0, tables as usize);
            }
        }
        ask!(setups::good_setup, one_region(granule, levels, BASE, 2, 1), 2, 0, 1024);
    }
}

// Sizes, spaces and paths.
fn sizes(granule: u64) {
    for n in numbers() {
        for (levels, size) in [(2, 1), (3, 1), (4, 1), (5, 1), (3, PAGE), (4, GIB), (3, 1 << 39), (3, 1 << 47), (4, TOP), (3, TOP), (4, u64::MAX)] {
            ask!(path::in_space, granule, levels, n, size);
        }
        for (base, tables) in [(BASE, 0), (BASE, 1), (BASE, 64), (0, 2), (TOP - PAGE, 1), (u64::MAX - 4095, 9), (GIB + PAGE, u64::MAX)] {
            for size in [0, PAGE, MIB2, GIB, u64::MAX] {
                for frame in [n, base.wrapping_sub(size), base.wrapping_sub(1), base, base.wrapping_add(granule.wrapping_mul(tables))] {
                    ask!(setups::meets_region, granule, base, tables, frame, size);
                    ask!(setups::meets_area, granule, base, tables, 0, 0, frame, size);
                    ask!(setups::meets_area, granule, 3 * GIB, 2, base, tables, frame, size);
                }
            }
        }
        ask!(path::good_levels, granule, n);
        ask!(indices::size_at, granule, n as usize);
        ask!(indices::bits_at, granule, n as usize);
        ask!(path::height_of, granule, n);
        ask!(indices::path_of, granule, n);
        ask!(path::pages_in, granule, n);
        ask!(path::table_of, granule, n);
        ask!(path::index_in, granule, n);
        for height in [0, 1, 2, 3, 4, 5, usize::MAX] {
            ask!(indices::index_at, granule, n, height);
            ask!(indices::base_at, granule, n, height);
            ask!(indices::rest_at, granule, n, height);
        }
    }
    for p in [[0, 0, 0, 0], [1, 2, 3, 4], [511, 0, 511, 1], [65535, 65535, 65535, 65535], [0, 0, 1, 0], [0, 1, 0, 0]] {
        ask!(indices::address_of, granule, p);
    }
}

fn paths() {
    ask!(path::no_setup,);
    for free in [0, 1, 7, u64::MAX] {
        ask!(path::with_free, path::Setup { levels: 3, base: BASE, tables: 5, free: 2, base2: MORE, tables2: 7, granule: KIB16 }, free);
    }
    for n in numbers().into_iter().chain([8192, 1 << 16]) {
        ask!(path::good_granule, n);
        ask!(path::page_of, n);
        ask!(path::entries_of, n);
        ask!(path::large_of, n);
        ask!(setups::good_setup, one_region(n, 3, BASE, 2, 1), 1024, 0, 2);
        ask!(setups::good_setup, one_region(n, 3, BASE, 2, 1), 4096, 0, 2);
        ask!(setups::good_adding, one_region(n, 3, BASE, 2, 1), MORE, 3, 1024, 1536, 5);
    }
    for granule in [PAGE, KIB16] {
        second_regions(granule);
        first_regions(granule);
        sizes(granule);
    }
}

// Words of frames and tables, and words one bit or a little beside them.
fn words_to_read() -> Vec<u64> {
    let mut all = vec![BASE + 1, BASE + 3, BASE + PAGE * 2 + 3, BASE + 512 + 3, BASE + PAGE + 4, BASE + PAGE - 1 + 3, TOP + 3];
    all.extend(numbers());
    for c in [0, 1, 2, 3, 4, 63, 64, 65] {
        all.extend([BASE + PAGE * c + 3, PAGE * c + 3, MORE + PAGE * c + 3, MORE - PAGE + 3, BASE + KIB16 * c + 3, MORE + KIB16 * c + 3]);
    }
    for attributes in 0..17 {
        for (base, size) in [(0, PAGE), (PAGE * 5, PAGE), (KIB16 * 5, KIB16), (MIB2, MIB2), (MIB32, MIB32), (GIB, GIB), (TOP - PAGE, PAGE), (TOP - GIB, GIB)] {
            all.push(oakabut::oak_frame_word(base, size, attributes));
        }
    }
    for (size, attributes) in [(PAGE, 0), (PAGE, 7), (KIB16, 5), (MIB2, 9), (MIB32, 3), (GIB, 14)] {
        for bit in 0..64 {
            all.push(oakabut::oak_frame_word(GIB, size, attributes) ^ (1 << bit));
        }
    }
    all
}

fn entries() {
    for n in numbers() {
        ask!(host::attr_word, n);
        for c in [0, 1, 2, 63, 64, u32::MAX] {
            for tables in [1, 2, 64, 512] {
                for granule in [PAGE, KIB16] {
                    tree!(tree(granule, n, tables, MORE, 0), table_word, c);
                }
            }
        }
        for size in [0, 1, PAGE, KIB16, 1 << 16, MIB2, MIB32, GIB, 1 << 36, 1 << 39, TOP] {
            for attributes in [0, 1, 5, 8, 15, 16, 17, u64::MAX] {
                ask!(host::frame_word, n, size, attributes);
                ask!(oakabut::oak_frame_word, n, size, attributes);
            }
        }
    }
    for attributes in 0..18 {
        ask!(host::attr_word, attributes);
    }
    for base in [0, PAGE, BASE, TOP - PAGE, TOP] {
        for height in [0, 1, 2, 3] {
            for attributes in [0, 1, 2, 4, 8, 15] {
                ask!(entry::word_of, base, height, attributes);
            }
        }
    }
    for w in words_to_read() {
        for size in [PAGE, KIB16, MIB2, MIB32, GIB, 1 << 36, 1 << 39, 0] {
            ask!(host::word_meaning, w, size);
            ask!(oakabut::oak_word_meaning, w, size);
        }
        for height in [0, 1, 2, 3, 4] {
            ask!(entry::is_frame, w, height);
            ask!(entry::base_in, w);
        }
        for granule in [PAGE, KIB16] {
            for (base, tables) in [(BASE, 4), (0, 64), (BASE, 1), (TOP + PAGE, 8)] {
                tree!(tree(granule, base, tables, 0, 0), child_in, w);
                tree!(tree(granule, MORE, 3, base, tables), child_in, w);
                tree!(tree(granule, base, tables, base.wrapping_add(granule * tables as u64), 2), child_in, w);
            }
            for height in [0, 1, 2, 3, 4] {
                ask!(entry::frame_at, granule, w, height);
                for (base, tables) in [(BASE, 1), (BASE, 3), (BASE, 64), (0, 2), (TOP - PAGE, 4), (u64::MAX, u16::MAX)] {
                    tree!(tree(granule, base, tables, 0, 0), read_word, w, height);
                    tree!(tree(granule, MORE, 2, base, tables), read_word, w, height);
                }
            }
        }
    }
}

// The order of the writes of the calls since the last time, to these words of both runs and this list.
fn writes(words: &[u64], second: &[u64], list: &[u32]) -> u64 {
    let (w, v, l) = (words.as_ptr() as usize, second.as_ptr() as usize, list.as_ptr() as usize);
    WRITES.with(|made| {
        hash(made.borrow_mut().drain(..).flat_map(|(address, value)| {
            if (w..w + 8 * words.len()).contains(&address) {
                [1, ((address - w) / 8) as u64, value]
            } else if (v..v + 8 * second.len()).contains(&address) {
                [3, ((address - v) / 8) as u64, value]
            } else if (l..l + 4 * list.len()).contains(&address) {
                [2, ((address - l) / 4) as u64, value]
            } else {
                [0, 0, 0]
            }
        }))
    })
}

// Says a call that may write, with the memory after it.
fn told(what: &str, answer: String, words: &[u64], list: &[u32]) {
    told_two(what, answer, words, &[], list)
}

// The same of a call that is lent two runs of words.
fn told_two(what: &str, answer: String, words: &[u64], second: &[u64], list: &[u32]) {
    let (w, v) = (hash(words.iter().copied()), hash(second.iter().copied()));
    let l = hash(list.iter().map(|&t| t as u64));
    line(&format!("{what} = {answer} {w:x} {v:x} {l:x}"));
    line(&format!("writes {what} = {:x}", writes(words, second, list)));
}

fn pools() {
    for n in 0..4usize {
        let list: Vec<u32> = (0..n as u32).map(|i| 2 * i + 7).collect();
        let words: Vec<u64> = list.iter().map(|&t| t as u64 + 9).collect();
        for i in [0, 1, 2, 3, 4, 5, 6, usize::MAX] {
            ask!(pool::place, &list[..], i);
            for v in [0, 1, 5, 1u64 << 33] {
                let mut l = list.clone();
                let r = tried(|| pool::give(&mut l, i, v as u32));
                told(&format!("pool::give {n} {i} {v}"), r, &[], &l);
            }
            // words of two runs, those of the second counted after those of the first
            for more in [0, 1, 3] {
                let second: Vec<u64> = (0..more).map(|i| 100 + i).collect();
                ask!(pool::word, &words[..], &second[..], i);
                for v in [0, 1, 5, 1u64 << 33] {
                    let (mut w, mut s) = (words.clone(), second.clone());
                    let r = tried(|| pool::put(&mut w, &mut s, i, v));
                    told_two(&format!("pool::put {n} {more} {i} {v}"), r, &w, &s, &[]);
                }
            }
        }
        let mut w = words.clone();
        let r = tried(|| pool::clear(&mut w));
        told(&format!("pool::clear {n}"), r, &w, &[]);
    }
    for (granule, k) in [(PAGE, 512), (KIB16, 2048)] {
        tables(granule, k);
    }
    for c in [0, 1, 2, 3, 4, 5] {
        for four in [[1, 2, 3, 4], [0, 0, 0, 5], [5, 5, 0, 0]] {
            ask!(pool::among_four, four, c);
        }
    }
}

// Tables of k entries in two runs of words.
fn tables(granule: u64, k: usize) {
    for length in [0, k - 1, k, k + 1, 2 * k - 1, 2 * k, 3 * k] {
        for t in [0, 1, 2, 3, 4, u32::MAX] {
            for more in [0, k - 1, k, 2 * k] {
                let (mut w, mut s) = (vec![5; length], vec![6; more]);
                let r = tried(|| pool::wipe(granule, &mut w, &mut s, t));
                told_two(&format!("pool::wipe {granule} {length} {more} {t}"), r, &w, &s, &[]);
                let (w, mut s) = (vec![0; length], vec![0; more]);
                for at in [0, k - 1, k, 2 * k - 1] {
                    if at < more {
                        s[at] = 9;
                    }
                    line(&format!("contents::table_part {granule} {length} {more} {at} {t} = {}", tried(|| contents::table_part(granule, &w, &s, t).to_vec())));
                    line(&format!("contents::is_table_empty {granule} {length} {more} {at} {t} = {}", tried(|| contents::is_table_empty(granule, &w, &s, t))));
                    line(&format!("contents::only_entry {granule} {length} {more} {at} {t} = {}", tried(|| contents::only_entry(granule, &w, &s, t, (at % k) as u16))));
                    if at < more {
                        s[at] = 0;
                    }
                }
            }
            for at in [0, 1, 200, 255, 256, 300, 510, 511, 512, k - 2, k - 1, k, k + 1, 3 * k / 2 - 1, 2 * k - 1, 2 * k, 3 * k - 1] {
                for value in [1, 2, u64::MAX] {
                    let mut w = vec![0; length];
                    if at < length {
                        w[at] = value;
                    }
                    line(&format!("contents::is_table_empty {granule} {length} {at} {value} {t} = {}", tried(|| contents::is_table_empty(granule, &w, &[], t))));
                    for i in [0, 1, 255, 256, 510, 511, 512, 513, k - 2, k - 1, k, k + 1, 65535] {
                        line(&format!("contents::only_entry {granule} {length} {at} {value} {t} {i} = {}", tried(|| contents::only_entry(granule, &w, &[], t, i as u16))));
                    }
                }
            }
        }
    }
    for t in [0, 1, 2, 63, 511, u32::MAX] {
        for i in [0, 1, 2, 511, 2047, u16::MAX] {
            ask!(pool::entry_place, granule, t, i);
        }
    }
}

// The arguments of ranges, their pieces and stretches, and the marks of the ways of their walks.
fn ranges(granule: u64) {
    let large = granule * entries_with(granule);
    let lengths = [0, 1, granule / 2, granule, 2 * granule, 3 * granule, large - granule, large, large + granule, GIB, 5 * GIB / 2, 4 * GIB - granule, 4 * GIB, 4 * GIB + 1, 4 * GIB + granule, u64::MAX];
    let space = if granule == KIB16 { 1 << 47 } else { 1 << 39 };
    let bases = [0, 1, PAGE, granule, 3 * granule, MIB2, large - granule, large, large + granule, GIB, GIB + large, space - GIB, space - granule, space, TOP - GIB, TOP - granule, TOP, u64::MAX - granule + 1];
    for address in bases {
        for length in lengths {
            for levels in [2, 3, 4, 5] {
                ask!(ranges::unmap_tests, granule, levels, address, length);
            }
            for height in [0, 1, 2, 3, 4, usize::MAX] {
                ask!(ranges::stretch, granule, address, length, height);
            }
            for frame in bases {
                ask!(ranges::piece_at, granule, address, frame, length);
                for attributes in [0, 15, 16] {
                    ask!(ranges::map_tests, one_region(granule, 3, BASE, 4, 1), address, frame, length, attributes);
                }
            }
            for frame in [BASE - granule, BASE, BASE + 4 * granule, MORE, MORE + granule, MORE + 2 * granule] {
                let two = path::Setup { levels: 4, base: BASE, tables: 4, free: 1, base2: MORE, tables2: 2, granule };
                ask!(ranges::map_tests, two, address, frame, length, 3);
            }
        }
    }
    for address in bases {
        for (left, levels) in [(0, 3), (1, 3), (2, 3), (3, 4), (0, 4), (2, 4), (4, 4), (0, 5), (7, 3), (0, 0)] {
            for way in [[0, 0, 1, 2], [0, 1, 2, 3], [3, 2, 1, 0], [9, 9, 9, 9], [0, 0, 0, 0]] {
                for other in [address, address.wrapping_add(granule), address.wrapping_add(large), address ^ GIB, 3 * large] {
                    let mut stands = [0u32; 6];
                    let first = tried(|| marks::note_way(granule, &mut stands, way, address, left, levels));
                    let r = tried(|| marks::note_way(granule, &mut stands, way, other, left, levels));
                    told(&format!("marks::note_way {granule} {way:?} {address:#x} {other:#x} {left} {levels}"), format!("{first} {r}"), &[], &stands);
                }
            }
        }
    }
}

// The audit, and the tests of an add, of a pool with one page and one block: each stands at a multiple of its size or of 4096 alone, elsewhere or in a region.
fn audits(granule: u64) {
    let k = entries_with(granule) as usize;
    let block = granule * k as u64;
    let setup = |free, base2, tables2| path::Setup { levels: 3, base: BASE, tables: 3, free, base2, tables2, granule };
    let (links, second) = ([BASE + granule + 3, BASE + 2 * granule + 3], vec![0; k]);
    let near = [0, PAGE, 2 * PAGE, granule, 2 * granule, 3 * granule, 0u64.wrapping_sub(PAGE), 0u64.wrapping_sub(granule)];
    for at in [BASE, MORE, 2 * GIB, TOP].iter().flat_map(|&at| near.map(|more| at.wrapping_add(more) % TOP)) {
        for (page, base) in [(2 * GIB, 4 * GIB), (at, 4 * GIB), (2 * GIB, at), (2 * GIB, at / block * block)] {
            let mut words = vec![0; 3 * k];
            (words[0], words[k]) = (links[0], links[1]);
            (words[2 * k + 5], words[k + 1]) = (entry::word_of(page, 0, 5), entry::word_of(base, 1, 10));
            let r = tried(|| audit::audit(setup(1, MORE, 1), &words, &second, &[3, 0, 0, 0]));
            line(&format!("audit::audit {granule} {page:#x} {base:#x} = {r}"));
            for region in [MORE, at] {
                let r = tried(|| audit::add_tests(setup(0, 0, 0), &words, &second, 4, region, 1));
                line(&format!("audit::add_tests {granule} {page:#x} {base:#x} {region:#x} = {r}"));
            }
        }
    }
}

fn steps() {
    use plans::Step::*;
    let all = [Store { place: 513, value: 6 }, Give { place: 1, table: 9 }, Wipe { table: 2 }, Store { place: 7, value: 1 << 40 }, Give { place: 5, table: 4 }, Wipe { table: 9 }];
    let runs = [(PAGE, 1536, 0), (PAGE, 1024, 512), (PAGE, 512, 1024), (KIB16, 6144, 0), (KIB16, 4096, 2048), (KIB16, 2048, 4096)];
    for (granule, first, more) in runs {
        let (mut w, mut s, mut l) = (vec![3; first], vec![4; more], vec![8; 3]);
        for (i, step) in all.into_iter().enumerate() {
            let r = tried(|| plans::step_words(granule, &mut w, &mut s, step));
            told_two(&format!("plans::step_words {granule} {first} {more} {i}"), r, &w, &s, &l);
            let r = tried(|| plans::step_all(granule, &mut w, &mut s, &mut l, step));
            told_two(&format!("plans::step_all {granule} {first} {more} {i}"), r, &w, &s, &l);
        }
    }
}

// A pool in lent memory, and the addresses that were mapped.
#[derive(Clone)]
struct Lent {
    name: String,
    setup: [u64; 7],
    words: Vec<u64>,
    second: Vec<u64>,
    list: Vec<u32>,
    used: Vec<u64>,
}

impl Lent {
    // A pool of one region, with the memory of so many tables lent.
    fn format(name: &str, levels: u64, base: u64, tables: u64, lent: usize) -> Lent {
        Lent::format_two(name, levels, base, tables, 0, 0, PAGE, lent, 0)
    }

    fn format_two(name: &str, levels: u64, base: u64, tables: u64, base2: u64, tables2: u64, granule: u64, lent: usize, more: usize) -> Lent {
        let entries = if granule == KIB16 { 2048 } else { 512 };
        let (mut words, mut second, mut list, mut answer) = (vec![77; entries * lent], vec![88; entries * more], vec![66; lent + more], [55; 7]);
        let r = tried(|| oakabut::oak_format(levels, base, tables, base2, tables2, granule, &mut words, &mut second, &mut list, &mut answer));
        let what = format!("{name} format {levels} {base:#x} {tables} {base2:#x} {tables2} {granule} {lent} {more}");
        told_two(&what, format!("{r} {answer:?}"), &words, &second, &list);
        Lent { name: name.to_string(), setup: answer, words, second, list, used: vec![] }
    }

    fn told(&self, what: &str, answer: String) {
        told_two(&format!("{} {what}", self.name), answer, &self.words, &self.second, &self.list);
    }

    fn map(&mut self, address: u64, frame: u64, size: u64, attributes: u64) {
        let mut answer = [55; 8];
        let r = tried(|| oakabut::oak_map(&self.setup, &mut self.words, &mut self.second, &self.list, address, frame, size, attributes, &mut answer));
        self.told(&format!("map {address:#x} {frame:#x} {size:#x} {attributes}"), format!("{r} {answer:?}"));
        if r == "0" {
            self.setup.copy_from_slice(&answer[..7]);
            self.used.push(address);
        }
    }

    fn unmap(&mut self, address: u64) {
        let mut answer = [55; 13];
        let r = tried(|| oakabut::oak_unmap(&self.setup, &mut self.words, &mut self.second, &mut self.list, address, &mut answer));
        self.told(&format!("unmap {address:#x}"), format!("{r} {answer:?}"));
        if r == "0" {
            self.setup.copy_from_slice(&answer[..7]);
        }
    }

    fn map_range(&mut self, address: u64, frame: u64, length: u64, attributes: u64) {
        let mut answer = [55; 8];
        let r = tried(|| oakabut::oak_map_range(&self.setup, &mut self.words, &mut self.second, &self.list, address, frame, length, attributes, &mut answer));
        self.told(&format!("map_range {address:#x} {frame:#x} {length:#x} {attributes}"), format!("{r} {answer:?}"));
        if r == "0" {
            self.setup.copy_from_slice(&answer[..7]);
            self.used.push(address);
        }
    }

    fn unmap_range(&mut self, address: u64, length: u64) {
        let mut answer = [55; 9];
        let r = tried(|| oakabut::oak_unmap_range(&self.setup, &mut self.words, &mut self.second, &mut self.list, address, length, &mut answer));
        self.told(&format!("unmap_range {address:#x} {length:#x}"), format!("{r} {answer:?}"));
        if r == "0" {
            self.setup.copy_from_slice(&answer[..7]);
        }
    }

    // Ranges around an address, each on a copy: mapped, and what is there unmapped.
    fn ranges(&self, address: u64, random: &mut Random) {
        let granule = self.setup[6];
        let large = granule * entries_with(granule);
        for length in [random.of(&[granule, 3 * granule]), random.of(&[large, large + 2 * granule, 2 * GIB])] {
            let from = address / granule * granule;
            let from = random.of(&[from, from, from / large * large, from.wrapping_sub(granule), address]);
            let frame = random.of(&[4 * GIB, 4 * GIB + granule, 4 * GIB + large, self.setup[1]]);
            let mut copy = self.clone();
            copy.map_range(from, frame, length, 5);
            copy.unmap_range(from, length);
            self.clone().unmap_range(from, length);
        }
    }

    // A second region of so many tables, with memory for so many. Refused, the pool goes on with the memory that it had.
    fn add(&mut self, base: u64, tables: u64, more: usize) {
        let entries = if self.setup[6] == KIB16 { 2048 } else { 512 };
        let (mut second, mut list, mut answer) = (vec![88; entries * more], self.list.clone(), [55; 7]);
        list.resize(self.list.len() + more, 66);
        let r = tried(|| oakabut::oak_add(&self.setup, &self.words, &mut second, &mut list, base, tables, &mut answer));
        let what = format!("{} add {base:#x} {tables} {more}", self.name);
        told_two(&what, format!("{r} {answer:?}"), &self.words, &second, &list);
        if r == "0" {
            (self.setup, self.second, self.list) = (answer, second, list);
        }
    }

    // All that changes nothing, at an address.
    fn asked(&self, address: u64) {
        let mut answer = [55; 6];
        let r = tried(|| oakabut::oak_query(&self.setup, &self.words, &self.second, &self.list, address, &mut answer));
        line(&format!("{} query {address:#x} = {r} {answer:?}", self.name));
        let [levels, base, tables, free, base2, tables2, granule] = self.setup;
        let setup = || path::Setup { levels, base, tables, free, base2, tables2, granule };
        let r = tried(|| armwalk::stage2(granule, &self.words, &self.second, base, base2, levels, address));
        line(&format!("{} stage2 {address:#x} = {r}", self.name));
        line(&format!("{} tree = {}", self.name, tried(|| links::Tree::of(setup()))));
        line(&format!("{} places = {} {}", self.name, tried(|| path::Setup::from(self.setup)), tried(|| <[u64; 7]>::from(setup()))));
        for target in [0, 1, 2, 3] {
            let hole = tried(|| lookup::hole_at(granule, address, target));
            let number = tried(|| lookup::hole_at(granule, address, target).number());
            line(&format!("{} hole_at {address:#x} {target} = {hole} {number}", self.name));
            let r = tried(|| lookup::walk_to(setup(), &self.words, &self.second, target, address));
            line(&format!("{} walk_to {target} {address:#x} = {r}", self.name));
            let mut way = [7u32; 4];
            let r = tried(|| lookup::reach(setup(), &self.words, &self.second, target, address, &mut way));
            line(&format!("{} reach {target} {address:#x} = {r} {way:?}", self.name));
        }
    }

    // The mappings from an address on, in runs of so many places each.
    fn listed(&self, start: u64, room: usize, other: usize) {
        let (mut places, mut entries, mut answer) = (vec![99; room], vec![44; other], [77; 3]);
        let r = tried(|| oakabut::oak_list(&self.setup, &self.words, &self.second, &self.list, start, &mut places, &mut entries, &mut answer));
        let (all, more) = (hash(places.iter().copied()), hash(entries.iter().copied()));
        line(&format!("{} list {start:#x} {room} {other} = {r} {answer:?} {all:x} {more:x}", self.name));
    }

    // Pages, the first from an address on, and whether the tree is sound.
    fn pages(&self, address: u64) {
        for room in [0, 1, 3, 4096] {
            self.listed(address, room, room);
        }
        for (start, room, other) in [(0, 2, 2), (0, 4096, 4096), (address.wrapping_add(1), 5, 5), (address, 1, 2), (address, 2, 1)] {
            self.listed(start, room, other);
        }
        let [levels, base, tables, free, base2, tables2, granule] = self.setup;
        let setup = || path::Setup { levels, base, tables, free, base2, tables2, granule };
        for places in [self.list.len(), self.list.len() + 1] {
            let r = tried(|| audit::tree_sound(setup(), &self.words, &self.second, places));
            line(&format!("{} tree_sound {places} = {r}", self.name));
        }
    }

    fn audit(&self) {
        let mut answer = [55; 2];
        let r = tried(|| oakabut::oak_audit(&self.setup, &self.words, &self.second, &self.list, &mut answer));
        line(&format!("{} audit {:?} = {r} {answer:?}", self.name, self.setup));
    }

    // The place of an entry of a table, in the first run or past it in the second.
    fn word(&mut self, at: usize) -> &mut u64 {
        match at.checked_sub(self.words.len()) {
            None => &mut self.words[at],
            Some(at) => &mut self.second[at],
        }
    }

    // The word that names a table.
    fn link(&self, table: u64) -> u64 {
        let [_, base, tables, _, base2, tables2, _] = self.setup;
        if table < tables || tables2 == 0 { base + PAGE * table + 3 } else { base2 + PAGE * (table - tables) + 3 }
    }

    // An address that was mapped, or near one, or any.
    fn address(&self, random: &mut Random) -> u64 {
        let near = random.of(&[0, 0, 0, 1, PAGE, MIB2, GIB, PAGE + 8, MIB2 - PAGE, GIB - PAGE]);
        match random.below(5) {
            0 => random.of(&[0, 1 << 39, TOP, TOP - PAGE, (1 << 39) - PAGE, (1 << 39) - 8, self.setup[1], u64::MAX]),
            1 => random.below(4) * GIB + random.below(3) * MIB2 + random.below(3) * PAGE,
            _ if self.used.is_empty() => near,
            _ => random.of(&self.used).wrapping_add(near),
        }
    }

    fn random_map(&mut self, random: &mut Random) {
        let size = random.of(&[PAGE, PAGE, PAGE, PAGE, MIB2, MIB2, GIB]);
        let height = [PAGE, MIB2, GIB].iter().position(|&s| s == size).unwrap();
        let index = [random.below(2), random.below(3), random.of(&[0, 1, 511, 300]), random.of(&[0, 1, 2, 511, 260])];
        let top = if self.setup[0] == 4 { index[0] * (1 << 39) } else { 0 };
        let address = (top + index[1] * GIB + index[2] * MIB2 + index[3] * PAGE) / size * size;
        let frame = GIB * (2 + height as u64) + random.below(7) * size;
        let attributes = random.below(16);
        let [_, base, tables, _, base2, tables2, _] = self.setup;
        let (base, tables) = if tables2 > 0 && random.below(2) == 0 { (base2, tables2) } else { (base, tables) };
        let pool = [base.wrapping_sub(size), base, base.wrapping_add(PAGE), base.wrapping_add(PAGE.wrapping_mul(tables))];
        match random.below(14) {
            5 | 6 => self.map(address + random.of(&[0, 0, 0, 1]), random.of(&pool) / size * size, size, attributes),
            0 => self.map(address + random.of(&[1, PAGE]), frame, size, attributes),
            1 => self.map(address, frame + random.of(&[1, PAGE, TOP]), size, attributes),
            2 => self.map(address, frame, random.of(&[0, 1, 512, 8192, 1 << 39]), random.of(&[0, 3, 15, 16, 4096])),
            3 => self.map(address, random.of(&[TOP, TOP - size, TOP - size + PAGE, u64::MAX]), size, random.of(&[15, 16])),
            4 => self.map(random.of(&[1 << 39, (1 << 39) - size, TOP - size, TOP, 0u64.wrapping_sub(size)]), frame, size, attributes),
            _ => self.map(address, frame, size, attributes),
        }
    }
}

// A pool of 16 KiB tables: frames of both sizes and of none, addresses and bases that are multiples of 4096 alone, the ends of the space, a second region.
fn of_16_kib(tables: u64, tables2: u64) {
    let base2 = if tables2 == 0 { 0 } else { MORE };
    let name = format!("pool of 16 KiB {tables}+{tables2}");
    let mut lent = Lent::format_two(&name, 3, BASE, tables, base2, tables2, KIB16, tables as usize, tables2 as usize);
    let (gib64, end) = (1 << 36, 1u64 << 47);
    for (address, frame, size) in [
        (0, GIB, KIB16), (KIB16, 2 * GIB, KIB16), (PAGE, GIB, KIB16), (3 * KIB16, GIB + PAGE, KIB16), (MIB32, MIB32, MIB32), (MIB32 + KIB16, GIB, KIB16),
        (2 * MIB32, GIB, PAGE), (2 * MIB32, GIB, MIB2), (GIB, GIB, GIB), (gib64, gib64, gib64), (gib64, GIB, KIB16), (2 * gib64, GIB, MIB32), (5 * MIB32 + 2047 * KIB16, 3 * GIB, KIB16),
        (end - KIB16, TOP - KIB16, KIB16), (end, GIB, KIB16), (end - MIB32, GIB, MIB32), (1 << 39, GIB, MIB32), (MIB32 * 9, BASE, KIB16), (MIB32 * 9, BASE + KIB16 * tables - KIB16, KIB16),
        (MIB32 * 9, BASE + KIB16 * tables, KIB16), (MIB32 * 8, BASE - BASE % MIB32, MIB32), (MIB32 * 8, MORE, KIB16), (0, GIB, KIB16), (0, MIB32, MIB32),
    ] {
        lent.map(address, frame, size, 3);
        lent.asked(address);
        lent.asked(address.wrapping_add(size / 2));
        lent.audit();
        lent.pages(address);
    }
    let mut random = Random(tables);
    for address in lent.used.clone() {
        lent.ranges(address, &mut random);
    }
    lent.clone().add(MORE, 1, 1);
    lent.clone().add(MORE + PAGE, 1, 1);
    for bit in [1, 2, 1 << 10, 1 << 12, 1 << 13, 1 << 14] {
        for at in (0..lent.words.len()).filter(|&i| lent.words[i] != 0).collect::<Vec<_>>() {
            let mut copy = lent.clone();
            copy.name = format!("{name} damaged {at} {bit}");
            copy.words[at] ^= bit;
            copy.audit();
            copy.clone().add(MORE, 1, 1);
            copy.pages(MIB32);
            copy.asked(0);
            copy.unmap(0);
        }
    }
    for address in lent.used.clone() {
        lent.unmap(address + PAGE);
        lent.unmap(address);
        lent.asked(address);
        lent.audit();
    }
    for granule in [0, 1, 4095, 8192, KIB16 - 1, KIB16 + 1, 1 << 16, PAGE + (1 << 32)] {
        Lent::format_two(&format!("granule {granule}"), 3, BASE, 4, 0, 0, granule, 4, 0);
    }
    for levels in [2, 4, 5] {
        Lent::format_two("levels of 16 KiB", levels, BASE, 4, 0, 0, KIB16, 4, 0);
    }
    Lent::format_two("half a table of 16 KiB", 3, BASE + PAGE, 4, 0, 0, KIB16, 4, 0);
}

// A history of calls, with damaged copies on the way.
fn history(levels: u64, base: u64, tables: u64, seed: u64, steps: u64) {
    let lent = Lent::format(&format!("pool {levels}/{tables}/{seed}"), levels, base, tables, tables as usize);
    go_on(lent, Random(seed * 1000 + levels * 100 + tables), steps);
}

// The same of a pool with two regions from the start.
fn history_of_two(levels: u64, base: u64, tables: u64, base2: u64, tables2: u64, seed: u64, steps: u64) {
    let name = format!("pool {levels}/{tables}+{tables2}/{seed}");
    let lent = Lent::format_two(&name, levels, base, tables, base2, tables2, PAGE, tables as usize, tables2 as usize);
    go_on(lent, Random(seed * 1000 + levels * 100 + tables + tables2), steps);
}

fn go_on(mut lent: Lent, mut random: Random, steps: u64) {
    let tables = lent.list.len() as u64;
    for step in 0..steps {
        if step % 16 == 12 {
            // adds that are refused, and now and then one that is not
            let [_, base, tables, ..] = lent.setup;
            let frame = 2 * GIB + random.below(7) * PAGE;
            for (at, more) in [(base, 2), (base + PAGE * tables - PAGE, 2), (base.wrapping_sub(PAGE), 2), (MORE + 1, 1), (MORE, 0), (frame, 3)] {
                lent.clone().add(at, more, more as usize);
            }
            lent.clone().add(MORE, 2, 1);
            lent.clone().add(base.wrapping_sub(2 * PAGE), 2, 2);
            lent.add(if step % 32 == 12 { base + PAGE * tables } else { MORE }, 2, 2);
        }
        match random.below(7) {
            0..=3 => lent.random_map(&mut random),
            _ => {
                let address = lent.address(&mut random);
                lent.unmap(address);
            }
        }
        let address = lent.address(&mut random);
        lent.asked(address);
        if step % 8 == 5 || tables < 9 {
            lent.audit();
            lent.pages(address);
        }
        if step % 8 == 1 {
            lent.ranges(address, &mut random);
        }
        if step % 4 == 3 {
            for kind in 0..10 {
                let mut copy = lent.clone();
                copy.name = format!("{} damaged {kind}", lent.name);
                damage(&mut copy, kind, &mut random);
                copy.audit();
                copy.clone().add(random.of(&[MORE, 2 * GIB]), 2, 2);
                for address in [copy.address(&mut random), random.of(&copy.used.iter().copied().chain([0]).collect::<Vec<_>>())] {
                    copy.asked(address);
                    copy.clone().unmap(address);
                }
                if step % 8 == 3 {
                    copy.ranges(address, &mut random);
                }
                copy.random_map(&mut random);
                copy.audit();
                copy.pages(random.of(&[0, 0, PAGE, GIB]));
            }
        }
    }
    for address in lent.used.clone() {
        lent.unmap(address);
        lent.asked(address);
    }
    lent.audit();
}

// Breaks a rule of a sound pool, or several.
fn damage(lent: &mut Lent, kind: u64, random: &mut Random) {
    let ([_, base, first, free, base2, tables2, _], tables) = (lent.setup, lent.list.len() as u64);
    let places = lent.words.len() + lent.second.len();
    let used: Vec<usize> = (0..places).filter(|&i| *lent.word(i) != 0).collect();
    let links: Vec<usize> = used.iter().copied().filter(|&i| *lent.word(i) % PAGE == 3).collect();
    let any = |random: &mut Random, of: &[usize]| if of.is_empty() { 0 } else { random.of(of) };
    match kind {
        // two entries name one table, and the count of free tables may fit that
        0 => {
            let link = any(random, &links);
            let word = *lent.word(link);
            *lent.word(link ^ 256) = word;
            lent.setup[3] = free.saturating_sub(random.below(3));
        }
        // an entry names a table: itself, one above it, any, or one past the pool or past a region
        1 => {
            let at = any(random, &used);
            let named = random.of(&[at as u64 / 512, 1, tables - 1, tables, tables + 1]);
            let word = random.of(&[lent.link(named), base + PAGE * first + 3, base2.wrapping_sub(4093), base2 + PAGE * tables2 + 3]);
            *lent.word(at) = word + random.of(&[0, 0, 0, 0, 512]);
        }
        // a link to a table that is empty
        2 if free > 0 => {
            lent.words[400] = lent.link(lent.list[free as usize - 1] as u64);
            lent.setup[3] = free - 1;
        }
        // a bit of a word
        3 => *lent.word(any(random, &used)) ^= 1 << random.below(64),
        4 => *lent.word(any(random, &used)) ^= random.of(&[1, 2, 1 << 10, 1 << 11, 1 << 12, 1 << 54]),
        // a word of a table that is free
        5 if free > 0 => {
            let at = 512 * lent.list[random.below(free) as usize] as usize + random.of(&[0, 1, 511]);
            *lent.word(at) = random.next();
        }
        // a place of the free list
        6 if free > 0 => {
            let (one, other, reached) = (random.below(free), random.below(free), any(random, &links));
            let at = random.of(&[free - 1, free - 1, one]) as usize;
            let named = lent.word(reached).wrapping_sub(base) / PAGE;
            lent.list[at] = random.of(&[0, tables, tables + 1, named, named, lent.list[other as usize] as u64, u64::MAX]) as u32;
        }
        // more tables are free than are
        7 => lent.setup[3] = random.of(&[tables - 1, free + 1, free.wrapping_sub(1)]),
        // a frame at a region, or just past it
        9 => {
            let frames: Vec<usize> = used.iter().copied().filter(|&i| *lent.word(i) >> 10 & 1 == 1).collect();
            let size = random.of(&[PAGE, PAGE, MIB2, GIB]);
            let at = any(random, &frames);
            let table = if tables2 > 0 && random.below(2) == 0 { base2 + PAGE * random.below(tables2 + 1) } else { base + PAGE * random.below(first + 1) };
            *lent.word(at) = *lent.word(at) & !(TOP - PAGE) | table / size * size;
        }
        // other setup numbers and lengths
        _ => match random.below(10) {
            0 => lent.setup[0] = random.of(&[0, 1, 2, 3, 4, 5, u64::MAX]),
            1 => lent.setup[1] = random.of(&[0, base + 1, base + PAGE, TOP, u64::MAX - 4095]),
            2 => lent.setup[2] = random.of(&[0, tables - 1, tables + 1, 65, 513, u64::MAX]),
            3 => lent.setup[3] = random.of(&[tables, tables + 1, u64::MAX]),
            4 => lent.words.push(0),
            5 => lent.setup[4] = random.of(&[0, 1, base, base2 + 1, base + PAGE * (first - 1), base.wrapping_sub(PAGE), MORE, TOP]),
            6 => lent.setup[5] = random.of(&[0, 1, tables2 + 1, tables2.wrapping_sub(1), 512, u64::MAX]),
            7 => lent.second.push(0),
            8 => lent.second = vec![0; 512],
            _ => lent.list.push(0),
        },
    }
}

fn histories() {
    for (levels, base, tables, lent) in [(2, BASE, 1, 1), (3, 1, 1, 1), (3, BASE, 2, 1), (4, BASE, 1, 2), (5, BASE, 3, 3), (3, TOP, 1, 1), (4, 0, 65, 65), (3, 3, 3, 3), (4, 4, 4, 4)] {
        Lent::format("refused", levels, base, tables, lent).audit();
    }
    for (base2, tables2) in [(BASE, 2), (BASE + PAGE, 2), (BASE - PAGE, 2), (MORE, 0), (MORE + 1, 2), (TOP - PAGE, 2), (MORE, 511), (MORE, 1)] {
        Lent::format_two("refused", 3, BASE, 2, base2, tables2, PAGE, 2, 2).audit();
    }
    for levels in [3, 4] {
        for tables in [1, 2, 3, 4, 5, 6, 8] {
            for seed in 1..4 {
                history(levels, [BASE, 0, TOP - tables * PAGE][seed as usize % 3], tables, seed, 40);
            }
        }
        for (tables, tables2) in [(1, 1), (1, 4), (2, 3), (3, 1), (4, 4)] {
            for seed in 1..3 {
                let base2 = [MORE, BASE + PAGE * tables, BASE - PAGE * tables2][(seed + tables) as usize % 3];
                history_of_two(levels, BASE, tables, base2, tables2, seed, 40);
            }
        }
        history(levels, BASE, 64, 1, 60);
        full(levels);
        rounds(levels);
        long_ranges(levels);
    }
}

// Every table of a pool of 64 taken and given back.
fn full(levels: u64) {
    let mut lent = Lent::format(&format!("full {levels}"), levels, BASE, 64, 64);
    for i in 0..70 {
        lent.map(i * MIB2, 2 * GIB + i * PAGE, PAGE, i % 16);
    }
    lent.audit();
    for i in 0..70 {
        lent.unmap(i * MIB2);
    }
    lent.audit();
}

// Ranges of many pieces, of one table and of several, all or nothing: what stands in the way at their end, too few tables, a table of the list that stands on a
// path, a mapping that is cut, and more tables given back than there are.
fn long_ranges(levels: u64) {
    let mut lent = Lent::format(&format!("ranges {levels}"), levels, BASE, 12, 12);
    lent.map(4 * MIB2 + 7 * PAGE, 2 * GIB, PAGE, 1);
    for (address, frame, length) in [
        (0, 4 * GIB, 2 * MIB2), (0, 4 * GIB + PAGE, MIB2 + PAGE), (PAGE, 4 * GIB + PAGE, 2 * MIB2), (3 * MIB2, 4 * GIB + PAGE, 2 * MIB2), (GIB - PAGE, 4 * GIB - PAGE, GIB + 2 * PAGE), (0, 4 * GIB, 4 * GIB),
        (0, 4 * GIB + PAGE, 40 * MIB2), (GIB - MIB2, 3 * GIB - MIB2, 2 * MIB2), ((1 << 39) - MIB2, 4 * GIB + PAGE, MIB2), (4 * MIB2, 4 * GIB, MIB2), (2 * MIB2, 4 * GIB + MIB2, 2 * MIB2 + 7 * PAGE),
    ] {
        let mut copy = lent.clone();
        copy.map_range(address, frame, length, 3);
        copy.audit();
        for (from, part) in [(address, length), (address, PAGE), (address + PAGE, length - PAGE), (address, length - PAGE), (0, GIB), (0, 4 * GIB), (MIB2, MIB2), (20 * GIB, GIB)] {
            let mut other = copy.clone();
            other.unmap_range(from, part);
            other.audit();
            other.setup[3] = 11;
            copy.clone().unmap_range(from, part);
            let mut full = copy.clone();
            full.setup[3] = 10;
            full.unmap_range(from, part);
        }
    }
    // an entry that is damaged, and before it one that is taken; and one table for two regions
    lent.map(PAGE, 2 * GIB, PAGE, 1);
    for (at, word) in [(512 * lent.list[10] as usize + 9, 8), (512 * lent.list[10] as usize + 2, BASE + PAGE * lent.list[9] as u64 + 3), (1, BASE + PAGE * lent.list[10] as u64 + 3)] {
        for (table, place) in [(0, 0), (lent.list[10], 7), (lent.list[9], 7), (lent.list[9], 6), (3, 6), (3, 5)] {
            let mut copy = lent.clone();
            copy.words[at] = word;
            if place > 0 {
                copy.list[place] = table;
            }
            for (address, frame, length) in [(0, 4 * GIB + PAGE, 16 * MIB2), (0, 4 * GIB, 16 * MIB2), (2 * PAGE, 4 * GIB, 3 * MIB2), (GIB - MIB2, 4 * GIB + PAGE, 2 * MIB2), (2 * MIB2, 4 * GIB + PAGE, MIB2)] {
                copy.clone().map_range(address, frame, length, 3);
                copy.clone().unmap_range(address, length);
            }
        }
    }
}

// Tables that name each other, or themselves.
fn rounds(levels: u64) {
    for (first, second, third) in [(1, 2, 1), (1, 2, 2), (1, 1, 2), (2, 3, 2)] {
        let mut lent = Lent::format(&format!("round {levels}/{first}{second}{third}"), levels, BASE, 4, 4);
        lent.words[0] = BASE + PAGE * first + 3;
        lent.words[512 * first as usize] = BASE + PAGE * second + 3;
        lent.words[512 * second as usize] = BASE + PAGE * third + 3;
        lent.asked(0);
        lent.audit();
        lent.map(0, 2 * GIB, PAGE, 3);
        lent.unmap(0);
    }
}

fn main() {
    std::panic::set_hook(Box::new(|_| {}));
    paths();
    entries();
    pools();
    audits(PAGE);
    audits(KIB16);
    ranges(PAGE);
    ranges(KIB16);
    steps();
    histories();
    of_16_kib(9, 0);
    of_16_kib(3, 5);
    OUT.with(|o| o.borrow_mut().flush().unwrap());
}
