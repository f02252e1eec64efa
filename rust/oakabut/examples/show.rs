//! Shows what a guest can see: the mappings of a pool, one in each line, and how many they are.
//!
//!     show            the pool of the demonstration, when its guest has most
//!     show FILE       a pool that was written down; `-` is the standard input
//!     show --dump     writes the pool of the demonstration down
//!
//! A pool is written down as lines of text. Lines that begin with other words are passed over, so a whole log will do; of several pools in it the
//! last is shown. Numbers are decimal, or hexadecimal after `0x`.
//!
//! ```text
//! setup LEVELS BASE TABLES FREE SECOND_BASE SECOND_TABLES GRANULE
//! word I WORD                 word I of the tables, those of the second region counted after the others; what is not named is 0
//! ```

use std::collections::BTreeMap;
use std::io::Read;
use std::process::ExitCode;
use std::{env, fs, io};

use oakabut::{Mapping, Pool, Refusal, Setup, BLOCK_2M, EXECUTE, GRANULE_4K, MAX_TABLES, PAGE, READ, WRITE};

fn main() -> ExitCode {
    let arguments: Vec<String> = env::args().skip(1).collect();
    let text = match arguments.iter().map(String::as_str).collect::<Vec<_>>()[..] {
        [] => Ok(dump(&demo())),
        ["--dump"] => {
            print!("{}", dump(&demo()));
            return ExitCode::SUCCESS;
        }
        ["-"] => read_all(),
        [file] => fs::read_to_string(file).map_err(|error| format!("{file}: {error}")),
        _ => Err("show [FILE | - | --dump]".to_string()),
    };
    match text.and_then(|text| shown(&text)) {
        Ok(lines) => {
            print!("{lines}");
            ExitCode::SUCCESS
        }
        Err(why) => {
            eprintln!("show: {why}");
            ExitCode::FAILURE
        }
    }
}

fn read_all() -> Result<String, String> {
    let mut text = String::new();
    io::stdin().read_to_string(&mut text).map_err(|error| error.to_string())?;
    Ok(text)
}

/// The pool of `./demo` where its guest has a program, a buffer for pictures and 2 MiB far away.
fn demo() -> Pool<'static> {
    let made = || {
        let mut pool = Pool::owned(3, 0x4000_0000, 4, GRANULE_4K)?;
        pool.map(0x1000, 0x8000_1000, PAGE, READ + EXECUTE)?;
        pool.map(0x20_0000, 0x8020_0000, BLOCK_2M, READ + WRITE)?;
        pool.map(0x4000_0000, 0x8040_0000, BLOCK_2M, READ + WRITE)?;
        Ok::<_, Refusal>(pool)
    };
    made().expect("these calls are accepted")
}

/// A pool written down.
fn dump(pool: &Pool) -> String {
    let Setup { levels, base, tables, free, second_base, second_tables, granule } = pool.setup();
    let mut text = format!("setup {levels} {base:#x} {tables} {free} {second_base:#x} {second_tables} {granule}\n");
    for (i, word) in pool.words().iter().chain(pool.second()).enumerate().filter(|(_, &word)| word != 0) {
        text += &format!("word {i} {word:#x}\n");
    }
    text
}

/// What is shown of a pool that was written down.
fn shown(text: &str) -> Result<String, String> {
    let (setup, words) = read_pool(text)?;
    // no pool has more tables, and where the numbers are not good the list is refused
    let words_of = |tables: u64| if tables <= MAX_TABLES { setup.granule.min(1 << 14) as usize / 8 * tables as usize } else { 0 };
    let (mut first, mut second) = (vec![0; words_of(setup.tables)], vec![0; words_of(setup.second_tables)]);
    for (i, word) in words {
        let (run, at) = if i < first.len() { (&mut first, i) } else { (&mut second, i - words_of(setup.tables)) };
        *run.get_mut(at).ok_or_else(|| format!("these tables have no word {i}"))? = word;
    }
    // the list's places are not read, but counted
    let mut list = vec![0; setup.tables.saturating_add(setup.second_tables).min(MAX_TABLES) as usize];
    let pool = Pool::resume_two(setup, &mut first, &mut second, &mut list);
    let mappings: Vec<Mapping> = pool.mappings().map_err(|refusal| refusal.to_string())?.collect();
    let mut lines: String = mappings.iter().map(|mapping| format!("{mapping}\n")).collect();
    lines += &totals(&mappings);
    let tables = setup.tables + setup.second_tables;
    lines += &format!("tables {tables} of {}: {} in use, {} free\n", size(setup.granule), tables - setup.free, setup.free);
    Ok(lines)
}

/// The setup and the words of the last pool in a text.
fn read_pool(text: &str) -> Result<(Setup, BTreeMap<usize, u64>), String> {
    let mut pool = None;
    for line in text.lines() {
        let mut parts = line.split_whitespace();
        match (parts.next(), &mut pool) {
            (Some("setup"), _) => match numbers(line, parts)?[..] {
                [levels, base, tables, free, second_base, second_tables, granule] => {
                    let setup = Setup { levels, base, tables, free, second_base, second_tables, granule };
                    pool = Some((setup, BTreeMap::new()));
                }
                _ => return Err(format!("a setup has seven numbers: {line}")),
            },
            (Some("word"), Some((_, words))) => match numbers(line, parts)?[..] {
                [at, word] => _ = words.insert(at as usize, word),
                _ => return Err(format!("a word has its number and its value: {line}")),
            },
            (Some("word"), None) => return Err(format!("there is no setup before: {line}")),
            _ => {}
        }
    }
    pool.ok_or_else(|| "no line begins with `setup`".to_string())
}

fn numbers<'a>(line: &str, words: impl Iterator<Item = &'a str>) -> Result<Vec<u64>, String> {
    let number = |word: &str| match word.strip_prefix("0x") {
        Some(digits) => u64::from_str_radix(digits, 16),
        None => word.parse(),
    };
    words.map(|word| number(word).map_err(|_| format!("{word} is no number: {line}"))).collect()
}

/// How many mappings there are of each size, and their bytes.
fn totals(mappings: &[Mapping]) -> String {
    let mut sizes = BTreeMap::new();
    for mapping in mappings {
        *sizes.entry(mapping.size).or_insert(0) += 1;
    }
    let bytes: u64 = mappings.iter().map(|mapping| mapping.size).sum();
    let each: Vec<String> = sizes.iter().map(|(&bytes, count)| format!("{count} of {}", size(bytes))).collect();
    let counted = if each.is_empty() { String::new() } else { format!(": {}", each.join(", ")) };
    format!("mappings {}, {}{counted}\n", mappings.len(), size(bytes))
}

/// Bytes in the largest unit that leaves no rest.
fn size(bytes: u64) -> String {
    let units = [(1 << 30, "GiB"), (1 << 20, "MiB"), (1 << 10, "KiB")];
    match units.iter().find(|(unit, _)| bytes > 0 && bytes % unit == 0) {
        Some((unit, name)) => format!("{} {name}", bytes / unit),
        None => format!("{bytes} bytes"),
    }
}
