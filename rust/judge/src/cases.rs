//! The document's cases as steps.

use plain::{Setup, GRANULES};

use crate::{Call, Shape, Step, World};

/// The tables of the second region that some histories add.
const MORE: usize = 2;

/// The steps of the eleven cases and of the further ones, and of the same cases with the larger granule. Each call goes in with the setup that
/// the last one handed back.
pub fn cases() -> Vec<Step> {
    let [four, sixteen] = GRANULES;
    let (eleven, in_large) = (eleven(), in_large());
    let device = [map(0, 0x8000_0000, 4096, 11)];
    let mut steps = Vec::new();
    for (granule, levels, tables, calls) in [
        (four, 3, 4, &eleven[..]),
        (four, 3, 2, &eleven[..1]),
        (four, 4, 4, &eleven[..]),
        (four, 3, 4, &device[..]),
        (four, 3, 4, &story(&eleven)[..]),
        (sixteen, 3, 4, &in_large[..]),
        (sixteen, 3, 2, &in_large[..1]),
        (sixteen, 3, 4, &story(&in_large)[..]),
        (four, 3, 24, &ranges(four)[..]),
        (four, 4, 5, &ranges(four)[..]),
        (sixteen, 3, 4, &ranges(sixteen)[..]),
    ] {
        add_history(&mut steps, granule, levels, tables, calls);
    }
    steps
}

fn map(address: u64, frame: u64, size: u64, attributes: u64) -> Call {
    Call::Map { setup: Setup::default(), address, frame, size, attributes }
}

fn unmap(address: u64) -> Call {
    Call::Unmap { setup: Setup::default(), address }
}

fn query(address: u64) -> Call {
    Call::Query { setup: Setup::default(), address }
}

fn eleven() -> Vec<Call> {
    vec![
        map(0, 0x8000_0000, 4096, 3),
        map(0x1000, 0x8000_1000, 4096, 5),
        map(0x20_0000, 0x8020_0000, 1 << 21, 3),
        map(0x20_1000, 0x8000_0000, 4096, 3),
        map(0, 0x8000_0000, 1 << 21, 3),
        map(0x4000_0000, 0x8000_0000, 4096, 3),
        query(0x20_1234),
        unmap(0x20_1000),
        unmap(0x3000),
        unmap(0),
        unmap(0x1000),
        unmap(0x20_0000),
        map(0x7F_FFFF_F000, 0x8000_0000, 4096, 3),
        map(0x80_0000_0000, 0x8000_0000, 4096, 3),
    ]
}

/// The same with pages of 16 KiB and a block of 32 MiB. The sizes of the smaller granule are refused.
fn in_large() -> Vec<Call> {
    vec![
        map(0, 0x8000_0000, 1 << 14, 3),
        map(0x4000, 0x8000_4000, 1 << 14, 5),
        map(0x200_0000, 0x8200_0000, 1 << 25, 3),
        map(0x10_0000_0000, 0x8000_0000, 1 << 14, 3),
        map(0x200_4000, 0x8000_0000, 1 << 14, 3),
        map(0, 0x8000_0000, 1 << 25, 3),
        map(0x8000, 0x8000_0000, 4096, 3),
        map(0x400_0000, 0x8000_0000, 1 << 21, 3),
        map(0x10_0000_0000, 0x8000_0000, 1 << 30, 3),
        map(0x9000, 0x8000_0000, 1 << 14, 3),
        map(0x8000, 0x4000_C000, 1 << 14, 3),
        query(0x201_2345),
        query(0x10_0000_0001),
        unmap(0x200_4000),
        unmap(0x1000),
        unmap(0xC000),
        unmap(0x400_0000),
        unmap(0),
        unmap(0x4000),
        unmap(0x200_0000),
        map(0x7FFF_FFFF_C000, 0x8000_0000, 1 << 14, 3),
        map(0x8000_0000_0000, 0x8000_0000, 1 << 14, 3),
    ]
}

/// The first three maps; then a map gets 7, spare memory is found, and the same map is accepted.
fn story(calls: &[Call]) -> Vec<Call> {
    let setup = Setup::default();
    let add = Call::Add { setup, base: 0x5000_0000, tables: MORE as u64 };
    let (page, size) = match calls[1] {
        Call::Map { address, size, .. } => (address, size),
        _ => unreachable!("the second call is a map"),
    };
    let (far, near) = (Shape::of(size).region(3), 2 * Shape::of(size).region(2));
    let seven = map(far, 0x8000_0000, size, 3);
    [&calls[..3], &[seven, add, seven, add, unmap(0), unmap(page), map(near, 0x8000_0000, size, 3)]].concat()
}

fn map_range(address: u64, frame: u64, length: u64, attributes: u64) -> Call {
    Call::MapRange { setup: Setup::default(), address, frame, length, attributes }
}

fn unmap_range(address: u64, length: u64) -> Call {
    Call::UnmapRange { setup: Setup::default(), address, length }
}

/// Ranges: twenty blocks, which are 40 MiB of the smaller granule, with both bases aligned to them and off by a page; ranges that meet mappings, cut them and
/// end where the space does.
fn ranges(granule: u64) -> Vec<Call> {
    let shape = Shape::of(granule);
    let [page, block, large] = [1, 2, 3].map(|left| shape.region(left));
    let (length, frame, at) = (20 * block, 0x8000_0000, large.max(1 << 32));
    vec![
        map_range(at, frame, length, 3),
        map_range(at + 19 * block, frame, page, 3),
        unmap_range(at + block, page),
        unmap_range(at + 19 * block - page, 2 * block),
        unmap_range(at + 19 * block, 2 * block),
        unmap_range(at - block, length + block),
        map_range(at, frame + page, length, 3),
        map_range(at, frame + page, 2 * page, 5),
        map_range(at - page, frame + 7 * page, 2 * page, 5),
        map_range(block - page, frame - page, block + 2 * page, 7),
        unmap_range(block, block),
        unmap_range(0, 1 << 32),
        unmap_range(0, (1 << 32) + page),
        map_range(shape.space(3) - 2 * page, frame, 2 * page, 3),
        map_range(shape.space(3) - page, frame, 2 * page, 3),
        map_range(0, 0x4000_0000 - 2 * page, 3 * page, 3),
        map_range(0, frame, 0, 3),
        unmap_range(page / 2, page),
        unmap_range(at, 1 << 32),
    ]
}

/// Adds the steps of a history from a fresh format of one region, with an audit after each call.
fn add_history(steps: &mut Vec<Step>, granule: u64, levels: u64, tables: usize, calls: &[Call]) {
    let mut world = World::default();
    let mut add = |world: &mut World, step: Step| {
        world.apply(&step).expect("plain agrees with the ledger");
        steps.push(step);
    };
    let entries = granule as usize / 8;
    let (words, second, places) = (entries * tables, entries * MORE, tables + MORE);
    add(&mut world, Step::Memory { words, second, places });
    let format = Call::Format { levels, base: 0x4000_0000, tables: tables as u64, second_base: 0, second_tables: 0, granule };
    add(&mut world, Step::Call { call: format, words, second: 0, places: tables });
    for call in calls {
        for call in [*call, Call::Audit { setup: Setup::default() }] {
            let call = call.with_setup(world.setup);
            let more = if matches!(call, Call::Add { .. }) { MORE } else { world.setup.second_tables as usize };
            add(&mut world, Step::Call { call, words, second: entries * more, places: tables + more });
        }
    }
}
