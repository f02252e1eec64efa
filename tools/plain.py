"""Writes library crates of Rattle as one text of plain Rust, for check-differ. Rattle is nearly Rust: contracts and ghost names are left out, plain
data becomes Copy, and all is public, so that a program beside the crates reaches it. Each crate is a module."""
import re
from pathlib import Path

from sources import Reader, crate_lines, listed_crates

CLAUSES = ('ghost', 'requires', 'ensures')

# what stands before the crates: std::num of Rattle, and the writes to lent words and lists, in their order
PRELUDE = '''#![allow(warnings)]
pub mod rattle_num {
    macro_rules! wraps { ($($t:ident $add:ident $sub:ident;)*) => { $(
        pub fn $add(a: $t, b: $t) -> $t { a.wrapping_add(b) }
        pub fn $sub(a: $t, b: $t) -> $t { a.wrapping_sub(b) }
    )* } }
    wraps! { u8 wrapping_add_u8 wrapping_sub_u8; u16 wrapping_add_u16 wrapping_sub_u16; u32 wrapping_add_u32 wrapping_sub_u32;
        u64 wrapping_add_u64 wrapping_sub_u64; usize wrapping_add_usize wrapping_sub_usize; }
}
thread_local! { pub static WRITES: std::cell::RefCell<Vec<(usize, u64)>> = std::cell::RefCell::new(Vec::new()); }
pub fn wrote(address: usize, value: u64) { WRITES.with(|w| w.borrow_mut().push((address, value))) }
'''


def library_crates(root):
    """The crates that others may lean on, in the order of crates.txt."""
    return [name for name in listed_crates(root) if (Path(root) / 'crates' / name / 'src' / 'lib.rt').is_file()]


def plain_crate(root, crate, texts):
    """A crate as a module. texts has the files that are to be read otherwise than they stand, as 'src/lib.rt'."""
    libraries, folder = library_crates(root), Path(root) / 'crates' / crate

    def read(file):
        path = folder / file
        return Reader(texts[file] if file in texts else path.read_text(encoding='utf-8'), path)

    beside = [name for name in dict(crate_lines(root))[crate] if name in libraries]
    lines = [f'pub mod {crate} {{', *(f'use crate::{name};' for name in beside)]
    body = '\n'.join(items(read('src/lib.rt'), read, ()))
    body = re.sub(r'\bcrate::(?!rattle_num\b|wrote\b)', f'crate::{crate}::', body)
    return '\n'.join([*lines, body, '}', ''])


def items(r, read, module, closes=''):
    """The items of a module or of an `impl` block, up to the bracket that closes it."""
    out = []
    while r.peek() != closes:
        if r.peek() == '':
            r.fail('a block is not closed')
        while r.peek() == '#':
            r.until('[')
            r.group()
        if r.peek() == closes:
            break   # what stood last is said of the whole file
        if r.next_is('pub'):
            r.word()
            if r.peek() == '(':
                r.group()
        out.append(item(r, read, module))
    r.at += len(closes)
    return out


def item(r, read, module):
    r.skip()
    start, kind = r.at, r.word()
    if kind == 'extern':
        r.one()
        kind = r.word()
    if kind == 'fn':
        return function(r)
    if kind == 'ghost':
        r.at = r.text.index(';', r.at) + 1
        return ''
    if kind == 'mod':
        return inner_module(r, read, module)
    if kind == 'impl':
        r.until('{')
        head, r.at = r.text[start:r.at], r.at + 1
        inside = '\n'.join(items(r, read, module, '}'))
        if re.search(r'\bfor\b', head):   # of a trait, whose functions are as open as it is
            inside = re.sub(r'^pub fn', 'fn', inside, flags=re.M)
        return head + '{\n' + inside + '\n}'
    if kind in ('struct', 'enum'):
        r.until('{', ';')
        r.one()
        return '#[derive(Clone, Copy, Debug, PartialEq)]\npub ' + r.text[start:r.at]
    if kind in ('use', 'const', 'static', 'type'):
        r.until(';')
        r.at += 1
        return 'pub ' + std_num(r.text[start:r.at])
    return r.fail(f'expected an item, found {kind or r.peek()!r}')


def inner_module(r, read, module):
    name = r.word()
    if r.peek() == '{':
        r.at += 1
        inside = items(r, read, module + (name,), '}')
    else:
        r.until(';')
        r.at += 1
        inside = items(read('/'.join(('src', *module, name)) + '.rt'), read, module + (name,))
    return '\n'.join([f'pub mod {name} {{', *inside, '}'])


def function(r):
    """A function without its clauses, whose writes to lent slices are noted."""
    start, signature = r.at, ''
    while r.peek() not in ('{', ''):
        if r.next_is(*CLAUSES):
            signature += r.text[start:r.at]
            r.word()
            r.clause_name()
            r.peek()
            r.clause()
            start = r.at
        else:
            r.one()
    signature += r.text[start:r.at]
    start = r.at
    r.group()
    body = r.text[start:r.at]
    for name in re.findall(r'(\w+)\s*:\s*&\s*mut\s*\[\s*u(?:64|32)\s*\]', signature):
        body = noted(body, name, r.path)
    return 'pub fn' + std_num(signature + body)


def noted(body, name, path):
    """A body in which each `NAME[I] = V;` also says what it wrote, and where; so does each `NAME.fill(V);`, and each `*X = V;` of a loop over NAME."""
    said = r'crate::wrote(&{0} as *const _ as usize, {0} as u64);'
    body = re.sub(rf'^\s*{name}\.fill\(([^;]*)\);', lambda m: f'\n{{ let all = {m[1]}; for here in 0..{name}.len() {{ {name}[here] = all; {said.format(f"{name}[here]")} }} }}', body, flags=re.M)
    for one in set(re.findall(rf'\bfor\s+(?:\(\w+,\s*)?(\w+)\)?\s+in\s+(?:&mut\s+)?{name}\b', body)):
        body = re.sub(rf'^\s*\*{one} = ([^;]*);', lambda m: f'\n{{ *{one} = {m[1]}; {said.format("*" + one)} }}', body, flags=re.M)
    out, at = '', 0
    for m in re.finditer(rf'^\s*{name}(?=\[)', body, re.M):
        r = Reader(body, path)
        r.at = m.end()
        r.group()
        index = body[m.end() + 1:r.at - 1]
        if r.peek() != '=' or body[r.at + 1] == '=':
            continue
        value, r.at = r.at + 1, r.at + 1
        r.until(';')
        out += body[at:m.start()] + (f'\n{{ let here: usize = {index}; {name}[here] = {body[value:r.at]}; '
                                     f'crate::wrote(&{name}[here] as *const _ as usize, {name}[here] as u64); }}')
        at = r.at + 1
    return out + body[at:]


def std_num(text):
    return re.sub(r'\bstd::num::', 'crate::rattle_num::', text)
