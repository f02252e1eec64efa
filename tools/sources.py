"""Reads the list of crates and the functions of a crate, for the checks beside this file. It reads text and runs nothing."""
import re
from dataclasses import dataclass, field
from pathlib import Path


class Unreadable(Exception):
    """A text that this reader does not understand: the check that asked fails, and nothing is passed over."""


# ---- crates.txt

def crate_lines(root):
    """What each line of crates.txt lists: a name, and those that it leans on. Words behind the name, as `staticlib`, say how rt builds it."""
    for line in (Path(root) / 'crates.txt').read_text(encoding='utf-8').splitlines():
        name, _, rest = line.split('#')[0].partition(':')
        if name.strip():
            yield name.split()[0], rest.split()


def listed_crates(root):
    """The names that crates.txt lists, in its order."""
    return [name for name, _ in crate_lines(root)]


# ---- a crate's modules

@dataclass
class Function:
    name: str
    module: tuple       # the modules from the crate's root down, as ('inner', 'deep')
    owner: str          # the type of its `impl` block, `Array` for that of an array, or ''
    open: bool          # whether it says `pub` with nothing in parentheses after it
    exported: bool      # whether it is marked #[unsafe(no_mangle)]
    requires: int       # how many clauses of each kind it has
    ensures: int
    path: Path
    line: int
    public: bool = False

    @property
    def names(self):
        """What an edit may call it: its own name, or that with its type or its module before it."""
        before = self.owner or (self.module[-1] if self.module else '')
        return {self.name, before + '.' + self.name} if before else {self.name}


@dataclass
class Module:
    path: tuple
    public: bool
    functions: list = field(default_factory=list)
    types: dict = field(default_factory=dict)       # the name of a struct or an enum: whether it says `pub`
    modules: dict = field(default_factory=dict)     # the name of a child: (the module, whether it says `pub`)
    passed_on: list = field(default_factory=list)   # the paths that `pub use` lines name


WORD = re.compile(r'[^\W\d]\w*')
QUOTED = re.compile(r'''b?"(?:[^"\\]|\\.)*"|b'(?:[^'\\]|\\.[^'\n]*)\'''', re.S)


class Reader:
    """A place in a text of Rattle. Clauses are text of antt, whose comments and names are other than Rattle's."""

    def __init__(self, text, path):
        self.text, self.path, self.at = text, path, 0

    def line(self):
        return self.text.count('\n', 0, self.at) + 1

    def fail(self, what):
        raise Unreadable(f'{self.path}:{self.line()}: {what}')

    def skip(self):
        """Past white space and comments; block comments nest."""
        while self.at < len(self.text):
            if self.text[self.at].isspace():
                self.at += 1
            elif self.text.startswith('//', self.at):
                end = self.text.find('\n', self.at)
                self.at = len(self.text) if end < 0 else end
            elif self.text.startswith('/*', self.at):
                self.comment('/*', '*/')
            else:
                return

    def comment(self, opens, closes):
        depth = 0
        while True:
            if self.at >= len(self.text):
                self.fail('a comment does not end')
            if self.text.startswith(opens, self.at):
                depth, self.at = depth + 1, self.at + 2
            elif self.text.startswith(closes, self.at):
                depth, self.at = depth - 1, self.at + 2
                if depth == 0:
                    return
            else:
                self.at += 1

    def peek(self):
        """The next character that counts, or '' at the end."""
        self.skip()
        return self.text[self.at:self.at + 1]

    def word(self):
        """The next word, which is taken, or '' where none stands next."""
        self.skip()
        m = WORD.match(self.text, self.at)
        if not m or QUOTED.match(self.text, self.at):
            return ''
        self.at = m.end()
        return m.group()

    def next_is(self, *words):
        back = self.at
        found = self.word() in words
        self.at = back
        return found

    def one(self):
        """Past one token of code: a quoted text, a word, a group in brackets or one character."""
        c = self.peek()
        quoted = QUOTED.match(self.text, self.at)
        if quoted:
            self.at = quoted.end()
        elif c and c in '([{':
            self.group()
        elif not self.word():
            self.at += 1

    def group(self):
        """Past a group in brackets, of code."""
        closes = {'(': ')', '[': ']', '{': '}'}[self.text[self.at]]
        start, self.at = self.at, self.at + 1
        while self.peek() != closes:
            if self.peek() == '':
                self.at = start
                self.fail('a bracket is not closed')
            if self.peek() in ')]}':
                self.fail('a bracket closes another')
            self.one()
        self.at += 1

    def clause(self):
        """Past a group in braces, of antt. `⟦ .. ⟧` holds code."""
        start, depth = self.at, 1
        self.at += 1
        while depth:
            if self.at >= len(self.text):
                self.at = start
                self.fail('a clause is not closed')
            c, two = self.text[self.at], self.text[self.at:self.at + 2]
            before = self.text[self.at - 1:self.at]
            if two == '--' and (before.isspace() or before in '(){}[];,.⌜⌝⟦⟧'):
                end = self.text.find('\n', self.at)
                self.at = len(self.text) if end < 0 else end
            elif two == '{-':
                self.comment('{-', '-}')
            elif c == '"':
                quoted = QUOTED.match(self.text, self.at)
                if not quoted:
                    self.fail('a text in quotes does not end')
                self.at = quoted.end()
            elif c == '⟦':
                while self.peek() not in ('⟧', ''):
                    self.one()
            else:
                depth += {'{': 1, '}': -1}.get(c, 0)
                self.at += 1

    def clause_name(self):
        """Past what may stand between the word of a clause and its braces: the star of one that speaks of memory, and a name."""
        if self.peek() == '*':
            self.at += 1
        self.word()

    def until(self, *ends):
        """Past code up to one of these characters outside brackets; the character is left."""
        while self.peek() not in ends:
            if self.peek() == '' or self.peek() in ')]}':
                self.fail('expected ' + ' or '.join(ends))
            self.one()


def read_items(r, module, src, found, owner='', closes=''):
    """Reads the items of a module or of an `impl` block, up to the bracket that closes it."""
    while r.peek() != closes:
        if r.peek() == '':
            r.fail('a block is not closed')
        exported = False
        while r.peek() == '#':
            start = r.at
            r.until('[')
            r.group()
            exported = exported or 'no_mangle' in r.text[start:r.at]
        if r.peek() == closes:
            break   # what stood last is said of the whole file, as `#![tactic(auto)]`
        is_open = False
        if r.next_is('pub'):
            r.word()
            is_open = r.peek() != '('
            if not is_open:
                r.group()
        read_item(r, module, src, found, owner, is_open, exported)
    r.at += len(closes)


def read_item(r, module, src, found, owner, is_open, exported):
    line = r.line()
    kind = r.word()
    if kind == 'extern' and r.peek() == '"':
        r.one()
        if r.peek() == '{':
            r.at += 1
            return read_items(r, module, src, found, owner, '}')
        kind = r.word()
    while kind in ('const', 'unsafe') and r.next_is('fn', 'unsafe', 'extern'):
        kind = r.word()
        if kind == 'extern':
            r.one()
            kind = r.word()
    if kind == 'fn':
        read_function(r, module, owner, is_open, exported, line)
    elif kind == 'mod':
        read_module(r, module, src, found, is_open)
    elif kind == 'impl':
        start = r.at
        r.until('{')
        words = re.sub(r'<[^>]*>', ' ', r.text[start:r.at])
        r.at += 1
        owner = 'Array' if re.search(r'\bfor\s*\[', words) else re.findall(r'\w+', words)[-1]
        read_items(r, module, src, found, owner, '}')
    elif kind in ('struct', 'enum'):
        module.types[r.word()] = is_open
        r.until('{', ';')
        if r.peek() == '{':
            r.group()
        else:
            r.at += 1
    elif kind == 'ghost':
        # names of antt, in which a quote or a slash may stand
        end = r.text.find(';', r.at)
        if end < 0:
            r.fail('a `ghost use` does not end')
        r.at = end + 1
    elif kind in ('use', 'const', 'static', 'type'):
        start = r.at
        r.until(';')
        if kind == 'use' and is_open:
            if '*' in r.text[start:r.at]:
                r.fail('a glob in a `pub use`: name what it passes on')
            module.passed_on += use_paths(r.text[start:r.at])
        r.at += 1
    else:
        r.fail(f'expected an item, found {kind or r.peek()!r}')


def read_function(r, module, owner, is_open, exported, line):
    name, clauses = r.word(), {'ghost': 0, 'requires': 0, 'ensures': 0}
    if not name:
        r.fail('a function without a name')
    while r.peek() not in ('{', ';'):
        if r.peek() == '' or r.peek() in ')]}':
            r.fail(f'fn {name} has no body')
        if not r.next_is(*clauses):
            r.one()
            continue
        kind = r.word()
        r.clause_name()
        if r.peek() != '{':
            r.fail(f'fn {name}: a clause without braces')
        r.clause()
        clauses[kind] += 1
    if r.peek() == '{':
        r.group()
    else:
        r.at += 1
    module.functions.append(Function(name, module.path, owner, is_open, exported, clauses['requires'], clauses['ensures'], r.path, line))


def read_module(r, parent, src, found, is_open):
    name = r.word()
    child = Module(parent.path + (name,), parent.public and is_open)
    parent.modules[name] = (child, is_open)
    found.append(child)
    if r.peek() == '{':
        r.at += 1
        return read_items(r, child, src, found, '', '}')
    r.until(';')
    r.at += 1
    below = src.joinpath(*child.path)
    for path in (below.with_name(name + '.rt'), below / 'mod.rt'):
        if path.is_file():
            return read_file(path, child, src, found)
    r.fail(f'mod {name}: no such file')


def read_file(path, module, src, found):
    read_items(Reader(path.read_text(encoding='utf-8'), path), module, src, found)


def use_paths(text):
    """The paths that `a::{b, c::d as e}` names, each a tuple of words."""
    text = re.sub(r'\bas\s+\w+', '', re.sub(r'//[^\n]*|/\*.*?\*/', ' ', text, flags=re.S))
    text = re.sub(r'\s', '', text)

    def paths(text, before):
        m = re.fullmatch(r'((?:\w+::)*)\{(.*)\}', text, re.S)
        if not m:
            return [before + tuple(text.split('::'))] if text else []
        before += tuple(w for w in m.group(1).split('::') if w)
        out, depth, part = [], 0, ''
        for c in m.group(2) + ',':
            depth += {'{': 1, '}': -1}.get(c, 0)
            if c == ',' and depth == 0:
                out += paths(part, before)
                part = ''
            else:
                part += c
        return out

    return paths(text, ())


# ---- which functions are public

def open_up(module):
    """Marks a module as public, and with it the children that say `pub`."""
    if not module.public:
        module.public = True
        for child, is_open in module.modules.values():
            if is_open:
                open_up(child)


def pass_on(found, types):
    """Follows the `pub use` lines of the public modules once. Says whether something became public."""
    by_path = {m.path: m for m in found}
    changed = False
    for module in [m for m in found if m.public]:
        for words in module.passed_on:
            base = module.path
            while words and words[0] in ('crate', 'self', 'super'):
                base = {'crate': (), 'self': base, 'super': base[:-1]}[words[0]]
                words = words[1:]
            home, last = by_path.get(base + words[:-1]), words[-1] if words else ''
            if last == 'self':
                home, last = by_path.get(base + words[:-2]), words[-2] if len(words) > 1 else ''
            if home is None:
                continue    # another crate's
            child = home.modules.get(last)
            if child and not child[0].public:
                open_up(child[0])
                changed = True
            for f in home.functions:
                if f.name == last and not f.owner and f.open and not f.public:
                    f.public = changed = True
            if home.types.get(last) and last not in types:
                types.add(last)
                changed = True
    return changed


def crate_functions(root, name):
    """The functions of a crate, each with `public` set: those that say `pub` and that another crate or a C program can
    call. That is a function of a module that `pub mod` lines lead to from the root, one that a `pub use` line of such a
    module names, a method of a type that is public in one of these ways, and one marked #[unsafe(no_mangle)]."""
    src = Path(root) / 'crates' / name / 'src'
    found = []
    for file in ('lib.rt', 'main.rt'):
        if (src / file).is_file():
            found.append(Module((), True))
            read_file(src / file, found[-1], src, found)
    types = {t for m in found if m.public for t, is_open in m.types.items() if is_open}
    while pass_on(found, types):
        types |= {t for m in found if m.public for t, is_open in m.types.items() if is_open}
    functions = [f for m in found for f in m.functions]
    open_modules = {m.path for m in found if m.public}
    for f in functions:
        reached = f.public or f.exported or f.module in open_modules or f.owner in types
        program = f.name == 'main' and not f.module and not f.owner and f.path.name == 'main.rt'
        f.public = f.open and reached and not program
    return functions
