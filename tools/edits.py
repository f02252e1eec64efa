"""Reads edits, wrong versions of a crate, and what rt says of those that were tried, for the checks beside this file and ./mutants."""
import re

# what the first error says where the text does not fit the proof files any more, and no fact is at stake
SHAPES = (
    'has no field',                                             # a step or a clause of another name
    'can be named from here',                                   # any other name that the proof file cites and that is gone
    'is not in scope',
    'was not admitted',                                         # what leans on such a file
    'has no function',                                          # a proof file of a function that is gone
    'no occurrence',                                            # a rewrite that finds nothing to rewrite
    'this pattern needs a function (or path) type to bind',     # an answer over fewer steps
    'write the case',                                           # an answer by cases, of which the edit makes one more
)
# a line of rt on one edit; what it says of one that is refused, for which reason, and the first error
TOLD = re.compile(r'^rt: must-fail ([^\s/]+)/(\S+)\.edit: (.*)$', re.M)
REFUSED = re.compile(r'refused, as it must be(?: \((only [^()]*)\))?(?:: (.*))?')


def edited_files(path):
    return re.findall(r'^file: *(.*)$', path.read_text(encoding='utf-8'), re.M)


def order_reason(path):
    """Why an edit changes nothing but the order of writes, as its line `order: REASON` says, or ''. rt passes over that line."""
    m = re.search(r'^order: *(\S.*)$', path.read_text(encoding='utf-8'), re.M)
    return m.group(1) if m else ''


def edited_texts(path, crate):
    """The files of a crate's folder that an edit changes, each with its text after it, and why rt could not make the edit, or '': it has no pair,
    an old text does not stand once where the pairs before left it, or a new text is the old one."""
    texts, file, old, pairs = {}, '', '', 0
    for line in path.read_text(encoding='utf-8').splitlines():
        if line.startswith('file: '):
            file = line[len('file: '):]
        elif line.startswith('old: '):
            old = line[len('old: '):]
        elif line.startswith('new:'):
            if file not in texts:
                if not file or not (crate / file).is_file():
                    return {}, f'the crate has no file {file}'
                texts[file] = (crate / file).read_text(encoding='utf-8')
            count = texts[file].count(old) if old else 0
            if count != 1:
                return {}, f'its text "{old}" stands {count} times in {file}'
            new = line[len('new:'):].removeprefix(' ')
            if new == old:
                return {}, f'its text "{old}" stays as it is'
            texts[file] = texts[file].replace(old, new)
            old, pairs = '', pairs + 1
    return texts, '' if pairs else 'it has no pair of old and new'


def told_by(said):
    """What rt says of each edit, by its crate and its label, in what `rt ci` or `rt must-fail` wrote."""
    return {(m[1], m[2]): m[3] for m in TOLD.finditer(said)}


def outcome(told, crate, label):
    """The first error of an edit that was tried, as far as rt writes it, and why it shows nothing, or ''. An edit shows something only where a
    fact no longer holds, and nothing where the proof file does not fit the code any more (rt says so, or SHAPES) or the prover met a limit of its own."""
    if (crate, label) not in told:
        return '', 'it was not tried'
    m = REFUSED.fullmatch(told[crate, label])
    if not m:
        return '', f'it did not count as refused: {told[crate, label]}'
    only, error = m[1], m[2] or ''
    if only:
        return error, f'it was refused, but {only}'
    if not error:
        return '', 'no error is said'
    shape = next((s for s in SHAPES if s in error), '')
    return error, f'it was refused for the shape of the proof file and not for a fact: its first error says "{shape}"' if shape else ''
