#!/usr/bin/env python3
"""Holds docs/PROMISES.md to the tree: says which edit, name, file or quotation it names that is not there.

    python3 tools/promises_check.py [FILE]

FILE is docs/PROMISES.md where none is given. Prints a line for each thing that is missing and ends with
status 1, or prints how much it looked at and ends with status 0. What it takes for what:

  gate: CRATE/LABEL, ..      an edit of crates/CRATE/must-fail
  outside: CRATE/LABEL, ..   an edit of edits/CRATE
  CRATE/LABEL elsewhere      an error where CRATE is a crate: it does not say where the edit stands
  word/specs/Laws            a file or folder below crates/, with or without .antt or .rt
  (Laws/Path, Code)          in brackets: the same below CRATE/specs of the file named before, or of the
                             section's line 'Files below CRATE/specs'; a file of proofs is named whole
  docs/.., tools/.., ..      a path from the root of the repository
  `name` .. (FILE, ..)       the name is declared in one of the files, or in src/ of their crates
  `name`                     with no file behind it in its item: declared somewhere in crates/
  `crate::name`, `name`      a function, struct, enum or constant in src/ of that crate, and so the names
                             behind it
  ```antt FILE               the block stands in FILE word by word; a line '..' leaves something out

An item is a paragraph, a point of a list or a row of a table; the files of a row are those of all its
columns, but in a row of five columns, which goes across crates, a name may be declared anywhere. Text between <!-- and -->, and between the marks of the trusted list and of the key, is passed over.

Besides, each public function of the crates has to be named by the first lines of two edits or more that
change nothing but code. Those of crate promise only make the calls of the others, and what stands there to
be wrong is their statements: for them two edits of either kind are wanted."""
import os
import re
import sys

ROOT = os.path.dirname(os.path.dirname(os.path.abspath(__file__)))
CRATES = sorted(os.listdir(os.path.join(ROOT, 'crates')))
TOP = ('docs', 'tools', 'edits', 'crates', 'tests', 'include', 'bindings', 'samples', '.ci')
FOLDERS = ('specs', 'src', 'proofs', 'must-fail')
NAME = r"[^\W\d][\w'→-]*"


def read(path):
    with open(path, encoding='utf-8') as f:
        return f.read()


def below(folder, endings):
    """The files below a folder that have one of the endings."""
    found = []
    for base, folders, names in os.walk(folder):
        if 'out' in folders:  # what the toolchain keeps
            folders.remove('out')
        found += [os.path.join(base, n) for n in sorted(names) if n.endswith(endings)]
    return found


def declared(path):
    """The names that a file declares, fields, variants and methods among them."""
    text = read(path)
    if path.endswith('.rt'):
        names = set(re.findall(r'\b(?:fn|struct|enum|const|mod|type)\s+(\w+)', text))
        names |= set(re.findall(r'pub use [\w:]+::(\w+);', text))
        return names | set(re.findall(r'^\s+(?:pub )?(\w+)(?::|,$|\(| \{|\s*=>)', text, re.M))
    names = set()
    for line in text.split('\n'):
        if re.search(r' :( |$)', line) or re.search(r'\b(record|data)\b', line):
            found = re.match(r'(?:\s|\b(?:pub|abbrev|unfoldable|record|data)\b)*(' + NAME + r')', line)
            if found:
                names.add(found.group(1))
    return names


def of_function(path):
    """Whether the file is of the proof of a function, and not one of theorems."""
    return os.sep + 'proofs' + os.sep in path and os.path.basename(os.path.dirname(path)) != 'proofs'


class Tree:
    """What crates/ declares, file by file."""

    def __init__(self):
        self.names = {}
        for crate in CRATES:
            for path in below(os.path.join(ROOT, 'crates', crate), ('.antt', '.rt')):
                if not of_function(path) and os.sep + 'must-fail' + os.sep not in path:
                    self.names[path] = declared(path)

    def files(self, short):
        """The files that a name such as word/specs/Laws, word/src/lib.rt or page/specs stands for."""
        path = os.path.join(ROOT, '' if short.split('/')[0] in TOP else 'crates', short)
        found = [p for p in (path, path + '.antt', path + '.rt') if os.path.isfile(p)]
        if os.path.isdir(path):
            found += below(path, ('.antt', '.rt'))
        return found

    def has(self, name, files):
        return any(name in self.names.get(f, ()) for f in files)

    def anywhere(self, name):
        return any(name in names for names in self.names.values())

    def source(self, crate):
        return [p for p in self.names if p.startswith(os.path.join(ROOT, 'crates', crate, 'src') + os.sep)]


def items(text):
    """(number of the first line, text) of each paragraph, heading, point, row and quoted block."""
    out, block, start, fence = [], [], 0, False
    for number, line in enumerate(text.split('\n'), 1):
        if line.startswith('```'):
            if fence:
                out.append((start, '\n'.join(block + [line])))
                block, fence = [], False
            else:
                if block:
                    out.append((start, '\n'.join(block)))
                block, start, fence = [line], number, True
            continue
        begins = line.startswith(('- ', '| ', '#'))
        if not fence and (not line.strip() or begins) and block:
            out.append((start, '\n'.join(block)))
            block = []
        if fence or line.strip():
            if not block:
                start = number
            block.append(line)
    if block:
        out.append((start, '\n'.join(block)))
    return out


def short_paths(text, last):
    """The file names in a piece of text, and CRATE/specs of the last one, which a name in brackets or in a
    row may leave out."""
    found, short = [], text.startswith(('(', '|'))
    for word in re.findall(r'(?<![\w/`:.])(?:[\w.-]+(?:/[\w.-]+)+|[A-Z]\w+(?=[,;)]))', text):
        word = word.rstrip('.')
        parts = word.split('/')
        if parts[0] in TOP:
            found.append(word)
        elif parts[0] in CRATES and len(parts) > 1 and parts[1] in FOLDERS:
            last = last if last and parts[1] == 'proofs' else '/'.join(parts[:2])
            found.append(word)
        elif short and last and (parts[0][0].isupper() or parts[0] == 'src'):
            found.append((last.split('/')[0] if parts[0] == 'src' else last) + '/' + word)
    return found, last


def edit_lists(text):
    """(where, CRATE/LABEL) of each edit named after gate: or outside:, and the text without them."""
    found = []

    def take(match):
        found.extend((match.group(1), e) for e in re.findall(r'[a-z_0-9]+/[a-z_0-9]+', match.group(2)))
        return ' '

    rest = re.sub(r'\b(gate|outside):((?:\s*`?[a-z_0-9]+/[a-z_0-9]+`?,?)+)', take, text)
    return found, rest


class Report:
    def __init__(self):
        self.missing = []
        self.seen = {'edits': 0, 'files': 0, 'names': 0, 'quotations': 0, 'calls': 0}

    def look(self, kind, good, number, what):
        self.seen[kind] += 1
        if not good:
            self.missing.append('line %d: %s' % (number, what) if number else what)


def check_edits(text, number, report):
    found, rest = edit_lists(text)
    for where, edit in found:
        crate, label = edit.split('/')
        path = 'crates/%s/must-fail/%s.edit' if where == 'gate' else 'edits/%s/%s.edit'
        path = path % (crate, label)
        report.look('edits', os.path.isfile(os.path.join(ROOT, path)), number, 'no edit ' + path)
    for crate, label in re.findall(r'(?<![\w/])([a-z_0-9]+)/([a-z_0-9]+)(?![\w/]|\.\w)', rest):
        if crate in CRATES and label not in FOLDERS:
            report.look('edits', False, number, '%s/%s: gate or outside?' % (crate, label))
    return rest


def check_names(text, number, base, tree, report):
    """Each name in backquotes against the files that follow it in brackets, or against those of its row."""
    row = text.startswith('|')
    last, waiting = base, []
    for piece in [text] if row else re.split(r'(\([^()]*\))', text):
        paths, last = short_paths(piece, last)
        for path in paths:
            report.look('files', bool(tree.files(path)) or os.path.exists(os.path.join(ROOT, path)), number,
                        'no file %s' % path)
        if piece.startswith('(') and paths:
            settle(waiting, paths, number, tree, report)
            waiting = []
        crate = None
        for name in re.findall(r'`([^`]+)`', piece):
            if '::' in name and re.fullmatch(r'[\w:]+', name) and name.split('::')[0] in CRATES:
                crate, name = name.split('::', 1)
                report.look('names', tree.has(name.split('::')[-1], tree.source(crate)), number,
                            'no %s in %s/src' % (name, crate))
            elif re.fullmatch(NAME, name) and not (crate and tree.has(name, tree.source(crate))):
                waiting.append(name)
        if row:
            settle(waiting, [] if text.count('|') > 5 else paths, number, tree, report)
            waiting = []
    settle(waiting, [], number, tree, report)


def settle(names, paths, number, tree, report):
    files = [f for p in paths for f in tree.files(p)]
    crates = {os.path.relpath(f, os.path.join(ROOT, 'crates')).split(os.sep)[0] for f in files}
    files += [f for c in crates for f in tree.source(c)]
    for name in names:
        if files:
            report.look('names', tree.has(name, files), number, 'no %s in %s' % (name, ', '.join(paths)))
        else:
            report.look('names', tree.anywhere(name), number, 'no %s in crates/' % name)


def check_quotation(text, number, tree, report):
    head, *lines = text.split('\n')
    found = re.match(r'```antt (\S+)$', head)
    if not found:
        return
    files = tree.files(found.group(1))
    report.look('files', bool(files), number, 'no file %s' % found.group(1))
    whole = ' '.join(' '.join(read(f).split()) for f in files)
    for part in re.split(r'^\.\.$', '\n'.join(lines[:-1]), flags=re.M):
        said = ' '.join(part.split())
        report.look('quotations', said in whole, number, 'not in %s: %s' % (found.group(1), said[:60]))


def check_calls(tree, report):
    """Each public function is named by two edits or more: CRATE::NAME, NAME: what is wrong."""
    named = {}
    for path in below(os.path.join(ROOT, 'edits'), '.edit') + below(os.path.join(ROOT, 'crates'), '.edit'):
        text = read(path)
        crate, _, names = text.split('\n')[0].split(': ')[0].partition('::')
        of_code = all(f.startswith('src/') for f in re.findall(r'^file: (\S+)', text, re.M))
        if crate != 'promise' and not of_code:
            continue
        for name in re.findall(r'[\w:]+', names):
            call = (crate, name.split('::')[-1])
            named[call] = named.get(call, 0) + 1
    for path in tree.names:
        crate = os.path.relpath(path, os.path.join(ROOT, 'crates')).split(os.sep)[0]
        if path.endswith('.rt'):
            for name in re.findall(r'^\s*pub (?:extern "C" )?fn (\w+)', read(path), re.M):
                count = named.get((crate, name), 0)
                report.look('calls', count >= 2, 0, '%s::%s: %d edits, not two' % (crate, name, count))


def main(words):
    if len(words) > 1 or (words and words[0].startswith('-')):
        print(__doc__)
        return 0 if words and words[0] in ('-h', '--help') else 2
    path = words[0] if words else os.path.join(ROOT, 'docs', 'PROMISES.md')
    if not os.path.isfile(path):
        print('promises_check: no file %s. Wanted: python3 tools/promises_check.py [FILE]' % path,
              file=sys.stderr)
        return 2
    text = read(path)
    for passed in (r'<!-- (trusted|notation): begin -->.*?<!-- \1: end -->', r'<!--.*?-->'):
        text = re.sub(passed, lambda m: '\n' * m.group(0).count('\n'), text, flags=re.S)
    tree, report, base = Tree(), Report(), None
    for number, item in items(text):
        if item.startswith('#'):
            base = None
        elif item.startswith('```'):
            check_quotation(item, number, tree, report)
        else:
            said = re.search(r'[Ff]iles below `?(\w+/specs)', item)
            base = said.group(1) if said else base
            check_names(check_edits(item, number, report), number, base, tree, report)
    check_calls(tree, report)
    for line in report.missing:
        print(line)
    seen = ', '.join('%d %s' % (count, kind) for kind, count in report.seen.items())
    print('%d missing; looked at %s' % (len(report.missing), seen))
    return 1 if report.missing else 0


if __name__ == '__main__':
    sys.exit(main(sys.argv[1:]))
