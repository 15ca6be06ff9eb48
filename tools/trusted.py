#!/usr/bin/env python3
"""The list of what has to be believed, made from the statements.

    python3 tools/trusted.py           prints the list
    python3 tools/trusted.py --write   writes it between the two marker lines of docs/PROMISES.md
    python3 tools/trusted.py --check   exits 1 where the list in docs/PROMISES.md is not the tree's
    python3 tools/trusted.py --rest    prints what stands at the top of specs/ and no statement needs

The prover shows that each function meets its contract and that each theorem's proof is one. What it cannot
show is that the contracts and the theorems say what was meant. So the definitions that they are written in
have to be read. This is the rule:

- A statement is the contract of a public function (but for the crates PARTS below), or the type of a
  promised theorem: one that docs/PROMISES.md names in backquotes.
- A definition has to be believed if a statement mentions it, or if the type or the body of a definition that
  has to be believed mentions it. The structs, enums, traits and `type` lines of the calls, in src/, count as
  definitions. What is ghost counts with the type that it stands in, or that its `impl` is of: a struct's ghost
  fields, and the members of an `impl Model`, since what a contract says of a value is said of its view. With a
  trait count its ghost members and what its methods ensure.
- A public function is a `pub fn`, a method of a public trait, and a method with a contract of its own in an
  `impl` of a trait: without one, what it says is the trait's. The type that an `impl` is of is one of those of its
  functions.
- A proof need not be believed. Where a definition mentions a theorem, the theorem's type is followed, and its
  proof is not.

A theorem is told from a definition by a rule of thumb, which lists too much rather than too little. What is
marked `abbrev` or `unfoldable`, a `data` and a `record` are definitions. Any other name is a theorem only
where its type ends in an equation, an order, another connective of propositions, or a proposition of this
repository; else it is a definition. Names are found by their spelling: a bound variable that is spelled like
an imported definition counts as that definition. A name in docs/PROMISES.md means the theorem of the file
that its line names. Where it names none, a name that is a definition's or a call's too (but no method's) means
that; any other means every theorem of that name in specs/, or, where none stands there, every public one in
proofs/. What the script cannot read is an error, and no list is made.

A definition's lines are those of its type and its clauses, without comments and blank lines; of a struct those
of its ghost members too.
"""
import re
import sys
from pathlib import Path

ROOT = Path(__file__).resolve().parent.parent
PROMISES = ROOT / 'docs' / 'PROMISES.md'
BEGIN, END = '<!-- trusted: begin -->', '<!-- trusted: end -->'
WIDTH = 150

# The page of the demands, which is read first; and the parts of `encoder`, whose contracts and theorems are
# no promises: the contracts of `encoder` cite the definition of the search alone, and what its parts say to
# each other is used by proofs only. The public functions of all other crates are calls for users.
PAGE = 'promise'
PARTS = 'coord solve join fallback_entries resolve parity'.split()

# What a type ends in, where it is a proposition. A product is one if a part of it is.
CONNECTIVES = set('≡ ≢ < ≤ > ≥ ↔ ⊎ ⊥ ∈ ∉ ≈'.split())
EVIDENCE = {'T', 'Dec', '¬', 'Path', 'IsProp', 'IsSet'}
KEYWORDS = set('''data record deriving module where use mod pub package using open as unfoldable abbrev axiom
    unfold unfolding ruleset mutual infix infixl infixr elim let in do λ ∀ Type → : = | ↦ ← _ ×'''.split())

# A name is a run of characters other than these and spaces. A dot before a name is a field's or a module's;
# one behind the variables of a `λ` is dropped.
TOKEN = re.compile(r'"(?:[^"\\]|\\.)*"|\.(?=\S)|[(){};,@«»]|[^\s(){}.;,@"«»]+')

# What has to be looked at to find the ends of items in src/: quoted texts and characters, which are passed over,
# the brackets, and the semicolon. A quote behind a letter begins no character: it is of a name as x'. A double
# quote that is left over is of a text that was not read.
MARK = re.compile(r'"(?:[^"\\\n]|\\.)*"|(?<![\w\'])b?\'(?:[^\'\\]|\\[^\']+)\'|[(){}\[\];"]')

# What begins an item of src/; an item that ends with a semicolon alone; a clause of a contract up to its bracket.
HEAD = re.compile(r'(pub(?:\([^)]*\))? )?(ghost use|ghost|use|mod|static|struct|enum|type|trait|impl|'
                  r'(?:const |unsafe |extern "C" )*fn|const)\b\s*(.*)', re.S)
SHUT = re.compile(r'(?:pub(?:\([^)]*\))? )?(?:(?:ghost|use|static|type)\b|const (?!fn\b))')
CLAUSE = re.compile(r'\b(?:ensures|requires)(?:\s+\w+)?$')

# A type's name with the path before it.
TYPE = re.compile(r'(?:\w+::)*[A-Z]\w*')


class Unread(Exception):
    """Something stands in a file that this script does not understand."""


class Item:
    """A definition or a theorem: its place, its type, its body, the parameters of the blocks around it."""

    def __init__(self, place, name, kind, marks, around):
        self.place, self.name, self.kind, self.marks, self.around = place, name, kind, marks, around
        self.type, self.body, self.lines, self.theorem = [], [], 0, False
        self.ghost = []  # of a type in src/: what is ghost in it, each part with the file that it stands in

    def key(self):
        return (self.place, self.name)

    def table(self):
        """A list of numbers written down."""
        return sum(bool(re.match(r'\d', word)) for word in self.body) > 50

    def plain(self):
        """Neither marked nor a type: a theorem, or a definition that nobody else can unfold."""
        return self.kind == 'def' and not {'abbrev', 'unfoldable'} & set(self.marks)


def tokens(text):
    return TOKEN.findall(text)


def stripped(line):
    """The line without its comment."""
    out, quoted, i = '', False, 0
    while i < len(line):
        c = line[i]
        if c == '"' and (i == 0 or line[i - 1] != '\\'):
            quoted = not quoted
        if not quoted and line.startswith('--', i) and (i == 0 or line[i - 1] in ' (){}'):
            break
        out, i = out + c, i + 1
    return out.rstrip()


# ---- the files
class Spec:
    """A file of specs/, or of theorems in proofs/: what it brings in by `use`, and its items."""

    def __init__(self, path):
        self.place = str(path.relative_to(ROOT / 'crates'))[:-len('.antt')]
        self.uses, self.modules, self.items = {}, {}, {}
        lines = [stripped(l) for l in path.read_text(encoding='utf-8').split('\n')]
        self.read(self.headed(lines))

    def headed(self, lines):
        """Takes the `use` lines, which may run over several; answers the rest."""
        rest, i = [], 0
        while i < len(lines):
            if re.match(r'(pub |unfoldable pub )?use ', lines[i]):
                text = lines[i]
                while text.count('{') > text.count('}'):
                    i += 1
                    text += ' ' + lines[i].strip()
                self.use(text)
            else:
                rest.append(lines[i])
            i += 1
        return rest

    def use(self, text):
        text = text.replace('{ ', '{').replace(' }', '}')
        found = re.match(r'.*?use +(\S+?)(?:\.\{(.*)\})?(?: +as +(\S+))?;?$', text)
        path, names, alias = found.groups()
        module = module_of(path)
        if names is None:
            self.modules[alias or path.split('.')[-1]] = module
            return
        for name in names.split(','):
            name = name.strip()
            if name:
                was, _, now = name.partition(' as ')
                self.uses[(now or was).strip()] = (module, was.strip())

    def read(self, lines):
        blocks = [(0, [])]  # the indentation of each block that is open, and its parameters
        item, i = None, 0
        while i < len(lines):
            line = lines[i]
            i += 1
            if not line:
                continue
            depth = len(line) - len(line.lstrip())
            while depth < blocks[-1][0]:
                blocks.pop()
            text = line.strip()
            if depth == blocks[-1][0] and re.match(r'(pub )?mod ', text):
                continue
            if depth == blocks[-1][0] and re.match(r'(unfoldable |abbrev )*(module _|mutual)', text):
                while not re.search(r'(^| )where$', text) and not text.endswith('mutual'):
                    text += ' ' + lines[i].strip()
                    i += 1
                while not lines[i]:
                    i += 1
                inner = len(lines[i]) - len(lines[i].lstrip())
                around = tokens(text.replace('module _', '').replace('where', ''))
                blocks.append((inner, blocks[-1][1] + around))
                item = None
                continue
            found = re.match(r'((?:unfoldable |abbrev |pub |axiom )*)(data |record )?(.*)$', text)
            marks, kind, after = found.group(1).split(), (found.group(2) or '').strip(), found.group(3)
            if depth == blocks[-1][0] and (kind or marks or is_signature(after)):
                words = after.split()
                names = [words[0]] if kind else (after + ' ').partition(' : ')[0].split()
                names = [n for n in names if not re.match(r'\{|.*\}$', n)]
                if len(names) != 1:
                    raise Unread('%s: %s: one name to a signature' % (self.place, ' '.join(names)))
                item = Item(self.place, names[0], kind or 'def', marks, blocks[-1][1])
                self.items[item.name] = item
                item.open = True
                item.type += tokens(after[len(names[0]):])
                item.lines += 1
                continue
            if depth == blocks[-1][0] and text.startswith('open '):
                raise Unread('%s: open' % self.place)
            if item is None or re.match(r'(unfolding|infix|infixl|infixr|deriving) ', text):
                continue
            item.lines += 1
            # a line deeper than the signature goes on with it, until the first clause
            if depth == blocks[-1][0]:
                item.open = False
            if item.kind != 'def':
                item.body += tokens(text)
                if item.kind == 'data':
                    names, colon, _ = text.replace('pub ', '').partition(' : ')
                    for name in names.split() if colon else []:
                        made = Item(self.place, name, 'constructor', [], [])
                        made.of = item.name
                        self.items.setdefault(name, made)
            elif item.open:
                item.type += tokens(text)
            else:
                item.body += tokens(text)


def is_signature(text):
    """NAME .. : TYPE, at the start of an item: what stands before the colon is names alone."""
    head, colon, _ = (text + ' ').partition(' : ')
    names = re.sub(r'\{[^}]*\}', '', head)
    return bool(colon) and not re.search(r'[(=]', names) and '{' not in head.split()[0]


def module_of(path):
    """A `use` path as a place below crates/, or as the library's module it is."""
    m = re.match(r'Rattle\.(\w+)\.((?:specs|proofs)\..*)$', path)
    if not m or not (ROOT / 'crates' / m.group(1)).is_dir():
        return 'library ' + path
    crate, parts = m.group(1), m.group(2).split('.')
    if parts[:2] == ['specs', 'declared']:
        within = parts.pop() if parts[-1] in ('TheVariants', 'TheInside') else ''
        return '%s/src/%s' % (crate, '/'.join(parts[2:-1]) or 'lib'), parts[-1], within
    return '%s/%s' % (crate, '/'.join(parts))


# ---- src/
def marks(place, text):
    """The outer brackets, each with its start and the end behind it, and the semicolons that stand in none."""
    level = start = 0
    for found in MARK.finditer(text):
        mark = found.group()
        if mark in '([{':
            start = start if level else found.start()
            level += 1
        elif mark in ')]}':
            level -= 1
            if level == 0:
                yield mark, start, found.end()
        elif mark == ';' and level == 0:
            yield mark, found.start(), found.end()
        if level < 0 or mark == '"':
            raise Unread('%s: %s' % (place, text[found.start():].split('\n')[0]))
    if level:
        raise Unread('%s: a bracket that is not closed' % place)


def pieces(place, text):
    """The items of a file or a block: what stands before the block or the semicolon that ends it, and the block."""
    out, begun = [], 0
    for mark, start, end in marks(place, text):
        head = text[begun:start].strip()
        if mark == ']' and head in ('#', '#!'):  # an attribute
            begun = end
        elif mark == ';' or mark == '}' and not SHUT.match(head) and not CLAUSE.search(head):
            out.append((head, text[start + 1:end - 1] if mark == '}' else None))
            begun = end
    if text[begun:].strip():
        raise Unread('%s: %s' % (place, text[begun:].strip().split('\n')[0]))
    return out


def lines_of(text):
    return len([l for l in text.split('\n') if l.strip()])


def clauses(head):
    """The words of a call's head. A clause's name is none of a definition."""
    said = re.sub(r'\b(ensures|requires)\s+\w+\s+\{', r'\1 {', head)
    return tokens(said.replace('::', ' '))


class Source:
    """A file of src/: its types, what is ghost in its blocks, and the contracts of its public functions."""

    def __init__(self, path, crate):
        self.crate, self.place = crate, '%s/%s' % (crate, path.relative_to(ROOT / 'crates' / crate).with_suffix(''))
        self.uses, self.modules, self.items, self.types = {}, {}, {}, {}
        self.calls = []     # name, words of the contract, and names of types: a list, since methods may share a name
        self.names = set()  # of the calls but for methods, which are named beside their type: one would hide a theorem
        self.ghosts = []    # the head of an `impl`, and a ghost member of it
        text = '\n'.join(re.sub(r'(^|\s)//.*', '', l) for l in path.read_text(encoding='utf-8').split('\n'))
        for head, block in pieces(self.place, text):
            self.read(head, block)
        for name in set(self.uses) & set(self.items):
            raise Unread('%s: two meanings of %s' % (self.place, name))

    def read(self, head, block):
        """Takes an item of the file."""
        marks, kind, after = self.begun(head)
        if kind == 'ghost use':
            self.bring(head)
        elif kind == 'use':
            self.imports(after)
        elif kind in ('struct', 'enum', 'type'):
            self.declares(kind, after, block)
        elif kind == 'trait':
            self.trait(after, block, marks == 'pub')
        elif kind == 'impl':
            self.impl(after, block)
        elif kind.endswith('fn'):
            self.call(after, '', marks == 'pub')
        elif kind == 'ghost' or block is not None:  # no member of anything; a module in this file
            raise Unread('%s: %s' % (self.place, head.split('\n')[0]))

    def begun(self, head):
        """An item's `pub`, its kind, and what stands behind that."""
        found = HEAD.match(head)
        if not found:
            raise Unread('%s: %s' % (self.place, head.split('\n')[0] or 'a block of nothing'))
        return (found.group(1) or '').strip(), found.group(2), found.group(3)

    def bring(self, text):
        """A `ghost use`, which may stand in a block: a name must not mean two things in one file."""
        before = dict(self.uses), dict(self.modules)
        Spec.use(self, ' '.join(text.removeprefix('ghost ').split()))
        for was, now in zip(before, (self.uses, self.modules)):
            for name in was:
                if was[name] != now[name]:
                    raise Unread('%s: two meanings of %s' % (self.place, name))

    def imports(self, text):
        """`use a::b::C`, or `use a::b::{C, D as E}`."""
        found = re.match(r'((?:\w+::)*)(?:\{([^{}]*)\}|(\w+(?: as \w+)?))$', ' '.join(text.split()))
        if not found:
            raise Unread('%s: use %s' % (self.place, text))
        for name in (found.group(2) or found.group(3)).split(','):
            was, _, now = name.strip().partition(' as ')
            if was:
                self.types[now or was] = found.group(1) + was

    def declares(self, kind, after, block):
        """A struct, an enum, or a `type` line. Its body are the types that it names."""
        name = re.match(r'\w+', after).group()
        body = after[len(name):] + ('{%s}' % block if block is not None else ';')
        item = self.items[name] = Item(self.place, name, kind, [], [])
        item.body, item.lines = TYPE.findall(body), lines_of(body)
        item.names = set(re.findall(r'^    (\w+)', block or '', re.M))  # of an enum its variants
        before = 0
        for mark, start, end in marks(self.place, block or ''):
            if mark == '}' and re.search(r'\bghost \w+:\s*$', block[before:start]):
                item.ghost.append((self, tokens(block[start:end])))
            before = end
        if len(item.ghost) != len(re.findall(r'\bghost\b', body)):
            raise Unread('%s: what is ghost in %s' % (self.place, name))

    def trait(self, after, block, public):
        """A trait. Its ghost members and its methods' contracts are what it means."""
        name = re.match(r'\w+', after).group()
        item = self.items[name] = Item(self.place, name, 'trait', [], [])
        item.body, item.lines = TYPE.findall(after), lines_of(after) + 1
        for head, kind, behind in self.members(block):
            item.lines += lines_of(head)
            item.body += TYPE.findall(head)
            item.ghost.append((self, clauses(head)))
            if kind.endswith('fn'):
                self.call(behind, name, public)

    def impl(self, after, block):
        """An `impl`. What is ghost in it goes to a type, of this file or another, when all files are read."""
        of_trait = len(re.split(r'\bfor\b', after)) > 1
        for head, kind, behind in self.members(block):
            if kind == 'ghost':
                self.ghosts.append((after, head))
            elif kind.endswith('fn'):
                own = of_trait and re.search(r'\b(ensures|requires)\b', behind)
                self.call(behind, after, own or self.begun(head)[0] == 'pub')

    def members(self, block):
        """The members of a block but for its `ghost use` lines, which are the file's."""
        out = []
        for head, _ in pieces(self.place, block):
            _, kind, behind = self.begun(head)
            if kind == 'ghost use':
                self.bring(head)
            elif kind in ('ghost', 'const') or kind.endswith('fn'):
                out.append((head, kind, behind))
            else:
                raise Unread('%s: %s' % (self.place, head))
        return out

    def call(self, after, around, public):
        """A function, of the block whose head is `around`."""
        if public:
            name = re.match(r'\w+', after).group()
            said = after[len(name):]
            self.calls.append((name, clauses(said), TYPE.findall(around) + TYPE.findall(said)))
            self.names |= set() if around else {name}


# ---- the tree
class Tree:
    def __init__(self):
        self.specs, self.sources = {}, {}
        for line in (ROOT / 'crates.txt').read_text(encoding='utf-8').split('\n'):
            name = line.partition('#')[0].partition(':')[0].strip().removesuffix(' staticlib')
            if not name:
                continue
            crate = ROOT / 'crates' / name
            for path in sorted((crate / 'specs').rglob('*.antt')) + sorted((crate / 'proofs').glob('*.antt')):
                spec = Spec(path)
                self.specs[spec.place] = spec
            for path in sorted((crate / 'src').rglob('*.rt')):
                source = Source(path, name)
                self.sources[source.place] = source
        self.order = {place: k for k, place in enumerate(list(self.specs) + list(self.sources))}
        self.library = {}
        self.crates = {source.crate for source in self.sources.values()}
        for source in self.sources.values():
            for head, text in source.ghosts:
                item = self.home(source, head)
                item.ghost.append((source, tokens(text)))
                item.lines += lines_of(text)
        for spec in self.specs.values():
            for item in spec.items.values():
                item.theorem = self.proves(spec, item)

    def home(self, source, head):
        """The type with which the ghost members of an `impl` count: the one that it is of, else its trait."""
        parts = re.split(r'\bfor\b', re.sub(r'^<[^>]*>', '', head))
        for part in reversed(parts):
            found = self.held(source, TYPE.findall(part))
            if found:
                return found[0]
        raise Unread('%s: impl %s' % (source.place, head))

    def struct(self, crate, name):
        """A type of a crate, by its name."""
        found = [s.items[name] for s in self.sources.values() if s.crate == crate and name in s.items]
        if len(found) > 1:
            raise Unread('%s: two types %s' % (crate, name))
        return found[0] if found else None

    def named(self, source, path):
        """The type that a path means in a file of src/; None where it is the library's, or a parameter."""
        path = path.split('::')
        if len(path) == 1 and path[0] in source.items:
            return source.items[path[0]]
        *front, name = source.types.get(path[0], path[0]).split('::') + path[1:]
        crate = self.crate_of(source, front[0]) if front else source.crate
        found = self.struct(crate, name) if crate else None
        if front and crate and not found and not name.isupper():  # no constant: it would be missing in the list
            raise Unread('%s: no type %s' % (source.place, '::'.join(path)))
        return found

    def crate_of(self, source, first):
        """The crate of the repository that a path begins in, or None."""
        if first in ('crate', 'self', 'super') or '%s/src/%s' % (source.crate, first) in self.sources:
            return source.crate
        return first if first in self.crates else None

    def resolve(self, file, name):
        """What a name means in a file: an item, a library's name as text, or None."""
        if name in file.items:
            return self.owner(file.items[name], file)
        if name in file.uses:
            module, was = file.uses[name]
            return self.item(module, was)
        return None

    def item(self, module, name):
        """What a `use` line brings in. A name that is not found would be missing in the list: an error."""
        if isinstance(module, tuple):  # declared in src/
            place, struct, within = module
            found = self.sources[place].items.get(struct) if place in self.sources else None
            if not found:
                raise Unread('%s: no struct %s' % (place, struct))
            if name not in {'': {struct}, 'TheVariants': found.names, 'TheInside': {'Inside'}}[within]:
                raise Unread('%s: no %s of %s' % (place, name, struct))
            return found
        if module.startswith('library '):
            return module[len('library '):] + '.' + name
        spec = self.specs.get(module)
        found = spec and self.resolve(spec, name)
        if not found:
            raise Unread('%s: no %s' % (module, name))
        return found

    @staticmethod
    def owner(item, spec):
        return spec.items[item.of] if item.kind == 'constructor' else item

    def mentions(self, file, words):
        """The items and the library's names that a text mentions."""
        out = []
        infix = {}
        for name in list(file.uses) + list(file.items):
            if '◌' in name:
                for part in name.split('◌'):
                    if part:
                        infix.setdefault(part, name)
        for k, word in enumerate(words):
            before = words[k - 1] if k else ''
            if word in KEYWORDS or word[0] in '(){}.;,@"':
                continue
            if word == 'Rattle':
                raise Unread('%s: a name by its whole path' % file.place)
            if before == '.' and k > 1 and words[k - 2] in file.modules:
                out.append(self.item(file.modules[words[k - 2]], word))
            elif before == '.':
                continue
            elif word in file.uses or word in file.items:
                out.append(self.resolve(file, word))
            elif word in infix:
                out.append(self.resolve(file, infix[word]))
        return [x for x in out if x is not None]

    def proves(self, spec, item):
        """Whether an item is a theorem: its type ends in a proposition."""
        return item.plain() and self.proposition(spec, ending(item.type), 0)

    def proposition(self, file, words, depth):
        flat, level = [], 0
        for word in words:
            level -= word in ')}'
            if level == 0 and word not in ')}':
                flat.append(word)
            level += word in '({'
        if CONNECTIVES & set(flat):
            return True
        if '×' in flat or (words and words[0] == '('):
            inner = [w for w in words if w not in '()']
            return bool(CONNECTIVES & set(inner)) or any(self.evidence(file, w, depth) for w in inner)
        return bool(flat) and self.evidence(file, flat[0], depth)

    def evidence(self, file, word, depth):
        """Whether a type of this name is a proposition."""
        if word in EVIDENCE:
            return True
        found = self.resolve(file, word)
        if not isinstance(found, Item) or depth > 8 or found.place in self.sources or found.kind == 'data':
            return False
        spec = self.specs[found.place]
        if found.kind == 'record':
            return any(self.proposition(spec, ending(field), depth + 1) for field in fields(found.body))
        if 'Type' not in ending(found.type)[:1]:
            return False
        body = found.body[found.body.index('=') + 1:] if '=' in found.body else found.body
        return self.proposition(spec, ending(body), depth + 1)

    # ---- the closure
    def closure(self, roots, known):
        """The definitions that the roots mention, with those that these mention, but for the known ones."""
        todo, seen, theorems = list(roots), dict(known), set()
        while todo:
            item = todo.pop()
            if isinstance(item, str):
                module, _, name = item.rpartition('.')
                self.library.setdefault(module, set()).add(name)
                continue
            if item.key() in seen or item.key() in theorems:
                continue
            file = self.specs.get(item.place) or self.sources[item.place]
            if item.theorem:
                theorems.add(item.key())
                todo += self.mentions(file, item.around + item.type)
                continue
            seen[item.key()] = item
            if item.place in self.sources:
                todo += self.held(file, item.body)
                for where, words in item.ghost:
                    todo += self.mentions(where, words)
            else:
                todo += self.mentions(file, item.around + item.type + item.body)
        return {key: item for key, item in seen.items() if key not in known}

    def held(self, source, names):
        """The types of src/ that a type, or a call's parameters, name."""
        return [found for found in (self.named(source, name) for name in names) if found]

    # ---- the statements
    def contracts(self, counts):
        """What the contracts of the public functions mention, and the types of src/ that they name."""
        out = []
        for source in self.sources.values():
            if counts(source.crate):
                for _, words, types in source.calls:
                    out += self.mentions(source, words) + self.held(source, types)
        return out

    def promised(self):
        """What the theorems mention that docs/PROMISES.md names, with all else there that may be one."""
        out, text = [], PROMISES.read_text(encoding='utf-8')
        if BEGIN in text and END in text:
            text = text[:text.index(BEGIN)] + text[text.index(END):]
        defined = {i.name for s in self.specs.values() for i in s.items.values() if not i.plain()}
        defined |= {name for source in self.sources.values() for name in source.names}
        for line in text.split('\n'):
            for quoted in re.findall(r'`([^`]+)`', line):
                name = quoted.partition(' : ')[0]
                places = [s for s in self.specs.values() if name in s.items and s.items[name].plain()
                          and s.place.split('/')[0] not in PARTS]
                near = [s for s in places if (s.place.partition('/specs/')[2] or s.place) in line]
                places = [s for s in places if '/specs/' in s.place] or [s for s in places if 'pub' in s.items[name].marks]
                for spec in near or ([] if name in defined else places):
                    out += self.mentions(spec, spec.items[name].around + spec.items[name].type)
        return out


def ending(words):
    """What stands behind the last arrow that no bracket encloses."""
    level, start = 0, 0
    for k, word in enumerate(words):
        level += (word in '({') - (word in ')}')
        if level == 0 and word in ('→', ':'):
            start = k + 1
    return words[start:]


def fields(words):
    """The types of a record's fields."""
    out, level = [], 0
    for word in words:
        level += (word in '({') - (word in ')}')
        if level == 0 and word == ':':
            out.append([])
        elif level == 0 and word == 'pub' and out:
            out.append([])
        elif out:
            out[-1].append(word)
    return [f for f in out if f]


# ---- the list
def wrapped(text):
    """A paragraph in lines of at most WIDTH columns, the later ones moved in."""
    lines, line = [], ''
    for word in text.split():
        if line and len(line) + 1 + len(word) > WIDTH:
            lines, line = lines + [line], ' '
        line += (' ' if line else '') + word
    return lines + [line]


def part(tree, items, title):
    """One part of the list, file by file; its numbers of definitions, of lines, and of lines of tables."""
    files = {}
    for item in items.values():
        files.setdefault(item.place, []).append(item)
    rows, tables = [], 0
    for place in sorted(files, key=lambda p: tree.order[p]):
        order = list((tree.specs.get(place) or tree.sources[place]).items)
        every = sorted(files[place], key=lambda i: order.index(i.name))
        tables += sum(i.lines for i in every if i.table())
        shown = place + '.rt' if place in tree.sources else place
        lines = sum(i.lines for i in every)
        rows += wrapped('- %s, %d: %s' % (shown, lines, ' '.join(i.name for i in every)))
    sizes = (len(items), sum(i.lines for i in items.values()), tables)
    return ['**%s:** %s.' % (title, counted(*sizes)), ''] + rows + [''], sizes


def counted(definitions, lines, tables):
    of_tables = ', %d of them tables of numbers' % tables if tables else ''
    return '%d definitions, %d lines%s' % (definitions, lines, of_tables)


def listed(tree):
    """The whole list as text, and what it lists."""
    demands = [item for spec in tree.specs.values() if spec.place.startswith(PAGE + '/specs/')
               for item in spec.items.values() if item.kind != 'constructor']
    page = tree.closure(tree.contracts(lambda crate: crate == PAGE) + demands, {})
    calls = tree.closure(tree.contracts(lambda crate: crate not in PARTS), page)
    theorems = tree.closure(tree.promised(), {**page, **calls})
    out, sums = ['Each file below crates/, with the lines of its definitions that count here.', ''], (0, 0, 0)
    for title, items in (('For the page of the demands', page),
                         ('Besides, for the contracts of single calls', calls),
                         ('Besides, for the other theorems named in this document', theorems)):
        rows, sizes = part(tree, items, title)
        out, sums = out + rows, tuple(a + b for a, b in zip(sums, sizes))
    out += ['**In all:** %s. Of the toolchain\'s library they use:' % counted(*sums), '']
    for module in sorted(tree.library):
        names = ' '.join('`%s`' % name for name in sorted(tree.library[module]))
        out += wrapped('- %s: %s' % (module, names))
    return '\n'.join(out), {**page, **calls, **theorems}


def rest(tree, believed):
    """What stands at the top of specs/ and is neither believed nor a promised theorem."""
    text = PROMISES.read_text(encoding='utf-8')
    named = {n.partition(' : ')[0] for n in re.findall(r'`([^`]+)`', text)}
    for place, spec in tree.specs.items():
        if place.count('/') != 2 or place.split('/')[1] != 'specs' or place.split('/')[2] in ('Lib', 'Laws', 'Inner'):
            continue
        idle = [i.name for i in spec.items.values() if i.key() not in believed and i.kind != 'constructor'
                and not (i.plain() and i.name in named)]
        if idle:
            print('%s: %d of %d: %s' % (place, len(idle), len(spec.items), ' '.join(idle)))


def main(argv):
    if argv not in ([], ['--write'], ['--check'], ['--rest']):
        print(__doc__.split('\n\n')[1], file=sys.stderr)
        return 2
    try:
        tree = Tree()
        text, believed = listed(tree)
    except Unread as error:
        print('not read: %s' % error, file=sys.stderr)
        return 1
    if argv == ['--rest']:
        rest(tree, believed)
        return 0
    if not argv:
        print(text)
        return 0
    page = PROMISES.read_text(encoding='utf-8')
    if page.count(BEGIN) != 1 or page.count(END) != 1 or page.index(END) < page.index(BEGIN):
        print('docs/PROMISES.md has not one line %s with a line %s below it' % (BEGIN, END), file=sys.stderr)
        return 1
    front, back = page[:page.index(BEGIN) + len(BEGIN)], page[page.index(END):]
    new = front + '\n' + text + '\n' + back
    if argv == ['--check']:
        if page != new:
            print('the list in docs/PROMISES.md is not the one that the tree gives: tools/trusted.py --write')
            return 1
        print('the list in docs/PROMISES.md is the one that the tree gives')
        return 0
    if page != new:
        PROMISES.write_text(new, encoding='utf-8')
    return 0


if __name__ == '__main__':
    sys.exit(main(sys.argv[1:]))
