"""Prints the public contracts of a checkout, one fact a line, sorted.

    gate contracts [--all | --crates NAME,..] [--no-paths] [--definitions] CHECKOUT
    gate contracts .. CHECKOUT OTHER        the lines that one of them has alone; status 1 where there is one

A CHECKOUT is a folder or a commit of this repository.

A line is CRATE::ITEM and one fact of it: the signature, a clause, a ghost of a trait or a model. Each name that a `ghost use` or a `use` brings in is
written whole, as the file that declares it has it: doors (`pub use`) are followed, so that a line stays the same where only the way to a name
changes. `--no-paths` writes names without crate and file, for a comparison over a move of
definitions from file to file; `--definitions` prints the definitions of specs/ too, each as one line. Without --all or --crates it is the crates
of the surface. An `impl` of a trait is printed where it has clauses of its own, or says what a type is seen as.
"""
import argparse
import contextlib
import functools
import pathlib
import re
import subprocess
import sys
import tempfile

TOP = pathlib.Path(__file__).resolve().parent.parent.parent
SURFACE = ('vidi_bits vidi_io vidi_lines vlog_lex vlog_tree vlog_parse vlog_print vlog_size net_design vlog_block vlog_driver vlog_elab vlog_design '
           'net_order net_sim chan_map script_text env_script bench_run trace_model trace_code trace_v2 vec_clock room_ledger chan_monitor '
           'trace_store vidi_recorder chan_replayer replay_run trace_compare shim_gen shim_cosim report_text sample_gen vidi_commands vidi_laws').split()
TOKEN = re.compile(r"""(?P<space>\s+|//[^\n]*|/\*.*?\*/)|(?P<text>b?"(?:\\.|[^"\\])*"|b?'(?:\\.|[^'\\])'|'\w+)|(?P<word>[\w◌∙]+)|(?P<sign>.)""", re.S)
NAME = r"[A-Za-zℕℤ_][\w']*(?:-[\w']+)*"
CLAUSES = ('requires', 'ensures')


def tokens_of(text):
    """The tokens of a source, without spaces and comments: pairs of a text and where it begins."""
    return [(it.group(), it.start()) for it in TOKEN.finditer(text) if it.lastgroup != 'space']


def split_list(text):
    """The parts of a list with commas, those in brackets kept whole."""
    parts, depth, begin = [], 0, 0
    for at, letter in enumerate(text):
        depth += (letter in '{([') - (letter in '})]')
        if letter == ',' and depth == 0:
            parts.append(text[begin:at])
            begin = at + 1
    return [it.strip() for it in [*parts, text[begin:]] if it.strip()]


def uses_in(path, separator):
    """What one `use` brings in: pairs of the name in this file and the whole path, as a list."""
    path = path.strip()
    group = re.match(r'(.*?)\{(.*)\}$', path, re.S)
    if group:
        front = [it.strip() for it in group.group(1).strip().strip(separator).split(separator) if it.strip()]
        for part in split_list(group.group(2)):
            for name, whole in uses_in(part, separator):
                yield (front[-1], front) if whole == ['self'] else (name, front + whole)
        return
    path, _, own = path.partition(' as ')
    whole = [it.strip() for it in path.strip().split(separator)]
    yield (own.strip() or whole[-1], whole)


class Specs:
    """The files of definitions of a checkout, and the doors that lead from one to another."""

    def __init__(self, top):
        self.top = top

    @functools.lru_cache(None)
    def doors(self, crate, file):
        """What a file of specs/ passes on: whole paths by name."""
        path = self.top / 'crates' / crate / 'specs' / f'{file}.antt'
        text = re.sub(r'--[^\n]*', '', path.read_text()) if path.exists() else ''
        return {name: whole for line in re.findall(r'^pub use ([^\n]*)', text, re.M) for name, whole in uses_in(line, '.')}

    def whole(self, path):
        """The path of the same name in the file that declares it."""
        path = list(path)
        for _ in range(64):
            if len(path) < 4 or path[0] != 'Rattle' or path[2] != 'specs' or not (self.top / 'crates' / path[1] / 'specs').exists():
                return path
            door = self.doors(path[1], 'Lib').get(path[3])
            rest = path[4:]
            if door is None and len(path) > 4:
                door, rest = self.doors(path[1], path[3]).get(path[4]), path[5:]
            if door is None:
                return path
            path = door + rest
        sys.exit(f"contracts: the doors of {'.'.join(path)} go in a circle")


class Source:
    """One source file: its items, and the names that it brings in."""

    def __init__(self, crate, path):
        self.crate, self.path, self.text = crate, path, path.read_text()
        self.tokens = tokens_of(self.text)
        self.ghosts, self.names, self.passed, self.items = {}, {}, {}, []
        self.declared = set()
        self.read_items(0, len(self.tokens), None)

    def between(self, begin, end):
        """The text of tokens begin to end, on one line."""
        if begin >= end:
            return ''
        last, at = self.tokens[end - 1]
        text = self.text[self.tokens[begin][1]:at + len(last)]
        text = ' '.join(re.sub(r'//[^\n]*', '', text).split())
        return re.sub(r',? ([)\]])', r'\1', re.sub(r'([(\[]) ', r'\1', text)).replace(', }', ' }')

    def closing(self, at):
        """The place after the bracket that closes the one at `at`."""
        depth = 0
        while True:
            token = self.tokens[at][0]
            depth += (token in '{([') - (token in '})]')
            at += 1
            if depth == 0:
                return at

    def word(self, at):
        return self.tokens[at][0] if at < len(self.tokens) else ''

    def read_items(self, at, end, holder):
        """The items of a file, or of the braces of a trait or an impl (`holder`, its header and ghosts)."""
        tested = False
        while at < end:
            if self.word(at) == '#':
                at += 2 if self.word(at + 1) == '!' else 1
                close = self.closing(at)
                tested = tested or self.between(at, close) in ('[cfg(test)]', '[test]')
                at = close
                continue
            begin, public = at, False
            if self.word(at) == 'pub':
                public, at = True, at + 1
                if self.word(at) == '(':
                    public, at = False, self.closing(at)
            at = self.read_item(begin, at, public, holder, tested)
            tested = False

    def read_item(self, begin, at, public, holder, tested):
        word, after = self.word(at), self.word(at + 1)
        if word == 'ghost' and after == 'use':
            stop = self.find(at, ';')
            for name, whole in uses_in(self.between(at + 2, stop), '.'):
                (self.ghosts if holder is None else holder['ghosts'])[name] = whole
            return stop + 1
        if word == 'use':
            stop = self.find(at, ';')
            for name, whole in uses_in(self.between(at + 1, stop), '::'):
                self.names[name] = whole
                if public:
                    self.passed[name] = whole
            return stop + 1
        if word == 'mod':
            return at + 3 if self.word(at + 2) == ';' else self.closing(at + 2)
        stop, pieces = self.pieces(at)
        kind = next((it for it in (word, after, self.word(at + 2)) if it in ('fn', 'struct', 'enum', 'trait', 'impl', 'type', 'const', 'static')), word)
        if not tested:
            self.keep(kind, at, public, holder, pieces, stop)
        return stop

    def find(self, at, sign):
        while self.word(at) != sign:
            at = self.closing(at) if self.word(at) in '{([' else at + 1
        return at

    def pieces(self, at):
        """The end of an item, and its pieces: (begin, end, what) with what one of header, clause, braces."""
        pieces, begin = [], at
        while True:
            token = self.word(at)
            if token == ';':
                return at + 1, [*pieces, (begin, at, 'header')]
            if token == '{':
                close = self.closing(at)
                if self.word(begin) in CLAUSES or self.word(begin) == 'ghost':
                    pieces.append((begin, close, 'clause'))
                    begin = at = close
                    if self.word(at) == ';' and self.word(pieces[0][0]) == 'ghost':
                        return at + 1, pieces
                    continue
                return close, [*pieces, (begin, at, 'header'), (at, close, 'braces')]
            if token in CLAUSES and begin < at:
                pieces.append((begin, at, 'header'))
                begin = at
            at = self.closing(at) if token in '([' else at + 1

    def keep(self, kind, at, public, holder, pieces, stop):
        header = self.between(*pieces[0][:2])
        braces = next((it for it in pieces if it[2] == 'braces'), None)
        clauses = [self.between(*it[:2]) for it in pieces if it[2] == 'clause']
        item = {'kind': kind, 'header': header, 'public': public, 'clauses': clauses, 'ghosts': {}, 'members': [], 'source': self}
        if kind in ('struct', 'enum', 'type', 'const', 'static'):
            item['header'] = self.between(at, stop if kind in ('struct', 'enum') else stop - 1)
        named = re.match(r'(?:(?:unsafe|const) )*(?:fn|struct|enum|trait|type|const|static) (\w+)', header)
        item['name'] = named.group(1) if named else ''
        if holder is not None:
            holder['members'].append(item)
            return
        if kind in ('trait', 'impl') and braces:
            self.read_items(braces[0] + 1, braces[1] - 1, item)
        if item['name']:
            self.declared.add(item['name'])
        self.items.append(item)


class Checkout:
    def __init__(self, top, short):
        self.top, self.short, self.specs = pathlib.Path(top), short, Specs(pathlib.Path(top))
        self.crates = sorted(it.name for it in (self.top / 'crates').iterdir() if (it / 'src').exists())
        self.read = {}

    def sources(self, crate):
        if crate not in self.read:
            folder = self.top / 'crates' / crate / 'src'
            self.read[crate] = {str(it.relative_to(folder).with_suffix('')): Source(crate, it) for it in sorted(folder.rglob('*.rt'))}
        return self.read[crate]

    def root(self, crate):
        files = self.sources(crate)
        return files.get('lib') or files['main']

    def rust_name(self, path, crate):
        """A Rust path as the crate that declares it and the name: CRATE::NAME."""
        path = list(path)
        for _ in range(64):
            if path[0] == 'crate':
                path[0] = crate
            if path[0] not in self.crates:
                return path
            crate, name = path[0], path[1] if len(path) > 1 else None
            passed = self.root(crate).passed
            if name in self.crates and name in passed:
                path = path[1:] if len(path) > 2 else [name]
                continue
            door = passed.get(name)
            if door and door[0] in self.crates and door[0] != crate:
                path = door + path[2:]
                continue
            files = self.sources(crate)
            module = files.get(name)
            if module is not None and len(path) > 2:
                inner = module.passed.get(path[2]) or module.names.get(path[2])
                path = inner + path[3:] if inner and path[2] not in module.declared else [crate, *path[2:]]
                if path[0] == 'crate':
                    path[0] = crate
                if not (inner and path[0] in self.crates and path[0] != crate):
                    return path
                continue
            return path
        return path

    def ghost_text(self, text, ghosts):
        """The text of a clause with each name that is brought in written whole."""
        def whole(path):
            path = self.specs.whole(path)
            return path[-1] if self.short else '.'.join(path)

        def one(found):
            word = found.group()
            front, _, rest = word.partition('.')
            if front == 'Rattle':
                return whole(word.split('.'))
            if front not in ghosts or text[found.start() - 1:found.start()] in ('.', '«'):
                return word
            path = ghosts[front]
            if 'Prelude' in path and path[1] == 'std':
                return word
            if rest and re.match(NAME, rest) and self.is_file(path):
                name, *fields = rest.split('.')
                return '.'.join([whole([*path, name]), *fields])
            return '.'.join(filter(None, [whole(path), rest]))
        return re.sub(rf'(?<![\w\'-]){NAME}(?:\.{NAME})*', one, text)

    def is_file(self, path):
        """Whether a whole path is that of a file of definitions (or of the variants of a type), and not of a name in it."""
        path = self.specs.whole(path)
        return path[-1] in ('TheVariants', 'TheConstants') or 'declared' in path and path[-1] == path[-2].capitalize() \
            or (self.top / 'crates' / path[1] / 'specs' / f'{path[-1]}.antt').exists() or path[1] == 'std' and len(path) == 4

    def rust_text(self, text, source):
        """The text of a signature with each name that is brought in written whole."""
        def one(found):
            path = found.group().split('::')
            if path[0] in source.names:
                path = source.names[path[0]] + path[1:]
            elif path[0] in source.declared:
                path = [source.crate, *path]
            elif path[0] not in ('crate', *self.crates) or path == ['crate']:
                return found.group()
            path = self.rust_name(path, source.crate)
            return path[-1] if self.short else '::'.join(path)
        return re.sub(r"(?<![\w.'])(?<!fn )(?<!struct )(?<!enum )(?<!trait )(?<!type )(?<!const )[A-Za-z_]\w*(?:::\w+)*(?!\w*:(?!:))", one, text)

    def clause_texts(self, item, ghosts):
        for clause in item['clauses']:
            front, brace, rest = clause.partition('{')
            yield front + brace + self.ghost_text(rest, ghosts)

    def lines_of_item(self, name, item):
        source = item['source']
        ghosts = {**source.ghosts, **item['ghosts']}
        if item['kind'] in ('trait', 'impl'):
            yield from self.lines_of_holder(name, item, ghosts)
            return
        yield f"{name}  {self.rust_text(item['header'], source)}"
        for clause in self.clause_texts(item, ghosts):
            yield f'{name}  {clause}'

    def lines_of_holder(self, name, item, ghosts):
        source, header = item['source'], self.rust_text(item['header'], item['source'])
        of_trait = item['kind'] == 'trait' or ' for ' in item['header']
        if item['kind'] == 'trait':
            yield f'{name}  {header}'
        for member in item['members']:
            if not of_trait and not member['public']:
                continue
            clauses = list(self.clause_texts(member, ghosts))
            own = f"{name}::{member['name']}" if item['kind'] == 'trait' or not of_trait else f"{name} ({header})::{member['name']}"
            own = own.removesuffix('::')
            if item['kind'] == 'trait' or not of_trait:
                if member['kind'] != 'ghost':
                    yield f"{own}  {self.rust_text(member['header'], source)}"
            for clause in clauses:
                yield f'{own}  {clause}'

    def exported(self, crate):
        """The names that a crate declares and passes on."""
        root = self.root(crate)
        names = {whole[-1] for whole in root.passed.values() if whole[0] not in self.crates or whole[0] == crate}
        return names | {it['name'] for it in root.items if it['public'] or it['name'] == 'main'}

    def lines(self, crate):
        exported = self.exported(crate)
        for source in self.sources(crate).values():
            for item in source.items:
                if item['kind'] == 'impl':
                    subject = self.subject_of(item['header'])
                    if subject in exported:
                        yield from self.lines_of_item(f'{crate}::{subject}', item)
                elif item['name'] in exported and (item['public'] or item['name'] == 'main'):
                    yield from self.lines_of_item(f"{crate}::{item['name']}", item)

    @staticmethod
    def subject_of(header):
        """The type that an impl is of."""
        rest, depth = header.removeprefix('impl'), 0
        for at, letter in enumerate(rest):
            depth += (letter == '<') - (letter == '>' and rest[at - 1] != '-')
            if depth == 0:
                rest = rest[at + (letter == '>'):]
                break
        words = re.findall(r'\w+', rest.partition(' for ')[2] or rest)
        return words[0] if words else ''

    def definitions(self, crate):
        """The definitions of specs/, each as one line."""
        for path in sorted((self.top / 'crates' / crate / 'specs').glob('*.antt')):
            if path.stem == 'Lib':
                continue
            yield from self.definitions_of(crate, path)

    def definitions_of(self, crate, path):
        ghosts, blocks, mutual = {}, [], False
        for line in path.read_text().splitlines():
            line = re.sub(r'(^|\s)--.*', '', line).rstrip()
            use = re.match(r'(?:pub )?use (.*)', line)
            if use:
                ghosts.update(uses_in(use.group(1), '.'))
                continue
            if line and line[0] != ' ':
                mutual = line.split()[-1] == 'mutual'
            line = '' if line.split()[-1:] == ['mutual'] else line.removeprefix('  ') if mutual else line
            if line and line[0] != ' ' and not (blocks and self.subject(line) == self.subject(blocks[-1][0])):
                blocks.append([line])
            elif line and blocks:
                blocks[-1].append(line)
        front = ['Rattle', crate, 'specs', path.stem]
        here = {self.subject(it[0]): [*front, self.subject(it[0])] for it in blocks}
        for block in blocks:
            name = self.subject(block[0])
            text = self.ghost_text(' '.join(' '.join(block).split()), {k: v for k, v in {**here, **ghosts}.items() if k != name})
            yield f'{name if self.short else ".".join([*front, name])}  {text}'

    @staticmethod
    def subject(line):
        """The name that a line of specs/ declares or gives a case of."""
        words = [it for it in line.split() if it not in ('pub', 'abbrev', 'unfoldable', 'record', 'data', 'opaque')]
        return words[0] if words else line


def checked_out(stack, word):
    """The folder of a checkout: the word itself, or a temporary one with what a commit of this repository has."""
    if (pathlib.Path(word) / 'crates').is_dir():
        return word
    folder = stack.enter_context(tempfile.TemporaryDirectory())
    packed = subprocess.run(['git', '-C', TOP, 'archive', word, 'crates', 'crates.txt'], capture_output=True)
    if packed.returncode:
        sys.exit(f'contracts: {word} is no checkout and no commit')
    subprocess.run(['tar', '-x', '-C', folder], input=packed.stdout, check=True)
    return folder


def lines_of(folder, args, word):
    """The lines of a checkout, and whether a crate that was asked for is missing."""
    checkout, lines = Checkout(folder, args.no_paths), set()
    chosen = checkout.crates if args.all else args.crates.split(',') if args.crates else SURFACE
    missing = [it for it in chosen if it not in checkout.crates]
    for crate in missing:
        print(f'contracts: no crate {crate} in {word}', file=sys.stderr)
    for crate in chosen:
        if crate in checkout.crates:
            found = list(checkout.lines(crate)) + (list(checkout.definitions(crate)) if args.definitions else [])
            lines.update(it.partition('::')[2] or it if args.no_paths and it.startswith(f'{crate}::') else it for it in found)
    return lines, bool(missing and args.crates)


def main():
    """Prints or compares them."""
    parser = argparse.ArgumentParser(prog='gate contracts', description=__doc__, formatter_class=argparse.RawDescriptionHelpFormatter)
    parser.add_argument('checkout', metavar='CHECKOUT', help='a folder, or a commit of this repository')
    parser.add_argument('other', metavar='OTHER', nargs='?', help='another one, to be compared with')
    parser.add_argument('--all', action='store_true', help='every crate of the checkout')
    parser.add_argument('--crates', help='these crates, names with commas between')
    parser.add_argument('--no-paths', action='store_true', help='names without crate and file')
    parser.add_argument('--definitions', action='store_true', help='the definitions of specs/ too')
    args = parser.parse_args()
    with contextlib.ExitStack() as stack:
        before, is_missing = lines_of(checked_out(stack, args.checkout), args, args.checkout)
        if not args.other:
            print('\n'.join(sorted(before)))
            sys.exit(2 if is_missing else 0)
        after, is_missing = lines_of(checked_out(stack, args.other), args, args.other)
    changed = sorted([(it, '-') for it in before - after] + [(it, '+') for it in after - before])
    print(*(f'{sign} {it}' for it, sign in changed), f'{len(before)} lines and {len(after)}, {len(changed)} of one alone', sep='\n')
    sys.exit(2 if is_missing else 1 if changed else 0)
