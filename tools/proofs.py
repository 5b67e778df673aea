#!/usr/bin/env python3
"""Helps whoever changes a proved function (docs/MAINTAINING.md): python3 tools/proofs.py VERB ..

NOT PROVED: this tool is plain Python for people. What it writes is read and judged by the checker.

An answer in a Proof.antt, a proof by hand, names a fact by a path from `c`, the place of the need: each `.before` steps
to an earlier place, and the next name is a thing bound there. Folded, a path says the thing alone: `@loop.invariant` is
of the nearest `loop`, `@loop:2.invariant` of the one before that, and `@:In-loop` is a place itself. Expanded, it is
counted out, and an answer whose paths reach far names far places once, by how many steps they lie back:
`let c2 = c.before.before in`. Answers.antt, where a path needs no steps, is left alone.
"""
import argparse
import functools
import os
import re
import subprocess
import sys
import tempfile

WORTH = 40  # characters that naming places has to spare
OPEN, SHUT = r'(?<![^\s({\[,;])', r'(?![^\s)}\],;])'  # what may stand before and after a word
END = r'(?![^\s)}\],;.])'  # what may stand after a part of a path
NAME = r'[^\W\d][^\s(){},;:.@]*'
PATH = re.compile(OPEN + r'c((?:\.before' + END + r')*)(?:\.(?!before' + END + ')(' + NAME + '))?' + END)
MARK = re.compile(OPEN + '@(:?)(' + NAME + r')(?::(\d+))?' + END)
NAMED = re.compile(OPEN + r'c\d+' + END)
LET = re.compile(r'let (c\d+) = (c\d*)((?:\.before)+) in\s+')
SIGNATURE = re.compile(r'^(?:(?:unfoldable|abbrev|pub) )*([^\s({]+)(?: \{[^}]*\})? :\s', re.M)
# What gives `c` another meaning inside an answer, and words whose parts are not looked into.
OTHER_C = re.compile(r'λ(?:(?!\.\s).)*?(?<![^\s({,])c(?!\.\S)(?=[\s.:,)}])|\blet \(?c[ ,:=]|\bc ←', re.S)
UNREAD = re.compile(OPEN + r'(?:elim|where|do)\b' + SHUT)
# An answer that the prover finds by itself: its signature, and one clause.
FOUND = re.compile(r'\S+ : tie\.Need-.*\n\S+ c((?: κs)?) = search rules')
# What reads all that is in scope, up to a bound: a name more there may keep it from a fact that lies further back.
READS_SCOPE = re.compile(OPEN + '(?:omega|search|cc)' + SHUT)
BOLD = '@@ '  # before a folded answer: name its places all the same
LONG_NAMES = ['mathlib.Core.Path.', 'mathlib.Core.List.', 'mathlib.Core.Bool.', 'mathlib.Core.Option.',
              'Prim.Native.Nat.', 'native.Mathlib.Nat.', 'lib.ListN.', 'lib.Seq.', 'lib.Ieee.', 'lib.Dec.',
              'denote.Ref.', 'mir.Syntax.', 'mir.Val.']


class Fault(Exception):
    pass


# ---- the repository and rt

def root():
    here = os.getcwd()
    while not os.path.exists(os.path.join(here, 'crates.txt')):
        if here == '/':
            raise Fault('no crates.txt here or above')
        here = os.path.dirname(here)
    return here


def all_crates():
    return re.findall(r'^(\w+):', read(os.path.join(root(), 'crates.txt')), re.M)


def crate_folder(crate):
    if crate not in all_crates():
        raise Fault(f'crates.txt has no crate {crate}')
    return os.path.join(root(), 'crates', crate)


def proof_file(crate, function):
    path = os.path.join(crate_folder(crate), 'proofs', function, 'Proof.antt')
    if not os.path.exists(path):
        raise Fault(f'crate {crate} has no proof file for {function}')
    return path


def proof_files(crate, functions):
    if functions:
        return [proof_file(crate, function) for function in functions]
    folders = os.walk(os.path.join(crate_folder(crate), 'proofs'))
    return sorted(os.path.join(folder, 'Proof.antt') for folder, _, files in folders if 'Proof.antt' in files)


def read(path):
    with open(path, encoding='utf-8') as file:
        return file.read()


def write(path, text):
    with open(path, 'w', encoding='utf-8') as file:
        file.write(text)


def run(words, folder):
    """What rt says, and its status. It works on the crate in a folder."""
    done = subprocess.run(['rt', *words], capture_output=True, text=True, cwd=folder)
    return done.stdout + done.stderr, done.returncode


def laid_out(files):
    """The files in the layout of rt fmt, which formats a whole crate: they are put in one of their own. What is folded
    has no layout."""
    done = dict(files)
    with tempfile.TemporaryDirectory() as folder:
        crate = os.path.join(os.path.realpath(folder), 'crates', 'made')
        os.makedirs(os.path.join(crate, 'src'))
        os.mkdir(os.path.join(crate, 'proofs'))
        write(os.path.join(folder, 'crates.txt'), 'made:\n')
        write(os.path.join(crate, 'src', 'lib.rt'), '')
        copies = {path: os.path.join(crate, 'proofs', f'{i}.antt')
                  for i, (path, text) in enumerate(files.items()) if not MARK.search(text)}
        for path, copy in copies.items():
            write(copy, files[path])
        said, status = run(['fmt'], crate)
        for path, copy in copies.items():
            said = said.replace(copy, os.path.relpath(path, root()))
        if status:
            raise Fault('rt fmt: ' + said.strip().split('\n')[0])
        for path, copy in copies.items():
            done[path] = read(copy)
    return done


# ---- places, from what rt generates

class Places:
    """The places of a function: a record of things for each, and the place of each need."""

    def __init__(self, text):
        self.things, lines = {}, text.split('\n')
        for i, line in enumerate(lines):
            head = re.match(r'(\s*)pub record (\S+) ', line)
            if head:
                self.things.setdefault(head[2], dict(fields(lines, i, len(head[1]))))
        self.needs = dict(re.findall(r'Need-(\S+) =\s+\(c : (\S+?)[\s)]', text))

    def way(self, place):
        """The places from this one back to the start."""
        while place in self.things:
            yield place
            place = self.things[place].get('before')

    def depths(self, place, name):
        return [n for n, p in enumerate(self.way(place)) if name in self.things[p]]


def fields(lines, at, indent):
    """The fields of the record whose first line is at `at`, each with the first word of its type."""
    while not re.search(r'\bwhere$', lines[at]):
        at += 1
    for k in range(at + 1, len(lines)):
        if lines[k].strip() and len(lines[k]) - len(lines[k].lstrip()) <= indent:
            return
        field = re.match(r'\s*pub (\S+) :\s*(\S*)', lines[k])
        if field:
            yield field[1], field[2] or lines[k + 1].split()[0]


class Generated:
    """What rt generates of a crate: in a folder that is there, or made when it is first asked for."""

    def __init__(self, crate, folder=None):
        self.crate, self.folder, self.known = crate, folder, {}
        self.library = f'Rattle-{crate}-proofs'

    def places(self, module):
        """The places that a module has, as `whole.make_grid.Lts`; none where there is no such module."""
        if self.folder is None:
            self.generate()
        if not os.path.isdir(os.path.join(self.folder, self.library)):
            raise Fault(f'{self.folder} has nothing of {self.crate}')
        if module not in self.known:
            file = os.path.join(self.folder, self.library, *module.split('.')) + '.antt'
            self.known[module] = Places(read(file)) if os.path.exists(file) else None
        return self.known[module]

    def generate(self):
        self.own = tempfile.TemporaryDirectory()
        self.folder = self.own.name
        said, _ = run(['check', '--generated', self.folder], crate_folder(self.crate))
        if not os.listdir(self.folder):
            raise Fault(f'rt check of {self.crate} generates nothing: ' + said.strip().split('\n')[0])


# ---- proof files: definitions, and the answer in each

class Definition:
    """A definition of a proof file: its signature, and its clauses as (head, body, what follows)."""

    def __init__(self, text):
        self.name = SIGNATURE.match(text)[1]
        head = re.compile(r'^' + re.escape(self.name) + r'((?: [^\s=]+)*) =(?=\s)', re.M)
        starts = list(head.finditer(text))
        self.signature = text[:starts[0].start()] if starts else text
        self.clauses = [clause(text, a, b) for a, b in zip(starts, starts[1:] + [None])]

    def text(self):
        return self.signature + ''.join(''.join(parts) for parts in self.clauses)

    def change(self, sign, answer):
        """Applies `sign` to the signature and `answer` to the bodies over `c`, where they are readable."""
        if readable(self.signature):
            self.signature = sign(self.signature)
        self.clauses = [(head, answer(body) if ' c ' in head and readable(body) else body, rest)
                        for head, body, rest in self.clauses]


def clause(text, start, after):
    lines = text[start.end():after.start() if after else len(text)].splitlines(keepends=True)
    end = len(lines)
    while end and (not lines[end - 1].strip() or lines[end - 1].startswith('--')):
        end -= 1
    return start[0], ''.join(lines[:end]), ''.join(lines[end:])


def readable(text):
    """Whether `c` is one thing in the text, and all of it can be read."""
    return not OTHER_C.search(text) and not UNREAD.search(text)


def parts_of(text):
    """The text before the first definition, and the definitions."""
    starts = [m.start() for m in SIGNATURE.finditer(text)]
    if not starts:
        return text, []
    return text[:starts[0]], [Definition(text[a:b]) for a, b in zip(starts, starts[1:] + [len(text)])]


def whole(start, definitions):
    return start + ''.join(definition.text() for definition in definitions)


def modules_named(text):
    """The modules of places that a proof file has names for, as `tie`."""
    found = re.findall(r'^use Rattle\.[^.\s]+\.proofs\.(\S+\.)(Tie|Lts\S*) as (\S+)$', text, re.M)
    return {alias: function + name.replace('Tie', 'Lts') for function, name, alias in found}


def start_of(definition, modules, generated):
    """The places a definition speaks of, and the one where its `c` is; none where that cannot be told."""
    found = re.search(r'(?:\(c : |[:→]\s+(?=\S+\.Need-))([^\s.()]+)\.(Need-)?([^\s)]+)', definition.signature)
    places = found and found[1] in modules and generated.places(modules[found[1]])
    if not places:
        return None
    place = places.needs.get(found[3]) if found[2] else found[3]
    return (places, place) if place in places.things else None


# ---- names of places

def steps(path):
    return path.count('.before')


def without_lets(body):
    """The body with the places that it names at its head written out; as it is where it has other such names."""
    space, term = apart(body)
    depth, at = {'c': 0}, 0
    while (named := LET.match(term, at)) and named[2] in depth:
        depth[named[1]] = depth[named[2]] + steps(named[3])
        at = named.end()

    def written_out(word):
        return path(depth[word[0]]) if word[0] in depth else word[0]

    term = NAMED.sub(written_out, term[at:])
    return body if NAMED.search(term) else space + term


def apart(body):
    """The space before a term, and the term."""
    term = body.lstrip()
    return body[:len(body) - len(term)], term


def far_uses(body):
    """The paths of a body that a name may stand for: those with steps."""
    for use in PATH.finditer(body):
        if use[1]:
            yield use


def call(depth):
    return f'c{depth}' if depth else 'c'


def path(depth, last=0):
    return call(last) + '.before' * (depth - last)


def let(depth, last):
    return f'let {call(depth)} = {path(depth, last)} in'


def cheapest(uses):
    """Which of the depths used to name, so that lets and paths are shortest: (characters, depths)."""
    depths = sorted(uses)

    @functools.lru_cache(maxsize=None)
    def best(i, last):
        if i == len(depths):
            return 0, ()
        depth, count = depths[i], uses[depths[i]]
        cost, names = best(i + 1, last)
        unnamed = cost + count * len(path(depth, last)), names
        cost, names = best(i + 1, depth)
        named = cost + count * len(call(depth)) + len(let(depth, last)), (depth,) + names
        return min(unnamed, named)

    return best(0, 0)


def far_places(body):
    """The depths of the places that a body should name; none where that does not spare enough."""
    uses = {}
    for use in far_uses(body):
        uses[steps(use[1])] = uses.get(steps(use[1]), 0) + 1
    cost, named = cheapest(uses)
    spared = sum(count * len(path(depth)) for depth, count in uses.items()) - cost
    return () if spared < WORTH or NAMED.search(body) else named


def is_bold(body):
    """Whether a body names places although something reads its scope, or says by a mark that it should."""
    return bool(READS_SCOPE.search(body) and (LET.match(body.lstrip()) or body.lstrip().startswith(BOLD)))


def plain(body):
    return without_lets(body.replace(BOLD, '', 1))


def to_name(body, bold):
    """The depths that a plain body should name."""
    return () if READS_SCOPE.search(body) and not bold else far_places(body)


def with_lets(body, bold=False):
    """The body with its far places named at its head, on a line of its own."""
    bold = bold or is_bold(body)
    body = plain(body)
    named = to_name(body, bold)
    return '\n    ' + lets(named) + shortened(body.lstrip(), named) if named else body


def with_mark(body, bold):
    """The plain body on a line of its own, with the mark where it is bold, if it should name places."""
    return '\n    ' + (BOLD if bold else '') + body.lstrip() if to_name(body, bold) else body


def lets(named):
    return ''.join(let(depth, last) + '\n    ' for depth, last in zip(named, (0,) + named))


def shortened(body, named):
    done, at = [], 0
    for use in far_uses(body):
        depth = steps(use[1])
        last = max((d for d in named if d <= depth), default=0)
        done += [body[at:use.start()], path(depth, last), f'.{use[2]}' if use[2] else '']
        at = use.end()
    return ''.join(done) + body[at:]


# ---- folding and expanding

def folded(text, places, place):
    way = list(places.way(place))

    def mark(use):
        depth, name = steps(use[1]), use[2]
        if name and depth < len(way):
            # A place opens the one before it, so that what is bound there needs no step.
            depth = next((n for n in places.depths(place, name) if n >= depth), len(way))
        if depth >= len(way):
            raise Fault(f'no such path: {use[0]}')
        if not name:
            return f'@:{way[depth]}' if depth else use[0]
        nth = places.depths(place, name).index(depth) + 1
        return f'@{name}' + (f':{nth}' if nth > 1 else '')

    return PATH.sub(mark, text)


def unfolded(text, places, place):
    def written_out(mark):
        if mark[1]:
            depths = [n for n, p in enumerate(places.way(place)) if p == mark[2]]
        else:
            depths = places.depths(place, mark[2])
        nth = int(mark[3] or 1)
        if not 0 < nth <= len(depths):
            raise Fault(f'no place before has {mark[0]}')
        return path(depths[nth - 1]) + ('' if mark[1] else f'.{mark[2]}')

    return MARK.sub(written_out, text)


def renamed(text, generated, change):
    """The text with `change` applied to each definition whose `c` is a known place."""
    start, definitions = parts_of(text)
    modules = modules_named(text)
    for definition in definitions:
        if not (MARK if change is unfolded else PATH).search(definition.text()):
            continue
        found = start_of(definition, modules, generated)
        if found:
            with_place = functools.partial(change, places=found[0], place=found[1])
            try:
                definition.change(with_place, with_place)
            except Fault as fault:
                raise Fault(f'{definition.name}: {fault}')
    return whole(start, definitions)


def answers(text, change):
    """The text with `change` applied to the body of each answer."""
    start, definitions = parts_of(text)
    for definition in definitions:
        definition.change(lambda signature: signature, change)
    return whole(start, definitions)


def fold(files, generated):
    bold = {path: bold_answers(text) for path, text in files.items()}
    done = laid_out({path: answers(text, plain) for path, text in files.items()})
    for path, text in done.items():
        done[path] = answers(text, lambda body: with_mark(body, bold[path].pop(0)))
    return each(done, lambda text: renamed(text, generated, folded))


def bold_answers(text):
    """For each answer in turn, whether it is bold."""
    found = []
    answers(text, lambda body: found.append(is_bold(body)) or body)
    return found


def expand(files, generated, bold=False):
    named = functools.partial(with_lets, bold=bold)
    return laid_out(each(files, lambda text: answers(all_unfolded(text, generated), named)))


def all_unfolded(text, generated):
    text = renamed(text, generated, unfolded)
    left = MARK.search(text)
    if left:
        raise Fault(f'{left[0]} stands where the place is not known')
    return text


def settle(files, _generated):
    return laid_out(each(files, settled))


def settled(text):
    """The text with each answer that is `search rules` and no more in the list that the proof ends with."""
    start, definitions = parts_of(text)
    if not definitions or 'tie.spec' not in definitions[-1].text():
        return text
    others, ending = definitions[:-1], definitions[-1].text()
    for answer in definitions[:-1]:
        found = FOUND.fullmatch(answer.text().strip())
        name = re.compile(OPEN + re.escape(answer.name) + SHUT)
        left = [other for other in others if other is not answer]
        if found and len(name.findall(ending)) == 1 and not any(name.search(other.text()) for other in left):
            ending = name.sub(f'(λ {answer.name}{found[1]}. search rules)', ending)
            others = left
    return whole(start, others) + ending


def each(files, change):
    done = {}
    for path, text in files.items():
        try:
            done[path] = change(text)
        except Fault as fault:
            raise Fault(f'{os.path.relpath(path, root())}: {fault}')
    return done


def rewrite(change, crate, functions, folder):
    """Changes proof files of a crate: all of them, or none where one of them has a fault."""
    files = {path: read(path) for path in proof_files(crate, functions)}
    for path, text in change(files, Generated(crate, folder)).items():
        if text != files[path]:
            write(path, text)
            print(os.path.relpath(path, root()))


# ---- places, seed, dev

def show_places(crate, function, need, folder):
    proof_file(crate, function)
    places = Generated(crate, folder).places(function.replace('/', '.') + '.Lts')
    if places is None:
        raise Fault(f'no places are generated for {function}: is the crate read without an error?')
    shown = [name for name in places.needs if need in (None, name, 'Need-' + name)]
    if not shown:
        raise Fault(f'{function} has no need {need}')
    for name in shown:
        print('Need-' + name)
        for n, place in enumerate(places.way(places.needs[name])):
            print(f'  {n:3} {place}: ' + '; '.join(things_at(places, place)))


def things_at(places, place):
    for name, kind in places.things[place].items():
        if name != 'before':
            inner = ' '.join(places.things.get(kind, {}))
            yield f'{name} ({inner})' if inner else name


def asked_for(said):
    """The proof files that a check asks for: path and text, with a hole for each answer."""
    for path, body in re.findall(r'^help: write (\S+\.antt) with these lines.*\n((?:    .*\n|\n)*)', said, re.M):
        text = re.sub(r'^    ', '', body, flags=re.M).rstrip() + '\n'
        yield path, re.sub(r'^ *-- src/.*\n', '', text, flags=re.M)


def seed(crate):
    folder = crate_folder(crate)
    for path, text in asked_for(run(['check'], folder)[0]):
        path = os.path.normpath(os.path.join(folder, path))
        if os.path.exists(path):
            continue
        os.makedirs(os.path.dirname(path), exist_ok=True)
        write(path, text)
        print(os.path.relpath(path, root()))


def shorter(text, crate):
    own = [f'Rattle.{crate}.specs.', f'Rattle.{crate}.proofs.', crate_folder(crate) + '/']
    for name in LONG_NAMES + own:
        text = text.replace(name, '')
    text = re.sub(r'(?:\.before){3,}', lambda m: f'.before{{{steps(m[0])}}}', text)
    return re.sub(r'\(…\[\d+ bytes\]…\)', '…', text)


def unproved(said, pattern):
    """The parts of a check's words that speak of an error or a goal in a file whose path has the pattern."""
    for part in re.split(r'\n(?=/|\./|fn |help:|note:|logic|library|struct |enum )', '\n' + said):
        part = part.strip('\n')
        head = part.split('\n')[0]
        noise = ': note:' in head or 'has-holes' in head or 'was not admitted (it' in part
        if re.match(r'\.?/', head) and not noise and re.search(pattern, head):
            yield re.sub(r'\n *\(computed from:(.|\n)*', '', part)


def dev(crate, pattern, holes):
    said, _ = run(['check'] + ['--allow-holes'] * holes, crate_folder(crate))
    for part in unproved(said, pattern):
        print(shorter(part, crate)[:2600], end='\n--\n')
    for line in re.findall(r'^fn (?!.*: (?:proved|no holes)).*', said, re.M):
        print(shorter(line, crate)[:240])
    print(said.strip().split('\n')[-1][:160])


# ---- the command line

def expand_as_told(given):
    rewrite_all(functools.partial(expand, bold=given.bold), given)


def rewrite_all(change, given):
    if given.all == bool(given.crate) or given.all and given.generated:
        raise Fault('name a crate, or give --all and nothing else')
    for crate in all_crates() if given.all else [given.crate]:
        rewrite(change, crate, given.function, given.generated)


def add_verb(verbs, name, words, act):
    verb = verbs.add_parser(name, help=words, description=words)
    verb.set_defaults(act=act)
    return verb


def add_rewriting(verbs, name, words, act):
    verb = add_verb(verbs, name, words, act)
    verb.add_argument('crate', nargs='?')
    verb.add_argument('function', nargs='*', help='as whole/make_grid; without one, every function of the crate')
    verb.add_argument('--all', action='store_true', help='every crate of crates.txt')
    add_generated(verb)
    return verb


def add_generated(verb):
    verb.add_argument('--generated', metavar='FOLDER', help="what 'rt check --generated FOLDER' wrote, where that is up to date")


def add_looking(verbs):
    verb = add_verb(verbs, 'places', 'list the places behind the needs of a function, nearest first',
                    lambda given: show_places(given.crate, given.function, given.need, given.generated))
    verb.add_argument('crate')
    verb.add_argument('function', help='as whole/make_grid')
    verb.add_argument('need', nargs='?')
    add_generated(verb)
    verb = add_verb(verbs, 'seed', 'write the proof files that the check asks for and that are not there yet',
                    lambda given: seed(given.crate))
    verb.add_argument('crate')
    verb = add_verb(verbs, 'dev', "run 'rt check' and print what is not proved, with names shortened",
                    lambda given: dev(given.crate, given.pattern, given.holes))
    verb.add_argument('crate')
    verb.add_argument('pattern', nargs='?', default='', help='only files whose path has this')
    verb.add_argument('--holes', action='store_true', help='take holes, and show their goals')


def main():
    told = argparse.ArgumentParser(description=__doc__, formatter_class=argparse.RawDescriptionHelpFormatter)
    verbs = told.add_subparsers(dest='verb', metavar='VERB', required=True)
    add_rewriting(verbs, 'fold', "turn paths into '@name', before the shape of a function changes",
                  lambda given: rewrite_all(fold, given))
    verb = add_rewriting(verbs, 'expand', "turn '@name' into paths, and name far places once", expand_as_told)
    verb.add_argument('--bold', action='store_true', help='name them where omega, search or cc read the names too')
    add_rewriting(verbs, 'settle', "put each answer that is 'search rules' into the list that the proof ends with",
                  lambda given: rewrite_all(settle, given))
    add_looking(verbs)
    given = told.parse_args()
    try:
        given.act(given)
    except (Fault, OSError) as fault:
        sys.exit(f'proofs.py: {fault}')


if __name__ == '__main__':
    main()
