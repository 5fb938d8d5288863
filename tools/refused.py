#!/usr/bin/env python3
"""Wrong programs are tried many at a time, and each must be refused at its own place.

An edit costs a check of its crate, so edits of one crate that cannot disturb each other stand in one file of must-fail/, which rt tries at once: a round. In such a file

    edit: NAME                       begins an edit; what it is may be said by comments (#) below
    at: FILE DECLARATION             where the checker must refuse it: a goal of an Answers.antt (written or not), or a law
    file: / old: / new:              what is changed, as rt reads it

A file without `edit:` is one edit, called as the file.

    tools/refused.py --check         every edit fits its file; no edit of a round reaches the place of another
    tools/refused.py --log FILE      in what `rt ci` printed: each round was refused, first because a fact no longer holds
    tools/refused.py                 tries each round, and sees that each edit is refused at its place, because a fact no longer holds; half an hour and more
    tools/refused.py --places CRATE  tries the rounds of a crate, and prints where each was refused, to write `at:` by

`rt ci` tries each round too, and says only where it is refused first: the gate reads that. Without a word this tries them once more, some side by side, each in a copy of the crates that it begins with.
What a round's check said is kept below target/refused, or in the folder that REFUSED names, by the checksum of all that it read, and a round is not tried again while that stays.

That two edits of a round are apart is decided from the sources: the body of a function reaches only its own proof, a contract and a constant those of the functions that name it; a definition, and a law whose statement is edited, reaches what names it, directly or by way of definitions, statements and contracts.
So an error at the place of an edit can come from that edit alone.
"""
import glob
import hashlib
import os
import queue
import re
import shutil
import subprocess
import sys
import tempfile
import threading
sys.path.insert(0, os.path.dirname(os.path.abspath(__file__)))
from antt import Graph, contract, owner_of, parse_use, rt_functions, stated

ROOT = os.path.dirname(os.path.dirname(os.path.abspath(__file__)))
KEPT = os.environ.get('REFUSED') or os.path.join(ROOT, 'target', 'refused')
ERROR = re.compile(r'^(?:so far: )?(?:\./)?((?:src|specs|proofs)/[^:]+):\d+:\d+: error: `([^`]*)`: (.*)')
# a function whose proof the checker makes itself
UNMADE = re.compile(r'^fn [a-z_0-9]+::\S+: (?:no proof|not proved): expected answers in (?:\./)?(proofs/\S+/Answers\.antt); (.*)')
# what the checker says of a declaration that rests on a refused one, or of a name: no fact
NO_FACT = re.compile(r'was not admitted|not in scope|be named from here|this pattern needs|has no field')


class Edit:
    def __init__(self, crate, round_, name):
        self.crate, self.round, self.name = crate, round_, name
        self.place, self.changes = None, []

    def __str__(self):
        return f'{self.crate}/{self.round}/{self.name}' if self.name != self.round else f'{self.crate}/{self.round}'


def read_round(path):
    crate, label = path.split('/')[-3], os.path.basename(path)[:-5]
    edits, f, old = [Edit(crate, label, label)], None, None
    for line in open(path, encoding='utf-8').read().split('\n'):
        word, _, rest = line.partition(':')
        rest = rest[1:] if rest.startswith(' ') else rest
        if word == 'edit':
            edits.append(Edit(crate, label, rest.strip()))
        elif word == 'at':
            edits[-1].place = tuple(rest.split())
        elif word == 'file':
            f = rest
        elif word == 'old':
            old = rest
        elif word == 'new':
            edits[-1].changes.append((f, old, rest))
    return [e for e in edits if e.changes]


def rounds(crate='*'):
    return [read_round(p) for p in sorted(glob.glob(os.path.join(ROOT, 'crates', crate, 'must-fail', '*.edit')))]


def function_at(text, at):
    """The function at the place, by its path below proofs/, and whether the place lies in its body, behind its brace; outside any, None."""
    owner, found, begin = '', None, 0
    for m in re.finditer(r'^( *)(?:(impl\b[^\n]*)|(?:#.*\n *)?(?:pub )?(?:extern "C" )?fn (\w+)|(\}))', text, re.M):
        if m.start() > at:
            break
        if m[2]:
            owner = owner_of(m[2]) + '/'
        elif m[3]:
            found, begin = (owner if m[1] else '') + m[3], m.start()
        elif not m[1]:
            owner, found = ('', None)
    if not found:
        return None, False
    brace = re.compile(r'^ *\{$|\) (?:-> [^{\n]*)?\{$|\{\}$', re.M).search(text, begin)
    return found, bool(brace) and brace.start() < at


class Crate:
    """What the edits of a crate can reach."""

    def __init__(self, graph, name):
        self.g, self.name = graph, name
        self.base = os.path.join(ROOT, 'crates', name)
        self.texts = {}
        self.heads = {}     # path below proofs/ of a function -> (text of its contract, its body, scope)
        for path in glob.glob(os.path.join(self.base, 'src', '**', '*.rt'), recursive=True):
            text = open(path, encoding='utf-8').read()
            mod = os.path.relpath(path, os.path.join(self.base, 'src'))[:-3]
            mod = '' if mod in ('lib', 'main') else mod + '/'
            scope = graph.scope([l.strip() for l in text.split('\n') if l.startswith('ghost use ')])
            for fn, _, head in rt_functions(text):
                i = text.find(head.split('\n')[0])
                end = text.find('\n}', i)
                self.heads[mod + fn.replace('.', '/')] = (contract(head), text[i:end], scope)

    def text(self, f):
        if f not in self.texts:
            self.texts[f] = open(os.path.join(self.base, f), encoding='utf-8').read()
        return self.texts[f]

    def key_of(self, f):
        """the key in the graph of a file that holds definitions, laws or statements, else None"""
        name = stated([self.name, *f.split('/')])
        return (self.name, name) if name and (self.name, name) in self.g.files else None

    def proof_of(self, f):
        """proofs/a/b/Answers.antt: the functions whose proof it is"""
        folder = f[len('proofs/'):].rsplit('/', 1)[0] if f.count('/') > 1 else ''
        last = folder.split('/')[-1]
        if last.startswith('+'):
            return [folder[:-len(last)] + n for n in last.split('+') if n]
        return [folder] if folder in self.heads else []

    def touched(self, change):
        """('bodies', functions) | ('proof', file) | ('decls', declarations) | ('all',)"""
        f, old, _ = change
        text = self.text(f)
        at = text.find(old)
        if at < 0:  # it stands in what the edit itself has put there
            return ('decls', frozenset())
        if f.startswith('src/'):
            mod = '' if f[4:-3] in ('lib', 'main') else f[4:-3] + '/'
            fn, inside = function_at(text, at)
            if inside:
                return ('bodies', {mod + fn})
            # a contract or a constant: it reaches the functions that name it
            constant = re.match(r'(?:pub )?const (\w+)', text[text.rfind('\n', 0, at) + 1:])
            word = constant[1] if constant else fn.split('/')[-1] if fn else None
            if word is None:
                return ('all',)
            return ('bodies', {h for h, (says, body, _) in self.heads.items() if re.search(r'\b' + word + r'\b', body)})
        key = self.key_of(f)
        if key is None:
            return ('proof', f) if f.startswith('proofs/') else ('all',)
        file = self.g.files[key]
        line = text[text.rfind('\n', 0, at) + 1:].split('\n')[0]
        if re.match(r'(unfoldable )?(pub )?use ', line):
            return ('decls', frozenset())
        found = [d for d in file.decls() if old in '\n'.join(d.lines)]
        if not found:
            found = [d for d in file.decls() if any(old in '\n'.join(m.header) for m in d.modules)]
        return ('decls', frozenset(found)) if found else ('all',)

    def reached(self, place):
        """(functions, proof files, declarations) on which an error at the place may depend"""
        f, name = place
        functions, files, roots = set(), set(), set()
        key = self.key_of(f)
        if key is None:
            todo = [f, f.replace('/Answers.antt', '/Invariants.antt')]
            while todo:
                p = todo.pop()
                if p in files or not os.path.exists(os.path.join(self.base, p)):
                    continue
                files.add(p)
                lines = self.text(p).split('\n')
                uses = [l for l in lines if re.match(r'(unfoldable |pub )*use ', l)]
                roots |= self.g.refs('\n'.join(l for l in lines if l not in uses), self.g.scope([l for l in uses if parse_use(l)]))
                for l in uses:
                    m = re.match(r'.*Rattle\.' + self.name + r'\.proofs\.([^\s{]+?)(?:\.\{.*|\s.*)?$', l)
                    if m and stated([self.name, 'proofs', *(m[1].replace('.', '/') + '.antt').split('/')]) is None:
                        todo.append('proofs/' + m[1].replace('.', '/') + '.antt')
            for fn in self.proof_of(f):
                functions.add(fn)
                if fn in self.heads:
                    _, body, _ = self.heads[fn]
                    words = set(re.findall(r'\w+', body))
                    for other, (says, _, scope) in self.heads.items():
                        if other == fn or other.split('/')[-1] in words:
                            roots |= self.g.refs(says, scope)
        else:
            own = [d for d in self.g.files[key].decls() if d.name == name] or list(self.g.files[key].decls())
            for d in own:
                roots |= {d} | self.g.decl_refs(d, whole=True)
        return functions, files, self.g.closure(roots)

    def disturbs(self, edit, place):
        functions, files, decls = self.reached(place)
        for change in edit.changes:
            t = self.touched(change)
            if t[0] == 'all' or t[0] == 'bodies' and t[1] & functions or t[0] == 'proof' and t[1] in files or t[0] == 'decls' and t[1] & decls:
                return True
        return False


def check():
    wrong = []
    graph = Graph(ROOT)
    crates = {}
    for edits in rounds():
        crate = crates.setdefault(edits[0].crate, Crate(graph, edits[0].crate))
        texts = {}
        for e in edits:
            for f, old, new in e.changes:
                text = texts.get(f) or os.path.exists(os.path.join(crate.base, f)) and crate.text(f) or ''
                if text.count(old) != 1 or old == new:
                    wrong.append(f'{e}: `{old}` does not stand in {f} exactly once')
                texts[f] = text.replace(old, new)
            if len(edits) > 1 and (not e.place or len(e.place) != 2):
                wrong.append(f'{e}: an edit of a round says where it must be refused: at: FILE DECLARATION')
        if len(edits) > 1 and not wrong:
            for e in edits:
                if not crate.disturbs(e, e.place):
                    wrong.append(f'{e}: nothing that it changes is reached from {" ".join(e.place)}')
                for other in edits:
                    if other is not e and crate.disturbs(other, e.place):
                        wrong.append(f'{e}: its place is reached by {other.name} too')
    return wrong


def facts(log):
    """(file, declaration, what the checker says) of each error that is a fact"""
    found = []
    for line in log.split('\n'):
        m, fn = ERROR.match(line), UNMADE.match(line)
        if m and not NO_FACT.search(m[3]):
            found.append(m.groups())
        elif fn:
            found += [(fn[1], goal, fn[2]) for goal in re.findall(r'`([^`]+)`', fn[2]) if goal != 'search']
    return found


def below():
    """Of each crate those of the repository that it stands on, the lowest first, itself last."""
    deps = {}
    for line in open(os.path.join(ROOT, 'crates.txt'), encoding='utf-8'):
        name, _, rest = line.split('#')[0].partition(':')
        if name.strip():
            deps[name.split()[0]] = rest.split()
    out = {}

    def of(name):
        if name not in out:
            out[name] = list(dict.fromkeys([b for d in deps[name] if d in deps for b in of(d)] + [name]))
        return out[name]
    return {name: of(name) for name in deps}


def sources(crate):
    return [p for part in ('src', 'specs', 'proofs') for p in sorted(glob.glob(os.path.join(ROOT, 'crates', crate, part, '**', '*'), recursive=True)) if os.path.isfile(p)]


def copy(room):
    """A copy of the repository's crates, without what checks left in them."""
    shutil.copy(os.path.join(ROOT, 'crates.txt'), room)
    subprocess.run(['git', 'init', '-q', room], check=True)
    for crate in below():
        for p in sources(crate):
            to = os.path.join(room, os.path.relpath(p, ROOT))
            os.makedirs(os.path.dirname(to), exist_ok=True)
            shutil.copy(p, to)


def said(edits, room):
    """What a check of the crate says with the edits made."""
    base, changed = os.path.join(room, 'crates', edits[0].crate), {}
    for e in edits:
        for f, old, new in e.changes:
            p = os.path.join(base, f)
            changed.setdefault(p, open(p, encoding='utf-8').read())
            text = open(p, encoding='utf-8').read()
            with open(p, 'w', encoding='utf-8') as out:
                out.write(text.replace(old, new))
    try:
        ran = subprocess.run(['rt', 'check', '--jobs', '1'], cwd=base, stdin=subprocess.DEVNULL, stdout=subprocess.PIPE, stderr=subprocess.STDOUT)
        return ran.stdout.decode(errors='replace')
    finally:
        for p, text in changed.items():
            with open(p, 'w', encoding='utf-8') as out:
                out.write(text)


def logs(every):
    """What the check of each round said, tried now or kept."""
    version = subprocess.run(['rt', 'version'], stdout=subprocess.PIPE, check=True).stdout
    sums, under = {}, below()

    def key(edits):
        for crate in under[edits[0].crate]:
            if crate not in sums:
                h = hashlib.sha256()
                for p in sources(crate):
                    h.update(os.path.relpath(p, ROOT).encode() + b'\0' + open(p, 'rb').read() + b'\0')
                sums[crate] = h.digest()
        h = hashlib.sha256(version)
        for crate in under[edits[0].crate]:
            h.update(sums[crate])
        h.update(repr([e.changes for e in edits]).encode())
        return os.path.join(KEPT, edits[0].crate, edits[0].round + '-' + h.hexdigest()[:24])

    out, todo = {}, queue.Queue()
    for edits in sorted(every, key=lambda es: list(under).index(es[0].crate)):
        name = key(edits)
        if os.path.exists(name):
            out[edits[0].crate, edits[0].round] = open(name, encoding='utf-8').read()
        else:
            todo.put((edits, name))

    def work():
        with tempfile.TemporaryDirectory() as room:
            copy(room)
            while True:
                try:
                    edits, name = todo.get_nowait()
                except queue.Empty:
                    return
                text = said(edits, room)
                if 'logic=' in text:
                    os.makedirs(os.path.dirname(name), exist_ok=True)
                    with open(name, 'w', encoding='utf-8') as f:
                        f.write(text)
                out[edits[0].crate, edits[0].round] = text
    workers = [threading.Thread(target=work) for _ in range(min(len(os.sched_getaffinity(0)), todo.qsize()))]
    for w in workers:
        w.start()
    for w in workers:
        w.join()
    return out


def refused():
    wrong, tried, every = [], 0, rounds()
    told = logs(every)
    for edits in every:
        log = told.get((edits[0].crate, edits[0].round), '')
        found = facts(log)
        if 'logic=not-proved' not in log:
            wrong.append(f'{edits[0].crate}/{edits[0].round}: its check did not end in a refusal: {log.strip()[-200:]}')
        for e in edits:
            tried += 1
            if not found or e.place and e.place not in {(f, d) for f, d, _ in found}:
                wrong.append(f'{e}: not refused at {" ".join(e.place or ("a fact",))}')
    print(f'{tried} edits tried in {len(every)} rounds, {tried - len(wrong)} refused where a fact no longer holds')
    return wrong


def printed(log):
    """What is wrong with what `rt ci` printed of the rounds."""
    said = dict(re.findall(r'^rt: must-fail (\S+)\.edit: (.*)$', open(log, encoding='utf-8', errors='replace').read(), re.M))
    wrong, every = [], rounds()
    for edits in every:
        name = f'{edits[0].crate}/{edits[0].round}'
        line = said.get(name, 'rt ci says nothing of it')
        head, _, rest = line.partition('refused, as it must be')
        m = ERROR.match(rest.lstrip(': '))
        if head or not rest or rest.startswith(' (') or m and NO_FACT.search(m[3]):
            wrong.append(f'{name}: {line[:200]}')
    print(f'{len(every)} rounds, {len(every) - len(wrong)} refused where a fact no longer holds')
    return wrong


def main():
    if '--places' in sys.argv:
        every = rounds(sys.argv[-1])
        told = logs(every)
        for edits in every:
            print(edits[0].round + ':', ', '.join(e.name for e in edits))
            for f, d, says in facts(told[edits[0].crate, edits[0].round]):
                print('   ', f, d, '--', says[:110])
        return
    wrong = check() if '--check' in sys.argv else printed(sys.argv[-1]) if '--log' in sys.argv else refused()
    print('\n'.join(wrong), end='\n' if wrong else '')
    sys.exit(1 if wrong else 0)


if __name__ == '__main__':
    main()
