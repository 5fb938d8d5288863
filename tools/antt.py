"""Reads the sources: antt files as declarations and uses, .rt files as contracts, and who names whom. For believed.py and statements.py."""
import os
import re

HEAD = re.compile(r'^(?P<flags>(?:(?:pub|abbrev|unfoldable)\s+)*)(?:(?P<type>record|data|ruleset)\s+(?P<tname>[^\s(){}:=]+)|(?P<name>[^\s(){}:]+)(?:\s+\{ℓ[^}]*\})?\s+:(?:\s|$))')
TOKEN = re.compile(r'«[^»]*»|\.?[^\s(){}\[\],;.«»⌜⌝\\]+|\.|\[\]')
# pages of statements, which stand in proofs/ beside the laws that prove them
PAGES = {'Asked', 'Calls', 'Constraints', 'Halves', 'Listed', 'Promised', 'Stretch', 'Theorems', 'Visits', 'Walks', 'Why'}
USE = re.compile(r'^(?P<ghost>ghost |unfoldable pub |pub )?use (?P<mod>[^\s{;]+?)(?:\.\{(?P<names>[^}]*)\})?(?: as (?P<alias>[^\s;]+))?(?P<semi>;?)\s*$')


def indent(line):
    return len(line) - len(line.lstrip(' '))


class Decl:
    def __init__(self, lead, lines, at, match):
        self.lead = lead              # comment and blank lines before
        self.lines = lines
        self.at = at
        self.flags = match['flags'].split()
        self.type = match['type']
        self.name = match['tname'] or match['name']
        self.modules = []

    @property
    def is_def(self):
        return bool(self.type in ('record', 'data') or 'abbrev' in self.flags or 'unfoldable' in self.flags)

    @property
    def pub(self):
        return 'pub' in self.flags

    def exported(self):
        names = [self.name]
        if self.type == 'data':
            for l in self.lines[1:]:
                m = re.match(r'^ {%d}([^\s(){}:]+(?: [^\s(){}:]+)*) :' % (self.at + 2), l)
                if m:
                    names += m[1].split()
        return names

    def fields(self):
        names = []
        if self.type == 'record':
            for l in self.lines[1:]:
                m = re.match(r'^ {%d}(?:pub )?([^\s(){}:]+(?: [^\s(){}:]+)*) :' % (self.at + 2), l)
                if m:
                    names += m[1].split()
        return names

    def signature(self):
        """the lines of the statement: up to the first line at its own indent"""
        if self.is_def or self.type == 'ruleset':
            return list(self.lines)
        out = [self.lines[0]]
        for l in self.lines[1:]:
            if l.strip() and indent(l) <= self.at:
                break
            out.append(l)
        return out

    def text(self):
        return '\n'.join(strip_comment(l) for l in self.lines)


class Module:
    def __init__(self, lead, header, at):
        self.lead, self.header, self.at, self.body = lead, header, at, []
        self.modules = []

    def params(self):
        """(name, explicit) in order"""
        text = ' '.join(strip_comment(h).strip() for h in self.header)
        text = text[text.index('module _') + 8: text.rindex('where')]
        out, depth, start = [], 0, None
        for i, c in enumerate(text):
            if c in '({':
                if depth == 0:
                    start = i
                depth += 1
            elif c in ')}':
                depth -= 1
                if depth == 0:
                    group = text[start + 1:i]
                    names = group.split(' : ')[0].split()
                    out += [(n, text[start] == '(') for n in names]
        return out


def strip_comment(line):
    if re.match(r'\s*--(\s|$)', line):
        return ''
    m = re.search(r'\s--\s', line)
    return line[:m.start()] if m else line


class File:
    def __init__(self, path, text):
        self.path = path
        self.head = []      # comment lines at the top
        self.uses = []      # Use lines as (line)
        lines = text.split('\n')
        while lines and not lines[-1]:
            lines.pop()
        i = 0
        while i < len(lines) and (lines[i].startswith('--') or not lines[i].strip()):
            if not lines[i].strip() and not any(l.startswith('use ') for l in lines[i:]):
                break
            self.head.append(lines[i])
            i += 1
        body = []
        for l in lines[i:]:
            if l.startswith('use ') or l.startswith('unfoldable pub use ') or l.startswith('pub use '):
                self.uses.append(l)
            else:
                body.append(l)
        self.tree, rest = self.block(body, 0, 0, [])
        assert rest == len(body), (path, rest, body[rest])
        self.tail = self.trailing

    def block(self, lines, i, at, modules):
        out, lead = [], []
        current = None
        while i < len(lines):
            l = lines[i]
            if not l.strip():
                lead.append(l)
                i += 1
                continue
            n = indent(l)
            if n < at:
                break
            if n > at:
                if current is None:
                    raise ValueError((self.path, l))
                current.lines += lead + [l]
                lead = []
                i += 1
                continue
            if l.lstrip().startswith('--'):
                lead.append(l)
                i += 1
                continue
            s = l.strip()
            if s.startswith('module '):
                header = [l]
                while not strip_comment(header[-1]).rstrip().endswith('where'):
                    i += 1
                    header.append(lines[i])
                m = Module(lead, header, at)
                m.modules = list(modules)
                lead = []
                m.body, i = self.block(lines, i + 1, at + 2, modules + [m])
                lead = self.trailing
                out.append(m)
                current = None
                continue
            h = HEAD.match(s)
            if h and not (current and s.split()[0] == current.name and not h['type'] and False):
                current = Decl(lead, [l], at, h)
                current.modules = list(modules)
                lead = []
                out.append(current)
            elif s.startswith('pub mod ') or s.startswith('mod '):
                d = Decl(lead, [l], at, re.match(r'(?P<flags>(?:pub )?)(?P<type>)mod (?P<name>\S+)(?P<tname>)', s))
                d.name = s.split()[-1]
                d.type = 'mod'
                lead = []
                out.append(d)
                current = d
            else:
                if current is None:
                    raise ValueError((self.path, l))
                current.lines += lead + [l]
                lead = []
            i += 1
        self.trailing = lead
        # comments after the last declaration, deeper ones belong inside
        return out, i

    def decls(self, tree=None):
        for d in (self.tree if tree is None else tree):
            if isinstance(d, Module):
                yield from self.decls(d.body)
            else:
                yield d

    def write(self):
        out = list(self.head) + list(self.uses)
        def put(tree):
            for d in tree:
                out.extend(d.lead)
                if isinstance(d, Module):
                    out.extend(d.header)
                    put(d.body)
                else:
                    out.extend(d.lines)
        put(self.tree)
        out.extend(self.tail)
        return '\n'.join(out).rstrip('\n') + '\n'


def parse_use(line):
    m = USE.match(line)
    if not m:
        return None
    names = None
    if m['names'] is not None:
        names = [n.strip() for n in m['names'].split(',') if n.strip()]
    return dict(ghost=m['ghost'] or '', mod=m['mod'], names=names, alias=m['alias'], semi=m['semi'])


def show_use(u):
    s = u['ghost'] + 'use ' + u['mod']
    if u['names'] is not None:
        s += '.{' + ', '.join(u['names']) + '}'
    if u['alias']:
        s += ' as ' + u['alias']
    return s + u['semi']


def tokens(text):
    """identifiers, with '.' tokens kept so that fields and qualified names are seen"""
    text = re.sub(r'"[^"]*"', ' ', text)
    return [t[1:-1] if t.startswith('«') else t for t in TOKEN.findall(text)]


def binders(d):
    """names that the declaration binds itself: parameters, fields, variables of λ and of clauses"""
    text = d.text() + '\n' + '\n'.join(' '.join(strip_comment(h) for h in m.header) for m in d.modules)
    out = set(d.fields())
    for group in re.findall(r'[({]([^(){}:]+) : ', text):
        out |= set(group.split())
    for group in re.findall(r'λ ([^.]*)\.', text):
        out |= set(tokens(group))
    for l in d.lines:
        if indent(l) == d.at and l.strip().split(' ')[0] == d.name and ' = ' in l:
            ts = tokens(l.split(' = ')[0])
            out |= {t for t, u in zip(ts, ts[1:] + ['']) if t != d.name and not t.startswith('.') and not (u.startswith('.') and len(u) > 1)}
        for group in re.findall(r'let ([^=:]*?) (?:=|:)', l):
            out |= set(tokens(group))
    return out


def bare(name):
    """the tokens that show that an imported name is used"""
    name = name.split(' as ')[-1].strip('«»')
    if '◌' in name:
        return [p for p in name.split('◌') if p]
    return [name]


def spec_module(mod):
    """(crate, 'File' or 'Laws.File') of a module of one of our crates that holds definitions, laws or statements, else None"""
    m = re.match(r'^Rattle\.([a-z_0-9]+)\.(specs|proofs)\.(.+)$', mod)
    if not m or m[1] == 'std' or m[3].startswith(('declared', 'contracts')):
        return None
    if m[2] == 'proofs' and not m[3].startswith('Laws.') and m[3] not in PAGES:
        return None
    return m[1], m[3]


def stated(parts):
    """the module's name below specs/, or that of a law or a page of statements below proofs/, of a file's path from crates/ on; else None"""
    if parts[-1] in ('Lib.antt', 'Laws.antt'):
        return None
    name = '.'.join(parts[2:])[:-5]
    if parts[1] == 'specs' or parts[1] == 'proofs' and (parts[2] == 'Laws' or name in PAGES):
        return name
    return None


def antt_files(root):
    for base, dirs, files in os.walk(os.path.join(root, 'crates')):
        dirs[:] = sorted(d for d in dirs if d != 'out')
        for f in sorted(files):
            if f.endswith('.antt'):
                yield os.path.join(base, f)


def rt_files(root):
    for base, dirs, files in os.walk(os.path.join(root, 'crates')):
        dirs[:] = sorted(d for d in dirs if d != 'out')
        for f in sorted(files):
            if f.endswith('.rt'):
                yield os.path.join(base, f)



CLAUSE = re.compile(r'(?:requires|ensures|ghost)\*?(?:\s+\w+:?)?\s*$')


def body_at(text):
    """where the brace of a function's body stands, or the end of a function without one: a clause's braces are passed over"""
    i, inside = 0, 0
    while i < len(text):
        inside += (text[i] == '[') - (text[i] == ']')
        if text[i] == ';' and not inside:
            return i
        if text[i] == '{':
            if not CLAUSE.search(text, 0, i):
                return i
            depth = 0
            while True:
                depth += (text[i] == '{') - (text[i] == '}')
                if not depth:
                    break
                i += 1
        i += 1
    return len(text)


def owner_of(line):
    """of a line that begins an impl, the name that stands before its functions' names below proofs/"""
    m = re.match(r'impl(?:<[^>]*>)? (?:(\w+)(?:<(.*)>)? for )?(\w+)', line)
    if not m:
        return ''
    if not m[1]:
        return m[3]
    words = ['Unit' if w == '()' else w[0].upper() + w[1:] for w in re.findall(r'\w+|\(\)', m[2] or '')]
    return m[3][0].upper() + m[3][1:] + m[1] + ''.join(words)


def rt_functions(text):
    """(name, public, head text with requires/ensures, invariants text) for each function"""
    lines = [l for l in text.split('\n') if not re.match(r'\s*//', l)]
    i = 0
    owner = ''
    while i < len(lines):
        m = re.match(r'( *)(pub )?(?:extern "C" )?fn (\w+)', lines[i])
        if owner_of(lines[i]):
            owner = owner_of(lines[i]) + '.'
        if lines[i] == '}':
            owner = ''
        if not m:
            i += 1
            continue
        start = i
        rest = '\n'.join(lines[i:])
        at = body_at(rest)
        i += rest.count('\n', 0, at)
        yield owner * bool(m[1]) + m[3], bool(m[2]), rest[:at].rstrip() + (' {' if start == i else '')
        i += 1


def contract(head):
    """of a function's head what stands from its requires or ensures on"""
    return head[min([head.find(w) for w in ('requires', 'ensures') if w in head] or [len(head)]):]


def load(root):
    files = {}
    for p in antt_files(root):
        rel = os.path.relpath(p, os.path.join(root, 'crates'))
        parts = rel.split('/')
        name = stated(parts)
        if name is None:
            continue
        files[(parts[0], name)] = File(p, open(p).read())
    return files


class Graph:
    def __init__(self, root):
        self.root = root
        self.files = load(root)
        self.home = {}            # (crate, file, exported name) -> decl
        self.reexport = {}        # (crate, file) -> {name: target key}
        for key, f in self.files.items():
            for d in f.decls():
                for n in d.exported():
                    self.home[(key[0], key[1], n)] = d
                d.key = key
        for key, f in self.files.items():
            for l in f.uses:
                u = parse_use(l)
                if u and 'pub' in u['ghost'] and spec_module(u['mod']):
                    for n in u['names'] or []:
                        self.reexport[(key[0], key[1], n)] = spec_module(u['mod']) + (n,)
        self.scopes = {key: self.scope(f.uses, key) for key, f in self.files.items()}

    def find(self, k):
        while k in self.reexport:
            k = self.reexport[k]
        return self.home.get(k)

    def scope(self, uses, key=None):
        names, aliases = {}, {}
        for l in uses:
            u = parse_use(l)
            if not u:
                raise ValueError('a use that is not read: ' + l)
            sm = spec_module(u['mod'])
            if not sm:
                continue
            if u['alias']:
                aliases[u['alias']] = sm
            for n in u['names'] or []:
                d = self.find(sm + (n.strip('«»'),))
                if d is not None:
                    for b in [''.join(bare(n))] if '◌' in n else [n.strip('«»')]:
                        names[b] = d
        if key:
            for d in self.files[key].decls():
                for n in d.exported():
                    names[n.replace('◌', '')] = d
        return names, aliases

    def refs(self, text, scope, bound=()):
        names, aliases = scope
        out = set()
        ts = tokens(text)
        for i, t in enumerate(ts):
            if t.startswith('.') and len(t) > 1:
                if i and ts[i - 1] in aliases:
                    d = self.find(aliases[ts[i - 1]] + (t[1:],))
                    if d is not None:
                        out.add(d)
                continue
            if t in names and t not in bound:
                out.add(names[t])
        return out

    def decl_refs(self, d, whole=None):
        """what the declaration says: for a law its statement, for a definition all of it; module parameters included"""
        text = '\n'.join(strip_comment(l) for l in (d.signature() if whole is None else d.lines))
        text += '\n' + '\n'.join(' '.join(strip_comment(h) for h in m.header) for m in d.modules)
        b = binders(d)
        b = {n for n in b if not (n in self.scopes[d.key][0] and self.scopes[d.key][0][n].type == 'data' and n != self.scopes[d.key][0][n].name)}
        return self.refs(text, self.scopes[d.key], b - {d.name})

    def closure(self, roots, stop=()):
        """all that is named from the roots on; a declaration of `stop` is reached, but what it names is not"""
        seen, todo = set(roots), list(roots)
        while todo:
            d = todo.pop()
            for r in self.decl_refs(d) if d not in stop else ():
                if r not in seen:
                    seen.add(r)
                    todo.append(r)
        return seen

    def function_roots(self, functions):
        """what the contracts of these (crate, function) name"""
        roots = set()
        for p in rt_files(self.root):
            crate = os.path.relpath(p, os.path.join(self.root, 'crates')).split('/')[0]
            text = open(p).read()
            sc = self.scope([l.strip() for l in text.split('\n') if l.startswith('ghost use ')])
            for name, _, head in rt_functions(text):
                if (crate, name) in functions:
                    roots |= self.refs(contract(head), sc)
        return roots

    def contract_roots(self, crates=None):
        roots = set()
        for p in rt_files(self.root):
            crate = os.path.relpath(p, os.path.join(self.root, 'crates')).split('/')[0]
            if crates and crate not in crates:
                continue
            text = open(p).read()
            uses = [l.strip() for l in text.split('\n') if l.startswith('ghost use ')]
            sc = self.scope(uses)
            for name, public, head in rt_functions(text):
                if crates and not public:
                    continue
                roots |= self.refs(contract(head), sc)
            if not crates:
                roots |= set(sc[0].values())
            for m in re.findall(r'invariant[^\n]*\{([^}]*)\}', text):
                if not crates:
                    roots |= self.refs(m, sc)
        return roots
