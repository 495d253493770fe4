"""An interpreter of the plain part of the definitions in specs/: clauses, records and data, without proofs and types.

`World(root).get('Rattle.ss_resolver_names_rules.specs.Programs', 'program_faults')` is the value of a definition, a `Fun` where it takes
arguments; `call(f, x)` applies it. Numbers and truth values are Python's, a list is a tuple, a record a `Rec`, and what a
`data` declares a `Con`. It serves to compute definitions on cases and is no part of the gate.
"""
import os
import re
import sys
import threading

sys.setrecursionlimit(200000)

class Con:
    __slots__ = ('name', 'args')
    def __init__(self, name, args=()):
        self.name, self.args = name, tuple(args)
    def __repr__(self):
        return self.name if not self.args else '(%s %s)' % (self.name, ' '.join(map(repr, self.args)))
    def __eq__(self, o):
        return isinstance(o, Con) and self.name == o.name and self.args == o.args
    def __hash__(self):
        return hash((self.name, self.args))

class Rec(dict):
    def __repr__(self):
        return '{' + ', '.join('%s=%r' % kv for kv in self.items()) + '}'

class Fun:
    __slots__ = ('arity', 'fn', 'args', 'name')
    def __init__(self, arity, fn, args=(), name='?'):
        self.arity, self.fn, self.args, self.name = arity, fn, tuple(args), name
    def __repr__(self):
        return '<%s>' % self.name

def apply(f, args):
    args = list(args)
    while args:
        if isinstance(f, Con):          # a constructor takes more arguments
            f = Con(f.name, f.args + (args.pop(0),)); continue
        if not isinstance(f, Fun):
            raise Exception('not a function: %r applied to %r' % (f, args))
        need = f.arity - len(f.args)
        take, args = args[:need], args[need:]
        got = f.args + tuple(take)
        if len(got) < f.arity:
            return Fun(f.arity, f.fn, got, f.name)
        f = f.fn(*got)
    return f

def call(f, *args):
    return apply(f, args)

NONE = Con('None')
def some(x): return Con('Some', (x,))
def pair(a, b): return Con('pair', (a, b))

def flat_map(f, xs):
    return tuple(y for x in xs for y in call(f, x))


def filter_map(f, xs):
    found = [call(f, x) for x in xs]
    return tuple(o.args[0] for o in found if o.name == 'Some')


def find(f, xs):
    return next((some(x) for x in xs if call(f, x)), NONE)


def position(f, xs):
    return next((some(i) for i, x in enumerate(xs) if call(f, x)), NONE)


def fold(f, a, xs):
    for x in xs:
        a = call(f, a, x)
    return a


def digits(n):
    return tuple(str(n).encode())


def int_div(a, b):
    quotient = abs(a) // abs(b) if b else 0
    return quotient if (a < 0) == (b < 0) else -quotient


# the words of the library that the definitions use
WORDS = {
    'suc': (1, lambda n: n + 1),
    'pred': (1, lambda n: max(0, n - 1)),
    'not': (1, lambda b: not b),
    'is_some': (1, lambda o: o.name == 'Some'),
    'is_none': (1, lambda o: o.name == 'None'),
    'option_map': (2, lambda f, o: NONE if o.name == 'None' else some(call(f, o.args[0]))),
    'option_and_then': (2, lambda f, o: NONE if o.name == 'None' else call(f, o.args[0])),
    'option_or': (2, lambda o, p: p if o.name == 'None' else o),
    'unwrap_or': (2, lambda o, d: d if o.name == 'None' else o.args[0]),
    'option_to_list': (1, lambda o: o.args),
    'map': (2, lambda f, xs: tuple(call(f, x) for x in xs)),
    'filter': (2, lambda f, xs: tuple(x for x in xs if call(f, x))),
    'flat_map': (2, flat_map),
    'filter_map': (2, filter_map),
    'length': (1, len),
    'reverse': (1, lambda xs: tuple(reversed(xs))),
    'take': (2, lambda n, xs: xs[:n]),
    'drop': (2, lambda n, xs: xs[n:]),
    'replicate': (2, lambda n, x: (x,) * n),
    'slice_get': (2, lambda xs, i: some(xs[i]) if i < len(xs) else NONE),
    'sum_by': (2, lambda f, xs: sum(call(f, x) for x in xs)),
    'count_by': (2, lambda f, xs: sum(1 for x in xs if call(f, x))),
    'find': (2, find),
    'position': (2, position),
    'list_any': (2, lambda f, xs: any(call(f, x) for x in xs)),
    'list_all': (2, lambda f, xs: all(call(f, x) for x in xs)),
    'fold': (3, fold),
    'zip': (2, lambda xs, ys: tuple(pair(a, b) for a, b in zip(xs, ys))),
    'bytes_eq': (2, lambda a, b: a == b),
    'beq': (2, lambda a, b: a == b),
    'nat_eq': (2, lambda a, b: a == b),
    'nat_le': (2, lambda a, b: a <= b),
    'nat_lt': (2, lambda a, b: a < b),
    'int_lt': (2, lambda a, b: a < b),
    'int_le': (2, lambda a, b: a <= b),
    'int_eq': (2, lambda a, b: a == b),
    'int_gap': (2, lambda a, b: max(0, b - a)),
    'int_div': (2, int_div),
    'int_rem': (2, lambda a, b: a - b * int_div(a, b)),
    'neg_ℤ': (1, lambda a: -a),
    'slice_set': (3, lambda xs, i, x: xs[:i] + (x,) + xs[i + 1:] if i < len(xs) else xs),
    'cond': (3, lambda b, x, y: x if b else y),
    'min': (2, min),
    'max': (2, max),
    'string_bytes': (1, lambda s: s),
    'pos': (1, lambda n: n),
    'negsuc': (1, lambda n: -n - 1),
    'decimal': (1, digits),
    'signed_decimal': (1, digits),
}
BUILTINS = {'zero': 0, 'true': True, 'false': False, 'Some': Con('Some'), 'None': NONE, 'Ok': Con('Ok'), 'Err': Con('Err')}
BUILTINS.update({name: Fun(arity, fn, (), name) for name, (arity, fn) in WORDS.items()})
for other, name in (('eqb', 'nat_eq'), ('leb', 'nat_le'), ('ltb', 'nat_lt')):
    BUILTINS[other] = BUILTINS[name]

# ------------------------------------------------------------------ lexing
TOK = re.compile(r'''\s+|"(?:[^"\\]|\\.)*"|\d+|[+\-*]ℤ|neg_ℤ|(?:[A-Za-z_][A-Za-z0-9_'\-]*)(?:\.[A-Za-z0-9_][A-Za-z0-9_'\-]*)*|\.[A-Za-z0-9_][A-Za-z0-9_'\-]*(?:\.[A-Za-z0-9_][A-Za-z0-9_'\-]*)*|λ|→|∷|\+\+|&&|\|\||==|\[\]|[(){};:=,+*/%\-×≡∥]|.''', re.X)

def lex(s):
    out = []
    i = 0
    while i < len(s):
        m = TOK.match(s, i)
        t = m.group(0)
        if not t.isspace():
            out.append((t, i > 0 and s[i-1].isspace()))
        i = m.end()
    return out

class P:
    def __init__(self, toks): self.t, self.i = toks, 0
    def peek(self, k=0): return self.t[self.i + k][0] if self.i + k < len(self.t) else None
    def next(self):
        if self.i >= len(self.t): raise SyntaxError('ends: ' + ' '.join(t for t, _ in self.t))
        x = self.t[self.i][0]; self.i += 1; return x
    def spaced(self): return self.t[self.i][1] if self.i < len(self.t) else True
    def want(self, x):
        y = self.next()
        if y != x: raise SyntaxError('expected %r, found %r in %s' % (x, y, ' '.join(t for t, _ in self.t)))

BIN = {'||': (2, 'r'), '&&': (3, 'r'), '==': (4, 'l'), '∷': (5, 'r'), '++': (5, 'r'), '+': (6, 'l'), '-': (6, 'l'), '*': (7, 'l'), '/': (7, 'l'), '%': (7, 'l'), '+ℤ': (6, 'l'), '-ℤ': (6, 'l'), '*ℤ': (7, 'l'), '^': (8, 'r')}
IDENT = re.compile(r"^[A-Za-z_]")

def expr(p, level=0):
    t = p.peek()
    if t == 'λ':
        p.next(); params = []
        while p.peek() != '.' :
            if p.peek() == '(':
                p.next(); names = []
                while p.peek() != ':': names.append(p.next())
                d = 1
                while d:
                    x = p.next()
                    if x == '(': d += 1
                    if x == ')': d -= 1
                params += names
            else:
                x = p.next()
                if x.startswith('.'): raise SyntaxError('lambda')
                params.append(x)
        p.next()
        return ('lam', params, expr(p))
    if t == 'if':
        p.next(); c = expr(p); p.want('then'); a = expr(p); p.want('else'); b = expr(p)
        return ('if', c, a, b)
    if t == 'let':
        p.next(); n = p.next()
        if p.peek() == ':':
            p.next(); d = 0
            while not (p.peek() == '=' and d == 0):
                x = p.next()
                if x in '([{': d += 1
                if x in ')]}': d -= 1
        p.want('='); a = expr(p); p.want('in'); b = expr(p)
        return ('let', n, a, b)
    left = app(p)
    while p.peek() in BIN and BIN[p.peek()][0] >= level:
        o = p.next(); lv, assoc = BIN[o]
        right = expr_op(p, lv if assoc == 'r' else lv + 1)
        left = ('bin', o, left, right)
    return left

def expr_op(p, level):
    if p.peek() in ('λ', 'if', 'let'): return expr(p)
    left = app(p)
    while p.peek() in BIN and BIN[p.peek()][0] >= level:
        o = p.next(); lv, assoc = BIN[o]
        right = expr_op(p, lv if assoc == 'r' else lv + 1)
        left = ('bin', o, left, right)
    return left

STOP = {')', '}', ';', ',', 'then', 'else', 'in', '=', None, ':', '→'}
def app(p):
    f = atom(p)
    args = []
    while True:
        t = p.peek()
        if t in STOP or t in BIN: break
        if t in ('λ', 'if', 'let'):
            args.append(expr(p)); break
        if t == '{':               # implicit argument
            d = 0
            while True:
                x = p.next()
                if x == '{': d += 1
                if x == '}':
                    d -= 1
                    if d == 0: break
            continue
        args.append(atom(p))
    return ('app', f, args) if args else f

def atom(p):
    t = p.next()
    if t == '(':
        if p.peek() == ')': p.next(); return ('unit',)
        # an operator section like (_ == _) isn't used
        xs = [expr(p)]
        if p.peek() == ':':
            d = 1
            while True:
                x = p.peek()
                if x == '(': d += 1
                if x == ')':
                    d -= 1
                    if d == 0: break
                p.next()
        while p.peek() == ',':
            p.next(); xs.append(expr(p))
        p.want(')')
        e = xs[0]
        if len(xs) > 1:
            e = xs[-1]
            for x in reversed(xs[:-1]): e = ('pair', x, e)
        return fields(p, e)
    if t == 'record':
        base = None
        if p.peek() != '{':
            base = atom(p)
        p.want('{'); fs = []
        while p.peek() != '}':
            n = p.next(); p.want('='); fs.append((n, expr(p)))
            if p.peek() == ';': p.next()
        p.want('}')
        return fields(p, ('rec', base, fs))
    if t == '[]': return ('nil',)
    if t.startswith('"'): return ('str', bytes(eval(t), 'utf8'))
    if t.isdigit(): return ('num', int(t))
    if IDENT.match(t): return fields(p, ('name', t))
    raise SyntaxError('atom %r in %s' % (t, ' '.join(x for x, _ in p.t)))

def fields(p, e):
    while p.peek() is not None and p.peek().startswith('.') and len(p.peek()) > 1 and not p.spaced():
        for f in p.next()[1:].split('.'): e = ('get', e, f)
    return e

# ------------------------------------------------------------------ items
def strip_comments(text):
    out = []
    for line in text.split('\n'):
        i = line.find('--')
        while i != -1 and not (i == 0 or line[i-1].isspace()): i = line.find('--', i + 1)
        out.append((line if i == -1 else line[:i]).rstrip())
    return [l for l in out if l.strip()]

def indent(l): return len(l) - len(l.lstrip(' '))

def items(lines):
    """groups of lines: a first line and the more indented ones that follow"""
    out = []
    if not lines: return out
    base = indent(lines[0])
    for l in lines:
        if indent(l) <= base and not l.strip().startswith(('}', ')', ']')) : out.append([l])
        else: out[-1].append(l)
    return out

def split_where(ls):
    for i, l in enumerate(ls):
        if i and l.strip() == 'where': return ls[:i], ls[i+1:]
    return ls, None

def parse_clause(ls):
    ls, wh = split_where(ls)
    toks = lex('\n'.join(ls))
    d = 0
    for i, (t, _) in enumerate(toks):
        if t in '([{' and len(t) == 1: d += 1
        if t in ')]}' and len(t) == 1: d -= 1
        if t == '=' and d == 0: break
    lhs, rhs = toks[:i], toks[i+1:]
    p = P(lhs); name = p.next(); pats = []
    while p.peek() is not None:
        if p.peek() == '{':
            while p.next() != '}': pass
            continue
        pats.append(pattern_atom(p))
    q = P(rhs); e = expr(q)
    if q.peek() is not None: raise SyntaxError('left over %r in %s' % (q.peek(), '\n'.join(ls)))
    where = parse_defs(wh) if wh else None
    return name, (pats, e, where)

# constructors that begin with a small letter
SMALL = {'no_terms', 'term_then', 'no_formulas', 'formula_then'}

def pattern_atom(p):
    t = p.next()
    if t == '(':
        x = pattern(p)
        while p.peek() == ',':
            p.next(); x = ('pcon', 'pair', [x, pattern(p)])
        p.want(')')
        return x
    if t == '[]': return ('pnil',)
    if t.isdigit(): return ('pnum', int(t))
    if t in ('true', 'false'): return ('plit', t == 'true')
    if t == 'zero': return ('pnum', 0)
    if t == '_': return ('pany',)
    if '.' in t or t[0].isupper() or t in SMALL: return ('pcon', t.split('.')[-1], [])
    return ('pvar', t)

def pattern(p):
    first = p.peek()
    if first == 'suc':
        p.next(); x = ('psuc', pattern_atom(p))
    elif first in ('pos', 'negsuc'):
        x = ('pcon', p.next(), [pattern_atom(p)])
    elif first not in ('(', '[]') and first is not None and ('.' in first or first[0].isupper() or first in SMALL):
        c = p.next().split('.')[-1]; args = []
        while p.peek() not in (')', ',', '∷'): args.append(pattern_atom(p))
        x = ('pcon', c, args)
    else:
        x = pattern_atom(p)
    if p.peek() == '∷':
        p.next(); return ('pcons', x, pattern(p))
    return x

def is_signature(ls):
    toks = lex('\n'.join(split_where(ls)[0]))
    d = 0
    for t, _ in toks:
        if t in ('(', '{', '['): d += 1
        if t in (')', '}', ']'): d -= 1
        if d == 0 and t == ':': return True
        if d == 0 and t == '=': return False
    return False

def passed(tree, parameters, defined):
    """the expression, in which the definitions of a module get the module's parameters"""
    if isinstance(tree, dict):
        return {n: passed(part, parameters, defined) for n, part in tree.items()}
    if isinstance(tree, list):
        return [passed(part, parameters, defined) for part in tree]
    if not isinstance(tree, tuple):
        return tree
    if len(tree) == 2 and tree[0] == 'name' and tree[1] in defined:
        return ('app', tree, [('name', n) for n in parameters])
    if len(tree) == 3 and tree[0] == 'app' and isinstance(tree[1], tuple) and tree[1][0] == 'name' and tree[1][1] in defined:
        return ('app', tree[1], [('name', n) for n in parameters] + passed(tree[2], parameters, defined))
    return tuple(passed(part, parameters, defined) for part in tree)

def with_parameters(parameters, defs):
    """what a module defines, for those outside it"""
    front = [('pvar', n) for n in parameters]
    return {n: [(front + patterns, passed(e, parameters, defs), passed(where, parameters, defs)) for patterns, e, where in clauses] for n, clauses in defs.items()}

def parse_defs(lines):
    defs = {}
    for ls in items(lines):
        first = ls[0].strip()
        words = first.split()
        while words and words[0] in ('abbrev', 'pub', 'unfoldable', 'opaque', 'private'): words = words[1:]
        if not words: continue
        if words[0] == 'mutual':
            defs.update(parse_defs(ls[1:])); continue
        if words[0] == 'module':
            defs.update(with_parameters(re.findall(r'\((\w+) :', first), parse_defs(ls[1:]))); continue
        if words[0] in ('use', 'mod', 'record', 'data'): continue
        head = first[first.index(words[0]):] if words[0] in first else first
        # drop the marks in front
        head = re.sub(r'^((abbrev|pub|unfoldable)\s+)+', '', first)
        ls2 = [head] + ls[1:]
        if is_signature(ls2): continue
        try: name, clause = parse_clause(ls2)
        except SyntaxError as x:
            name, clause = re.split(r'\s', head)[0], ([], ('bad', str(x)), None)
        defs.setdefault(name, []).append(clause)
    return defs

def match(pat, v, env):
    k = pat[0]
    if k == 'pvar': env[pat[1]] = v; return True
    if k == 'pany': return True
    if k == 'pnil': return v == ()
    if k == 'pcons':
        if not isinstance(v, tuple) or not v: return False
        return match(pat[1], v[0], env) and match(pat[2], v[1:], env)
    if k == 'pnum': return v == pat[1] and not isinstance(v, bool)
    if k == 'plit': return v is pat[1]
    if k == 'psuc': return isinstance(v, int) and v > 0 and match(pat[1], v - 1, env)
    if k == 'pcon' and pat[1] == 'pos': return v >= 0 and match(pat[2][0], v, env)
    if k == 'pcon' and pat[1] == 'negsuc': return v < 0 and match(pat[2][0], -v - 1, env)
    if k == 'pcon':
        if not isinstance(v, Con): raise Exception('pattern %r against %r' % (pat, v))
        return v.name == pat[1] and len(v.args) == len(pat[2]) and all(match(a, b, env) for a, b in zip(pat[2], v.args))
    raise Exception(pat)

class Module:
    def __init__(self, world, path, file):
        self.world, self.path = world, path
        self.names, self.aliases, self.cons = {}, {}, set()
        lines = strip_comments(open(file).read())
        for ls in items(lines):
            t = ' '.join(l.strip() for l in ls)
            t2 = re.sub(r'^((unfoldable|pub)\s+)+', '', t)
            if t2.startswith('use '): self.use(t2[4:].strip())
            m = re.match(r'^data (\w+)', t2)
            if m: self.data(ls)
            if re.match(r'^(abbrev )?mutual', t2):
                for ms in items(ls[1:]):
                    if re.match(r'^\s*(pub )?data', ms[0]): self.data(ms)
        self.defs = parse_defs(lines)
        self.cache = {}
    def data(self, ls):
        for cs in items(ls[1:]):
            for c in cs[:1]:
                m = re.match(r"^\s*([A-Za-z_][\w']*)\s*:", c)
                if m: self.cons.add(m.group(1))
    def use(self, t):
        m = re.match(r'^([\w.«»-]+?)\.\{(.*)\}$', t)
        if m:
            mod = m.group(1)
            for n in m.group(2).split(','):
                n = n.strip()
                a = re.match(r'^(\S+) as (\S+)$', n)
                src, dst = (a.group(1), a.group(2)) if a else (n, n)
                self.names[dst] = (mod, src)
            return
        m = re.match(r'^([\w.]+) as (\w+)$', t)
        if m: self.aliases[m.group(2)] = m.group(1)
    def lookup(self, n):
        if n in self.defs: return self.value(n)
        if n in self.cons: return Con(n)
        if n in self.names:
            mod, src = self.names[n]
            return self.world.get(mod, src)
        if n in BUILTINS: return BUILTINS[n]
        raise KeyError('%s in %s' % (n, self.path))
    def value(self, n):
        if n not in self.cache:
            cl = self.defs[n]
            if len(cl[0][0]) == 0: self.cache[n] = ev(self, cl[0][1], with_where(self, cl[0][2], {}))
            else: self.cache[n] = clauses(self, n, cl, {})
        return self.cache[n]

def clauses(mod, n, cl, outer):
    arity = len(cl[0][0])
    def fn(*args):
        for pats, e, wh in cl:
            env = {}
            if all(match(p, a, env) for p, a in zip(pats, args)):
                full = dict(outer); full.update(env)
                return ev(mod, e, with_where(mod, wh, full))
        raise Exception('no clause of %s for %r' % (n, args))
    return Fun(arity, fn, (), n)

def with_where(mod, wh, env):
    if not wh: return env
    env = dict(env)
    for n, cl in wh.items():
        if cl[0][0]: env[n] = clauses(mod, n, cl, env)
    for n, cl in wh.items():
        if not cl[0][0]: env[n] = ev(mod, cl[0][1], env)
    return env

def get(v, f):
    if isinstance(v, Con) and v.name == 'pair' and f in ('0', '1'): return v.args[int(f)]
    if isinstance(v, Rec): return v[f]
    raise Exception('field %s of %r' % (f, v))

def ev(mod, e, env):
    k = e[0]
    if k == 'name':
        parts = e[1].split('.')
        if parts[0] in env:
            v = env[parts[0]]
            for f in parts[1:]: v = get(v, f)
            return v
        if len(parts) > 1 and parts[0] in mod.aliases:
            target = mod.aliases[parts[0]]
            v = mod.world.get(target, parts[1])
            for f in parts[2:]: v = get(v, f)
            return v
        v = mod.lookup(parts[0])
        for f in parts[1:]: v = get(v, f)
        return v
    if k == 'num': return e[1]
    if k == 'str': return tuple(e[1])
    if k == 'nil': return ()
    if k == 'unit': return Con('unit')
    if k == 'app':
        if e[1] == ('name', 'codes'): return tuple(e[2][0][1])
        f = ev(mod, e[1], env)
        return apply(f, [ev(mod, a, env) for a in e[2]])
    if k == 'if': return ev(mod, e[2] if ev(mod, e[1], env) else e[3], env)
    if k == 'let':
        env = dict(env); env[e[1]] = ev(mod, e[2], env); return ev(mod, e[3], env)
    if k == 'lam':
        params, body = e[1], e[2]
        def fn(*args):
            env2 = dict(env); env2.update(zip(params, args)); return ev(mod, body, env2)
        return Fun(len(params), fn, (), 'λ')
    if k == 'pair': return pair(ev(mod, e[1], env), ev(mod, e[2], env))
    if k == 'rec':
        r = Rec(ev(mod, e[1], env)) if e[1] else Rec()
        for n, x in e[2]: r[n] = ev(mod, x, env)
        return r
    if k == 'get': return get(ev(mod, e[1], env), e[2])
    if k == 'bin':
        o = e[1]
        if o == '&&': return ev(mod, e[2], env) and ev(mod, e[3], env)
        if o == '||': return ev(mod, e[2], env) or ev(mod, e[3], env)
        a, b = ev(mod, e[2], env), ev(mod, e[3], env)
        if o == '==': return a == b
        if o == '∷': return (a,) + b
        if o == '++': return a + b
        if o in ('+', '+ℤ'): return a + b
        if o == '-': return max(0, a - b)
        if o == '-ℤ': return a - b
        if o in ('*', '*ℤ'): return a * b
        if o == '^': return a ** b
        if o == '/': return a // b if b else 0
        if o == '%': return a % b if b else a
    raise Exception(e)

class World:
    """The definitions of a checkout."""
    def __init__(self, root):
        self.root, self.mods = root, {}
    def module(self, path):
        if path in self.mods: return self.mods[path]
        m = re.match(r'^Rattle\.(\w+)\.specs\.(\w+)$', path)
        if m:
            f = os.path.join(self.root, 'crates', m.group(1), 'specs', m.group(2) + '.antt')
            if os.path.exists(f):
                self.mods[path] = Module(self, path, f)
                return self.mods[path]
        return None
    def get(self, path, name):
        if '.specs.declared.' in path: return Con(name)
        if path.startswith('Rattle.std.') or path.startswith('Rattle.core.'): return BUILTINS[name]
        m = self.module(path)
        if m is None: raise KeyError('%s.%s' % (path, name))
        return m.lookup(name)

def big(f):
    threading.stack_size(1 << 29)
    t = threading.Thread(target=f); t.start(); t.join()
