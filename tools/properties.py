"""Properties of specs/ as tests: records, definitions and data of `Type 0` whose values are evidence.

`World(root).property('Rattle.ss_machine_rules.specs.Good', 'IsGoodState')` is a Python function of the property's arguments. It answers
None where the property holds, and otherwise the record and field that fails. A bound variable takes each value that a premise
`A ≡ B` gives it; one that none gives is a number and takes those below `world.limit`, which the caller sets past every number that occurs.
"""
import re

import antt
import compiled

DATA = {'ℕ', 'ℤ', 'Bool', 'List', 'Option', 'ClassTree', 'ExprTree', 'EntryTree', 'BodyTree'}
OPENS, CLOSES = '([{', ')]}'


class All:
    def __contains__(self, name): return True


# ---- reading types

def depths(tokens):
    """each token with its place and how deep it stands in brackets"""
    depth = 0
    for i, (t, _) in enumerate(tokens):
        if t in CLOSES and len(t) == 1: depth -= 1
        yield i, t, depth
        if t in OPENS and len(t) == 1: depth += 1


def closing(tokens):
    return next(i for i, t, d in depths(tokens) if i and d == 0 and t in CLOSES)


def split(tokens, at):
    """the parts between these tokens at depth 0"""
    cuts = [i for i, t, d in depths(tokens) if d == 0 and t == at]
    return [tokens[a + 1:b] for a, b in zip([-1] + cuts, cuts + [len(tokens)])]


def term(tokens):
    p = antt.P(tokens)
    e = antt.expr(p)
    if p.peek() is not None:
        raise SyntaxError('left over %r in %s' % (p.peek(), ' '.join(t for t, _ in tokens)))
    return e


def binder(tokens):
    """the names and the type of `(x y : T)` in front, None where there is none"""
    if not tokens or tokens[0][0] not in ('(', '{'):
        return None
    inside = tokens[1:closing(tokens)]
    parts = split(inside, ':')
    if len(parts) != 2 or not all(re.match(r"[A-Za-z_][\w']*$", t) for t, _ in parts[0]):
        return None
    return [t for t, _ in parts[0]], parts[1]


def type_(tokens):
    bound = binder(tokens)
    if bound:
        rest = tokens[closing(tokens) + 1:]
        kind = 'exists' if rest[0][0] == '×' else 'forall'
        return kind, bound[0], type_(rest[1:] if rest[0][0] in ('→', '×') else rest)
    if tokens[0][0] == '(' and closing(tokens) == len(tokens) - 1 and any(t in '≡<≤→×' for t, _ in tokens):
        return type_(tokens[1:-1])
    parts = split(tokens, '→')
    if len(parts) > 1:
        return 'implies', type_(parts[0]), type_(tokens[len(parts[0]) + 1:])
    parts = split(tokens, '×')
    if len(parts) > 1:
        return 'and', [type_(p) for p in parts]
    for sign in '≡<≤':
        parts = split(tokens, sign)
        if len(parts) > 1:
            return 'compare', sign, term(parts[0]), term(parts[1])
    return 'holds', term(tokens)


class Declared:
    """The properties that a module declares: kind, parameters, and what stands in them."""
    def __init__(self, file):
        self.found = {}
        self.read(antt.strip_comments(open(file).read()))

    def read(self, lines):
        for ls in antt.items(lines):
            ls = [re.sub(r'^\s*((abbrev|pub|unfoldable)\s+)+', '', ls[0])] + ls[1:]
            if ls[0].strip() == 'mutual':
                self.read(ls[1:])
            elif ls[0].startswith(('record ', 'data ')):
                self.declared(ls)
            elif antt.is_signature(ls):
                tokens = antt.lex(' '.join(ls))
                if [t for t, _ in tokens[-2:]] == ['Type', '0'] and len(tokens) > 4:
                    self.found[tokens[0][0]] = ('clauses', [])
            elif self.found.get(ls[0].split()[0], ('', 0))[0] == 'clauses':
                self.found[ls[0].split()[0]][1].append(self.clause(antt.lex(' '.join(ls))))

    def declared(self, ls):
        tokens = antt.lex(ls[0])
        kind, name, rest, params = tokens[0][0], tokens[1][0], tokens[2:], []
        while binder(rest):
            params += binder(rest)[0]
            rest = rest[closing(rest) + 1:]
        members = []
        for member in antt.items(ls[1:]):
            tokens = antt.lex(re.sub(r'^\s*pub\s+', '', ' '.join(member)))
            members.append((tokens[0][0], tokens[2:]))
        self.found[name] = (kind, params, members)

    def clause(self, tokens):
        left, right = split(tokens, '=')[0], tokens[len(split(tokens, '=')[0]) + 1:]
        p = antt.P(left[1:])
        patterns = []
        while p.peek() is not None:
            patterns.append(antt.pattern_atom(p))
        return patterns, right


# ---- tests

class Tests(compiled.Patterns):
    """The text of a Python function that tests a property."""

    def copy(self, scope): return compiled.Scope(self.world, scope.module, scope.bound)

    def of_record(self, name, title, params, members, scope):
        args, scope = scope.with_names(params)
        self.line(0, 'def %s(%s):' % (name, ', '.join(args)))
        self.members([(title + '.' + n, tokens) for n, tokens in members], scope, 1, set())
        self.line(1, 'return None')

    def members(self, members, scope, depth, open_):
        """the fields one by one; one that is data is found by the equation that names it"""
        for i, (label, tokens) in enumerate(members):
            if tokens[0][0] in DATA and not any(t in '≡<≤→×' for t, _ in tokens):
                open_ = open_ | {label.split('.')[-1]}
                continue
            ty = type_(tokens)
            if open_ and ty[0] == 'compare':
                self.solved(ty, scope, depth, open_, label, lambda s, d: self.members(members[i + 1:], s, d, open_ - set(s.bound)))
                return
            self.demand(ty, self.copy(scope), depth, open_, label)

    def solved(self, ty, scope, depth, open_, label, then):
        """an equation that gives its open variables one value, or fails"""
        found = self.world.fresh()
        self.line(depth, '%s = False' % found)
        inner = self.copy(scope)
        deep = self.assume(ty, inner, depth, open_)
        self.line(deep, '%s = True' % found)
        then(inner, deep)
        self.line(depth, 'if not %s: return %r' % (found, label))

    def of_data(self, name, title, params, members, scope):
        args, scope = scope.with_names(params)
        self.line(0, 'def %s(%s):' % (name, ', '.join(args)))
        for n, tokens in members:
            inner, depth, open_ = self.copy(scope), 1, set()
            ty = type_(tokens)
            while ty[0] in ('forall', 'implies'):
                if ty[0] == 'forall':
                    open_ = open_ | set(ty[1])
                else:
                    depth = self.assume(ty[1], inner, depth, open_)
                ty = ty[2]
            self.line(depth, 'return None')
        self.line(1, 'return %r' % title)

    def of_clauses(self, name, title, clauses, scope):
        # a definition may take fewer arguments than its type names
        args = [self.world.fresh() for _ in clauses[0][0]]
        self.line(0, 'def %s(%s):' % (name, ', '.join(args)))
        for patterns, right in clauses:
            inner, depth, waiting = self.copy(scope), 1, list(zip(patterns, args))
            while waiting:
                (pattern, value), waiting = waiting[0], waiting[1:]
                tests, parts = self.shape(pattern, value, inner, depth, All())
                if tests:
                    self.line(depth, 'if %s:' % tests)
                    depth += 1
                waiting = parts + waiting
            self.demand(type_(right), inner, depth, set(), title)
            self.line(depth, 'return None')
        self.line(1, 'raise Exception(%r)' % ('no clause of %s' % title))

    def demand(self, ty, scope, depth, open_, label):
        """lines that return the label where the type has no value"""
        kind = ty[0]
        if kind == 'forall':
            for name in ty[1]:
                scope.bound.pop(name, None)
            self.demand(ty[2], scope, depth, open_ | set(ty[1]), label)
        elif kind == 'implies':
            inner = self.copy(scope)
            self.demand(ty[2], inner, self.assume(ty[1], inner, depth, open_), open_, label)
        elif kind == 'and':
            for part in ty[1]:
                self.demand(part, self.copy(scope), depth, open_, label)
        elif kind == 'exists':
            first, rest = (ty[2][1][0], ('and', ty[2][1][1:])) if ty[2][0] == 'and' else (ty[2], ('and', []))
            self.solved(first, scope, depth, open_ | set(ty[1]), label, lambda s, d: self.demand(rest, s, d, open_, label))
        elif kind == 'compare':
            depth = self.each(ty[2:], scope, depth, open_)
            self.line(depth, 'if not (%s): return %r' % (self.compared(ty, scope), label))
        else:
            depth = self.each(ty[1], scope, depth, open_)
            why = self.world.fresh()
            self.line(depth, '%s = %s' % (why, self.property_text(ty[1], scope)))
            self.line(depth, "if %s is not None: return %r + %s" % (why, label + ' > ', why))

    def assume(self, ty, scope, depth, open_):
        """lines that go on, one level deeper, where the type has a value; open variables get their values"""
        if ty[0] == 'and':
            for part in ty[1]:
                depth = self.assume(part, scope, depth, open_)
            return depth
        if ty[0] == 'holds':
            depth = self.each(ty[1], scope, depth, open_)
            self.line(depth, 'if %s is None:' % self.property_text(ty[1], scope))
            return depth + 1
        if ty[1] != '≡':
            depth = self.each(ty[2:], scope, depth, open_)
            self.line(depth, 'if %s:' % self.compared(ty, scope))
            return depth + 1
        depth = self.each(ty[2], scope, depth, open_)
        value = self.world.fresh()
        self.line(depth, '%s = %s' % (value, self.expressions.text(ty[2], scope)))
        return self.matched(ty[3], value, scope, depth, open_)

    def compared(self, ty, scope):
        return '%s %s %s' % (self.expressions.text(ty[2], scope), {'≡': '==', '<': '<', '≤': '<='}[ty[1]], self.expressions.text(ty[3], scope))

    def each(self, e, scope, depth, open_):
        """loops over the open variables of an expression"""
        for name in sorted(compiled.names_in(e, set())):
            if name in open_ and name not in scope.bound:
                new = self.world.fresh()
                self.line(depth, 'for %s in range(%s):' % (new, self.bound_of(e, name, scope)))
                scope.bound[name] = new
                depth += 1
        return depth

    def bound_of(self, e, name, scope):
        # past the end of a list there is nothing
        if isinstance(e, tuple) and e[0] == 'app' and e[1] == ('name', 'slice_get') and e[2][1] == ('name', name):
            return 'len(%s)' % self.expressions.text(e[2][0], scope)
        return 'LIMIT[0]'

    def matched(self, e, value, scope, depth, open_):
        """lines that go on where the value has the form of the expression"""
        waiting = [(e, value)]
        while waiting:
            (e, value), waiting = waiting[0], waiting[1:]
            free = {n for n in compiled.names_in(e, set()) if n in open_ and n not in scope.bound}
            if not free:
                self.line(depth, 'if %s == %s:' % (value, self.expressions.text(e, scope)))
                depth += 1
            elif e[0] == 'name':
                scope.bound[e[1]] = self.world.fresh()
                self.line(depth, '%s = %s' % (scope.bound[e[1]], value))
            elif e[0] == 'rec':
                waiting = [(x, compiled.read(value, n)) for n, x in e[2]] + waiting
            elif e[0] == 'bin' and e[1] == '++':
                start = self.expressions.text(e[2], scope)
                self.line(depth, 'if %s[:len(%s)] == %s:' % (value, start, start))
                depth += 1
                waiting = [(e[3], '%s[len(%s):]' % (value, start))] + waiting
            else:
                depth, parts = self.constructed(e, value, scope, depth)
                waiting = parts + waiting
        return depth

    def constructed(self, e, value, scope, depth):
        kind, what, _ = self.expressions.meant(e[1][1], scope)
        if kind == 'definition':
            module, name = self.world.definition_of(e[1][1], scope.module)
            (patterns, body, _), = module.defs[name]
            inner = dict(zip([p[1] for p in patterns], e[2]))
            return depth, [(put(body, inner), value)]
        self.line(depth, 'if %s.name == %r:' % (value, what.name))
        return depth + 1, [(x, '%s.args[%d]' % (value, i)) for i, x in enumerate(e[2])]

    def property_text(self, e, scope):
        head, args = (e[1], e[2]) if e[0] == 'app' else (e, [])
        if head == ('name', 'Unit'): return 'None'
        if head == ('name', '⊥'): return "'⊥'"
        return '%s(%s)' % (self.world.property_name(head[1], scope.module), ', '.join(self.expressions.text(a, scope) for a in args))


def put(e, values):
    """the expression with these in place of its names; constructors of the library alone stand in it beside them"""
    if isinstance(e, tuple) and len(e) == 2 and e[0] == 'name':
        return values.get(e[1], e)
    if isinstance(e, (tuple, list)):
        return type(e)(put(part, values) for part in e)
    return e


class World(compiled.World):
    def __init__(self, root):
        super().__init__(root)
        self.declared, self.tests = {}, {}
        self.python['LIMIT'] = [0]

    def set_limit(self, limit): self.python['LIMIT'][0] = limit

    def declared_in(self, module):
        if module.path not in self.declared:
            self.declared[module.path] = Declared(self.file_of(module.path)).found
        return self.declared[module.path]

    def file_of(self, path):
        _, crate, _, name = path.split('.')
        return '%s/crates/%s/specs/%s.antt' % (self.root, crate, name)

    def definition_of(self, name, module):
        while name not in module.defs:
            path, name = module.names[name]
            module = self.module(path)
        return module, name

    def property_name(self, name, module):
        while name not in self.declared_in(module):
            path, name = module.names[name]
            module = self.module(path)
        key = (module.path, name)
        if key not in self.tests:
            self.tests[key] = 'property_%s_%s' % (name, self.fresh())
            lines = Tests(self, self.expressions)
            kind, *parts = self.declared_in(module)[name]
            getattr(lines, 'of_' + kind)(self.tests[key], name, *parts, compiled.Scope(self, module))
            exec('\n'.join(lines.lines), self.python)
        return self.tests[key]

    def property(self, path, name):
        found = self.property_name(name, self.module(path))
        self.make()
        return self.python[found]
