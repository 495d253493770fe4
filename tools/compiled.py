"""The definitions in specs/ as Python functions, for what takes many steps: antt.py reads them, and each one that is wanted becomes
a function. Arguments are evaluated before a call, which gives the same values, since every definition is total.

`World(root).get('Rattle.ss_machine_rules.specs.Runs', 'step')` is the value of a definition, as in antt.py.
"""
import functools
import itertools

import antt
from antt import Con, Fun, Rec

# what is asked again and again of the same arguments; the answers are kept
KEPT = {('ss_core', 'levels'), ('ss_core', 'all_fields'), ('ss_machine_rules', 'all_named'), ('ss_machine_rules', 'captured_values')}
MOST_KEPT = 2000

# definitions by proofs, which say that two terms are one
GIVEN = {('Rattle.ss_logic.specs.Equal', 'same_term'): Fun(2, lambda a, b: a == b, (), 'same_term')}


def apply1(f, x):
    if type(f) is Fun and f.arity == len(f.args) + 1:
        return f.fn(*f.args, x)
    return antt.apply(f, (x,))


def apply(f, *xs):
    if type(f) is Fun and f.arity == len(f.args) + len(xs):
        return f.fn(*f.args, *xs)
    return antt.apply(f, xs)


def kept(fn):
    """the function, with its answers kept by the identity of the arguments"""
    answers = {}

    def ask(*args):
        key = tuple(a if type(a) in (int, bool) else id(a) for a in args)
        found = answers.get(key)
        if found is None:
            if len(answers) > MOST_KEPT:
                answers.clear()
            found = answers[key] = (fn(*args), args)
        return found[0]
    return ask


class Scope:
    """The definitions of one module, and the Python names of what is bound."""
    def __init__(self, world, module, bound=()):
        self.world, self.module, self.bound = world, module, dict(bound)

    def with_names(self, names):
        new = [self.world.fresh() for _ in names]
        return new, Scope(self.world, self.module, {**self.bound, **dict(zip(names, new))})


def names_in(tree, found):
    """the names that stand in an expression"""
    if isinstance(tree, tuple) and len(tree) == 2 and tree[0] == 'name' and isinstance(tree[1], str):
        found.add(tree[1].split('.')[0])
    elif isinstance(tree, (tuple, list)):
        for part in tree:
            names_in(part, found)
    elif isinstance(tree, dict):
        for part in tree.values():
            names_in(part, found)
    return found


def read(value, field):
    return 'get(%s, %r)' % (value, field) if field in ('0', '1') else '%s[%r]' % (value, field)


OPERATORS = {'==': '(%s == %s)', '++': '(%s + %s)', '+': '(%s + %s)', '+ℤ': '(%s + %s)', '-ℤ': '(%s - %s)', '*': '(%s * %s)', '*ℤ': '(%s * %s)', '^': '(%s ** %s)', '-': 'max(0, %s - %s)', '/': 'quotient(%s, %s)', '%': 'remainder(%s, %s)', '&&': '(%s and %s)', '||': '(%s or %s)', '∷': '((%s,) + %s)'}


class Expressions:
    """Expressions as the text of Python's."""
    def __init__(self, world):
        self.world = world

    def text(self, e, scope):
        return getattr(self, 'of_' + e[0])(e, scope)

    def of_num(self, e, scope): return repr(e[1])
    def of_str(self, e, scope): return repr(tuple(e[1]))
    def of_nil(self, e, scope): return '()'
    def of_unit(self, e, scope): return self.world.constant(Con('unit'))
    def of_bad(self, e, scope): raise SyntaxError(e[1])

    def of_if(self, e, scope):
        return '(%s if %s else %s)' % (self.text(e[2], scope), self.text(e[1], scope), self.text(e[3], scope))

    def of_let(self, e, scope):
        (name,), inner = scope.with_names([e[1]])
        return '(lambda %s: %s)(%s)' % (name, self.text(e[3], inner), self.text(e[2], scope))

    def of_lam(self, e, scope):
        names, inner = scope.with_names(e[1])
        return "Fun(%d, lambda %s: %s, (), 'λ')" % (len(names), ', '.join(names), self.text(e[2], inner))

    def of_pair(self, e, scope):
        return "Con('pair', (%s, %s))" % (self.text(e[1], scope), self.text(e[2], scope))

    def of_rec(self, e, scope):
        base = '**%s, ' % self.text(e[1], scope) if e[1] else ''
        return 'Rec({%s%s})' % (base, ', '.join('%r: %s' % (n, self.text(x, scope)) for n, x in e[2]))

    def of_get(self, e, scope): return read(self.text(e[1], scope), e[2])

    def of_bin(self, e, scope):
        return OPERATORS[e[1]] % (self.text(e[2], scope), self.text(e[3], scope))

    def of_name(self, e, scope):
        kind, what, fields = self.meant(e[1], scope)
        if kind == 'definition':
            arity, name = what
            value = '%s()' % name if arity == 0 else self.world.constant_function(arity, name)
        else:
            value = what if kind == 'bound' else self.world.constant(what)
        return functools.reduce(read, fields, value)

    def of_app(self, e, scope):
        if e[1] == ('name', 'codes'):
            return repr(tuple(e[2][0][1]))
        args = [self.text(a, scope) for a in e[2]]
        if e[1][0] == 'name':
            kind, what, fields = self.meant(e[1][1], scope)
            if kind == 'constructor' and not fields:
                return 'Con(%r, (%s,))' % (what.name, ', '.join(args))
            if kind == 'word' and not fields and isinstance(what, Fun) and what.arity == len(args):
                return '%s(%s)' % (self.world.constant(what.fn), ', '.join(args))
            if kind == 'definition' and not fields and what[0] == len(args):
                return '%s(%s)' % (what[1], ', '.join(args))
        function = self.text(e[1], scope)
        return '%s(%s, %s)' % ('apply1' if len(args) == 1 else 'apply', function, ', '.join(args))

    def meant(self, name, scope):
        """what a name stands for, and the fields that are read of it"""
        parts = name.split('.')
        if parts[0] in scope.bound:
            return 'bound', scope.bound[parts[0]], parts[1:]
        aliases = scope.module.aliases
        if len(parts) > 1 and parts[0] in aliases:
            return self.world.meant(aliases[parts[0]], parts[1]) + (parts[2:],)
        return self.world.meant_in(scope.module, parts[0]) + (parts[1:],)


class Patterns:
    """Clauses as the statements of Python's: nested ifs, of which the innermost returns."""
    def __init__(self, world, expressions):
        self.world, self.expressions, self.lines = world, expressions, []

    def line(self, depth, text): self.lines.append('    ' * depth + text)

    def function(self, name, clauses, scope, depth=0):
        args = [self.world.fresh() for _ in clauses[0][0]]
        self.line(depth, 'def %s(%s):' % (name, ', '.join(args)))
        for patterns, e, where in clauses:
            wanted = names_in(e, names_in(where or {}, set()))
            self.clause(list(zip(patterns, args)), e, where, Scope(self.world, scope.module, scope.bound), depth + 1, wanted)
        self.line(depth + 1, 'raise Exception(%r)' % ('no clause of %s' % name))

    def clause(self, open_, e, where, scope, depth, wanted):
        while open_:
            (pattern, value), open_ = open_[0], open_[1:]
            tests, parts = self.shape(pattern, value, scope, depth, wanted)
            if tests:
                self.line(depth, 'if %s:' % tests)
                depth += 1
            open_ = parts + open_
        for n, local in (where or {}).items():
            scope.bound[n] = self.world.fresh()
        for n, local in (where or {}).items():
            self.local(scope.bound[n], local, scope, depth)
        self.line(depth, 'return %s' % self.expressions.text(e, scope))

    def local(self, name, clauses, scope, depth):
        if clauses[0][0]:
            inner = self.world.fresh()
            self.function(inner, clauses, scope, depth)
            self.line(depth, '%s = Fun(%d, %s, (), %r)' % (name, len(clauses[0][0]), inner, name))
        else:
            self.line(depth, '%s = %s' % (name, self.expressions.text(clauses[0][1], scope)))

    def shape(self, pattern, value, scope, depth, wanted):
        """the test of a pattern, and its parts with their values"""
        kind = pattern[0]
        if kind == 'pvar':
            if pattern[1] in wanted:
                name = value if value.isidentifier() else self.world.fresh()
                if name != value:
                    self.line(depth, '%s = %s' % (name, value))
                scope.bound[pattern[1]] = name
            return '', []
        if kind == 'pany': return '', []
        if kind == 'pnil': return 'not %s' % value, []
        if kind == 'pcons': return value, [(pattern[1], value + '[0]'), (pattern[2], value + '[1:]')]
        if kind == 'pnum': return '%s == %d' % (value, pattern[1]), []
        if kind == 'plit': return value if pattern[1] else 'not %s' % value, []
        if kind == 'psuc': return '%s > 0' % value, [(pattern[1], '(%s - 1)' % value)]
        name, parts = pattern[1], pattern[2]
        if name == 'pos': return '%s >= 0' % value, [(parts[0], value)]
        if name == 'negsuc': return '%s < 0' % value, [(parts[0], '(-%s - 1)' % value)]
        return '%s.name == %r' % (value, name), [(p, '%s.args[%d]' % (value, i)) for i, p in enumerate(parts)]


class World(antt.World):
    """The definitions of a checkout."""
    def __init__(self, root):
        super().__init__(root)
        self.numbers = itertools.count()
        self.python = {'Con': Con, 'Fun': Fun, 'Rec': Rec, 'get': antt.get, 'apply': apply, 'apply1': apply1, 'quotient': lambda a, b: a // b if b else 0, 'remainder': lambda a, b: a % b if b else a}
        self.defined, self.values, self.waiting = {}, {}, []
        self.expressions = Expressions(self)

    def fresh(self): return 'v%d' % next(self.numbers)

    def constant(self, value):
        key = value.name if isinstance(value, Con) and not value.args else id(value)
        if key not in self.values:
            self.values[key] = (self.fresh(), value)
            self.python[self.values[key][0]] = value
        return self.values[key][0]

    def constant_function(self, arity, name):
        if name not in self.values:
            self.values[name] = (self.fresh(), None)
            self.python[self.values[name][0]] = Fun(arity, lambda *args: self.python[name](*args), (), name)
        return self.values[name][0]

    def meant(self, path, name):
        if '.specs.declared.' in path:
            return 'constructor', Con(name)
        if path.startswith(('Rattle.std.', 'Rattle.core.')):
            word = antt.BUILTINS[name]
            return ('constructor' if isinstance(word, Con) and name in ('Some', 'Ok', 'Err') else 'word'), word
        module = self.module(path)
        if module is None:
            raise KeyError('%s.%s' % (path, name))
        return self.meant_in(module, name)

    def meant_in(self, module, name):
        if (module.path, name) in GIVEN:
            return 'word', GIVEN[module.path, name]
        if name in module.defs:
            return 'definition', self.definition(module, name)
        if name in module.cons:
            return 'constructor', Con(name)
        if name in module.names:
            return self.meant(*module.names[name])
        return 'word', antt.BUILTINS[name]

    def definition(self, module, name):
        """the arity of a definition and its name in Python, which stands for it once all that waits is made"""
        key = (module.path, name)
        if key not in self.defined:
            self.defined[key] = (len(module.defs[name][0][0]), '%s_%s' % (''.join(c if c.isalnum() and c.isascii() else '_' for c in name), self.fresh()))
            self.waiting.append((module, name, self.defined[key]))
        return self.defined[key]

    def make(self):
        while self.waiting:
            module, name, (arity, python) = self.waiting.pop()
            patterns = Patterns(self, self.expressions)
            patterns.function(python, module.defs[name], Scope(self, module))
            exec('\n'.join(patterns.lines), self.python)
            if arity == 0:
                self.python[python] = functools.lru_cache(None)(self.python[python])
            if (module.path.split('.')[1], name) in KEPT:
                self.python[python] = kept(self.python[python])

    def get(self, path, name):
        kind, what = self.meant(path, name)
        self.make()
        if kind != 'definition':
            return what
        arity, python = what
        return self.python[python]() if arity == 0 else Fun(arity, self.python[python], (), name)
