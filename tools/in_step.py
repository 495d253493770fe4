"""Runs of the checked machine in step with the obligations of their program.

At each statement of each frame, and at each test of a loop, the position of the obligations is looked at in the structure that the stores of
the run make: its guard is true, the terms of its locals and of its store have the values of the frame, and its premises are true. Of the
statement's obligations each goal is true where the machine goes on; where it fails, the first one that isn't has the kind and the place.

A heap of the structure has the objects of a store, and elsewhere the default entry. Its one table is that of the last store. A constant has the
value that the run gives it (an argument, a result, a store after a call, what a loop assigns) or the one by which it is defined. `good` counts
as true. A bound object is null, an object of the last store or the next one; a bound number is small, or the greatest of its type.
"""
import itertools

import antt
from antt import Con

OBLIGATIONS = 'Rattle.ss_vcgen_heaps.specs.Obligations'
POSITIONS = 'Rattle.ss_vcgen_heaps.specs.Positions'
NULL = ('null',)
DEFAULTS = {'Whole': 0, 'Truth': False, 'Rest': NULL}
SMALLEST, MOST = -2, 12


class Differs(Exception):
    """The obligations and the run don't agree."""


def listed(terms, head):
    """the members of a list of terms or formulas"""
    found = []
    while terms.name == head:
        found.append(terms.args[0])
        terms = terms.args[1]
    return found


def number(x): return x['0'] if isinstance(x, dict) else x


# ---- what the obligations say at each statement

class Said:
    """The positions at a statement."""
    def __init__(self, before):
        self.before, self.behind = before, None
        self.sides, self.heads, self.head, self.test, self.returned = [], [], None, None, None


def key(s):
    """a statement is known by its identity, a loop by its place and its body, since it is made anew for each turn"""
    return (s.args[0]['line'], s.args[0]['column'], id(s.args[4]) if s.args[4].args else 0) if s.name == 'LoopStmt' else id(s)


def constant(term):
    """the sort and the number of a constant, None for other terms"""
    return (term.args[0].args[0].name, term.args[0].args[1]) if term.name == 'App' and term.args[0].name == 'Constant' else None


class Walks:
    """Listens while the obligations of a program are computed."""
    COUNTERS = {'Store': 'stores', 'Whole': 'wholes', 'Truth': 'truths', 'Rest': 'things'}

    def __init__(self, world):
        self.world, self.found = world, world.get(OBLIGATIONS, 'obligations')
        for module, names in ((OBLIGATIONS, ('at_entry', 'behind', 'check_head', 'at_head', 'into_body', 'returned')), (POSITIONS, ('define', 'first_side', 'join_term', 'join_guard'))):
            for name in names:
                self.listen(module, name, getattr(self, name))

    def listen(self, module, name, heard):
        python = self.world.defined[module, name][1]
        function = self.world.python[python]
        self.world.python[python] = lambda *args: heard(function, *args)

    def of(self, core):
        self.said, self.entries, self.defined, self.open, self.kept = {}, {}, {}, [], []
        return antt.call(self.found, core)

    def next(self, k, sort): return sort.name, k['next'][self.COUNTERS[sort.name]]

    def at_entry(self, function, w, counters):
        self.entries[w['number']] = function(w, counters)
        return self.entries[w['number']]

    def behind(self, function, w, s, k):
        said = self.said[w['number'], key(s)] = Said(k)
        self.kept.append(s)
        self.open.append(said)
        said.behind = function(w, s, k)
        self.open.pop()
        return said.behind

    def check_head(self, function, w, loop, k):
        self.open[-1].heads.append((k, function(w, loop, k)))
        return self.open[-1].heads[-1][1]

    def at_head(self, function, w, loop, k):
        self.open[-1].head = (k, function(w, loop, k))
        return self.open[-1].head[1]

    def into_body(self, function, w, e, k):
        self.open[-1].test = (k, function(w, e, k))
        return self.open[-1].test[1]

    def returned(self, function, w, callee, arguments, k):
        self.open[-1].returned = (k, callee)
        return function(w, callee, arguments, k)

    def define(self, function, sort, meant, k):
        self.defined[self.next(k, sort)] = ('meant', meant)
        return function(sort, meant, k)

    def first_side(self, function, f, known, k):
        n = k['next']['truths']
        self.defined['Truth', n], self.defined['Truth', n + 1] = ('side', k['guard'], f, True), ('side', k['guard'], f, False)
        self.open[-1].sides.append(k)
        return function(f, known, k)

    def join_term(self, function, g, h, sort, x, y, k):
        joined = function(g, h, sort, x, y, k)
        if joined is not k:
            self.defined[self.next(k, sort)] = ('one', g, x, y)
        return joined

    def join_guard(self, function, g, h, k):
        self.defined['Truth', k['next']['truths']] = ('either', g, h)
        return function(g, h, k)


# ---- structures

class Heap:
    """An entry for each thing, and the number of objects."""
    def __init__(self, at, default, next_): self.at, self.default, self.next = at, default, next_

    def entry(self, w): return self.at.get(w, self.default)

    def __eq__(self, other):
        return self.next == other.next and self.default == other.default and all(self.entry(w) == other.entry(w) for w in {**self.at, **other.at})

    def changed(self, change, *things):
        at = {**{w: self.default for w in things}, **self.at}
        return Heap({w: change(w, x) for w, x in at.items()}, change(None, self.default), self.next)

    def with_new(self, level, ready):
        new = dict(EMPTY, level=level, owner=('group', self.next), ready=ready)
        return Heap({**self.at, ('ref', self.next): new}, self.default, self.next + 1)


EMPTY = {'fields': {}, 'elements': {}, 'level': 0, 'committed': False, 'owner': NULL, 'ready': False}


def sort_of(v): return 'Truth' if isinstance(v, bool) else 'Whole' if isinstance(v, int) else 'Rest'


def without_defaults(cells): return {i: v for i, v in cells.items() if v != DEFAULTS[sort_of(v)]}


def same(v, w): return type(v) is type(w) and v == w


def value_of(v):
    return v.args[0] if v.name in ('Int', 'Bool') else ('ref', v.args[0]) if v.name == 'Obj' else NULL


def owner_of(w):
    return ('group', number(w.args[0])) if w.name == 'Group' else ('pair', ('ref', number(w.args[0])), ('class', number(w.args[1])))


class Structure:
    def __init__(self, world, core, last, defined):
        self.classes, self.last, self.defined, self.heaps = core['classes'], last, defined, {}
        self.sub, self.above = world.get('Rattle.ss_core.specs.Chain', 'sub'), world.get('Rattle.ss_core.specs.Chain', 'above')
        self.field_sort = world.get('Rattle.ss_logic.specs.Terms', 'field_sort')
        self.numbers = list(range(SMALLEST, max([MOST] + [len(x['elements']) for x in last]) + 3)) + [2 ** 31 - 1]
        self.things = [NULL] + [('ref', o) for o in range(len(last) + 1)]
        self.use({})

    def use(self, given):
        """these constants have these values"""
        self.given, self.known = given, {}
        return self

    def heap(self, store):
        if id(store) not in self.heaps:
            at = {('ref', o): self.entry(x) for o, x in enumerate(store)}
            self.heaps[id(store)] = (Heap(at, EMPTY, len(store)), store)
        return self.heaps[id(store)][0]

    def entry(self, x):
        elements = [value_of(v) for v in x['elements']]
        return {'fields': without_defaults({y['field']: value_of(y['content']) for y in x['fields']}), 'elements': without_defaults({(sort_of(v), i): v for i, v in enumerate(elements)}),
                'level': x['level'], 'committed': x['committed'], 'owner': owner_of(x['owner']), 'ready': x['ready']}

    def object(self, w): return self.last[w[1]] if w[0] == 'ref' and w[1] < len(self.last) else {'class': 0, 'elements': ()}

    # constants

    def constant(self, c):
        if c in self.given:
            return self.given[c]
        if c not in self.known:
            self.known[c] = self.defined_value(c[0], self.defined.get(c))
        return self.known[c]

    def defined_value(self, sort, d):
        if d is None: return Heap({}, EMPTY, 0) if sort == 'Store' else DEFAULTS[sort]
        if d[0] == 'meant': return self.meant(d[1], sort)
        if d[0] == 'side': return self.reached(d[1]) and self.true(d[2]) == d[3]
        if d[0] == 'either': return self.reached(d[1]) or self.reached(d[2])
        return self.term(d[2] if self.reached(d[1]) else d[3])

    def reached(self, guard): return guard.name == 'Always' or guard.name == 'When' and self.constant(('Truth', guard.args[0]))

    def meant(self, m, sort):
        if m.name == 'One': return self.term(m.args[0])
        if m.name == 'Says': return self.true(m.args[0])
        return next((self.term(c['value']) for c in m.args[0] if self.true(c['condition'])), DEFAULTS.get(sort))

    # terms

    def term(self, t, bound=()):
        if t.name == 'Bound':
            return bound[t.args[0]]
        if bound == () and id(t) in self.known:
            return self.known[id(t)][0]
        f = t.args[0]
        found = getattr(self, 'of_' + f.name)(*f.args, *(self.term(x, bound) for x in listed(t.args[1], 'term_then')))
        if bound == ():
            self.known[id(t)] = (found, t)
        return found

    def of_Number(self, n): return n
    def of_Fixed(self, b): return b
    def of_Null(self): return NULL
    def of_ClassName(self, t): return 'class', t
    def of_Constant(self, sort, n): return self.constant((sort.name, n))
    def of_Add(self, a, b): return a + b
    def of_Subtract(self, a, b): return a - b
    def of_Multiply(self, a, b): return a * b
    def of_Quotient(self, a, b): return antt.int_div(a, b)
    def of_Remainder(self, a, b): return a - b * antt.int_div(a, b)
    def of_Field(self, f, s, o): return s.entry(o)['fields'].get(f, DEFAULTS[antt.call(self.field_sort, self.classes, f).name])
    def of_Element(self, sort, s, a, i): return s.entry(a)['elements'].get((sort.name, i), DEFAULTS[sort.name])
    def of_Length(self, a): return len(self.object(a)['elements'])
    def of_TypeOf(self, o): return 'class', self.object(o)['class']
    def of_Level(self, s, o): return 'class', s.entry(o)['level']
    def of_Owner(self, s, o): return s.entry(o)['owner']
    def of_Pair(self, o, t): return 'pair', o, t
    def of_Next(self, s): return 'ref', s.next
    def of_New(self, t, s): return s.with_new(0, False)
    def of_NewArray(self, t, s, n): return s.with_new(t, True)
    def of_MakeReady(self, s, o): return s.changed(lambda w, x: dict(x, ready=x['ready'] or w == o), o)

    def of_Set(self, f, s, o, v):
        return s.changed(lambda w, x: dict(x, fields=without_defaults({**x['fields'], f: v})) if w == o else x, o)

    def of_Put(self, s, a, i, v):
        return s.changed(lambda w, x: dict(x, elements=without_defaults({**x['elements'], (sort_of(v), i): v})) if w == a else x, a)

    def of_Unpack(self, t, s, o):
        up, pair = antt.call(self.above, self.classes, t), ('pair', o, ('class', t))
        return s.changed(lambda w, x: dict(x, level=up if w == o else x['level'], committed=x['committed'] and x['owner'] != pair), o)

    def of_Pack(self, t, s, o):
        pair = ('pair', o, ('class', t))
        return s.changed(lambda w, x: dict(x, level=t if w == o else x['level'], committed=x['committed'] or x['owner'] == pair), o)

    def of_Capture(self, t, s, o, e):
        group = NULL if e == NULL else s.entry(e)['owner']
        return s.changed(lambda w, x: moved(x, group, ('pair', o, ('class', t))))

    def of_Join(self, s, o, e):
        mine, its = s.entry(o)['owner'], s.entry(e)['owner']
        if e == NULL: return s
        return s.changed(lambda w, x: moved(x, its, mine) if its[0] == 'group' else moved(x, mine, its))

    # formulas

    def true(self, f, bound=()):
        if f.name == 'Literal':
            sign, predicate, terms = f.args
            return bool(getattr(self, 'is_' + predicate.name)(*(self.term(t, bound) for t in listed(terms, 'term_then')))) == sign
        if f.name in ('And', 'Or'):
            return (all if f.name == 'And' else any)(self.true(g, bound) for g in listed(f.args[0], 'formula_then'))
        members = itertools.product(*(self.things if sort.name == 'Rest' else self.numbers for sort in f.args[0]))
        return (all if f.name == 'Forall' else any)(self.true(f.args[1], bound + vs) for vs in members)

    def is_Equal(self, v, w): return same(v, w)
    def is_AtMost(self, a, b): return a <= b
    def is_Sub(self, c, t): return c[0] == t[0] == 'class' and antt.call(self.sub, self.classes, c[1], t[1])
    def is_Allocated(self, s, o): return o[0] == 'ref' and o[1] < s.next
    def is_Committed(self, s, o): return s.entry(o)['committed']
    def is_Ready(self, s, o): return s.entry(o)['ready']
    def is_IsGroup(self, w): return w[0] == 'group'
    def is_Good(self, s): return True


def moved(x, group, new): return dict(x, owner=new) if group[0] == 'group' and x['owner'] == group else x


# ---- frames

class Frame:
    """A frame of the run, with the values of the constants of its body."""
    def __init__(self, run, frame):
        self.run, self.given, self.turns, self.seen, self.call = run, {}, set(), 0, None
        self.body = next(n for n, b in enumerate(run.core['bodies']) if b is frame['body'])
        k = run.walks.entries[self.body]
        self.given[constant(k['store'])] = run.structure.heap(frame['entry'])
        self.given.update((constant(t.args[0]), value_of(v)) for t, v in zip(k['locals'], frame['locals']) if t.name == 'Some')
        self.stand(k, frame, frame['entry'])

    def stand(self, k, frame, store):
        """the frame stands at the position"""
        m = self.run.structure.use(self.given)
        if not m.reached(k['guard']):
            raise Differs('the position isn\'t reached')
        for x, t in enumerate(k['locals']):
            if t.name == 'Some' and not same(m.term(t.args[0]), value_of(frame['locals'][x])):
                raise Differs('the local %d is %r, its term %r' % (x, value_of(frame['locals'][x]), m.term(t.args[0])))
        if m.term(k['store']) != m.heap(store):
            raise Differs('the store has another term')
        for n in range(self.seen, len(k['premises'])):
            if not m.true(k['premises'][n]):
                raise Differs('the premise %d is false' % n)
        self.run.formulas += len(k['premises']) - self.seen
        self.seen = len(k['premises'])

    def false_goals(self, before, behind):
        m = self.run.structure.use(self.given)
        found = behind['listed'][len(before['listed']):]
        self.run.formulas += len(found)
        return [o for o in found if not m.true(o['goal'])]

    def enter_turn(self, said, frame, store):
        """the loop has been reached, and its head holds"""
        before, head = said.head
        self.seen = len(before['premises'])
        for t, old, v in zip(head['locals'], before['locals'], frame['locals']):
            if t is not old:
                self.given[constant(t.args[0])] = value_of(v)
        self.given[constant(head['store'])] = self.run.structure.heap(store)
        self.stand(head, frame, store)


class Run:
    def __init__(self, world, start, step):
        self.world, self.walks, self.start, self.step, self.formulas = world, Walks(world), start, step, 0
        self.result = world.get('Rattle.ss_machine_rules.specs.Steps', 'result_value')
        self.scene = world.get('Rattle.ss_machine_rules.specs.States', 'scene')

    def follow(self, core, given, steps):
        """the last state of the run; raises Differs"""
        self.core = core
        self.walks.of(core)
        states = [antt.call(self.start, core, given)]
        while states[-1].name == 'Running' and len(states) <= steps:
            states.append(antt.call(self.step, core, states[-1]))
        last = next(s for s in reversed(states) if s.name != 'Failed')
        self.structure = Structure(self.world, core, last.args[0] if last.name == 'Done' else last.args[1], self.walks.defined)
        frames = [Frame(self, states[0].args[0][0])] if states[0].name == 'Running' else []
        for state, after in zip(states, states[1:]):
            due = state.args[0][0]['left'][0]
            try:
                self.one(frames, due, state, after)
            except Differs as difference:
                place = due.args[0].args[0]
                raise Differs('%s at %d:%d: %s' % (due.args[0].name, place['line'], place['column'], difference) if due.name == 'Statement' else 'at a test: %s' % difference)
        return states[-1]

    def positions(self, f, due):
        """what is said at what is due, and the positions before it and after its checks"""
        s = due.args[2] if due.name == 'Test' else due.args[0]
        said = self.walks.said[f.body, key(s)]
        if due.name == 'Test':
            return said, said.test
        if s.name == 'LoopStmt':
            return said, said.heads[1 if key(s) in f.turns else 0]
        return said, (said.before, said.sides[0] if s.name == 'IfStmt' else said.behind)

    def one(self, frames, due, state, after):
        f, frame, store = frames[-1], state.args[0][0], state.args[1]
        said, (before, behind) = self.positions(f, due)
        f.stand(before, frame, store)
        self.agree(f.false_goals(before, behind), after)
        if after.name == 'Stopped' and self.structure.use(f.given).true(said.behind['premises'][-1]):
            raise Differs('the assumption is true, the run stops')
        if after.name != 'Running':
            return
        count, now = len(state.args[0]), after.args[0][0]
        if len(after.args[0]) > count:
            f.call = said
            frames.append(Frame(self, now))
        elif len(after.args[0]) < count:
            self.leave(frames, due.args[0], frame, store, after)
        elif due.name == 'Test':
            loop = key(due.args[2])
            (f.turns.add if len(now['left']) >= len(frame['left']) else f.turns.discard)(loop)
        elif due.args[0].name == 'LoopStmt':
            f.enter_turn(said, now, after.args[1])

    def agree(self, wrong, after):
        if after.name == 'Failed':
            kind, place = after.args[0].name, after.args[1]
            if not wrong or wrong[0]['kind'].name != kind or wrong[0]['place'] != place:
                raise Differs('the run fails with %s, the first false goal is %s' % (kind, wrong[0]['kind'].name if wrong else 'none'))
        elif wrong:
            raise Differs('the run goes on, the goal of %s is false' % wrong[0]['kind'].name)

    def leave(self, frames, s, frame, store, after):
        """a body is left: its caller knows the store and the result"""
        frames.pop()
        f = frames[-1]
        k, callee = f.call.returned
        f.given['Store', k['next']['stores']] = self.structure.heap(store)
        if callee['result'].name == 'Some':
            sort = {'Int': 'Whole', 'Bool': 'Truth'}.get(callee['result'].args[0].name, 'Rest')
            v = antt.call(self.result, s.args[1], antt.call(self.scene, self.core, frame, store)).args[0]
            f.given[sort, k['next'][Walks.COUNTERS[sort]]] = value_of(v)
        f.stand(f.call.behind, after.args[0][0], after.args[1])
