"""Reference lexer and parser of the language's grammar.

    parse(source: bytes) -> Program, or raises Refused(rule, (line, column))   (rules 1 to 12)

The AST mirrors the plain trees of ss_ast's specs (Expressions, Statements, Programs), constructor by constructor.
Places are pairs (line, column), columns count bytes.

Records (namedtuples, fields as in the specs; names of tuples without `Tree`):
    Name(text, place)                                 text is a str
    Type(place, name, is_array, non_null)             name: ('IntType',) ('BoolType',) ('ObjectType',) ('ClassType', text)
    Declarator(name, initial)                         initial: an expression or None
    Declaration(ty, declarators)
    Param(attributes, ty, name)                       attributes: [Name]  (the place is that of the name, not of `[`)
                                                      + brackets: [place of each `[`], which the specs' tree has instead
    BaseCall(place, arguments)
    Member(attributes, modifiers, kind, brackets)     modifiers: [(place, 'static' | 'virtual' | 'override')]
    Class(name, above, members)                       above: Name or None
    Program(classes, last)

Expressions, tuples whose item 0 is the constructor and item 1 the place of the first byte:
    ('IffOf', p, a, b) ('ImpliesOf', p, a, b)
    ('BinaryOf', p, op, a, b)      op is the symbol: || && == != < <= > >= + - * / %    chains grouped to the left;
                                   p is the first byte of the chain's first operand
    ('IsOf', p, a, type) ('AsOf', p, a, type)
    ('NegateOf', p, a) ('NotOf', p, a) ('CastOf', p, type, a)
    ('MemberOf', p, a, Name) ('ElementOf', p, a, i) ('CallOf', p, a, [args])      paths, grouped to the left
    ('NumberOf', p, int) ('TextOf', p, bytes) ('TruthOf', p, bool) ('NullOf', p) ('ThisOf', p) ('BaseOf', p) ('ResultOf', p)
    ('NameOf', p, text) ('ParenOf', p, a) ('OldOf', p, a)
    ('NewOf', p, Name, [args]) ('NewArrayOf', p, place of E, type name of E, length)
    ('QuantifiedOf', p, 'forall' | 'exists', Name, low, high, body)

Simple statements:  ('AssignOf', a, op, b)  op: = += -= *=     ('StepOf', a, op)  op: ++ --     ('AloneOf', a)
ForInit:            ('DeclareFirst', Declaration)   ('SimpleFirst', simple)
Blocks:             ('BlockOf', place of {, [stmts], place of })
Statements:
    ('InBlock', block) ('DeclareOf', Declaration) ('SimpleOf', simple)
    ('IfOf', p, e, s) ('IfElseOf', p, e, s, s2) ('WhileOf', p, e, [invariants], s)
    ('ForOf', p, forinit | None, e | None, simple | None, [invariants], s)
    ('ReturnOf', p, e | None) ('AssertOf', p, e) ('AssumeOf', p, e) ('ExposeOf', p, e, Name | None, block) ('EmptyOf', p)
Modified terms:     ('AllOf', e) ('ElementsOf', e) ('OneOf', e)
Clauses:            ('RequiresOf', e) ('EnsuresOf', e) ('ModifiesOf', [modified])
Member kinds:
    ('FieldsOf', Declaration) ('InvariantOf', e)
    ('MethodOf', Type | None, Name, [Param], [clause], block)
    ('ConstructorOf', Name, [Param], BaseCall | None, [clause], block)

Used as a program: `python3 parse.py FILE` prints the tree; `python3 parse.py --cases FILE..` checks case files for
the rules 1 to 12.  cases(path) gives the cases of a file as (name, words, source bytes, out lines, expected).
"""
import sys
from collections import namedtuple

sys.setrecursionlimit(20000)

Name = namedtuple('Name', 'text place')
Type = namedtuple('Type', 'place name is_array non_null')
Declarator = namedtuple('Declarator', 'name initial')
Declaration = namedtuple('Declaration', 'ty declarators')
Param = namedtuple('Param', 'attributes ty name brackets')
BaseCall = namedtuple('BaseCall', 'place arguments')
Member = namedtuple('Member', 'attributes modifiers kind brackets')
Class = namedtuple('Class', 'name above members')
Program = namedtuple('Program', 'classes last')

# a token: kind is 'word', 'symbol', 'name', 'number', 'text' or 'end'
Token = namedtuple('Token', 'kind value place')


class Refused(Exception):
    def __init__(self, rule, place):
        Exception.__init__(self, rule, place)
        self.rule, self.place = rule, place


RESERVED = set('''using class static virtual override public private protected internal void int bool object this base
null true false new is as if else while for return assert assume expose at invariant requires ensures modifies old
result forall exists in'''.split())
ACCESS = {'public', 'private', 'protected', 'internal'}
SYMBOLS = ['<==>', '==>', '==', '!=', '<=', '>=', '&&', '||', '+=', '-=', '*=', '++', '--',
           '{', '}', '(', ')', '[', ']', ';', ':', ',', '.', '=', '<', '>', '+', '-', '*', '/', '%', '!']
LIMIT = 1048576
LETTERS = set(b'abcdefghijklmnopqrstuvwxyzABCDEFGHIJKLMNOPQRSTUVWXYZ_')
DIGITS = set(b'0123456789')
ESCAPES = {ord('"'): 34, ord('\\'): 92, ord('n'): 10, ord('r'): 13, ord('t'): 9, ord('0'): 0}


def well_formed(bs, i):
    """The length of the well-formed UTF-8 character at i, or 0."""
    for n in (1, 2, 3, 4):
        try:
            if len(bs[i:i + n].decode('utf-8')) == 1 and i + n <= len(bs):
                return n
        except UnicodeDecodeError:
            pass
    return 0


def tokens(source):
    if len(source) > LIMIT:
        raise Refused(5, (1, 1))
    bs = source[3:] if source[:3] == b'\xef\xbb\xbf' else source
    out = []
    i, line, start = 0, 1, 0
    n = len(bs)

    def here():
        return (line, i - start + 1)

    while i < n:
        c = bs[i]
        if c == 10:
            i += 1
            line += 1
            start = i
        elif c in b' \t\r':
            i += 1
        elif bs[i:i + 2] == b'//':
            while i < n and bs[i] != 10:
                w = well_formed(bs, i)
                if not w:
                    raise Refused(1, here())
                i += w
        elif bs[i:i + 2] == b'/*':
            end = bs.find(b'*/', i + 2)
            if end < 0:
                raise Refused(2, here())
            i += 2
            while i < end:
                if bs[i] == 10:
                    i += 1
                    line += 1
                    start = i
                    continue
                w = well_formed(bs, i)
                if not w:
                    raise Refused(1, here())
                i += w
            i = end + 2
        elif c == 34:
            place = here()
            # where does it end?
            j = i + 1
            while j < n and bs[j] not in (34, 10):
                if bs[j] == 92 and j + 1 < n and bs[j + 1] in (34, 92):
                    j += 2
                else:
                    j += 1
            if j >= n or bs[j] == 10:
                raise Refused(3, place)
            text = bytearray()
            i += 1
            while i < j:
                if bs[i] == 92:
                    if bs[i + 1] not in ESCAPES or (i + 1 == j):
                        raise Refused(1, here())
                    text.append(ESCAPES[bs[i + 1]])
                    i += 2
                else:
                    w = well_formed(bs, i)
                    if not w:
                        raise Refused(1, here())
                    text += bs[i:i + w]
                    i += w
            i = j + 1
            out.append(Token('text', bytes(text), place))
        elif c in LETTERS:
            place = here()
            j = i
            while j < n and (bs[j] in LETTERS or bs[j] in DIGITS):
                j += 1
            t = bs[i:j].decode()
            i = j
            out.append(Token('word' if t in RESERVED else 'name', t, place))
        elif c in DIGITS:
            place = here()
            j = i
            while j < n and bs[j] in DIGITS:
                j += 1
            digits = bs[i:j].lstrip(b'0') or b'0'
            i = j
            v = int(digits) if len(digits) <= 10 else 10 ** 11
            if v > 2147483647:
                ok = False
                if v == 2147483648 and out and out[-1].kind == 'symbol' and out[-1].value == '-':
                    before = out[-2] if len(out) >= 2 else None
                    ok = before is None or not (
                        before.kind in ('number', 'name') or before.value in (')', ']') and before.kind == 'symbol'
                        or before.kind == 'word' and before.value in ('this', 'result', 'true', 'false', 'null'))
                if not ok:
                    raise Refused(4, place)
            out.append(Token('number', v, place))
        else:
            for s in SYMBOLS:
                if bs[i:i + len(s)] == s.encode():
                    out.append(Token('symbol', s, here()))
                    i += len(s)
                    break
            else:
                raise Refused(1, here())
    out.append(Token('end', None, here()))
    return out


CAST_NEXT_WORDS = {'true', 'false', 'null', 'this', 'result', 'new', 'old'}
EXPR_WORDS = {'true', 'false', 'null', 'this', 'base', 'result', 'old', 'new', 'forall', 'exists'}


class Parser:
    def __init__(self, toks):
        self.t = toks
        self.i = 0
        self.depth = 0

    # -- tokens
    def tok(self, k=0):
        return self.t[min(self.i + k, len(self.t) - 1)]

    def is_sym(self, s, k=0):
        t = self.tok(k)
        return t.kind == 'symbol' and t.value == s

    def is_word(self, w, k=0):
        t = self.tok(k)
        return t.kind == 'word' and t.value == w

    def is_name(self, k=0):
        return self.tok(k).kind == 'name'

    def place(self):
        return self.tok().place

    def fail(self):
        raise Refused(10, self.place())

    def open_level(self):
        if self.depth >= 64:
            raise Refused(11, self.place())
        self.depth += 1

    def sym(self, s):
        if not self.is_sym(s):
            self.fail()
        if s in ('{', '(', '['):
            self.open_level()
        if s in ('}', ')', ']'):
            self.depth -= 1
        p = self.place()
        self.i += 1
        return p

    def word(self, w):
        if not self.is_word(w):
            self.fail()
        p = self.place()
        self.i += 1
        return p

    def name(self):
        if not self.is_name():
            self.fail()
        t = self.tok()
        self.i += 1
        return Name(t.value, t.place)

    # -- programs
    def program(self):
        while self.is_word('using'):
            self.i += 1
            self.name()
            while self.is_sym('.'):
                self.i += 1
                self.name()
            self.sym(';')
        classes = []
        while True:
            if self.tok().kind == 'end':
                return Program(classes, self.place())
            if self.is_sym('}'):
                raise Refused(12, self.place())
            classes.append(self.class_())

    def access(self):
        while self.tok().kind == 'word' and self.tok().value in ACCESS:
            self.i += 1

    def class_(self):
        self.access()
        self.word('class')
        n = self.name()
        above = None
        if self.is_sym(':'):
            self.i += 1
            above = self.name()
        self.sym('{')
        members = []
        while not self.is_sym('}'):
            members.append(self.member())
        self.sym('}')
        return Class(n, above, members)

    def attributes(self):
        out, brackets = [], []
        while self.is_sym('['):
            brackets.append(self.sym('['))
            out.append(self.name())
            self.sym(']')
        return out, brackets

    def member(self):
        attributes, brackets = self.attributes()
        modifiers = []
        while self.tok().kind == 'word' and (self.tok().value in ACCESS or self.tok().value in ('static', 'virtual', 'override')):
            if self.tok().value not in ACCESS:
                modifiers.append((self.place(), self.tok().value))
            self.i += 1
        return Member(attributes, modifiers, self.member_kind(), brackets)

    def member_kind(self):
        if self.is_word('invariant'):
            self.i += 1
            e = self.expr()
            self.sym(';')
            return ('InvariantOf', e)
        if self.is_word('void'):
            self.i += 1
            return self.method(None, self.name())
        if self.is_name() and self.is_sym('(', 1):
            n = self.name()
            ps = self.params()
            base = None
            if self.is_sym(':'):
                self.i += 1
                p = self.word('base')
                self.sym('(')
                base = BaseCall(p, self.args())
            cs = self.clauses()
            return ('ConstructorOf', n, ps, base, cs, self.block())
        ty = self.type()
        n = self.name()
        if self.is_sym('('):
            return self.method(ty, n)
        d = self.decls(ty, n)
        self.sym(';')
        return ('FieldsOf', d)

    def method(self, ty, n):
        ps = self.params()
        cs = self.clauses()
        return ('MethodOf', ty, n, ps, cs, self.block())

    def params(self):
        self.sym('(')
        out = []
        if not self.is_sym(')'):
            while True:
                attributes, brackets = self.attributes()
                ty = self.type()
                out.append(Param(attributes, ty, self.name(), brackets))
                if not self.is_sym(','):
                    break
                self.i += 1
        self.sym(')')
        return out

    def clauses(self):
        out = []
        while True:
            if self.is_word('requires') or self.is_word('ensures'):
                tag = 'RequiresOf' if self.is_word('requires') else 'EnsuresOf'
                self.i += 1
                e = self.expr()
                self.sym(';')
                out.append((tag, e))
            elif self.is_word('modifies'):
                self.i += 1
                ms = [self.modified()]
                while self.is_sym(','):
                    self.i += 1
                    ms.append(self.modified())
                self.sym(';')
                out.append(('ModifiesOf', ms))
            else:
                return out

    def modified(self):
        saved, self.stars = self.stars, True
        e = self.post()
        self.stars = saved
        if self.is_sym('.') and self.is_sym('*', 1):
            self.i += 2
            return ('AllOf', e)
        if self.is_sym('[') and self.is_sym('*', 1):
            self.sym('[')
            self.i += 1
            self.sym(']')
            return ('ElementsOf', e)
        return ('OneOf', e)

    # -- types
    def type_name(self):
        t = self.tok()
        if t.kind == 'word' and t.value in ('int', 'bool', 'object'):
            self.i += 1
            return ({'int': 'IntType', 'bool': 'BoolType', 'object': 'ObjectType'}[t.value],)
        if t.kind == 'name':
            self.i += 1
            return ('ClassType', t.value)
        self.fail()

    def type(self, with_mark=True):
        p = self.place()
        n = self.type_name()
        is_array = non_null = False
        if self.is_sym('['):
            self.sym('[')
            self.sym(']')
            is_array = True
        if with_mark and self.is_sym('!'):
            self.i += 1
            non_null = True
        return Type(p, n, is_array, non_null)

    def decls(self, ty, first):
        out = []
        n = first
        while True:
            initial = None
            if self.is_sym('='):
                self.i += 1
                initial = self.expr()
            out.append(Declarator(n, initial))
            if not self.is_sym(','):
                return Declaration(ty, out)
            self.i += 1
            n = self.name()

    # -- statements
    def block(self):
        p = self.sym('{')
        out = []
        while not self.is_sym('}'):
            out.append(self.stmt())
        return ('BlockOf', p, out, self.sym('}'))

    def begins_declaration(self):
        """What stands here can only go on as a declaration."""
        t = self.tok()
        if t.kind == 'word' and t.value in ('int', 'bool', 'object'):
            return True
        if t.kind == 'name':
            return self.is_name(1) or self.is_sym('!', 1) or self.is_sym('[', 1) and self.is_sym(']', 2)
        return False

    def begins_post(self):
        t = self.tok()
        return t.kind in ('number', 'text', 'name') or t.kind == 'symbol' and t.value == '(' or t.kind == 'word' and t.value in EXPR_WORDS

    def begins_statement(self):
        t = self.tok()
        return (self.begins_post() or self.begins_declaration() or self.is_sym('{') or self.is_sym(';')
                or t.kind == 'word' and t.value in ('if', 'while', 'for', 'return', 'assert', 'assume', 'expose'))

    def governed(self):
        if self.is_sym('{'):
            return self.stmt()
        if not self.begins_statement():
            self.fail()
        self.open_level()
        s = self.stmt()
        self.depth -= 1
        return s

    def declaration(self):
        ty = self.type()
        return self.decls(ty, self.name())

    def simple(self):
        if not self.begins_post():
            self.fail()
        a = self.post()
        t = self.tok()
        if t.kind == 'symbol' and t.value in ('=', '+=', '-=', '*='):
            self.i += 1
            return ('AssignOf', a, t.value, self.expr())
        if t.kind == 'symbol' and t.value in ('++', '--'):
            self.i += 1
            return ('StepOf', a, t.value)
        return ('AloneOf', a)

    def invariants(self):
        out = []
        while self.is_word('invariant'):
            self.i += 1
            out.append(self.expr())
            self.sym(';')
        return out

    def stmt(self):
        p = self.place()
        if self.is_sym('{'):
            return ('InBlock', self.block())
        if self.is_sym(';'):
            self.i += 1
            return ('EmptyOf', p)
        w = self.tok().value if self.tok().kind == 'word' else None
        if w == 'if':
            self.i += 1
            self.sym('(')
            e = self.expr()
            self.sym(')')
            a = self.governed()
            if self.is_word('else'):
                self.i += 1
                return ('IfElseOf', p, e, a, self.governed())
            return ('IfOf', p, e, a)
        if w == 'while':
            self.i += 1
            self.sym('(')
            e = self.expr()
            self.sym(')')
            inv = self.invariants()
            return ('WhileOf', p, e, inv, self.governed())
        if w == 'for':
            self.i += 1
            self.sym('(')
            init = test = step = None
            if not self.is_sym(';'):
                init = ('DeclareFirst', self.declaration()) if self.begins_declaration() else ('SimpleFirst', self.simple())
            self.sym(';')
            if not self.is_sym(';'):
                test = self.expr()
            self.sym(';')
            if not self.is_sym(')'):
                step = self.simple()
            self.sym(')')
            inv = self.invariants()
            return ('ForOf', p, init, test, step, inv, self.governed())
        if w == 'return':
            self.i += 1
            e = None if self.is_sym(';') else self.expr()
            self.sym(';')
            return ('ReturnOf', p, e)
        if w in ('assert', 'assume'):
            self.i += 1
            e = self.expr()
            self.sym(';')
            return ('AssertOf' if w == 'assert' else 'AssumeOf', p, e)
        if w == 'expose':
            self.i += 1
            self.sym('(')
            e = self.expr()
            n = None
            if self.is_word('at'):
                self.i += 1
                n = self.name()
            self.sym(')')
            return ('ExposeOf', p, e, n, self.block())
        if self.begins_declaration():
            d = self.declaration()
            self.sym(';')
            return ('DeclareOf', d)
        s = self.simple()
        self.sym(';')
        return ('SimpleOf', s)

    # -- expressions
    def expr(self):
        p = self.place()
        a = self.imp()
        if self.is_sym('<==>'):
            self.i += 1
            return ('IffOf', p, a, self.imp())
        return a

    def imp(self):
        p = self.place()
        opened = 0
        lefts = []
        a = self.or_()
        while self.is_sym('==>'):
            self.open_level()
            opened += 1
            self.i += 1
            lefts.append((p, a))
            p = self.place()
            a = self.or_()
        self.depth -= opened
        for q, l in reversed(lefts):
            a = ('ImpliesOf', q, l, a)
        return a

    def chain(self, ops, operand):
        p = self.place()
        a = operand()
        while self.tok().kind == 'symbol' and self.tok().value in ops:
            op = self.tok().value
            self.i += 1
            a = ('BinaryOf', p, op, a, operand())
        return a

    def or_(self):
        return self.chain(('||',), self.and_)

    def and_(self):
        return self.chain(('&&',), self.eq)

    def eq(self):
        return self.chain(('==', '!='), self.rel)

    def rel(self):
        p = self.place()
        a = self.add()
        while True:
            if self.tok().kind == 'symbol' and self.tok().value in ('<', '<=', '>', '>='):
                op = self.tok().value
                self.i += 1
                a = ('BinaryOf', p, op, a, self.add())
            elif self.is_word('is') or self.is_word('as'):
                tag = 'IsOf' if self.is_word('is') else 'AsOf'
                self.i += 1
                a = (tag, p, a, self.type(with_mark=False))
            else:
                return a

    def add(self):
        return self.chain(('+', '-'), self.mul)

    def mul(self):
        return self.chain(('*', '/', '%'), self.unary)

    def cast_here(self):
        """At `(`: None, or True where Type `)` and a token of the cast's list follow, or False where only a cast is derivable
        but the next token isn't of the list, or the type isn't whole."""
        k = 1
        t = self.tok(k)
        sure = False
        if t.kind == 'word' and t.value in ('int', 'bool', 'object'):
            sure = True
        elif t.kind != 'name':
            return None
        k += 1
        if self.is_sym('[', k) and (sure or self.is_sym(']', k + 1)):
            sure = True
            k += 1
            if not self.is_sym(']', k):
                return False
            k += 1
        if self.is_sym('!', k):
            sure = True
            k += 1
        if not self.is_sym(')', k):
            return False if sure else None
        t = self.tok(k + 1)
        good = (t.kind in ('number', 'text', 'name') or t.kind == 'symbol' and t.value in ('(', '!')
                or t.kind == 'word' and t.value in CAST_NEXT_WORDS)
        if good:
            return True
        return False if sure else None

    def unary(self):
        p = self.place()
        if self.is_sym('-') and not (self.tok(1).kind == 'number' and self.tok(1).value == 2147483648):
            self.open_level()
            self.i += 1
            a = self.unary()
            self.depth -= 1
            return ('NegateOf', p, a)
        if self.is_sym('!'):
            self.open_level()
            self.i += 1
            a = self.unary()
            self.depth -= 1
            return ('NotOf', p, a)
        if self.is_sym('('):
            c = self.cast_here()
            if c is not None:
                self.sym('(')
                ty = self.type()
                self.sym(')')
                if not c:
                    self.fail()
                self.depth += 1
                a = self.unary()
                self.depth -= 1
                return ('CastOf', p, ty, a)
        return self.post()

    def args(self):
        """after the `(`"""
        out = []
        if not self.is_sym(')'):
            out.append(self.expr())
            while self.is_sym(','):
                self.i += 1
                out.append(self.expr())
        self.sym(')')
        return out

    def post(self):
        p = self.place()
        if self.is_sym('-') and self.tok(1).kind == 'number' and self.tok(1).value == 2147483648:
            self.open_level()
            self.i += 2
            self.depth -= 1
            a = ('NumberOf', p, -2147483648)
        else:
            a = self.prim()
        while True:
            if self.is_sym('.'):
                if self.is_sym('*', 1) and self.stars:
                    return a
                self.i += 1
                a = ('MemberOf', p, a, self.name())
            elif self.is_sym('['):
                if self.is_sym('*', 1) and self.stars:
                    return a
                self.sym('[')
                saved, self.stars = self.stars, False
                e = self.expr()
                self.stars = saved
                self.sym(']')
                a = ('ElementOf', p, a, e)
            elif self.is_sym('('):
                self.sym('(')
                saved, self.stars = self.stars, False
                es = self.args()
                self.stars = saved
                a = ('CallOf', p, a, es)
            else:
                return a

    stars = False

    def prim(self):
        t = self.tok()
        p = t.place
        if t.kind == 'number':
            self.i += 1
            return ('NumberOf', p, t.value)
        if t.kind == 'text':
            self.i += 1
            return ('TextOf', p, t.value)
        if t.kind == 'name':
            self.i += 1
            return ('NameOf', p, t.value)
        if self.is_sym('('):
            self.sym('(')
            saved, self.stars = self.stars, False
            e = self.expr()
            self.stars = saved
            self.sym(')')
            return ('ParenOf', p, e)
        if t.kind != 'word':
            self.fail()
        w = t.value
        if w in ('true', 'false'):
            self.i += 1
            return ('TruthOf', p, w == 'true')
        if w in ('null', 'this', 'base', 'result'):
            self.i += 1
            return ({'null': 'NullOf', 'this': 'ThisOf', 'base': 'BaseOf', 'result': 'ResultOf'}[w], p)
        if w == 'old':
            self.i += 1
            self.sym('(')
            saved, self.stars = self.stars, False
            e = self.expr()
            self.stars = saved
            self.sym(')')
            return ('OldOf', p, e)
        if w == 'new':
            self.i += 1
            q = self.place()
            saved, self.stars = self.stars, False
            if self.is_name() and self.is_sym('(', 1):
                n = self.name()
                self.sym('(')
                r = ('NewOf', p, n, self.args())
            else:
                n = self.type_name()
                if n[0] == 'ClassType' and not self.is_sym('['):
                    self.fail()
                self.sym('[')
                e = self.expr()
                self.sym(']')
                r = ('NewArrayOf', p, q, n, e)
            self.stars = saved
            return r
        if w in ('forall', 'exists'):
            self.i += 1
            saved, self.stars = self.stars, False
            self.sym('{')
            self.word('int')
            n = self.name()
            self.word('in')
            self.sym('(')
            low = self.expr()
            self.sym(':')
            high = self.expr()
            self.sym(')')
            self.sym(';')
            body = self.expr()
            self.sym('}')
            self.stars = saved
            return ('QuantifiedOf', p, w, n, low, high, body)
        self.fail()


def parse(source):
    return Parser(tokens(source)).program()


# ---- case files

def unescape(b):
    out = bytearray()
    i = 0
    while i < len(b):
        if b[i:i + 2] == b'\\x':
            out.append(int(b[i + 2:i + 4], 16))
            i += 4
        elif b[i:i + 2] == b'\\\\':
            out.append(92)
            i += 2
        else:
            out.append(b[i])
            i += 1
    return bytes(out)


def cases(path):
    out = []
    cur = None
    for line in open(path, 'rb').read().split(b'\n'):
        if line.startswith(b'=== '):
            cur = {'name': line[4:].decode(), 'words': b'', 'src': b'', 'out': b'', 'want': None}
            out.append(cur)
        elif cur is None or line == b'':
            continue
        elif line.startswith(b'$ '):
            cur['words'] = line[2:].decode()
        elif line[:1] == b'|':
            k, rest = line[1:2], line[3:]
            if k == b' ':
                cur['src'] += line[2:] + b'\n'
            elif k == b'.':
                cur['src'] += rest
            elif k == b'e':
                cur['src'] += unescape(rest) + b'\n'
            elif k == b'E':
                cur['src'] += unescape(rest)
            elif k == b'':
                cur['src'] += b'\n'
            else:
                raise Exception(line)
        elif line[:1] == b'>':
            cur['out'] += line[2:] + b'\n' if line[1:2] != b'.' else line[3:]
        elif line[:1] == b'=':
            cur['want'] = line[2:].decode()
    return [(c['name'], c['words'], c['src'], c['out'], c['want']) for c in out]


def wanted(want):
    """(rule, place) of an expected refusal, or None"""
    w = want.split()
    if len(w) == 5 and w[:2] == ['4', 'refused']:
        l, c = w[4].split(':')
        return (int(w[2]), (int(l), int(c)))
    return None


def main(argv):
    if argv[:1] == ['--cases']:
        for path in argv[1:]:
            bad = n = 0
            for name, words, src, out, want in cases(path):
                n += 1
                try:
                    parse(src)
                    got = None
                except Refused as r:
                    got = (r.rule, r.place)
                exp = wanted(want)
                if exp is not None and exp[0] > 12:
                    exp = None
                if got != exp:
                    bad += 1
                    print(path.split('/')[-1], name, 'got', got, 'want', want)
            print(path.split('/')[-1], n, 'cases', bad, 'differ')
    else:
        import pprint
        pprint.pprint(parse(open(argv[0], 'rb').read()), width=150)


if __name__ == '__main__':
    main(sys.argv[1:])
