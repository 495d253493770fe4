"""The trees of grammar.py as the trees of the definitions."""
from antt import Con, NONE, Rec, some

def place(p): return Rec(line=p[0], column=p[1])
def text(s): return tuple(s.encode() if isinstance(s, str) else s)
OPS = {'||': 'Or', '&&': 'And', '==': 'Equal', '!=': 'NotEqual', '<': 'Less', '<=': 'LessEqual', '>': 'Greater', '>=': 'GreaterEqual', '+': 'Add', '-': 'Subtract', '*': 'Multiply', '/': 'Divide', '%': 'Remainder'}
ASSIGN = {'=': 'Set', '+=': 'Add', '-=': 'Subtract', '*=': 'Multiply'}
STEP = {'++': 'Up', '--': 'Down'}
def optn(f, x): return NONE if x is None else some(f(x))
def lst(f, xs): return tuple(f(x) for x in xs)
def name_(n): return Rec(text=text(n.text), place=place(n.place))
def tname(t): return Con('ClassType', (text(t[1]),)) if t[0] == 'ClassType' else Con(t[0])
def type_(t): return Rec(place=place(t.place), name=tname(t.name), is_array=t.is_array, non_null=t.non_null)
def args_(es):
    r = Con('NoMore')
    for e in reversed(es): r = Con('Argument', (expr_(e), r))
    return r
def expr_(e):
    k, p = e[0], place(e[1])
    x = expr_
    if k in ('IffOf', 'ImpliesOf', 'ElementOf'): return Con(k, (p, x(e[2]), x(e[3])))
    if k == 'BinaryOf': return Con(k, (p, Con(OPS[e[2]]), x(e[3]), x(e[4])))
    if k in ('IsOf', 'AsOf'): return Con(k, (p, x(e[2]), type_(e[3])))
    if k in ('NegateOf', 'NotOf', 'ParenOf', 'OldOf'): return Con(k, (p, x(e[2])))
    if k == 'CastOf': return Con(k, (p, type_(e[2]), x(e[3])))
    if k == 'MemberOf': return Con(k, (p, x(e[2]), name_(e[3])))
    if k == 'CallOf': return Con(k, (p, x(e[2]), args_(e[3])))
    if k == 'NumberOf': return Con(k, (p, e[2]))
    if k == 'TextOf': return Con(k, (p, text(e[2])))
    if k == 'TruthOf': return Con(k, (p, e[2]))
    if k in ('NullOf', 'ThisOf', 'BaseOf', 'ResultOf'): return Con(k, (p,))
    if k == 'NameOf': return Con(k, (p, text(e[2])))
    if k == 'NewOf': return Con(k, (p, name_(e[2]), args_(e[3])))
    if k == 'NewArrayOf': return Con(k, (p, place(e[2]), tname(e[3]), x(e[4])))
    if k == 'QuantifiedOf': return Con(k, (p, Con('Forall' if e[2] == 'forall' else 'Exists'), name_(e[3]), x(e[4]), x(e[5]), x(e[6])))
    raise Exception(e)
def declarator_(d): return Rec(name=name_(d.name), initial=optn(expr_, d.initial))
def declaration_(d): return Rec(ty=type_(d.ty), declarators=lst(declarator_, d.declarators))
def simple_(s):
    if s[0] == 'AssignOf': return Con('AssignOf', (expr_(s[1]), Con(ASSIGN[s[2]]), expr_(s[3])))
    if s[0] == 'StepOf': return Con('StepOf', (expr_(s[1]), Con(STEP[s[2]])))
    return Con('AloneOf', (expr_(s[1]),))
def init_(i): return Con('DeclareFirst', (declaration_(i[1]),)) if i[0] == 'DeclareFirst' else Con('SimpleFirst', (simple_(i[1]),))
def block_(b):
    r = Con('NoMore')
    for s in reversed(b[2]): r = Con('Before', (stmt_(s), r))
    return Con('BlockOf', (place(b[1]), r, place(b[3])))
def stmt_(s):
    k = s[0]
    if k == 'InBlock': return Con(k, (block_(s[1]),))
    if k == 'DeclareOf': return Con(k, (declaration_(s[1]),))
    if k == 'SimpleOf': return Con(k, (simple_(s[1]),))
    p = place(s[1])
    if k == 'IfOf': return Con(k, (p, expr_(s[2]), stmt_(s[3])))
    if k == 'IfElseOf': return Con(k, (p, expr_(s[2]), stmt_(s[3]), stmt_(s[4])))
    if k == 'WhileOf': return Con(k, (p, expr_(s[2]), lst(expr_, s[3]), stmt_(s[4])))
    if k == 'ForOf': return Con(k, (p, optn(init_, s[2]), optn(expr_, s[3]), optn(simple_, s[4]), lst(expr_, s[5]), stmt_(s[6])))
    if k == 'ReturnOf': return Con(k, (p, optn(expr_, s[2])))
    if k in ('AssertOf', 'AssumeOf'): return Con(k, (p, expr_(s[2])))
    if k == 'ExposeOf': return Con(k, (p, expr_(s[2]), optn(name_, s[3]), block_(s[4])))
    if k == 'EmptyOf': return Con(k, (p,))
    raise Exception(s)
def attributes_(m): return tuple(Rec(text=text(n.text), place=place(p)) for n, p in zip(m.attributes, m.brackets))
def param_(q): return Rec(attributes=attributes_(q), ty=type_(q.ty), name=name_(q.name))
def clause_(c):
    if c[0] == 'ModifiesOf': return Con('ModifiesOf', (lst(lambda m: Con(m[0], (expr_(m[1]),)), c[1]),))
    return Con(c[0], (expr_(c[1]),))
def basecall_(b): return Rec(place=place(b.place), arguments=lst(expr_, b.arguments))
WORDS = {'static': 'Static', 'virtual': 'Virtual', 'override': 'Override'}
def kind_(k):
    if k[0] == 'FieldsOf': return Con('FieldsOf', (declaration_(k[1]),))
    if k[0] == 'InvariantOf': return Con('InvariantOf', (expr_(k[1]),))
    if k[0] == 'MethodOf': return Con('MethodOf', (optn(type_, k[1]), name_(k[2]), lst(param_, k[3]), lst(clause_, k[4]), block_(k[5])))
    return Con('ConstructorOf', (name_(k[1]), lst(param_, k[2]), optn(basecall_, k[3]), lst(clause_, k[4]), block_(k[5])))
def member_(m): return Rec(attributes=attributes_(m), modifiers=lst(lambda w: Rec(place=place(w[0]), word=Con(WORDS[w[1]])), m.modifiers), kind=kind_(m.kind))
def class_(c): return Rec(name=name_(c.name), above=optn(name_, c.above), members=lst(member_, c.members))
def program_(p): return Rec(classes=lst(class_, p.classes), last=place(p.last))
