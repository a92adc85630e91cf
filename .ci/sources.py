"""Reads crates.txt, and the part of Rattle that the library is written in, for the tests over the sources. A form that is not known here is refused,
never passed over.

An expression or a statement is a Node: its kind, what it says beside its parts, and its parts. The kinds, with what they say: number (value, type),
bytes (length), name (path), call (path; of a method '.' and its name, and what it is called of is lent to it), variant (path; of an enum, with the values in
it, or Ok or Err), held (path, number; of a variant the value at that place), array, repeat, tuple, struct (name, fields), field (name), index, part, len,
lent (mutable), unary and binary (operator), cast (type), test (name; a closure), if, match, block; let (name, mutable, type), set (of a place and a value),
while, for (name), return, continue, do, try (an expression with ? behind it), and value, the value of its block.
A type is a name, ('ref', mutable, type), ('slice', type), ('array', type, length), ('tuple', types) or ('result', type, the refusal's type).
"""
import operator
import re
from collections import namedtuple
from functools import lru_cache
from itertools import count
from pathlib import Path

TOP = Path(__file__).resolve().parent.parent
Node = namedtuple('Node', 'kind info parts')
Function = namedtuple('Function', 'crate name params result body')


class Refused(Exception):
    pass


# ---- crates.txt

def crate_lines(text):
    """What each crate depends on. Behind the name of a static library stands `staticlib`."""
    lines = (line.split('#')[0].split(':') for line in text.splitlines())
    return {re.sub(r' staticlib$', '', line[0].strip()): line[1].split() for line in lines if len(line) == 2}


def closure(needs, roots):
    """These crates and all that they depend on; the kit's are left out."""
    seen, rest = set(), list(roots)
    while rest:
        name = rest.pop()
        if name in needs and name not in seen:
            seen.add(name)
            rest += needs[name]
    return seen


# ---- expressions, statements, types

TOKEN = re.compile(r'b"(?:[^"\\]|\\.)*"|b\'(?:\\x[0-9a-f]{2}|\\.|[^\'\\])\'|\'\w+|\w+|::|->|=>|\.\.=?|&&|\|\||<<=?|>>=?|[<>=!+\-*/%^|&]=|\S', re.S)
NUMBER = re.compile(r'(0x[0-9a-fA-F_]+|0b[01_]+|0o[0-7_]+|[0-9][0-9_]*)((?:u|i)(?:8|16|32|64|size))?')
# std's traits whose functions are called by the type's name; `?` would call one for another type of refusal, which is not known
NAMED = ('From',)
LEVELS = ['||', '&&', '== != < > <= >=', '|', '^', '&', '<< >>', '+ -', '* / %']
LEVEL = {op: n for n, ops in enumerate(LEVELS) for op in ops.split()}
KEYWORDS = set('as break const continue else enum extern fn for if impl in let loop match mod mut pub return static struct trait type unsafe use where '
               'while'.split())


def tokens(text):
    text = re.sub(r'//[^\n]*', '', text)
    return TOKEN.findall(re.sub(r'^ *ghost use [^;]*;', '', text, flags=re.M))


class Reader:
    """Reads what begins at token i; `of` is the crate or the function that it belongs to, for messages."""

    def __init__(self, ts, of, most=0):
        self.ts, self.i, self.of, self.most = ts, 0, of, most
        # of the function that is read: the trait of each type parameter, and what each const parameter is measured as
        self.bounds, self.numbers = {}, {}

    def peek(self):
        return self.ts[self.i] if self.i < len(self.ts) else ''

    def next(self, wanted=None):
        t = self.peek()
        if t == '' or (wanted is not None and t != wanted):
            raise Refused(f'a form of {self.of} that cannot be read: ' + ' '.join(self.ts[max(0, self.i - 3):self.i + 4]))
        self.i += 1
        return t

    def skip(self, wanted):
        """Takes this token if it comes next."""
        found = self.peek() == wanted
        self.i += found
        return found

    def skip_group(self):
        """Passes over a bracket and all that it holds."""
        depth = 0
        while True:
            t = self.next()
            depth += (t in '([{') - (t in ')]}')
            if depth == 0:
                return

    def list(self, end, one):
        """What `one` reads, between commas, up to the closing bracket."""
        found = []
        while not self.skip(end):
            found.append(one())
            if self.peek() != end:
                self.next(',')
        return found

    def group(self, one):
        """What stands in a round bracket: one alone, or the list of a tuple."""
        found = self.list(')', one)
        return found[0] if len(found) == 1 and self.ts[self.i - 2] != ',' else found

    def word(self):
        t = self.next()
        if not re.fullmatch(r'[A-Za-z_]\w*', t) or t in KEYWORDS:
            raise Refused(f'a form of {self.of} that cannot be read: {t} {self.peek()}')
        return t

    def path(self):
        """A path without the arguments behind `::<`. What is named by a type parameter is its trait's."""
        found = [self.word()]
        found[0] = self.bounds.get(found[0], found[0])
        while self.skip('::'):
            if self.arguments():
                break
            found.append(self.word())
        return tuple(found)

    def arguments(self):
        """Passes over arguments between < and >, if they come next."""
        if not self.skip('<'):
            return False
        self.list('>', self.next)
        return True

    def parameters(self):
        """Type parameters, each with one trait for its bound, and const parameters. These are measured as the largest number that an impl or a call gives one;
        where a call gives none, it is the length of an array that the caller has, which is measured there."""
        self.bounds, self.numbers = {}, {}
        while self.skip('<') or self.skip(','):
            if self.skip('const'):
                self.numbers[self.word()] = self.most
                self.next(':')
                self.next('usize')
            else:
                name = self.word()
                self.next(':')
                self.bounds[name] = self.word()
                self.arguments()
        if (self.bounds or self.numbers) and self.next('>') and self.numbers and not self.most:
            raise Refused(f'a const parameter of {self.of} that cannot be measured')

    def type(self):
        if self.skip('&'):
            if self.peek().startswith("'"):
                self.next()
            return ('ref', self.skip('mut'), self.type())
        if self.skip('('):
            t = self.group(self.type)
            return ('tuple', *t) if isinstance(t, list) else t
        if not self.skip('['):
            name = self.path()[-1]
            return self.result() if name == 'Result' and self.peek() == '<' else name
        inner = self.type()
        if self.skip(']'):
            return ('slice', inner)
        self.next(';')
        length = self.next()
        self.next(']')
        length = str(self.numbers.get(length, length))
        if not length.isdigit():
            raise Refused(f'an array type of {self.of} that cannot be measured: {length}')
        return ('array', inner, int(length))

    def result(self):
        """The type of a result, whose arguments come next."""
        self.next('<')
        types = self.list('>', self.type)
        if len(types) != 2:
            raise Refused(f'a form of {self.of} that cannot be read: a result of {len(types)} types')
        return ('result', *types)

    # -- expressions; `structs` says whether a brace behind a name begins a struct

    def expression(self, structs=True, level=0):
        left = self.operand(structs)
        while LEVEL.get(self.peek(), -1) >= level:
            op = self.next()
            left = Node('binary', op, [left, self.expression(structs, LEVEL[op] + 1)])
        return left

    def operand(self, structs):
        if self.skip('&'):
            return Node('lent', self.skip('mut'), [self.operand(structs)])
        if self.peek() in ('!', '-', '*'):
            return Node('unary', self.next(), [self.operand(structs)])
        e = self.behind(self.first(structs))
        while self.skip('as'):
            e = Node('cast', self.type(), [e])
        return e

    def first(self, structs):
        t = self.peek()
        number = NUMBER.fullmatch(t)
        if number or t.startswith("b'"):
            self.next()
            return Node('number', (int(number[1].replace('_', ''), 0), number[2]) if number else (0, 'u8'), [])
        if t.startswith('b"'):
            return Node('bytes', len(re.sub(r'\\x..|\\.', 'x', re.sub(r'\\\n\s*', '', self.next()[2:-1]))), [])
        if t in ('if', 'match', '{'):
            return {'if': self.choice, 'match': self.match, '{': self.block}[t]()
        if self.skip('('):
            e = self.group(self.expression)
            return Node('tuple', None, e) if isinstance(e, list) else e
        if self.skip('['):
            return self.array()
        if self.skip('|'):
            return self.test()
        path = self.path()
        if self.skip('('):
            return Node('variant' if path[-1][0].isupper() else 'call', path, self.list(')', self.expression))
        if structs and self.skip('{'):
            fields = self.list('}', self.field)
            return Node('struct', (path[-1], [name for name, _ in fields]), [e for _, e in fields])
        return Node('name', path, [])

    def test(self):
        """A closure that asks something of a byte: names, numbers and operators alone."""
        name = self.word()
        self.next('|')
        e = self.expression()
        if any(part.kind not in ('name', 'number', 'unary', 'binary') for part in walk(e)):
            raise Refused(f'a closure of {self.of} that is not a test')
        return Node('test', name, [e])

    def array(self):
        if self.skip(']'):
            return Node('array', None, [])
        one = self.expression()
        if self.skip(';'):
            e = Node('repeat', None, [one, self.expression()])
            self.next(']')
            return e
        if self.peek() != ']':
            self.next(',')
        return Node('array', None, [one] + self.list(']', self.expression))

    def field(self):
        name = self.word()
        return name, self.expression() if self.skip(':') else Node('name', (name,), [])

    def behind(self, e):
        """Indices, parts, fields and lengths behind an expression."""
        while self.peek() in ('[', '.', '?'):
            behind = self.next()
            if behind != '.':
                e = self.place(e) if behind == '[' else Node('try', None, [e])
                continue
            name = self.next()
            if not self.skip('('):
                e = Node('field', name, [e])
            elif name == 'len':
                self.next(')')
                e = Node('len', None, [e])
            elif name == 'copy_from_slice':
                # a call of the kit, which is lent the place that it writes to
                e = Node('call', ('slice', name), [Node('lent', True, [e]), *self.list(')', self.expression)])
            else:
                e = Node('call', ('.', name), [Node('lent', False, [e]), *self.list(')', self.expression)])
        return e

    def place(self, e):
        bounds = [] if self.peek() == '..' else [self.expression()]
        kind = 'part' if self.skip('..') else 'index'
        if self.peek() != ']':
            bounds.append(self.expression())
        self.next(']')
        return Node(kind, None, [e] + bounds)

    def choice(self):
        self.next('if')
        found = [self.expression(structs=False), self.block()]
        if self.skip('else'):
            found.append(self.choice() if self.peek() == 'if' else self.block())
        return Node('if', None, found)

    def match(self):
        """A match. Each name of a pattern is a let of its part of the value, in front of the arm; the value then has a name too."""
        self.next('match')
        of = self.expression(structs=False)
        value = of if of.kind == 'name' else Node('name', (f'value matched at {self.i}',), [])
        self.next('{')
        arms, lets = [], []
        while not self.skip('}'):
            bound = self.pattern(value)
            arm = self.expression()
            arms.append(Node('block', None, [*bound, Node('value', None, [arm])]) if bound else arm)
            lets += bound
            self.skip(',')
        if not lets or of is value:
            return Node('match', None, [of, *arms])
        return Node('block', None, [Node('let', (value.info[0], False, None), [of]), Node('value', None, [Node('match', None, [value, *arms])])])

    def pattern(self, value):
        """The lets of a pattern's names, up to the arrow. A name alone is no pattern."""
        start = self.i
        try:
            lets = self.alternatives(value, inner=False)
            self.next('=>')
        except Refused as why:
            raise Refused(f'a pattern of {self.of} that cannot be read: ' + ' '.join(self.ts[start:self.i + 1])) from why
        return lets

    def alternatives(self, value, inner):
        self.skip('|')
        lets = self.alternative(value, inner)
        while self.skip('|'):
            lets = lets + self.alternative(value, inner)
        return lets

    def alternative(self, value, inner):
        """A number, a variant or a tuple; inside of one a name too, which is a let of that part of the value."""
        t = self.peek()
        if t in ('_', 'true', 'false') or NUMBER.fullmatch(t):
            self.next()
            return []
        if self.skip('('):
            return self.parts_of(value, ())
        if inner and re.fullmatch('[a-z]\\w*', t) and self.ts[self.i + 1:self.i + 2] != ['::']:
            return [Node('let', (self.word(), False, None), [value])]
        start, path = self.i, self.path()
        if self.skip('('):
            return self.parts_of(value, path)
        if len(path) == 1:
            self.i = start
            self.next('a variant')
        return []

    def parts_of(self, value, path):
        """The lets of what stands in the bracket of a variant, or of a tuple."""
        places = count()
        found = self.list(')', lambda: self.alternatives(self.part_of(value, path, next(places)), inner=True))
        return [let for lets in found for let in lets]

    def part_of(self, value, path, n):
        return Node('held', (path, n), [value]) if path else Node('field', str(n), [value])

    # -- statements

    def block(self):
        self.next('{')
        found = []
        while not self.skip('}'):
            found.append(self.statement())
        return Node('block', None, found)

    def statement(self):
        t = self.peek()
        if t == 'continue':
            self.next()
            self.next(';')
            return Node('continue', None, [])
        if t in ('let', 'while', 'for', 'return'):
            self.next()
            return {'let': self.let, 'while': self.repeated, 'for': self.counted, 'return': self.returned}[t]()
        braced = t in ('if', 'match', '{')
        e = self.first(True) if braced else self.expression()
        op = self.peek()
        if op == '=' or (op[:-1] in LEVEL and op[-1:] == '=' and op not in LEVEL):
            self.next('a place' if e.kind not in ('name', *PLACES) else op)
            value = self.expression()
            self.next(';')
            return Node('set', None, [e, value if op == '=' else Node('binary', op[:-1], [e, value])])
        if self.peek() == '}':
            return Node('value', None, [e])
        if not self.skip(';') and not braced:
            self.next(';')
        return Node('do', None, [e])

    def let(self):
        mutable = self.skip('mut')
        name = self.word()
        kind = self.type() if self.skip(':') else None
        self.next('=')
        e = self.expression()
        self.next(';')
        return Node('let', (name, mutable, kind), [e])

    def repeated(self):
        return Node('while', None, [self.expression(structs=False), self.block()])

    def counted(self):
        """A loop over a..b, over (a..b).rev(), or over the elements of &a or of a.iter_mut().enumerate(), which is read as a loop over their places."""
        if self.skip('('):
            return self.enumerated()
        name = self.word()
        self.next('in')
        start = self.i
        down = self.skip('(')
        low = self.expression(structs=False)
        if down and self.peek() != '..':
            self.i, down = start, False
            low = self.expression(structs=False)
        if low.kind == 'lent' and self.peek() == '{':
            body, place = self.block(), 'place of ' + name
            body.parts.insert(0, Node('let', (name, False, None), [Node('index', None, [low.parts[0], Node('name', (place,), [])])]))
            return Node('for', place, [Node('number', (0, None), []), Node('len', None, low.parts), body])
        if not self.skip('..='):
            self.next('..')
        high = self.expression(structs=False)
        for t in (')', '.', 'rev', '(', ')') if down else ():
            self.next(t)
        return Node('for', name, [low, high, self.block()])

    def enumerated(self):
        """A loop over the places of a lent list and its elements, which are written through their names."""
        at = self.word()
        self.next(',')
        name = self.word()
        for t in (')', 'in'):
            self.next(t)
        of = Node('name', (self.word(),), [])
        for t in ('.', 'iter_mut', '(', ')', '.', 'enumerate', '(', ')'):
            self.next(t)
        element = Node('index', None, [of, Node('name', (at,), [])])
        body = with_place(self.block(), Node('unary', '*', [Node('name', (name,), [])]), element)
        return Node('for', at, [Node('number', (0, None), []), Node('len', None, [of]), body])

    def returned(self):
        found = [] if self.peek() == ';' else [self.expression()]
        self.next(';')
        return Node('return', None, found)


def with_place(e, old, new):
    """An expression or a statement with one part in the place of another."""
    return new if e == old else Node(e.kind, e.info, [with_place(part, old, new) for part in e.parts])


# ---- a program

class Crate:
    """The functions, methods, structs, enums, traits and constants of a crate, its names for what is in others, and what it makes public."""

    def __init__(self, crate, text, most):
        self.functions, self.structs, self.enums, self.consts, self.methods = {}, {}, {}, {}, {}
        self.traits, self.impls, self.names, self.public = [], [], {}, []
        r = Reader(tokens(text), crate, most)
        while r.peek():
            self.item(crate, r)

    def item(self, crate, r):
        while r.skip('#'):
            of_crate = r.skip('!')
            r.skip_group()
            if of_crate:
                return
        public = r.skip('pub')
        word = r.next()
        kinds = {'use': self.use, 'const': self.const, 'struct': self.struct, 'enum': self.enum, 'fn': self.function, 'trait': self.trait,
                 'impl': self.impl}
        if word not in kinds:
            raise Refused(f'an item of {crate} that cannot be read: {word} {r.peek()}')
        name = kinds[word](crate, r)
        if public:
            self.public += name if word == 'use' else [name]

    def use(self, crate, r):
        """A name of another crate, or several: `use a::b;`, `use a::{b, c};`. Of std's traits the one that says what a contract sees."""
        of = r.word()
        r.next('::')
        if of == 'std' and r.skip('marker'):
            for t in ('::', 'Model', ';'):
                r.next(t)
            return []
        names = r.list('}', r.word) if r.skip('{') else [r.word()]
        if r.peek() != ';':
            raise Refused(f'a use of {crate} that cannot be read: {of}::{names[-1]} {r.peek()}')
        r.next(';')
        self.names.update({name: f'{of}::{name}' for name in names})
        return [f'{of}::{name}' for name in names]

    def const(self, crate, r):
        name = crate + '::' + r.word()
        r.next(':')
        kind = r.type()
        r.next('=')
        self.consts[name] = (kind, r.expression())
        r.next(';')
        return name

    def struct(self, crate, r):
        name = r.word()
        if r.skip(';'):
            return crate + '::' + name
        r.next('{')
        fields = dict(filter(None, r.list('}', lambda: self.struct_field(r))))
        if self.structs.setdefault(name, fields) is not fields:
            raise Refused('two structs of one name: ' + name)
        return crate + '::' + name

    def struct_field(self, r):
        """A field's name and type; None for a ghost field, which is a fact and no value."""
        r.skip('pub')
        ghost = r.skip('ghost')
        name = r.word()
        r.next(':')
        return r.skip_group() if ghost else (name, r.type())

    def impl(self, crate, r):
        """The functions of a struct or an enum, what a contract sees of it, or the functions of a trait for a type."""
        owner = r.word()
        r.arguments()
        if r.skip('for'):
            return self.model(crate, r) if owner == 'Model' else self.of_trait(crate, r, owner)
        r.next('{')
        while not r.skip('}'):
            while r.skip('#'):
                r.skip_group()
            public = r.skip('pub')
            r.next('fn')
            name = self.function(crate, r, owner)
            if public:
                self.public.append(name)
        return owner

    def model(self, crate, r):
        """What a contract sees of a struct: ghost members alone."""
        owner = r.word()
        r.next('{')
        while not r.skip('}'):
            if not self.ghost(r):
                raise Refused(f'an item of {crate} that cannot be read: impl Model for {owner}')
        return owner

    def enum(self, crate, r):
        """An enum: its variants, and the types of the values that each has."""
        name = r.word()
        r.next('{')
        variants = dict(r.list('}', lambda: (r.word(), r.list(')', r.type) if r.skip('(') else [])))
        if self.enums.setdefault(name, variants) is not variants:
            raise Refused('two enums of one name: ' + name)
        return crate + '::' + name

    def trait(self, crate, r):
        """Ghost members, and functions without a body: their code is in the impls."""
        name = r.of = r.word()
        r.parameters()
        r.next('{')
        while not r.skip('}'):
            if self.ghost(r):
                continue
            r.next('fn')
            self.head(r, '::'.join([crate, name, r.word()]))
            r.next(';')
        r.of = crate
        self.traits.append(crate + '::' + name)
        return crate + '::' + name

    def of_trait(self, crate, r, trait):
        """The functions of a trait for a type. Those of a trait of the program are called by a bound, and a call is of any of its impls; there the type has no
        fields. Those of NAMED are called by the type's name. Another trait's may be called by operators, which no reader sees."""
        owner = r.word()
        of = self.names.get(owner, f'{crate}::{owner}') if trait in NAMED else f'{crate}::{trait}'
        self.impls += [] if trait in NAMED else [f'{crate}::{trait}']
        r.next('{')
        while not r.skip('}'):
            if self.ghost(r):
                continue
            r.next('fn')
            name = of + '::' + r.word()
            params, result = self.head(r, name, owner if trait in NAMED else None)
            body = r.block()
            other = self.functions.get(name)
            if other and (other.crate, other.params, other.result) != (crate, params, result):
                raise Refused('two functions of one name: ' + name)
            if other:
                one_of = Node('match', None, [Node('number', (0, 'u8'), []), other.body, body])
                body = Node('block', None, [Node('value', None, [one_of])])
            self.functions[name] = Function(crate, name, params, result, body)
        r.of = crate

    def ghost(self, r):
        """Passes over a ghost member, if it comes next."""
        if not r.skip('ghost'):
            return False
        while not r.skip(';'):
            r.skip_group() if r.peek() == '{' else r.next()
        return True

    def head(self, r, name, owner=None):
        """The parameters and the result behind a function's name."""
        if name.rsplit('::', 1)[1][0].isupper():
            raise Refused(f'a function that has a name like a variant: {name}')
        r.of = name
        r.parameters()
        self.consts.update({name.split('::')[0] + '::' + n: ('usize', Node('number', (most, 'usize'), [])) for n, most in r.numbers.items()})
        r.next('(')
        params = dict(r.list(')', lambda: self.param(r, owner)))
        result = of_owner(r.type(), owner) if r.skip('->') else None
        if 'self' in params and self.methods.setdefault(name.rsplit('::', 1)[1], name) != name:
            raise Refused('two methods of one name: ' + name.rsplit('::', 1)[1])
        while r.peek() in ('requires', 'ensures'):
            r.next()
            if r.peek() != '{':
                r.word()
            r.skip_group()
        return params, result

    def function(self, crate, r, owner=None):
        name = '::'.join([crate, *[owner] * bool(owner), r.word()])
        params, result = self.head(r, name, owner)
        if name in self.functions:
            raise Refused('two functions of one name: ' + name)
        self.functions[name] = Function(crate, name, params, result, r.block())
        r.of, r.bounds, r.numbers = crate, {}, {}
        return name

    def param(self, r, owner):
        """A parameter's name and type. In a struct's function the first may be the struct."""
        lent = owner and r.skip('&')
        mutable = r.skip('mut')
        name = r.word()
        if owner and name == 'self':
            return name, ('ref', mutable, owner) if lent else owner
        if lent:
            raise Refused(f'a form of {r.of} that cannot be read: & {name}')
        r.next(':')
        return name, of_owner(r.type(), owner)


# an edit changes one crate or two, and the others are read once
read_crate = lru_cache(maxsize=None)(Crate)


class Program:
    """Some crates together, of which the texts are given."""

    def __init__(self, texts):
        self.functions, self.structs, self.enums, self.consts, self.methods = {}, {}, {}, {}, {}
        given = [n for text in texts.values() for n in re.findall(r'(?:^impl \w+|::)<[^<>()\n]*?\b(\d+)>', text, re.M)]
        crates = {crate: read_crate(crate, text, max(map(int, given), default=0)) for crate, text in texts.items()}
        self.names = {crate: read.names for crate, read in crates.items()}
        self.public = {crate: read.public for crate, read in crates.items()}
        for read in crates.values():
            for kind in ('functions', 'structs', 'enums', 'consts', 'methods'):
                self.join(kind, getattr(self, kind), getattr(read, kind))
        self.join('types', dict(self.structs), self.enums)
        traits = {trait for read in crates.values() for trait in read.traits}
        for name in (name for read in crates.values() for name in read.impls):
            if self.found(name) not in traits:
                raise Refused('a trait of {} that is not known: {}'.format(*name.split('::')))

    def join(self, kind, mine, more):
        for name in more:
            if name in mine:
                raise Refused(f'two {kind} of one name: {name}')
        mine.update(more)

    def find(self, crate, path):
        """The full name of the function or the constant that a crate calls by this path; a method that is not there keeps its dot."""
        if path[0] == '.':
            return self.methods.get(path[1], '.' + path[1])
        if len(path) == 2 and path[0] not in self.names and path[0][0].isupper():
            # a function of a struct, by the struct's name here
            struct = self.found(crate + '::' + path[0])
            return struct + '::' + path[1]
        return self.found('::'.join(path) if len(path) > 1 else crate + '::' + path[0])

    def found(self, full):
        """A name, or what stands for it where a crate has it from another."""
        seen = set()
        while full not in seen:
            seen.add(full)
            owner, name = full.rsplit('::', 1)
            full = self.names.get(owner, {}).get(name, full)
        return full

    def fields(self, t):
        """The fields of a struct or a tuple, by name."""
        return {str(n): part for n, part in enumerate(t[1:])} if is_a(t, 'tuple') else self.structs.get(t, {})

    def values_in(self, path):
        """The types of the values that a variant has; None where this is no variant."""
        return self.enums.get(path[-2], {}).get(path[-1]) if len(path) > 1 else None

    def inside(self, t):
        """The types of what a value of this type has in it; an array is one whole."""
        of_enum = [part for held in self.enums.get(t, {}).values() for part in held]
        return [*self.fields(t).values(), *(t[1:] if is_a(t, 'result') else ()), *of_enum]


# ---- types

def of_owner(t, owner):
    """A type, with the struct's name for `Self`."""
    if isinstance(t, tuple):
        return tuple(of_owner(part, owner) for part in t)
    return owner if t == 'Self' and owner else t


PLACES = ('lent', 'index', 'part', 'field', 'unary')
COMPARED = ('==', '!=', '<', '>', '<=', '>=')
SIZES = {'u8': 1, 'bool': 1, 'u16': 2, 'u32': 4, 'u64': 8, 'usize': 8, None: 8}
# the bytes that say which variant it is, of a result or an enum with values, and the variants of a result
TAG = 8
RESULTS = (('Ok',), ('Err',))
# the kit's methods that give what has the type of what they are called of
LIKE = ('max', 'min', 'wrapping_add', 'iter')
OPERATORS = {'+': operator.add, '-': operator.sub, '*': operator.mul, '|': operator.or_, '&': operator.and_, '^': operator.xor, '>>': operator.rshift,
             '<<': lambda a, b: a << min(b, 64), '/': lambda a, b: a // max(b, 1), '%': lambda a, b: a % max(b, 1)}


def walk(e):
    """The parts of an expression or a statement, each behind its own parts, and itself."""
    for part in e.parts:
        yield from walk(part)
    yield e


def is_a(t, kind):
    return isinstance(t, tuple) and t[0] == kind


def named(t):
    if is_a(t, 'array') or is_a(t, 'slice'):
        return '[' + '; '.join([named(t[1]), *map(str, t[2:])]) + ']'
    if is_a(t, 'tuple') or is_a(t, 'result'):
        return ('({})' if t[0] == 'tuple' else 'Result<{}>').format(', '.join(map(named, t[1:])))
    return '&' + named(t[2]) if is_a(t, 'ref') else str(t)


class Types:
    """The types of a function's names and expressions, their sizes, and the numbers that are constant."""

    def __init__(self, p, f):
        self.p, self.f, self.names, self.values = p, f, dict(f.params), {}
        self.every = list(walk(f.body))
        for e in self.every:
            if e.kind in ('for', 'test'):
                self.declare(e.info, 'usize' if e.kind == 'for' else 'u8')
        lets = [e for e in self.every if e.kind == 'let']
        given = [*self.names, *(e.info[0] for e in lets)]
        for e in lets:
            name, mutable, t = e.info
            self.declare(name, t or self.of(e.parts[0]), self.is_lent_part(e.parts[0]))
            if not mutable and given.count(name) == 1:
                self.values[name] = self.value(e.parts[0])
        for name, t in [*f.params.items(), ('the result', f.result)]:
            t = t[2] if is_a(t, 'ref') else t
            if not is_a(t, 'slice') and self.lends(t):
                raise Refused(f'{name} of {f.name} has a reference in it, which is not followed')
        for e in self.every:
            self.known(e)

    def known(self, e):
        """Refuses a name, a method, a variant or a `?` that is not known."""
        if e.kind in ('name', 'try') or e.kind == 'call' and e.info[0] == '.' and self.p.find(self.f.crate, e.info) in self.p.functions:
            self.of(e)
        if e.kind == 'try' and (not is_a(self.f.result, 'result') or self.f.result[2] != self.of(e.parts[0])[2]):
            self.unknown('?', 'another refusal')
        if e.kind == 'variant' and len(e.parts) != (1 if e.info in RESULTS else len(self.variant(e.info))):
            self.unknown('variant', '::'.join(e.info))

    def variant(self, path, t=None):
        """The types of the values that a variant has; those of Ok and Err are the result's."""
        if path in RESULTS and is_a(t, 'result'):
            return [t[1 + RESULTS.index(path)]]
        found = self.p.values_in(path)
        return self.unknown('variant', '::'.join(path)) if found is None or t not in (None, path[-2]) else found

    def lends(self, t):
        """Whether a value of this type has a reference in it, or is one."""
        return is_a(t, 'ref') or is_a(t, 'slice') or any(map(self.lends, self.p.inside(t)))

    def is_lent_part(self, e):
        """Whether it lends a part of what was lent to the function, to be read alone: it holds no bytes of its own."""
        if e.kind != 'lent' or e.info:
            return False
        while e.kind in PLACES:
            e = e.parts[0]
        return e.kind == 'name' and is_a(self.f.params.get(e.info[0]), 'ref')

    def declare(self, name, t, lent=False):
        if self.lends(t) and not lent:
            raise Refused(f'{name} of {self.f.name} is a reference in a local, which is not followed')
        if self.p.find(self.f.crate, (name,)) in self.p.consts:
            raise Refused(f'{name} of {self.f.name} is the name of a constant')
        if self.names.setdefault(name, t) != t:
            raise Refused(f'{name} of {self.f.name} has two types')

    def constant(self, path):
        return None if path[0] in self.names else self.p.consts.get(self.p.find(self.f.crate, path))

    def value(self, e):
        """The number that a constant expression is, or None."""
        if e.kind == 'number':
            return e.info[0]
        if e.kind == 'name':
            const = self.constant(e.info)
            return self.value(const[1]) if const else self.values.get(e.info[0])
        values = [self.value(part) for part in e.parts] if e.kind in ('cast', 'unary', 'binary') else [None]
        if None in values:
            return None
        if e.kind == 'binary':
            return OPERATORS[e.info](*values) if e.info in OPERATORS else None
        return 2 ** 64 - 1 - values[0] if e.kind == 'unary' else values[0]

    def of(self, e):
        """The type of an expression; None where it has none, and where the type of a number is not said."""
        kind, info, parts = e
        if kind == 'name':
            return self.of_name(info)
        if kind == 'call':
            f = self.p.functions.get(self.p.find(self.f.crate, info))
            if f and info[0] == '.' and self.lent(parts[0].parts[0]) != f.name.split('::')[-2]:
                self.unknown('method', info[1])
            return f.result if f else self.of_kit(info, parts)
        if kind == 'field':
            fields = self.p.fields(self.lent(parts[0]))
            return fields[info] if info in fields else self.unknown('field', info)
        if kind in ('array', 'repeat'):
            count = len(parts) if kind == 'array' else self.value(parts[1])
            if count is None:
                self.unknown('length of an array', parts[1].info)
            return ('array', self.first(parts if kind == 'array' else parts[:1]), count)
        if kind in ('index', 'part'):
            inner = self.lent(parts[0])[1]
            return inner if kind == 'index' else ('slice', inner)
        if kind in ('binary', 'if', 'match', 'unary', 'block', 'value'):
            of = parts[1:] if kind in ('if', 'match') else parts[-1:] if kind == 'block' else parts
            return 'bool' if info in COMPARED else self.lent(parts[0]) if info == '*' and kind == 'unary' else self.first(of)
        if kind in ('variant', 'held', 'try', 'tuple'):
            return ('tuple', *map(self.of, parts)) if kind == 'tuple' else self.of_variant(kind, info, parts)
        if kind == 'lent':
            return ('ref', info, self.of(parts[0]))
        if kind == 'bytes':
            return ('ref', False, ('array', 'u8', info))
        if kind in ('number', 'struct'):
            return info[1] if kind == 'number' else info[0]
        return 'usize' if kind == 'len' else info if kind == 'cast' else None

    def of_kit(self, path, parts):
        """The type of what a function of the kit gives, where it is not a number or a test."""
        return self.lent(parts[0].parts[0]) if path[0] == '.' and path[1] in LIKE else None

    def of_variant(self, kind, info, parts):
        """The type of a variant, or of what is in it; a result's is not known from Ok or Err alone."""
        if kind == 'variant':
            return info[-2] if info not in RESULTS and self.variant(info) else self.unknown('type', info[0])
        path, n = info if kind == 'held' else (RESULTS[0], 0)
        t = self.of(parts[0])
        values = self.variant(path, t or '')
        return values[n] if n < len(values) else self.unknown('variant', '::'.join(path))

    def of_name(self, path):
        const = self.constant(path)
        if const or path[0] in self.names:
            return const[0] if const else self.names[path[0]]
        if path in (('true',), ('false',)):
            return 'bool'
        return path[-2] if self.p.values_in(path) == [] else self.unknown('name', '::'.join(path))

    def first(self, parts):
        return next((t for t in map(self.of, parts) if t is not None), None)

    def lent(self, e):
        """The type of an expression, or of what it lends."""
        t = self.of(e)
        return t[2] if is_a(t, 'ref') else t

    def unknown(self, what, name):
        raise Refused(f'a {what} of {self.f.name} that is not known: {name}')

    def size(self, t):
        if is_a(t, 'array'):
            return t[2] * self.size(t[1])
        if t in self.p.structs or is_a(t, 'tuple'):
            return sum(map(self.size, self.p.fields(t).values()))
        if is_a(t, 'result'):
            return TAG + max(map(self.size, t[1:]))
        if t in self.p.enums:
            return TAG + max(sum(map(self.size, held)) for held in self.p.enums[t].values()) if any(self.p.enums[t].values()) else 1
        return SIZES[t] if t in SIZES else self.unknown('size', named(t))

    def unnamed(self):
        """What is made and used where it stands, and every tuple and value of an enum, wherever it stands."""
        made = ('array', 'repeat', 'struct', 'if', 'match', 'block')
        several = [e for e in self.every if e.kind == 'tuple' or e.kind == 'variant' and e.info not in RESULTS]
        return [e.parts[0] for e in self.every if e.kind in PLACES and e.parts[0].kind in made] + several

    def written(self):
        """The arrays that stand in the function's text."""
        return [('a value without a name', self.of(e)) for e in self.every if e.kind in ('array', 'repeat')]

    def arrays(self):
        """The arrays that the function has by value, each with the name of what it is or is in."""
        rest = [*self.names.items(), ('the result', self.f.result), *(('a value without a name', self.of(e)) for e in self.unnamed())]
        for name, t in rest:
            if is_a(t, 'array'):
                yield name, t
            else:
                rest += [(name, inner) for inner in self.p.inside(t)]
