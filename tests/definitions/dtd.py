#!/usr/bin/env python3
"""DTD text to schema file (item 4), written from the item's text and XML 1.0's
productions alone.

The text is read by the productions, each a method of `Reader`, from the front;
the first fault met decides. Brackets are kept in a list, so that they nest to
any depth.

Run as a program, it does its self test.
"""

import argparse
import random

from reference import Refused, file_of, schema_of

ELEMENTS, ATTRIBUTES, SYMBOLS, NAMES = 48, 64, 255, 64

WHITE = b' \t\r\n'
FIRST = b'ABCDEFGHIJKLMNOPQRSTUVWXYZabcdefghijklmnopqrstuvwxyz_:'
NAME = FIRST + b'0123456789-.'

KINDS = (b'CDATA', b'ID', b'IDREF', b'IDREFS')
STATUSES = (b'#REQUIRED', b'#IMPLIED')
SUFFIXES = {ord('?'): 2, ord('*'): 3, ord('+'): 4}
SEPARATORS = {ord(','): 0, ord('|'): 1}


# ----------------------------------------------------------------- reader

class Part:
    """A part of a model: its symbols, operators first, a name standing for the
    element; of more than 255 symbols the first 256. And how many names."""

    def __init__(self, symbols, names):
        self.symbols = symbols[:SYMBOLS + 1]
        self.names = names


class Reader:
    """The declarations of a text, read from the front."""

    def __init__(self, text):
        self.text = text
        self.at = 0
        self.content = {}        # element: (kind, symbols), in order of declaration
        self.attributes = []     # different names, in order of appearance
        self.given = {}          # element: {attribute: (kind, status)}
        self.named = []          # (element, place) in models and ATTLISTs

    # bytes

    def byte(self):
        """The byte reached; None at the end."""
        return self.text[self.at] if self.at < len(self.text) else None

    def fault(self):
        raise Refused(14, self.at)

    def stands(self, allowed):
        return self.byte() is not None and self.byte() in allowed

    def take(self, allowed):
        """One of the bytes."""
        if not self.stands(allowed):
            self.fault()
        self.at += 1
        return self.text[self.at - 1]

    def word(self, words):
        """The longest of the words. At fault is the first byte that leaves all
        of them."""
        start = self.at
        going_on = words
        while True:
            read = self.at - start
            going_on = [w for w in going_on if w[read:read + 1] == self.text[self.at:self.at + 1] != b'']
            if not going_on:
                break
            self.at += 1
        if self.text[start:self.at] not in words:
            self.fault()
        return self.text[start:self.at]

    # [3] S ::= (#x20 | #x9 | #xD | #xA)+

    def maybe_white(self):
        while self.stands(WHITE):
            self.at += 1

    def white(self):
        self.take(WHITE)
        self.maybe_white()

    def name(self):
        """A name, as long as it goes, and its place."""
        start = self.at
        self.take(FIRST)
        while self.stands(NAME):
            self.at += 1
        return self.text[start:self.at], start

    # [31] extSubsetDecl ::= ( markupdecl | conditionalSect | DeclSep)*
    # [29] markupdecl ::= elementdecl | AttlistDecl | EntityDecl | NotationDecl | PI | Comment

    def declarations(self):
        while self.at < len(self.text):
            if self.stands(WHITE):
                self.at += 1
                continue
            begun = self.word((b'<!ELEMENT', b'<!ATTLIST', b'<!--'))
            if begun == b'<!ELEMENT':
                self.element()
            elif begun == b'<!ATTLIST':
                self.attlist()
            else:
                self.comment()
        if not self.content:
            raise Refused(14, len(self.text))
        for name, place in self.named:
            if name not in self.content:
                raise Refused(14, place)

    # [15] Comment ::= '<!--' ((Char - '-') | ('-' (Char - '-')))* '-->'

    def comment(self):
        while True:
            if self.byte() != ord('-'):
                self.char()
                continue
            self.at += 1
            if self.byte() != ord('-'):
                self.char()
                continue
            self.at += 1
            self.take(b'>')
            return

    # [2] Char ::= #x9 | #xA | #xD | [#x20-#xD7FF] | [#xE000-#xFFFD] | [#x10000-#x10FFFF]

    def char(self):
        """One Char in UTF-8. At fault is the first byte with which none goes on."""
        first = self.byte()
        if first is None:
            self.fault()
        length = 1 if first < 0x80 else 2 if first < 0xE0 else 3 if first < 0xF0 else 4
        for k in range(1, length + 1):
            if self.at + k > len(self.text):
                self.at = len(self.text)
                self.fault()
            if not char_begins(self.text[self.at:self.at + k], length):
                self.at += k - 1
                self.fault()
        self.at += length

    # [45] elementdecl ::= '<!ELEMENT' S Name S contentspec S? '>'

    def element(self):
        self.white()
        name, place = self.name()
        if name in self.content:
            raise Refused(14, place)
        if len(self.content) == ELEMENTS:
            raise Refused(2, place)
        self.content[name] = None
        self.white()
        self.content[name] = self.contentspec()
        self.maybe_white()
        self.take(b'>')

    # [46] contentspec ::= 'EMPTY' | 'ANY' | Mixed | children
    # [51] Mixed ::= .. | '(' S? '#PCDATA' S? ')'

    def contentspec(self):
        """(kind, symbols)"""
        if self.byte() != ord('('):
            self.word((b'EMPTY',))
            return 0, None
        start = self.at
        self.at += 1
        self.maybe_white()
        if self.byte() == ord('#'):
            self.word((b'#PCDATA',))
            self.maybe_white()
            self.take(b')')
            return 1, None
        part = self.children()
        if len(part.symbols) > SYMBOLS or part.names > NAMES:
            raise Refused(2, start)
        return 2, part.symbols

    # [47] children ::= (choice | seq) ('?' | '*' | '+')?
    # [48] cp ::= (Name | choice | seq) ('?' | '*' | '+')?
    # [49] choice ::= '(' S? cp ( S? '|' S? cp )+ S? ')'
    # [50] seq ::= '(' S? cp ( S? ',' S? cp )* S? ')'

    def children(self):
        """The model, behind its first bracket and the white space there."""
        open_ones = [Bracket()]
        while True:
            if self.byte() == ord('('):
                self.at += 1
                self.maybe_white()
                open_ones.append(Bracket())
                continue
            self.named.append(self.name())
            part = self.suffixed(Part([self.named[-1][0]], 1))
            while True:
                open_ones[-1].parts.append(part)
                self.maybe_white()
                if self.byte() != ord(')'):
                    break
                self.at += 1
                part = self.suffixed(open_ones.pop().part())
                if not open_ones:
                    return part
            inner = open_ones[-1]
            inner.separator = self.take(bytes([inner.separator]) if inner.separator else b',|')
            self.maybe_white()

    def suffixed(self, part):
        if not self.stands(SUFFIXES):
            return part
        return Part([SUFFIXES[self.take(SUFFIXES)]] + part.symbols, part.names)

    # [52] AttlistDecl ::= '<!ATTLIST' S Name AttDef* S? '>'
    # [53] AttDef ::= S Name S AttType S DefaultDecl

    def attlist(self):
        self.white()
        self.named.append(self.name())
        given = self.given.setdefault(self.named[-1][0], {})
        while True:
            before = self.at
            self.maybe_white()
            if self.byte() == ord('>'):
                self.at += 1
                return
            if self.at == before:
                self.fault()
            self.attribute(given)

    def attribute(self, given):
        """An AttDef, behind its first white space."""
        name, place = self.name()
        if name in given:
            raise Refused(14, place)
        if name not in self.attributes:
            if len(self.attributes) == ATTRIBUTES:
                raise Refused(2, place)
            self.attributes.append(name)
        self.white()
        place = self.at
        kind = KINDS.index(self.word(KINDS))
        if self.stands(NAME):
            self.fault()             # the word goes on, so it is none of them
        if kind == 1 and 1 in [k for k, _ in given.values()]:
            raise Refused(2, place)
        self.white()
        given[name] = kind, STATUSES.index(self.word(STATUSES))


class Bracket:
    """An open bracket: its parts so far, and what stands between them."""

    def __init__(self):
        self.separator = None
        self.parts = []

    def part(self):
        """`(a,b,c)` is a and then the pair b, c."""
        symbols = []
        for part in self.parts[:-1]:
            symbols += [SEPARATORS[self.separator]] + part.symbols
        return Part(symbols + self.parts[-1].symbols, sum(part.names for part in self.parts))


def char_begins(begun, length):
    """Whether a Char of so many bytes begins with these."""
    first, rest = begun[0], begun[1:]
    if any(not 0x80 <= byte < 0xC0 for byte in rest):
        return False
    lead = {1: 0, 2: 0xC0, 3: 0xE0, 4: 0xF0}[length]
    code = first - lead
    if not 0 <= code < {1: 0x80, 2: 0x20, 3: 0x10, 4: 0x08}[length]:
        return False
    for byte in rest:
        code = code * 64 + byte - 0x80
    left = 6 * (length - len(begun))
    low, high = code << left, (code + 1 << left) - 1       # the codes that can still come
    least = {1: 0, 2: 0x80, 3: 0x800, 4: 0x10000}[length]
    chars = ((9, 10), (13, 13), (0x20, 0xD7FF), (0xE000, 0xFFFD), (0x10000, 0x10FFFF))
    return any(max(low, a, least) <= min(high, b) for a, b in chars)


# ------------------------------------------------------------------ calls

def read_dtd(text):
    """The reader of a text that is taken; raises Refused, its place the spot."""
    reader = Reader(bytes(text))
    reader.declarations()
    return reader


def schema_bytes(reader):
    elements = list(reader.content)
    numbers = [len(elements), 0]
    for name in elements:
        kind, symbols = reader.content[name]
        numbers.append(kind)
        if kind == 2:
            numbers.append(len(symbols))
            numbers += [s if isinstance(s, int) else 5 + elements.index(s) for s in symbols]
        given = reader.given.get(name, {})
        numbers.append(len(given))
        for attribute in sorted(given, key=reader.attributes.index):
            numbers.append(reader.attributes.index(attribute))
            numbers += given[attribute]
    return file_of(numbers)


def names_bytes(reader):
    return [byte for name in list(reader.content) + reader.attributes for byte in name + b'\n']


def _put(made, text, buffer):
    try:
        out = made(read_dtd(text))
    except Refused as refused:
        return refused.number, 0, list(buffer)
    if len(out) > len(buffer):
        return 5, 0, list(buffer)
    return 0, len(out), out + list(buffer[len(out):])


def import_dtd(text, buffer):
    """(number, count of bytes, buffer after)"""
    return _put(schema_bytes, text, buffer)


def dtd_names(text, buffer):
    """(number, count of bytes, buffer after)"""
    return _put(names_bytes, text, buffer)


def import_spot(text):
    """(number, offset)"""
    try:
        read_dtd(text)
    except Refused as refused:
        return refused.number, refused.place
    return 0, 0


# ------------------------------------------------------------------ texts

class Drawn:
    """Random declarations, known before they are spelled. A model is a tree:
    (name, suffix) or (separator, parts, suffix); one part has no separator."""

    names = (b'a', b'b', b'c', b'A', b'_', b':', b'a-b', b'a.b', b'x1', b'EMPTY', b'ID', b'IDREFS', b'ELEMENT',
             b'CDATA', b'PCDATA', b'long-name_of.many:bytes')

    def __init__(self, chance, elements, attributes):
        self.chance = chance
        self.elements = chance.sample(self.names, elements)
        self.declared = [(name, self.content()) for name in self.elements]
        self.lists = []          # (element, [(attribute, kind, status)])
        given = {name: {} for name in self.elements}
        pool = chance.sample(self.names, attributes)
        for _ in range(chance.randrange(2 * attributes + 1)):
            element = chance.choice(self.elements)
            added = []
            for attribute in chance.sample(pool, chance.randrange(min(4, attributes) + 1)):
                if attribute in given[element]:
                    continue
                kind = chance.randrange(4)
                if kind == 1 and 1 in given[element].values():
                    kind = 0
                given[element][attribute] = kind
                added.append((attribute, kind, chance.randrange(2)))
            self.lists.append((element, added))
        self.order = chance.sample(self.declared + self.lists, len(self.declared) + len(self.lists))

    def content(self):
        return self.chance.choice((None, 'text', self.tree(2), self.tree(3), self.tree(4)))

    def tree(self, depth, within=False):
        suffix = self.chance.choice((None, None, '?', '*', '+'))
        if within and (depth == 0 or self.chance.random() < 0.5):
            return self.chance.choice(self.elements), suffix
        parts = [self.tree(depth - 1, True) for _ in range(self.chance.choice((1, 1, 2, 2, 3, 4)))]
        return self.chance.choice(',|') if len(parts) > 1 else None, parts, suffix

    # spelled

    def white(self, least):
        return self.chance.choice((b'', b'', b' ', b'\n\t')[least * 2:] + (b' ', ))

    def comment(self):
        inside = (b'', b' ', b'a-b', b'->', b'<!ELEMENT a EMPTY>', b'%x;', b'\x7f', '\xe9\u20ac\ufffd\U0001F9F6'.encode())
        return b'<!--' + self.chance.choice(inside) + b'-->'

    def model(self, tree):
        if len(tree) == 2:
            return tree[0] + (tree[1] or '').encode()
        separator, parts, suffix = tree
        text = b'(' + self.white(0)
        for k, part in enumerate(parts):
            if k:
                text += self.white(0) + separator.encode() + self.white(0)
            text += self.model(part)
        return text + self.white(0) + b')' + (suffix or '').encode()

    def declaration(self, name, said):
        w = self.white
        if isinstance(said, list):
            text = b'<!ATTLIST' + w(1) + name
            for attribute, kind, status in said:
                text += w(1) + attribute + w(1) + KINDS[kind] + w(1) + STATUSES[status]
            return text + w(0) + b'>'
        if said is None:
            said = b'EMPTY'
        elif said == 'text':
            said = b'(' + w(0) + b'#PCDATA' + w(0) + b')'
        else:
            said = self.model(said)
        return b'<!ELEMENT' + w(1) + name + w(1) + said + w(0) + b'>'

    def text(self):
        text = b''
        for name, said in self.order:
            text += self.chance.choice((b'', b'', b'\n', b' \r\n', self.comment())) + self.declaration(name, said)
        return text + self.chance.choice((b'', b'\n', self.comment()))

    # numbered

    def symbols(self, tree, elements):
        if len(tree) == 2:
            symbols = [5 + elements.index(tree[0])]
        else:
            symbols = self.symbols(tree[1][-1], elements)
            for part in reversed(tree[1][:-1]):
                symbols = [',|'.index(tree[0])] + self.symbols(part, elements) + symbols
        return ([2 + '?*+'.index(tree[-1])] if tree[-1] else []) + symbols

    def expected(self):
        """(schema file, names)"""
        elements = [name for name, said in self.order if not isinstance(said, list)]
        attributes = []
        for _, said in self.order:
            for one in said if isinstance(said, list) else []:
                if one[0] not in attributes:
                    attributes.append(one[0])
        numbers = [len(elements), 0]
        for name in elements:
            said = dict(self.declared)[name]
            if said in (None, 'text'):
                numbers.append(int(said == 'text'))
            else:
                symbols = self.symbols(said, elements)
                numbers += [2, len(symbols)] + symbols
            given = sorted((attributes.index(a), kind, status)
                           for element, added in self.lists if element == name for a, kind, status in added)
            numbers.append(len(given))
            for one in given:
                numbers += one
        return file_of(numbers), [byte for name in elements + attributes for byte in name + b'\n']

    def sizes(self):
        """The most symbols and the most names of a model."""
        models = [self.symbols(said, self.elements) for _, said in self.declared if said not in (None, 'text')]
        return (max([len(m) for m in models], default=0),
                max([sum(s >= 5 for s in m) for m in models], default=0))


def sound(chance):
    """(text, schema file, names), known by its making."""
    while True:
        drawn = Drawn(chance, chance.randrange(1, 6), chance.randrange(0, 6))
        symbols, names = drawn.sizes()
        if symbols <= SYMBOLS and names <= NAMES:
            return (drawn.text(),) + drawn.expected()


def misled(chance):
    """A text that is well spelled, with a declaration that may not be there."""
    drawn = Drawn(chance, chance.randrange(1, 5), chance.randrange(1, 6))
    for _ in range(chance.randrange(1, 3)):
        name = chance.choice(drawn.elements + [b'never'])
        attributes = chance.sample(drawn.names, 2)
        said = chance.choice((
            None, drawn.tree(2), (',', [(name, None), (b'nowhere', '?')], None), [],
            [(attributes[0], chance.randrange(4), 0)],
            [(attribute, 1, 1) for attribute in attributes],
            [(attributes[0], 1, 0), (attributes[0], 0, 1)]))
        drawn.order.insert(chance.randrange(len(drawn.order) + 1), (name, said))
    return drawn.text()


def damages(chance, text):
    """The text with a fault at each of its bytes in turn, or with none by
    chance."""
    some = b'<>!-()#,|?*+"&;%[] \n\x00\x7f\x80\xc3\xff' + b'aAE:_.9IDRS'
    for at in range(len(text) + 1):
        yield text[:at]
        yield text[:at] + text[at + 1:]
        yield text[:at] + bytes([chance.choice(some)]) + text[at + 1:]
        yield text[:at] + bytes([chance.choice(some)]) + text[at:]
        yield text[:at] + text[at + 1:at + 2] + text[at:at + 1] + text[at + 2:]
        to = chance.randrange(at, min(len(text), at + 30) + 1)
        yield text[:to] + text[at:]


def limits():
    """(text, number, offset) at each limit and one past it."""
    def spot(text, number, part, nth=1):
        at = -1
        for _ in range(nth):
            at = text.index(part, at + 1)
        return text, number, at

    def elements(count):
        return b''.join(b'<!ELEMENT e%d EMPTY>' % k for k in range(count))

    yield elements(48), 0, 0
    yield spot(elements(49), 2, b'e48')
    yield spot(elements(48) + b'<!ELEMENT e7 EMPTY>', 14, b'e7', 2)
    yield spot(elements(48) + b'<!ELEMENT e48', 2, b'e48')
    yield spot(elements(48) + b'<!ELEMENT e48$', 2, b'e48')

    def attributes(count):
        return elements(3) + b''.join(b'<!ATTLIST e%d a%d CDATA #IMPLIED>' % (k % 3, k) for k in range(count))

    yield attributes(64), 0, 0
    yield attributes(64) + b'<!ATTLIST e0 a1 ID #REQUIRED a2 IDREF #REQUIRED>', 0, 0
    yield spot(attributes(65), 2, b'a64')
    yield spot(attributes(64) + b'<!ATTLIST never new', 2, b'new')
    yield spot(attributes(64) + b'<!ATTLIST never a1 ID #IMPLIED >', 14, b'never')
    full = b'<!ELEMENT a EMPTY><!ATTLIST a' + b''.join(b' x%d IDREFS #REQUIRED' % k for k in range(64))
    yield full + b'>', 0, 0
    yield spot(full + b' x64 CDATA #REQUIRED>', 2, b'x64')
    yield spot(full + b' x63 CDATA #REQUIRED>', 14, b'x63', 2)

    def model(text):
        return b'<!ELEMENT a ' + text + b'>'

    def nested(count):
        return b'(' * (count + 1) + b'a' + b'?)' * count + b')'

    yield model(nested(254)), 0, 0
    yield spot(model(nested(255)), 2, b'(')
    yield spot(model(nested(254) + b'*'), 2, b'(')
    yield spot(b'<!ELEMENT a ' + nested(255), 2, b'(')
    yield spot(b'<!ELEMENT a ' + nested(255) + b'$', 2, b'(')
    yield spot(model(nested(255)[:-1] + b'$)'), 14, b'$')
    yield b'<!ELEMENT a ' + nested(255)[:-1], 14, 12 + len(nested(255)) - 1
    for separator in (b',', b'|', b' , '):
        row = separator.join([b'a'] * 64)
        yield model(b'(' + row + b')'), 0, 0
        yield model(b'(' + row + b')*'), 0, 0
        yield spot(model(b'(' + row + separator + b'a)'), 2, b'(')
        starred = separator.join([b'a*'] * 64)
        yield model(b'((' + starred + b')?)+'), 0, 0
        yield model(b'(' * 64 + starred + b')?' * 64), 0, 0
        yield spot(model(b'(' * 65 + starred + b')?' * 65), 2, b'(')
    yield spot(b'<!ELEMENT b EMPTY>' + model(b'(zz,' + b'(a,' * 63 + b'a' + b')' * 63 + b')'), 2, b'(')
    depth = 10000
    yield model(b'(' * depth + b'a' + b')' * depth), 0, 0
    yield spot(model(b'(' * depth + b'a' + b')+' * depth), 2, b'(')
    yield model(b'(' * depth + b'a' + b')' * (depth - 1)), 14, 12 + depth + 1 + depth - 1
    yield b'<!ELEMENT a ' + b'(' * 6 * depth, 14, 12 + 6 * depth
    yield spot(model(b'(a' + b',a' * depth + b'|a)'), 14, b'|')


def made(seed, count):
    """(text, (number, offset), schema file, names), the last two None where
    refused: every limit, then about `count` random texts and damaged ones."""
    chance = random.Random(seed)

    def by_reading(text):
        try:
            reader = read_dtd(text)
        except Refused as refused:
            return text, (refused.number, refused.place), None, None
        return text, (0, 0), schema_bytes(reader), names_bytes(reader)

    for text, number, offset in limits():
        found = by_reading(text)
        assert found[1] == (number, offset)
        yield found
    while count > 0:
        text, file, names = sound(chance)
        assert by_reading(text) == (text, (0, 0), file, names)
        yield text, (0, 0), file, names
        bad = [misled(chance) for _ in range(5)]
        if len(text) < 400 and chance.random() < 0.2:
            bad += damages(chance, text)
        for text in bad:
            yield by_reading(text)
        count -= 1 + len(bad)


# -------------------------------------------------------------- self test

SHADE = b"""<!-- The small shade -->
<!ELEMENT shade (panel+, use*)>
<!ATTLIST shade title CDATA #REQUIRED>
<!ELEMENT panel (row*)><!ATTLIST panel id ID #REQUIRED>
<!ELEMENT row (#PCDATA)>
<!ELEMENT use EMPTY>
<!ATTLIST use of IDREF #REQUIRED>
"""


def self_test():
    import reference
    done = [0]

    def same(got, wanted, about=''):
        done[0] += 1
        if got != wanted:
            raise SystemExit('self test %d: got %r, wanted %r %r' % (done[0], got, wanted, about))

    def taken(text, numbers, names=None):
        file = file_of(numbers)
        same(import_spot(text), (0, 0), text)
        same(import_dtd(text, [7] * (len(file) + 2)), (0, len(file), file + [7, 7]), text)
        same(import_dtd(text, [7] * len(file)), (0, len(file), file), text)
        same(import_dtd(text, [7] * (len(file) - 1)), (5, 0, [7] * (len(file) - 1)), text)
        if names is not None:
            same(dtd_names(text, [7] * (len(names) + 1)), (0, len(names), list(names) + [7]), text)
            same(dtd_names(text, [7] * (len(names) - 1)), (5, 0, [7] * (len(names) - 1)), text)

    def refused(text, number, offset):
        same(import_spot(text), (number, offset), text)
        same(import_dtd(text, [7] * 99), (number, 0, [7] * 99), text)
        same(import_dtd(text, []), (number, 0, []), text)
        same(dtd_names(text, [7] * 99), (number, 0, [7] * 99), text)

    def at_mark(text, number=14):
        """The spot is where the mark stands."""
        refused(text.replace('§', '').encode(), number, len(text[:text.index('§')].encode()))

    taken(SHADE, reference.SHADE, b'shade\npanel\nrow\nuse\ntitle\nid\nof\n')

    # what it is turned into
    a = b'<!ELEMENT a '
    taken(a + b'EMPTY>', [1, 0, 0, 0], b'a\n')
    taken(a + b'( #PCDATA )>', [1, 0, 1, 0])
    for model, symbols in ((b'(a,a,a)', [0, 5, 0, 5, 5]), (b'(a|a|a|a)', [1, 5, 1, 5, 1, 5, 5]), (b'((a?)?)', [2, 2, 5]),
                           (b'((((a))))', [5]), (b'((a,a),a)', [0, 0, 5, 5, 5]), (b'((a,a)*|a+)?', [2, 1, 3, 0, 5, 5, 4, 5])):
        taken(a + model + b'>', [1, 0, 2, len(symbols)] + symbols + [0])
    taken(b'<!ATTLIST b y ID #IMPLIED x CDATA #REQUIRED><!ELEMENT a (b|a)><!ATTLIST a z IDREFS #IMPLIED x ID #REQUIRED>'
          b'<!ELEMENT b EMPTY><!ATTLIST b><!ATTLIST b z IDREF #IMPLIED>',
          [2, 0, 2, 3, 1, 6, 5, 2, 1, 1, 0, 2, 3, 1, 0, 3, 0, 1, 1, 1, 0, 0, 2, 2, 1], b'a\nb\ny\nx\nz\n')
    taken(b'<!ELEMENT EMPTY (EMPTY?)><!ATTLIST EMPTY ID ID #REQUIRED CDATA CDATA #IMPLIED>',
          [1, 0, 2, 2, 2, 5, 2, 0, 1, 0, 1, 0, 1])
    taken(b'<!--->--><!---->' + a + b'EMPTY>', [1, 0, 0, 0])

    # outside the subset, at the mark
    for text in ('(a) §*>', '(a §*)>', '(a, a §| a)>', '(a §a)>', '(a,§)>', '(§)>', '(a,§,a)>', '((a)§', '§ANY>', 'EMPTY§X>', 'EMP§>',
                 '(#PCDATA)§*>', '(#PCDATA§|a)*>', '(a|§#PCDATA)>', '((§#PCDATA))>', '(#PCDAT§a)>', '(a)?§?>', '(a)§<!-- -->>',
                 '(a, §<!-- -->a)>', '(§%x;)>', '(§9)>', '(a§é)>', '(a)§', 'EMPTY §', 'EMPT§', '§empty>', '(a*§*)>', '(a)*§*>', '§a>'):
        at_mark('<!ELEMENT a ' + text)
    for text in ('§\ufeff<!ELEMENT a EMPTY>', '<§?xml version="1.0"?>', '<!E§NTITY x "y">', '<!§NOTATION n SYSTEM "y">', '<!§[INCLUDE[]]>',
                 '§%x;', '<!ELEMENT§>', '<!§element a EMPTY>', '<§ !ELEMENT a EMPTY>', '<!ELEMENT§<!-- --> a EMPTY>', '<!ELEMENT a§(b)>',
                 '<!ELEMENT a§', '<!ELEMENT §', '<!ELEM§', '§', ' <!-- -->§', '<!ATTLIST a x CDATA #IMPLIED>§', '<!ELEMENT §-a EMPTY>'):
        at_mark(text)
    for text in ('x ID§#REQUIRED', 'x §NMTOKEN #IMPLIED', 'x §(a|b) #IMPLIED', 'x CDATA §"y"', 'x CDATA #§FIXED "y"', 'x ID§X #IMPLIED',
                 'x CDATA #IMPLIED§y CDATA', 'x CDATA #IMPLIED§X', 'x IDREFS§S #IMPLIED', 'x IDRE§ #IMPLIED', 'x CDATA§>', 'x§>',
                 'x CDATA §>', 'x CDATA #IMPLIED §"y"', 'x CDATA #IMPLIED §x ID', 'x §EN', 'x ID§', '§#IMPLIED'):
        at_mark('<!ATTLIST a ' + text)
    for text in ('--§x-->', '--§->', 'a--§ -->', '-§', '§', 'a\x7f§\x0b-->', '§\x00', '-§\x1f', '-->§', '->§'):
        at_mark('<!--' + text)
    for good in (b'\xc2\x80', b'\xdf\xbf', b'\xe0\xa0\x80', b'\xed\x9f\xbf', b'\xee\x80\x80', b'\xef\xbf\xbd', b'\xf0\x90\x80\x80', b'\xf4\x8f\xbf\xbf'):
        taken(b'<!--' + good + b'-->' + a + b'EMPTY>', [1, 0, 0, 0])
        for length in range(1, len(good)):
            refused(b'<!--' + good[:length], 14, 4 + length)
            refused(b'<!--' + good[:length] + b'-->', 14, 4 + length)
    for bad, at in ((b'\x80', 0), (b'\xc0\x80', 0), (b'\xc1', 0), (b'\xe0\x9f\x80', 1), (b'\xed\xa0\x80', 1), (b'\xef\xbf\xbf', 2),
                    (b'\xf0\x8f\x80\x80', 1), (b'\xf4\x90\x80\x80', 1), (b'\xf5', 0), (b'\xff', 0), (b'\xc3\xc3', 1), (b'\xe1\x80a', 2)):
        refused(b'<!--' + bad + b'-->' + a + b'EMPTY>', 14, 4 + at)

    # names and limits
    at_mark('<!ELEMENT a EMPTY><!ELEMENT §a EMPTY>')
    at_mark('<!ELEMENT a EMPTY><!ELEMENT §a')
    at_mark('<!ELEMENT a EMPTY><!ATTLIST a x ID #IMPLIED §x CDATA #IMPLIED>')
    at_mark('<!ATTLIST a x ID #IMPLIED><!ATTLIST b x ID #IMPLIED><!ATTLIST a §x')
    at_mark('<!ELEMENT a (a,§b,c)><!ATTLIST d>')
    at_mark('<!ATTLIST §d><!ELEMENT a (a,b,c)><!ELEMENT b EMPTY>')
    at_mark('<!ATTLIST a x ID #IMPLIED><!ATTLIST a y §ID #REQUIRED>', 2)
    at_mark('<!ATTLIST a x ID #IMPLIED><!ATTLIST a y §ID>', 2)
    at_mark('<!ATTLIST a x ID #IMPLIED><!ATTLIST a y ID§X #REQUIRED>')
    at_mark('<!ATTLIST a x ID #IMPLIED><!ATTLIST a y IDREF #REQUIRED>§')
    for text, number, offset in limits():
        same(import_spot(text), (number, offset), text[:60])

    # what was made is what is read; the translator refuses no file but as ambiguous
    answers = {}
    chance = random.Random(4)
    for text, spot, file, names in made(3, 8000):
        answers[spot[0]] = answers.get(spot[0], 0) + 1
        if spot[0] == 0:
            same(import_dtd(text, [7] * len(file)), (0, len(file), file), text)
            same(dtd_names(text, [7] * (len(names) + 3)), (0, len(names), names + [7] * 3), text)
            if len(text) < 2000:
                try:
                    same(len(schema_of(file).elements), file[0])
                except Refused as by_schema:
                    same(by_schema.number, 3, text)
        elif len(text) < 2000:
            # a fault that is met stays, whatever is put behind the byte at which it is met
            reader = Reader(text)
            try:
                reader.declarations()
            except Refused:
                if reader.at < len(text):
                    same(import_spot(text[:reader.at + 1] + chance.choice((b'', b'>', b'a', b')', b'\n', SHADE))), spot, text)
    same(sorted(answers), [0, 2, 14])
    print('self test: %d comparisons, all equal; answers %s' % (done[0], answers))


if __name__ == '__main__':
    argparse.ArgumentParser(description=__doc__, formatter_class=argparse.RawDescriptionHelpFormatter).parse_args()
    self_test()
