#!/usr/bin/env python3
"""A second program for the paper "What is to be built", written from the paper alone.

Everything is done on trees: a content model is an expression tree, a document
is a tree of elements, an edit changes the tree, and the tree is judged.

Run as a program, it does its self test.
"""

import argparse
import sys

sys.setrecursionlimit(20000)

TOKENS = 8192            # most tokens of a document or a piece
LARGEST = 2097151        # largest number of a file
DEPTH = 64               # most elements inside one another
TABLE = 6675             # numbers of a table
BLOCK = 138              # numbers of one element in a table
FIXED = 2 + 48 * BLOCK   # where a table has the count of its fixed attributes, and their entries after it
MOST_FIXED = 16          # fixed attributes of a schema
FILE = 65536             # most bytes of a file of the edit program
SEQUENCE = 4290          # fewest places for a lost sequence
BACK = 3 + TOKENS        # most numbers of an edit that takes another one back
EDITS = 256              # most edits of a list
NAMES = 48               # counts of elements kept beside a document

START, END, TEXT, ATTRIBUTE, VALUE = 1, 2, 3, 4, 5
CDATA, ID, IDREF, IDREFS = 0, 1, 2, 3


class Refused(Exception):
    """An answer other than 0."""

    def __init__(self, number, place=0):
        Exception.__init__(self, number, place)
        self.number = number
        self.place = place


# ---------------------------------------------------------------- numbers

class Source:
    """A file of seven-bit groups, read from the front."""

    def __init__(self, file):
        self.file = file
        self.at = 0

    def ended(self):
        return self.at >= len(self.file)

    def next(self):
        number = 0
        for group in range(3):
            if self.ended():
                raise Refused(1)
            byte = self.file[self.at]
            self.at += 1
            number += (byte % 128) << (7 * group)
            if byte < 128:
                if byte == 0 and group > 0:
                    raise Refused(1)
                return number
        raise Refused(1)         # the third byte calls for a fourth


def groups(number):
    """The bytes of one number, shortest form."""
    out = []
    while number >= 128:
        out.append(128 + number % 128)
        number //= 128
    out.append(number)
    return out


def read(file, buffer):
    """(number, count of tokens, buffer after)"""
    source = Source(file)
    after = list(buffer)
    count = 0
    try:
        while not source.ended():
            token = source.next()
            if count >= len(buffer) or count >= TOKENS:
                raise Refused(5)
            after[count] = token
            count += 1
    except Refused as refused:
        return refused.number, 0, list(buffer)
    return 0, count, after


def write(tokens, buffer):
    """(number, count of bytes, buffer after)"""
    if len(tokens) > TOKENS:
        return 5, 0, list(buffer)
    if any(token > LARGEST for token in tokens):
        return 4, 0, list(buffer)
    out = [byte for token in tokens for byte in groups(token)]
    if len(out) > len(buffer):
        return 5, 0, list(buffer)
    return 0, len(out), out + list(buffer[len(out):])


# ------------------------------------------------------------ expressions

class Name:
    """One occurrence of an element's name."""

    def __init__(self, name, occurrence):
        self.name = name
        self.occurrence = occurrence
        self.empty = False


class Sequence:
    def __init__(self, left, right):
        self.left = left
        self.right = right
        self.empty = left.empty and right.empty


class Choice:
    def __init__(self, left, right):
        self.left = left
        self.right = right
        self.empty = left.empty or right.empty


class Optional:
    def __init__(self, part):
        self.part = part
        self.empty = True


class Star:
    def __init__(self, part):
        self.part = part
        self.empty = True


class Plus:
    def __init__(self, part):
        self.part = part
        self.more = Star(part)
        self.empty = part.empty


def expression(symbols):
    """The tree of exactly one expression, operators first, and its names;
    None if the symbols are no such thing."""
    names = []

    def part(at):
        if at >= len(symbols):
            return None
        symbol = symbols[at]
        if symbol >= 5:
            name = Name(symbol - 5, len(names))
            names.append(name)
            return name, at + 1
        one = part(at + 1)
        if one is None:
            return None
        if symbol in (0, 1):
            two = part(one[1])
            if two is None:
                return None
            return (Sequence, Choice)[symbol](one[0], two[0]), two[1]
        return (None, None, Optional, Star, Plus)[symbol](one[0]), one[1]

    whole = part(0)
    if whole is None or whole[1] != len(symbols):
        return None
    return whole[0], names


class Model:
    """A content model. What is still to be matched is a tuple of expressions,
    one after another. A step takes one name occurrence and leaves the rest."""

    def __init__(self, tree, names):
        self.tree = tree
        self.names = names
        self.known = {}
        self.hope = {}

    def steps(self, rest):
        """All (occurrence, rest after it) that can come next."""
        if rest in self.known:
            return self.known[rest]
        found = []

        def add(step):
            if step not in found:
                found.append(step)

        def begin(tree, after):
            if isinstance(tree, Name):
                add((tree, after))
            elif isinstance(tree, Sequence):
                begin(tree.left, (tree.right,) + after)
                if tree.left.empty:
                    begin(tree.right, after)
            elif isinstance(tree, Choice):
                begin(tree.left, after)
                begin(tree.right, after)
            elif isinstance(tree, Optional):
                begin(tree.part, after)
            elif isinstance(tree, Star):
                begin(tree.part, (tree,) + after)
            else:
                begin(tree.part, (tree.more,) + after)

        for k, tree in enumerate(rest):
            begin(tree, rest[k + 1:])
            if not tree.empty:
                break
        self.known[rest] = found
        return found

    @staticmethod
    def full(rests):
        """Whether nothing more need follow one of the rests."""
        return any(all(tree.empty for tree in rest) for rest in rests)

    def begin(self):
        """The rests of the empty run."""
        return frozenset([(self.tree,)])

    def next(self, rests):
        """{occurrence: rests after it}"""
        found = {}
        for rest in rests:
            for occurrence, after in self.steps(rest):
                found.setdefault(occurrence, set()).add(after)
        return {occurrence: frozenset(after) for occurrence, after in found.items()}

    def runs(self):
        """Every (last occurrence, rests) that a run of occurrences leaves;
        the last occurrence of the empty run is None."""
        seen = {(None, self.begin())}
        queue = [(None, self.begin())]
        for _, rests in queue:
            for step in self.next(rests).items():
                if step not in seen:
                    seen.add(step)
                    queue.append(step)
        return queue

    def hopeful(self):
        """The rests from which a full match can be reached."""
        runs = [rests for _, rests in self.runs()]
        good = {rests for rests in runs if self.full(rests)}
        growing = True
        while growing:
            growing = False
            for rests in runs:
                if rests not in good and any(r in good for r in self.next(rests).values()):
                    good.add(rests)
                    growing = True
        return good

    def hopes(self, rests):
        """Whether a full match can still be reached: what was met begins one."""
        if rests not in self.hope:
            queue = [rests]
            for one in queue:
                if self.full(one):
                    break
                queue.extend(after for after in self.next(one).values() if after not in queue)
            self.hope[rests] = self.full(one)        # the last one looked at
        return self.hope[rests]

    def ambiguous(self):
        """Some run can be continued, each time towards a full match, by two
        different occurrences of one name."""
        good = self.hopeful()
        for _, rests in self.runs():
            names = [o.name for o, after in self.next(rests).items() if after in good]
            if len(set(names)) != len(names):
                return True
        return False

    def after(self, rests, child):
        """The rests after one more name."""
        return frozenset(after for rest in rests
                         for occurrence, after in self.steps(rest)
                         if occurrence.name == child)

    def describes(self, children):
        """Whether the expression describes this sequence of names."""
        rests = self.begin()
        for child in children:
            rests = self.after(rests, child)
        return self.full(rests)


# ----------------------------------------------------------------- schema

class Declared:
    """What is declared of one element: kind, attributes
    {number: (kind, required)}, for kind 2 a model, and the values of its fixed
    attributes {number: value}."""

    def __init__(self, kind, attributes, model, fixed=None):
        self.kind = kind
        self.attributes = attributes
        self.model = model
        self.fixed = fixed or {}

    def content(self):
        return (NoChild(), OneText(), self.model)[self.kind]


class Schema:
    def __init__(self, root, elements):
        self.root = root
        self.elements = elements


def _value(source, low, high):
    number = source.next()
    if not low <= number <= high:
        raise Refused(2)
    return number


def schema_of(file):
    """The schema of a file; raises Refused."""
    source = Source(file)
    count = _value(source, 1, 48)
    root = _value(source, 0, count - 1)
    elements = []
    for _ in range(count):
        kind = _value(source, 0, 2)
        model = None
        if kind == 2:
            symbols = []
            for _ in range(_value(source, 1, 255)):
                symbols.append(_value(source, 0, 4 + count))
            parsed = expression(symbols)
            if parsed is None or len(parsed[1]) > 64:
                raise Refused(2)
            model = Model(*parsed)
            if model.ambiguous():
                raise Refused(3)
        attributes = {}
        fixed = {}
        lowest = 0
        for _ in range(_value(source, 0, 64)):
            number = _value(source, lowest, 63)
            lowest = number + 1
            attribute = _value(source, 0, 3)
            if attribute == ID and ID in [k for k, _ in attributes.values()]:
                raise Refused(2)
            status = _value(source, 0, 2)
            if status == 2:              # item 8
                earlier = sum(len(element.fixed) for element in elements) + len(fixed)
                if attribute != CDATA or earlier == MOST_FIXED:
                    raise Refused(2)
                fixed[number] = _value(source, 0, 65535)
            attributes[number] = (attribute, status == 0)
        elements.append(Declared(kind, attributes, model, fixed))
    if not source.ended():
        raise Refused(2)
    return Schema(root, elements)


def _bits(members):
    return sum(1 << member for member in set(members))


def table_of(schema):
    table = [len(schema.elements), schema.root]
    for element in schema.elements:
        given = element.attributes.items()
        block = [element.kind,
                 _bits(a for a, _ in given),
                 _bits(a for a, (_, required) in given if required)]
        for wanted in (ID, IDREF, IDREFS):
            block.append(_bits(a for a, (kind, _) in given if kind == wanted))
        if element.kind == 2:
            model = element.model
            follow = {name.occurrence: set() for name in model.names}
            first, last = set(), set()
            for before, rests in model.runs():
                following = {name.occurrence for name in model.next(rests)}
                if before is None:
                    first |= following
                else:
                    follow[before.occurrence] |= following
                    if model.full(rests):
                        last.add(before.occurrence)
            n = len(model.names)
            block += [n, int(model.full(model.begin())), _bits(first), _bits(last)]
            block += [name.name for name in model.names] + [0] * (64 - n)
            block += [_bits(follow[k]) for k in range(n)] + [0] * (64 - n)
        table += block + [0] * (BLOCK - len(block))
    table += [0] * (FIXED - len(table))
    entries = [(e, number, value) for e, element in enumerate(schema.elements)
               for number, value in sorted(element.fixed.items())]
    table += [len(entries)] + [part for entry in entries for part in entry]
    return table + [0] * (TABLE - len(table))


def translate(file, table):
    """(number, table after)"""
    if len(table) != TABLE:
        return 13, list(table)
    try:
        return 0, table_of(schema_of(file))
    except Refused as refused:
        return refused.number, list(table)


# ------------------------------------------------------------------ table

def _members(bits):
    return {k for k in range(bits.bit_length()) if bits >> k & 1}


class Block:
    """The parts of one block of a table."""

    def __init__(self, numbers):
        self.kind = numbers[0]
        self.allowed, self.required, self.id, self.idref, self.idrefs = map(_members, numbers[1:6])
        self.rest = numbers[6:]
        self.n, self.none = numbers[6:8]
        self.first, self.last = map(_members, numbers[8:10])
        self.names = numbers[10:74]
        self.follow = [_members(bits) for bits in numbers[74:138]]


def _blocks(table):
    return [table[at:at + BLOCK] for at in range(2, FIXED, BLOCK)]


def _entries(table):
    """The entries of fixed attributes: element, attribute, value."""
    return [tuple(table[at:at + 3]) for at in range(FIXED + 1, TABLE, 3)]


def proper(table):
    if len(table) != TABLE or any(number >= 1 << 64 for number in table):
        return False
    count, root = table[0], table[1]
    if not 1 <= count <= 48 or root >= count:
        return False
    blocks = _blocks(table)
    if any(any(numbers) for numbers in blocks[count:]):
        return False
    return all(_proper_block(Block(numbers), count) for numbers in blocks[:count]) and _proper_fixed(table)


def _proper_fixed(table):
    """Item 8, of a table whose blocks are proper."""
    count = table[FIXED]
    if count > MOST_FIXED:
        return False
    used, unused = _entries(table)[:count], _entries(table)[count:]
    if any(map(any, unused)):
        return False
    named = [entry[:2] for entry in used]
    if named != sorted(set(named)):
        return False
    for element, attribute, value in used:
        if element >= table[0] or value > 65535:
            return False
        block = Block(_blocks(table)[element])
        if attribute not in block.allowed - block.required - block.id - block.idref - block.idrefs:
            return False
    return True


def _proper_block(block, count):
    if block.kind > 2:
        return False
    for part in (block.required, block.id, block.idref, block.idrefs):
        if not part <= block.allowed:
            return False
    if block.id & block.idref or block.id & block.idrefs or block.idref & block.idrefs:
        return False
    if len(block.id) > 1:
        return False
    if block.kind != 2:
        return not any(block.rest)
    n = block.n
    if not 1 <= n <= 64 or block.none > 1:
        return False
    if any(block.names[n:]) or any(block.follow[n:]):
        return False
    if any(name >= count for name in block.names[:n]):
        return False
    lowest = set(range(n))
    if not block.last <= lowest:
        return False
    for chosen in [block.first] + block.follow[:n]:
        if not chosen <= lowest:
            return False
        if len({block.names[k] for k in chosen}) != len(chosen):
            return False
    return True


class Run:
    """The model of a table: begin in first, move by follow, end in last, or
    by the no-child flag."""

    def __init__(self, block):
        self.block = block

    def begin(self):
        """Where the empty run stands; other runs stand at occurrences."""
        return frozenset([None])

    def after(self, standing, child):
        """Where a run stands after one more name; nowhere, if it cannot go on."""
        block = self.block
        return frozenset(k for s in standing for k in (block.first if s is None else block.follow[s])
                         if block.names[k] == child)

    def full(self, standing):
        """Whether the run may end."""
        return any(self.block.none == 1 if s is None else s in self.block.last for s in standing)

    def hopes(self, standing):
        """Whether there was a next occurrence; not whether the run can ever end."""
        return bool(standing)

    def describes(self, children):
        standing = self.begin()
        for child in children:
            standing = self.after(standing, child)
        return self.full(standing)


class NoChild:
    """EMPTY takes the empty sequence alone."""

    def begin(self):
        return frozenset([()])

    def after(self, rests, child):
        return frozenset()

    def full(self, rests):
        return bool(rests)

    hopes = full


class OneText:
    """Text only: no text or one, None standing for a text."""

    def begin(self):
        return frozenset([(None,), ()])

    def after(self, rests, child):
        return frozenset(rest[1:] for rest in rests if rest[:1] == (child,))

    def full(self, rests):
        return () in rests

    hopes = full


def rules_of(table):
    """A proper table in the form of a schema."""
    elements = []
    for numbers in _blocks(table)[:table[0]]:
        block = Block(numbers)
        attributes = {}
        for number in block.allowed:
            kind = (ID if number in block.id else IDREF if number in block.idref
                    else IDREFS if number in block.idrefs else CDATA)
            attributes[number] = (kind, number in block.required)
        elements.append(Declared(block.kind, attributes, Run(block) if block.kind == 2 else None))
    for element, attribute, value in _entries(table)[:table[FIXED]]:
        elements[element].fixed[attribute] = value
    return Schema(table[1], elements)


# --------------------------------------------------------------- document

class Text:
    def __init__(self, number):
        self.number = number
        self.parent = None
        self.place = None


class Element:
    def __init__(self, name):
        self.name = name
        self.attributes = {}         # number: list of value numbers
        self.values = []             # (attribute, value, place), set by `lay`
        self.children = []
        self.parent = None
        self.place = None            # of the start, set by `lay`
        self.end = None              # place of the end, set by `lay`

    def height(self):
        return 1 + max([c.height() for c in self.children if isinstance(c, Element)], default=0)

    def elements(self):
        """This element and all inside it, by rising start place."""
        yield self
        for child in self.children:
            if isinstance(child, Element):
                yield from child.elements()


def well_made(token):
    number, sort = divmod(token, 8)
    return number <= 65535 and sort in (START, END, TEXT, ATTRIBUTE, VALUE) and \
        (sort != END or number == 0)


def tree_of(tokens):
    """The tree of a document that has shape, else None."""
    if not 2 <= len(tokens) <= TOKENS or not all(map(well_made, tokens)):
        return None
    root = None
    open_ones = []
    attribute = None      # values of the attribute being read
    head = False          # attributes may still come
    for token in tokens:
        number, sort = divmod(token, 8)
        if root is not None and not open_ones:
            return None   # a token after the root's end
        if not open_ones and sort != START:
            return None
        if attribute == [] and sort != VALUE:
            return None   # an attribute without a value
        if sort == VALUE:
            if attribute is None:
                return None
            attribute.append(number)
            continue
        attribute = None
        if sort == ATTRIBUTE:
            given = open_ones[-1].attributes
            if not head or any(earlier >= number for earlier in given):
                return None
            attribute = given[number] = []
            continue
        head = False
        if sort == START:
            element = Element(number)
            if open_ones:
                adopt(open_ones[-1], len(open_ones[-1].children), element)
            else:
                root = element
            open_ones.append(element)
            if len(open_ones) > DEPTH:
                return None
            head = True
        elif sort == TEXT:
            adopt(open_ones[-1], len(open_ones[-1].children), Text(number))
        else:
            open_ones.pop()
    return root if not open_ones else None


def adopt(parent, index, child):
    parent.children.insert(index, child)
    child.parent = parent


def lay(root):
    """The tokens of a tree; every part is told its place."""
    tokens = []

    def lay_part(part):
        part.place = len(tokens)
        if isinstance(part, Text):
            tokens.append(8 * part.number + TEXT)
            return
        tokens.append(8 * part.name + START)
        part.values = []
        for number in sorted(part.attributes):
            tokens.append(8 * number + ATTRIBUTE)
            for value in part.attributes[number]:
                part.values.append((number, value, len(tokens)))
                tokens.append(8 * value + VALUE)
        for child in part.children:
            lay_part(child)
        part.end = len(tokens)
        tokens.append(END)

    lay_part(root)
    return tokens


def document(buffer, used):
    """The tree of the used part of a buffer; raises Refused."""
    if used > len(buffer):
        raise Refused(4)
    root = tree_of(buffer[:used])
    if root is None:
        raise Refused(4)
    return root


def judge(rules, root, touched=None):
    """Judges a tree that has been laid; raises Refused. Names, attributes and
    content are asked of the touched elements, of all if `touched` is None."""
    if root.name != rules.root:
        raise Refused(10, 0)
    chosen = None if touched is None else set(touched)
    for element in root.elements():
        if chosen is None or element in chosen:
            judge_element(rules, element)
    marked = []
    for element in root.elements():
        if element.name < len(rules.elements):
            declared = rules.elements[element.name].attributes
            for attribute, value, place in element.values:
                if attribute in declared:
                    marked.append((place, declared[attribute][0], value))
    ids = set()
    for place, kind, value in marked:
        if kind == ID:
            if value in ids:
                raise Refused(11, place)
            ids.add(value)
    for place, kind, value in marked:
        if kind in (IDREF, IDREFS) and value not in ids:
            raise Refused(12, place)


def judge_element(rules, element):
    if element.name >= len(rules.elements):
        raise Refused(7, element.place)
    declared = rules.elements[element.name]
    for number, values in element.attributes.items():
        if number not in declared.attributes:
            raise Refused(8, element.place)
        if len(values) != 1 and declared.attributes[number][0] != IDREFS:
            raise Refused(8, element.place)
        if number in declared.fixed and values != [declared.fixed[number]]:
            raise Refused(8, element.place)
    for number, (_, required) in declared.attributes.items():
        if required and number not in element.attributes:
            raise Refused(8, element.place)
    # item 3: the first child or text at which no valid content can begin that
    # way, or the end token
    content = declared.content()
    rests = content.begin()
    for child in element.children:
        rests = content.after(rests, child.name if isinstance(child, Element) else None)
        if not content.hopes(rests):
            raise Refused(9, child.place)
    if not content.full(rests):
        raise Refused(9, element.end)


def check_by_schema(schema, buffer, used):
    """(number, place)"""
    try:
        root = document(buffer, used)
        lay(root)
        judge(schema, root)
    except Refused as refused:
        return refused.number, refused.place
    return 0, 0


def check(table, buffer, used):
    """(number, place)"""
    if not proper(table):
        return 13, 0
    return check_by_schema(rules_of(table), buffer, used)


# ----------------------------------------------------------------- counts

def starts(tokens, schema):
    """How many elements of each name below E start in these tokens: 48 counts."""
    out = [0] * NAMES
    for token in tokens:
        if token % 8 == START and token // 8 < len(schema.elements):
            out[token // 8] += 1
    return out


def in_range(counts):
    return all(0 <= count <= TOKENS for count in counts)


def check_counts_by_schema(schema, buffer, used, counts):
    """(number, place, counts after): a check that says valid writes them (item 7)."""
    number, place = check_by_schema(schema, buffer, used)
    return number, place, list(counts) if number else starts(buffer[:used], schema)


def check_counts(table, buffer, used, counts):
    """(number, place, counts after)"""
    if not proper(table):
        return 13, 0, list(counts)
    return check_counts_by_schema(rules_of(table), buffer, used, counts)


def elements(table, counts, name):
    """(number, how many elements have this name)"""
    if not proper(table):
        return 13, 0
    if not in_range(counts):
        return 15, 0
    return 0, counts[name] if name < table[0] else 0


# ------------------------------------------------------------------ edits

def piece_of(operation, piece):
    """The piece as a part or as an attribute; raises Refused."""
    if len(piece) > TOKENS:
        raise Refused(4)
    if operation == 2:
        if piece:
            raise Refused(4)
        return None
    if operation in (1, 3):
        if len(piece) == 1 and well_made(piece[0]) and piece[0] % 8 == TEXT:
            return Text(piece[0] // 8)
        part = tree_of(piece)
        if part is None:
            raise Refused(4)
        return part
    sorts = [token % 8 for token in piece]
    if not all(map(well_made, piece)) or sorts[:1] != [ATTRIBUTE]:
        raise Refused(4)
    if operation == 4:
        if len(piece) < 2 or any(sort != VALUE for sort in sorts[1:]):
            raise Refused(4)
    elif len(piece) != 1:
        raise Refused(4)
    return piece[0] // 8, [token // 8 for token in piece[1:]]


def find(root, place):
    """What stands at a place: (START, element), (TEXT, text), (END, element)
    or None."""
    queue = [root]
    while queue:
        part = queue.pop()
        if isinstance(part, Text):
            if part.place == place:
                return TEXT, part
        else:
            if part.place == place:
                return START, part
            if part.end == place:
                return END, part
            if part.place < place < part.end:
                queue.extend(part.children)
    return None


def changed(root, operation, place, given):
    """The tree after an edit, the touched parent (or the element that is set or
    dropped; None for a replaced root), the elements of the piece, and operation
    and piece of the edit that takes it back; raises Refused."""
    before = lay(root)
    spot = find(root, place)
    if spot is None:
        raise Refused(6)
    sort, there = spot
    new_ones = list(given.elements()) if isinstance(given, Element) else []
    old = before[place:(there.end if sort == START else place) + 1]        # the whole element, or the text
    if operation == 1:
        if place == 0:
            raise Refused(6)
        if sort == END:
            parent, index = there, len(there.children)
        else:
            parent, index = there.parent, there.parent.children.index(there)
        adopt(parent, index, given)
        return root, parent, new_ones, (2, [])
    if operation == 2:
        if sort == END or place == 0:
            raise Refused(6)
        there.parent.children.remove(there)
        return root, there.parent, [], (1, old)
    if operation == 3:
        if sort == END:
            raise Refused(6)
        if place == 0:
            if isinstance(given, Text):
                raise Refused(6)
            return given, None, new_ones, (3, old)
        parent = there.parent
        index = parent.children.index(there)
        parent.children.remove(there)
        adopt(parent, index, given)
        return root, parent, new_ones, (3, old)
    if sort != START:
        raise Refused(6)
    number, values = given
    token = 8 * number + ATTRIBUTE
    if number in there.attributes:
        back = 4, [token] + [8 * value + VALUE for value in there.attributes[number]]
    elif operation == 4:
        back = 5, [token]
    else:
        raise Refused(6)
    if operation == 4:
        there.attributes[number] = values
    else:
        del there.attributes[number]
    return root, there, [], back


def edit_by_schema(schema, buffer, used, operation, place, piece, second, counts):
    """(number, place, used after, change, children looked at, buffer after,
    second buffer after, counts after)"""
    try:
        root = document(buffer, used)
        if not 1 <= operation <= 5:
            raise Refused(6)
        given = piece_of(operation, piece)
        root, parent, new_ones, (other, old) = changed(root, operation, place, given)
        tokens = lay(root)
        if len(tokens) > TOKENS or len(tokens) > len(buffer) or root.height() > DEPTH:
            raise Refused(5)
        inverse = [other, place, len(old)] + old        # item 2
        if len(second) < len(inverse):
            raise Refused(5)
        # item 7: what comes less what goes, of names below E
        comes, goes = starts(piece, schema), starts(old, schema)
        moved = [count + more - less for count, more, less in zip(counts, comes, goes)]
        if not in_range(moved):
            raise Refused(15)
        judge(schema, root, new_ones if parent is None else [parent] + new_ones)
    except Refused as refused:
        return refused.number, refused.place, used, 0, 0, list(buffer), list(second), list(counts)
    length = len(tokens)
    after = tokens + [0] * (used - length) + list(buffer[max(used, length):])
    # item 10: those of the touched parent, plus those of every element in the piece
    children = (0 if parent is None else len(parent.children)) + sum(len(one.children) for one in new_ones)
    return 0, 0, length, length - used, children, after, inverse + list(second[len(inverse):]), moved


def edit(table, buffer, used, operation, place, piece, second, counts):
    """(number, place, used after, change, children looked at, buffer after,
    second buffer after, counts after)"""
    if not proper(table):
        return 13, 0, used, 0, 0, list(buffer), list(second), list(counts)
    return edit_by_schema(rules_of(table), buffer, used, operation, place, piece, second, counts)


def needed(buffer, used, operation, place, piece):
    """How many places of the second buffer an edit needs; None if it is refused
    before its result is looked at."""
    try:
        return 3 + len(changed(document(buffer, used), operation, place, piece_of(operation, piece))[3][1])
    except Refused:
        return None


def stepping_back(second):
    """Operation, place and piece of the edit that stands in a second buffer."""
    return second[0], second[1], second[3:3 + second[2]]


# ------------------------------------------------------------------ lists

def edits_of(numbers):
    """The edits of a list (item 6), each operation, place and piece; raises
    Refused at its first fault from the front."""
    if not numbers:
        raise Refused(4)
    out, at = [], 0
    while at < len(numbers):
        if len(out) == EDITS:
            raise Refused(5)         # one more is begun
        head, at = numbers[at:at + 3], at + 3
        if len(head) < 3 or head[2] > len(numbers) - at:
            raise Refused(4)         # ends inside this one
        out.append((head[0], head[1], list(numbers[at:at + head[2]])))
        at += head[2]
    return out


def list_numbers(edits):
    return [number for operation, place, piece in edits for number in [operation, place, len(piece)] + piece]


def list_by_schema(schema, buffer, used, numbers, counts):
    """(number, place, used after, change, children looked at, edits done,
    buffer after, counts after). The first five are the last answer."""
    last, done, after, counts = (0, 0, used, 0, 0), 0, list(buffer), list(counts)
    try:
        edits = edits_of(numbers)
    except Refused as refused:
        return refused.number, 0, used, 0, 0, 0, after, counts
    for one in edits:
        *last, after, _, counts = edit_by_schema(schema, after, last[2], *one, [0] * BACK, counts)
        if last[0]:
            break
        done += 1
    return tuple(last) + (done, after, counts)


def list_edit(table, buffer, used, numbers, counts):
    """(number, place, used after, change, children looked at, edits done,
    buffer after, counts after)"""
    if proper(table):
        return list_by_schema(rules_of(table), buffer, used, numbers, counts)
    try:
        number = edit(table, buffer, used, *edits_of(numbers)[0], [0] * BACK, counts)[0]
    except Refused as refused:
        number = refused.number
    return number, 0, used, 0, 0, 0, list(buffer), list(counts)


# ----------------------------------------------------------------- groups

def stepped(tokens, room, operation, place, piece):
    """The document after an edit that is in form, whatever it leaves; raises
    Refused. Its place and its size are tested, the latter against so much room."""
    if not 1 <= operation <= 5:
        raise Refused(6)
    given = piece_of(operation, piece)
    root = changed(tree_of(tokens), operation, place, given)[0]
    after = lay(root)
    if len(after) > TOKENS or len(after) > room or root.height() > DEPTH:
        raise Refused(5)
    return after


def group_by_schema(schema, buffer, used, numbers, second):
    """(number, place, used after, change, which edit, buffer after, second
    buffer after)"""
    which, longest, last = 0, 0, []

    def worked():
        """The second buffer: the last document, 0 as far as the longest went."""
        return last + [0] * (longest - len(last)) + list(second[longest:])

    try:
        document(buffer, used)
        edits = edits_of(numbers)
        if len(second) < len(buffer):
            raise Refused(5)
        last, longest = list(buffer[:used]), used
        for which, one in enumerate(edits, 1):
            last = stepped(last, len(buffer), *one)
            longest = max(longest, len(last))
        which = 0
        number, place = check_by_schema(schema, last, len(last))
        if number:
            raise Refused(number, place)
    except Refused as refused:
        return refused.number, refused.place, used, 0, which, list(buffer), worked()
    after = last + [0] * (used - len(last)) + list(buffer[max(used, len(last)):])
    return 0, 0, len(last), len(last) - used, 0, after, worked()


def group_edit(table, buffer, used, numbers, second):
    """(number, place, used after, change, which edit, buffer after, second
    buffer after)"""
    if not proper(table):
        return 13, 0, used, 0, 0, list(buffer), list(second)
    return group_by_schema(rules_of(table), buffer, used, numbers, second)


# ---------------------------------------------------------------- compare

def lost(old, new, names):
    """The shortest sequence of names that the old content takes and the new one
    doesn't, of equals the lowest from the left; None if there is none."""
    begin = old.begin(), new.begin()
    met = {begin}
    level = {begin: ()}      # what is met with so many names and not with fewer: the lowest sequence there
    while level:
        for (one, two), sequence in level.items():
            if old.full(one) and not new.full(two):
                return sequence
        longer = {}
        for (one, two), sequence in level.items():
            for name in range(names):
                pair = old.after(one, name), new.after(two, name)
                if pair[0] and pair not in met:
                    met.add(pair)
                    longer[pair] = sequence + (name,)
        level = longer
    return None


def compare_by_schema(old, new, element, buffer):
    """(number, whether all is taken, length of the sequence, buffer after)"""
    if element >= len(old.elements) or element >= len(new.elements):
        return 6, 0, 0, list(buffer)
    declared = [schema.elements[element] for schema in (old, new)]
    if any(one.kind not in (0, 2) for one in declared):
        return 16, 0, 0, list(buffer)
    if len(buffer) < SEQUENCE:
        return 5, 0, 0, list(buffer)
    sequence = lost(declared[0].content(), declared[1].content(), len(old.elements))
    if sequence is None:
        return 0, 1, 0, list(buffer)
    return 0, 0, len(sequence), list(sequence) + list(buffer[len(sequence):])


def compare(old_table, new_table, element, buffer):
    """(number, whether all is taken, length of the sequence, buffer after)"""
    if not proper(old_table) or not proper(new_table):
        return 13, 0, 0, list(buffer)
    return compare_by_schema(rules_of(old_table), rules_of(new_table), element, buffer)


# ---------------------------------------------------------------- program

def program(schema_file, doc_file, edits_file):
    """The bytes that the edit program prints. None is a file that cannot be
    opened."""
    out = []
    try:
        run(schema_file, doc_file, edits_file, out)
    except Refused as refused:
        out.append('stop %d' % refused.number)
    return ''.join(line + '\n' for line in out).encode()


def run(schema_file, doc_file, edits_file, out):
    for file in (schema_file, doc_file, edits_file):
        if file is None or len(file) > FILE:
            raise Refused(5)
    number, table = translate(schema_file, [0] * TABLE)
    if number:
        raise Refused(number)
    number, used, buffer = read(doc_file, [0] * TOKENS)
    if number:
        raise Refused(number)
    number, place, counts = check_counts(table, buffer, used, [0] * NAMES)
    out.append('0 %d %d %d' % (number, place, used))
    if number:
        return
    source = Source(edits_file)
    line = 0
    while not source.ended():
        operation = source.next()
        place = source.next()
        count = source.next()
        if count > TOKENS:
            raise Refused(5)
        piece = [source.next() for _ in range(count)]
        number, place, used, _, _, buffer, _, counts = \
            edit(table, buffer, used, operation, place, piece, [0] * BACK, counts)
        line += 1
        out.append('%d %d %d %d' % (line, number, place, used))


# -------------------------------------------------------------- self test

def file_of(numbers):
    return [byte for number in numbers for byte in groups(number)]


SHADE = [4, 0, 2, 5, 0, 4, 6, 3, 8, 1, 0, 0, 0, 2, 2, 3, 7, 1, 1, 1, 0, 1, 0, 0, 1, 2, 2, 0]
SHADE_DOC = [1, 4, 61, 9, 12, 165, 17, 243, 2, 2, 25, 20, 165, 2, 2]


def self_test():
    import itertools
    import random

    done = [0]

    def same(got, wanted):
        done[0] += 1
        if got != wanted:
            raise SystemExit('self test %d: got %r, wanted %r' % (done[0], got, wanted))

    # numbers
    for number, form in ((0, [0]), (127, [127]), (128, [128, 1]), (LARGEST, [255, 255, 127])):
        same(groups(number), form)
        same(Source(form).next(), number)
    for broken in ([128], [128, 128], [128, 128, 128], [128, 128, 128, 1], [128, 0], [255, 255, 0]):
        same(read(broken, [7] * 3), (1, 0, [7] * 3))
    same(read([], [7]), (0, 0, [7]))
    same(read([128, 1, 5], [7] * 3), (0, 2, [128, 5, 7]))
    same(read([5, 5], [7]), (5, 0, [7]))
    same(read([5, 128, 0], [7]), (1, 0, [7]))
    same(read([5, 6, 128, 0], [7]), (5, 0, [7]))
    same(read([1] * 8193, [0] * 9000)[:2], (5, 0))
    same(read([1] * 8192, [0] * 9000)[:2], (0, 8192))
    same(write([128, 5], [7] * 4), (0, 3, [128, 1, 5, 7]))
    same(write([128, 5], [7] * 2), (5, 0, [7] * 2))
    same(write([LARGEST + 1], []), (4, 0, []))
    same(write([LARGEST + 1] * 8193, []), (5, 0, []))

    # the four models, and sixty-five names
    def with_model(symbols):
        # the small shade with this model at its first element
        numbers = SHADE[:2] + [2, len(symbols)] + symbols + SHADE[9:]
        return translate(file_of(numbers), [0] * TABLE)[0]

    a, b, c = 6, 7, 8
    same(with_model([0, 2, a, a]), 3)
    same(with_model([1, 0, a, b, 0, a, c]), 3)
    same(with_model([3, 0, 3, a, 3, b]), 0)
    same(with_model([0] * 63 + [a] * 64), 0)
    same(with_model([0] * 64 + [a] * 65), 2)

    # the small shade
    number, table = translate(file_of(SHADE), [0] * TABLE)
    same(number, 0)
    same(proper(table), True)
    same(table[:2], [4, 0])
    same(table[2:14], [2, 1, 1, 0, 0, 0, 2, 0, 1, 3, 1, 3])
    same(table[2 + 74:2 + 77], [3, 2, 0])
    schema = schema_of(file_of(SHADE))
    same(check(table, SHADE_DOC, 15), (0, 0))
    same(check_by_schema(schema, SHADE_DOC, 15), (0, 0))

    ones = [1, 1, 1, 1] + [0] * 44           # the true counts of the small shade

    def step_back(table, before, got):
        """A done edit is taken back by what it left in the second buffer, and
        made again by what that leaves, each in the same buffer."""
        _, _, used, change, children, buffer, second, counts = got
        same(counts, starts(buffer[:used], schema))            # true ones stay true
        back = edit(table, buffer, used, *stepping_back(second), [97] * BACK, counts)
        same(back[7], ones)
        same(back[:4], (0, 0, len(before), -change))
        same(back[5][:len(before)], before)
        again = edit(table, back[5], back[2], *stepping_back(back[6]), second, ones)
        same(again[:5], (0, 0, used, change, children))
        same(again[7], counts)
        same(again[5][:used], buffer[:used])
        same(again[6], second)

    def try_edit(operation, place, piece, wanted, children=None):
        room = SHADE_DOC + [99] * 10
        second = [98] * 30
        got = edit(table, room, 15, operation, place, piece, second, ones)
        same(edit_by_schema(schema, room, 15, operation, place, piece, second, ones), got)
        if wanted[0]:
            same(got, (wanted[0], wanted[1], 15, 0, 0, room, second, ones))
        else:
            step_back(table, SHADE_DOC, got)
            same(got[:4], (0, 0, wanted[1], wanted[1] - 15))
            same(children in (None, got[4]), True)
            same(len(got[5]), 25)
            same(got[5][max(wanted[1], 15):], room[max(wanted[1], 15):])
            same(set(got[5][wanted[1]:15]) <= {0}, True)
            same(check(table, got[5], got[2]), (0, 0))

    try_edit(2, 3, [], (9, 3))
    try_edit(2, 10, [], (0, 11))
    try_edit(2, 7, [], (0, 14))
    try_edit(1, 10, [9, 12, 165, 2], (11, 12))
    try_edit(1, 10, [9, 12, 173, 2], (0, 19))
    try_edit(1, 3, [25, 20, 165, 2], (9, 3))
    try_edit(1, 10, [25, 20, 165, 2], (0, 19))
    try_edit(3, 3, [9, 12, 173, 2], (12, 9))
    try_edit(5, 3, [12], (8, 3))
    for place in (0, 1, 15):
        try_edit(1, place, [25, 20, 165, 2], (6, 0))
    try_edit(1, 14, [25, 20, 165, 2], (0, 19))
    try_edit(1, 14, [9, 12, 173, 2], (9, 14))

    # a row: no text or one, and no child (item 1)
    try_edit(1, 7, [251], (9, 8))
    try_edit(1, 8, [251], (9, 8))
    try_edit(1, 7, [25, 20, 165, 2], (9, 7))
    try_edit(1, 8, [25, 20, 165, 2], (9, 8))
    try_edit(3, 7, [25, 20, 165, 2], (9, 7))
    try_edit(1, 9, [17, 2], (0, 17))
    try_edit(1, 9, [17, 243, 2], (0, 18))
    try_edit(1, 9, [17, 243, 243, 2], (9, 11))
    try_edit(1, 9, [17, 25, 20, 165, 2, 2], (9, 10))
    try_edit(1, 13, [243], (9, 13))

    # the children looked at (item 10)
    try_edit(2, 10, [], (0, 11), 1)
    try_edit(2, 7, [], (0, 14), 0)
    try_edit(1, 10, [9, 12, 173, 2], (0, 19), 3)
    try_edit(1, 9, [17, 243, 2], (0, 18), 2 + 1)
    try_edit(1, 3, [9, 12, 173, 17, 243, 2, 17, 2, 2], (0, 24), 3 + 2 + 1)
    try_edit(3, 7, [251], (0, 15), 1)
    try_edit(3, 3, [9, 12, 165, 17, 2, 17, 2, 17, 3, 2, 2], (0, 19), 2 + 3 + 1)
    try_edit(3, 0, [1, 4, 61, 9, 12, 165, 17, 3, 2, 2, 9, 12, 173, 2, 2], (0, 15), 2 + 1 + 1)
    try_edit(4, 0, [4, 69], (0, 15), 2)
    try_edit(4, 3, [12, 165], (0, 15), 1)
    try_edit(4, 10, [20, 165], (0, 15), 0)

    # what takes an edit back (item 2): operation, place, count and piece
    def try_back(operation, place, piece, inverse):
        room = SHADE_DOC + [99] * 10
        for length in (len(inverse), len(inverse) + 2, BACK):
            got = edit(table, room, 15, operation, place, piece, [98] * length, ones)
            same(got[:2], (0, 0))
            same(got[6], inverse + [98] * (length - len(inverse)))
        for length in range(len(inverse)):
            same(edit(table, room, 15, operation, place, piece, [98] * length, ones),
                 (5, 0, 15, 0, 0, room, [98] * length, ones))

    try_back(1, 10, [9, 12, 173, 2], [2, 10, 0])
    try_back(1, 14, [25, 20, 165, 2], [2, 14, 0])
    try_back(2, 10, [], [1, 10, 4, 25, 20, 165, 2])
    try_back(2, 7, [], [1, 7, 1, 243])
    try_back(3, 7, [251], [3, 7, 1, 243])
    try_back(3, 3, [9, 12, 165, 2], [3, 3, 7, 9, 12, 165, 17, 243, 2, 2])
    try_back(3, 0, [1, 4, 61, 9, 12, 173, 2, 2], [3, 0, 15] + SHADE_DOC)
    try_back(4, 0, [4, 69], [4, 0, 2, 4, 61])
    try_back(4, 0, [4, 61], [4, 0, 2, 4, 61])
    room = SHADE_DOC + [99] * 10
    same(edit(table, room, 15, 2, 3, [], [98] * 9, ones)[:2], (5, 0))          # before judgement
    same(edit(table, room, 15, 2, 3, [], [98] * 10, ones)[:2], (9, 3))
    same(edit(table, room, 15, 2, 1, [], [], ones)[:2], (6, 0))                # after the place
    same(edit(table, room, 15, 4, 3, [4, 61], [98] * 3, ones)[:2], (5, 0))     # taken back by a drop
    same(edit(table, room, 15, 4, 3, [4, 61], [98] * 4, ones)[:2], (8, 3))

    # lists (item 6)
    def try_list(numbers, wanted):
        """The last answer without the children, and the edits done."""
        room = SHADE_DOC + [99] * 10
        got = list_edit(table, room, 15, numbers, ones)
        same(list_by_schema(schema, room, 15, numbers, ones), got)
        same(got[:4] + got[5:6], wanted)
        after, used, counts = room, 15, ones
        for one in edits_of(numbers)[:got[5]] if got[5] else []:
            single = edit(table, after, used, *one, [98] * BACK, counts)
            same(single[0], 0)
            after, used, counts = single[5], single[2], single[7]
        same((after, used, counts), (got[6], got[2], got[7]))
        same(counts, starts(after[:used], schema))
        return got

    set_title = [4, 0, 2, 4, 69]
    steps = [2, 3, 0, 1, 10, 4, 9, 12, 173, 2, 3, 3, 4, 9, 12, 173, 2, 2, 14, 0, 2, 3, 0]
    try_list(steps, (9, 3, 15, 0, 0))
    try_list(steps[3:], (11, 9, 19, 0, 1))                     # what was done before stands
    got = try_list(steps[3:10] + steps[17:], (0, 0, 8, -7, 3))   # the change is the last one's alone
    same(got[6], [1, 4, 61, 9, 12, 173, 2, 2] + [0] * 11 + [99] * 6)
    try_list([], (4, 0, 15, 0, 0))
    for cut in range(1, 5):
        try_list(set_title[:cut], (4, 0, 15, 0, 0))
        try_list(set_title + set_title[:cut], (4, 0, 15, 0, 0))          # before any edit is run
        try_list(set_title * 256 + set_title[:cut], (5, 0, 15, 0, 0))    # a 257th is begun
    try_list(set_title * 256, (0, 0, 15, 0, 256))
    try_list(set_title * 257, (5, 0, 15, 0, 0))
    try_list([4, 0, 3, 4, 69], (4, 0, 15, 0, 0))               # a piece count over what is left
    try_list([9, 9, 2 ** 32 - 1], (4, 0, 15, 0, 0))
    try_list([2, 10, 0, 4, 0, 8193, 4] + [69] * 8192, (4, 0, 11, 0, 1))  # all there: its edit's own 4
    try_list([2, 10, 0, 4, 0, 8192, 4] + [69] * 8191, (5, 0, 11, 0, 1))
    same(list_edit([], SHADE_DOC, 99, set_title * 257, ones), (5, 0, 99, 0, 0, 0, SHADE_DOC, ones))
    same(list_edit([], SHADE_DOC, 99, set_title, ones), (13, 0, 99, 0, 0, 0, SHADE_DOC, ones))
    same(list_edit(table, SHADE_DOC, 99, set_title, ones), (4, 0, 99, 0, 0, 0, SHADE_DOC, ones))

    # counts (item 7)
    def with_counts(operation, place, piece, counts, wanted, length=30):
        """The counts, and those after it or the number of the refusal; zeros
        behind those given."""
        counts = counts + [0] * (NAMES - len(counts))
        got = edit(table, room, 15, operation, place, piece, [98] * length, counts)
        same(edit_by_schema(schema, room, 15, operation, place, piece, [98] * length, counts), got)
        if isinstance(wanted, int):
            same(got, (wanted, 0, 15, 0, 0, room, [98] * length, counts))
        else:
            same((got[0], got[7]), (0, wanted + [0] * (NAMES - len(wanted))))

    use = [25, 20, 165, 2]
    with_counts(1, 3, [9, 12, 173, 17, 3, 2, 17, 2, 2], [1, 1, 1, 1], [1, 2, 3, 1])
    with_counts(2, 10, [], [1, 1, 1, 1], [1, 1, 1, 0])
    with_counts(2, 7, [], [1, 1, 1, 1], [1, 1, 1, 1])
    with_counts(3, 3, [9, 12, 165, 17, 2, 17, 2, 2], [1, 1, 1, 1], [1, 1, 2, 1])
    with_counts(3, 0, [1, 4, 61, 9, 12, 173, 2, 9, 12, 181, 2, 2], [1, 1, 1, 1], [1, 2, 0, 0])
    with_counts(1, 10, use, [1, 1, 1, TOKENS - 1], [1, 1, 1, TOKENS])
    with_counts(1, 10, use, [1, 1, 1, TOKENS], 15)
    with_counts(2, 10, [], [1, 1, 1, 0], 15)
    with_counts(1, 10, use, [1, 1, 1, -1], [1, 1, 1, 0])
    with_counts(2, 10, [], [1, 1, 1, TOKENS + 1], [1, 1, 1, TOKENS])
    with_counts(1, 10, use, [1, 1, 1, 2 ** 31 - 1], 15)
    with_counts(2, 10, [], [1, 1, 1, -2 ** 31], 15)
    for number in (-1, TOKENS + 1, 2 ** 31 - 1, -2 ** 31):
        for name in (0, 3, 4, 47):
            with_counts(4, 0, [4, 69], ones[:name] + [number] + ones[name + 1:], 15)
            with_counts(5, 0, [4], ones[:name] + [number] + ones[name + 1:], 15)
    with_counts(2, 3, [], [-1], 5, 9)                        # after both 5s, before judgement
    with_counts(2, 3, [], [-1], 15, 10)
    with_counts(2, 1, [], [-1], 6)
    same(check_counts(table, SHADE_DOC, 15, [-7] * NAMES), (0, 0, ones))
    same(check_counts(table, SHADE_DOC, 14, [-7] * NAMES), (4, 0, [-7] * NAMES))
    same(check_counts([], SHADE_DOC, 15, [-7] * NAMES), (13, 0, [-7] * NAMES))
    # element 4 is not declared: counted nowhere
    fifth = ones[:4] + [TOKENS] + ones[5:]
    same(edit(table, [1, 4, 61, 9, 12, 165, 2, 33, 2, 2], 10, 2, 7, [], [0] * 9, fifth)[7], fifth)
    same(elements(table, [1, TOKENS, 0, 7, 9] + [0] * 43, 1), (0, TOKENS))
    same([elements(table, [1, TOKENS, 0, 7, 9] + [0] * 43, name)[1] for name in (3, 4, 47, 48, 2 ** 32 - 1)], [7, 0, 0, 0, 0])
    same(elements(table, ones[:47] + [-1], 99), (15, 0))
    same(elements(table, ones[:4] + [TOKENS + 1] + ones[5:], 0), (15, 0))
    same(elements(table[1:], [-1] * NAMES, 0), (13, 0))
    panels = [1, 10, 4, 9, 12, 173, 2]
    full = [1, TOKENS - 1, 1, 1] + [0] * 44
    got = list_edit(table, room, 15, panels + [1, 10, 4, 9, 12, 181, 2], full)
    same((got[0], got[5], got[7]), (15, 1, [1, TOKENS] + ones[2:]))
    same(list_edit(table, room, 15, panels[:-1], [-1] * NAMES)[::7], (4, [-1] * NAMES))      # the list's own fault

    # where content stops (item 3)
    try_edit(1, 10, [243], (9, 10))
    try_edit(1, 14, [243], (9, 14))
    try_edit(1, 14, [1, 4, 61, 9, 12, 173, 2, 2], (9, 14))
    same(check(table, [1, 4, 61, 2], 4), (9, 3))
    same(check(table, [1, 4, 61, 9, 12, 165, 2, 81, 2, 25, 20, 165, 2, 2], 14), (9, 7))
    same(check(table, [1, 4, 61, 9, 12, 165, 9, 2, 2, 81, 2, 2], 12), (9, 9))

    edits = [2, 3, 0, 1, 10, 4, 9, 12, 173, 2, 3, 3, 4, 9, 12, 173, 2, 2, 14, 0, 2, 3, 0]
    files = [file_of(SHADE), file_of(SHADE_DOC), file_of(edits)]
    lines = b'0 0 0 15\n1 9 3 15\n2 0 0 19\n3 11 9 19\n4 0 0 15\n5 0 0 8\n'
    same(program(*files), lines)
    same(program(files[0], files[1], files[2] + [2]), lines + b'stop 1\n')
    same(program(files[0], files[1], files[2] + file_of([1, 1, 8193])), lines + b'stop 5\n')
    same(program(files[0], [1, 2], files[2]), b'0 8 0 2\n')
    same(program(files[0], [128], files[2]), b'stop 1\n')
    same(program(files[0] + [0], [128], files[2]), b'stop 2\n')
    same(program(files[0] + [0], [128], None), b'stop 5\n')
    same(program(files[0] + [0], [0] * 65537, []), b'stop 5\n')

    # groups (item 9)
    def try_group(numbers, wanted, first=None, second=None, places=40, more=40):
        """The answer's numbers and, if given, the fronts of both buffers: the
        rest is as it was."""
        room, other = SHADE_DOC + [99] * (places - 15), [98] * more
        got = group_edit(table, room, 15, numbers, other)
        same(group_by_schema(schema, room, 15, numbers, other), got)
        same(got[:5], wanted)
        first = SHADE_DOC if first is None else first
        same(got[5], first + room[len(first):])
        if second is not None:
            same(got[6], second + other[len(second):])

    rename = [4, 3, 2, 12, 173, 4, 10, 2, 20, 173]
    renamed = [1, 4, 61, 9, 12, 173, 17, 243, 2, 2, 25, 20, 173, 2, 2]
    try_group(rename, (0, 0, 15, 0, 0), renamed, renamed)
    try_group(rename[5:] + rename[:5], (0, 0, 15, 0, 0), renamed, renamed)
    for step in (rename[:5], rename[5:]):
        same(list_edit(table, SHADE_DOC, 15, step, ones)[0], 12)            # each step alone
        try_group(step, (12, 12, 15, 0, 0))
    lengths = [1, 10, 4, 25, 20, 165, 2, 2, 10, 0, 2, 10, 0]                # 19, 15 and 11 tokens
    shorter = SHADE_DOC[:10] + [2]
    try_group(lengths, (0, 0, 11, -4, 0), shorter + [0] * 4, shorter + [0] * 8)
    try_group(lengths + [9, 0, 0], (6, 0, 15, 0, 4), None, shorter + [0] * 8)
    try_group([9, 0, 0], (6, 0, 15, 0, 1), None, SHADE_DOC)                  # a first edit that is refused has begun
    try_group([2, 3, 0], (9, 3, 15, 0, 0), None, [1, 4, 61, 25, 20, 165, 2, 2] + [0] * 7, 15, 15)
    try_group(rename[:5] + [1, 3, 1, 4], (4, 0, 15, 0, 2))
    try_group(rename[:5] + [2, 4, 0], (6, 0, 15, 0, 2))
    use_twice = [1, 10, 4, 25, 20, 165, 2] * 2
    try_group(use_twice, (5, 0, 15, 0, 2), None, SHADE_DOC[:10] + [25, 20, 165, 2] + SHADE_DOC[10:], 22, 40)   # the first one's size
    try_group(use_twice, (0, 0, 23, 8, 0), SHADE_DOC[:10] + [25, 20, 165, 2] * 2 + SHADE_DOC[10:], None, 23, 23)
    try_group([2, 3, 0, 1, 3, 4, 9, 12, 165, 2], (0, 0, 12, -3, 0), [1, 4, 61, 9, 12, 165, 2] + SHADE_DOC[10:] + [0] * 3)
    try_group([3, 0, 8, 9, 4, 61, 9, 12, 165, 2, 2], (10, 0, 15, 0, 0))
    # before any edit: 13, shape, the list, the second buffer
    same(group_edit([], SHADE_DOC, 99, [], [5]), (13, 0, 99, 0, 0, SHADE_DOC, [5]))
    same(group_edit(table, SHADE_DOC, 99, set_title * 257, [5]), (4, 0, 99, 0, 0, SHADE_DOC, [5]))
    try_group([], (4, 0, 15, 0, 0), None, [], 40, 3)
    try_group(set_title * 257, (5, 0, 15, 0, 0), None, [], 40, 39)
    try_group(rename[:-1], (4, 0, 15, 0, 0), None, [], 40, 39)
    try_group(rename, (5, 0, 15, 0, 0), None, [], 40, 39)
    try_group([9, 0, 0], (5, 0, 15, 0, 0), None, [], 40, 39)
    # judged whole, also where nothing was touched
    same(group_edit(table, [1, 4, 61, 9, 12, 165, 25, 20, 165, 2, 2, 2], 12, set_title, [0] * 12)[:5], (9, 6, 12, 0, 0))

    # fixed attributes (item 8)
    def one_empty(*attributes):
        """One EMPTY element with these attributes, their count not told."""
        return translate(file_of([1, 0, 0, len(attributes)] + [n for attribute in attributes for n in attribute]), [7] * TABLE)

    for attribute, wanted in (((5, CDATA, 2, 77), 0), ((5, CDATA, 2, 65535), 0), ((5, CDATA, 2, 65536), 2), ((5, CDATA, 2), 1),
                              ((5, CDATA, 3, 0), 2), ((5, ID, 2, 0), 2), ((5, IDREF, 2, 0), 2), ((5, IDREFS, 2, 0), 2)):
        same(one_empty(attribute)[0], wanted)
    same(translate(file_of([1, 0, 0, 1, 5, ID, 2]) + [128, 0], [7] * TABLE)[0], 2)          # at its status
    same(translate(file_of([1, 0, 0, 1, 5, CDATA, 2]) + [128, 0], [7] * TABLE)[0], 1)
    many = [(number, CDATA, 2, 10 * number) for number in range(17)]
    same([one_empty(*many[:count])[0] for count in (0, 1, 16, 17)], [0, 0, 0, 2])
    spread = [2, 0, 0, 16] + [n for attribute in many[:16] for n in attribute] + [0, 1, 0, CDATA]
    same(translate(file_of(spread + [2]) + [128, 0], [7] * TABLE)[0], 2)                    # the seventeenth at its status
    same(translate(file_of(spread + [1]), [7] * TABLE)[0], 0)
    gauge = translate(file_of([2, 0, 0, 2, 3, 0, 2, 9, 63, 0, 2, 65535, 0, 2, 0, 0, 2, 0, 1, 0, 0]), [7] * TABLE)[1]
    same(gauge[FIXED:FIXED + 11], [3, 0, 3, 9, 0, 63, 65535, 1, 0, 0, 0])
    same((len(gauge), proper(gauge), proper(gauge[:FIXED])), (6675, True, False))
    gauge = one_empty((5, CDATA, 2, 77), (6, CDATA, 1))[1]
    for values, wanted in (([], 0), ([621], 0), ([629], 8), ([621, 621], 8), ([621, 629], 8), ([621, 52, 629], 0)):
        tokens = [1] + ([44] if values else []) + values + [2]
        same(check(gauge, tokens, len(tokens)), (wanted, 0))
    # attribute 1 CDATA, 2 CDATA required, 3 ID, 4 IDREF, 5 IDREFS, 6 and 7 CDATA; of the second element 1 CDATA
    given = [7, 1, 0, 1, 2, 0, 0, 3, 1, 1, 4, 2, 1, 5, 3, 1, 6, 0, 1, 7, 0, 1]
    gauge = translate(file_of([2, 0, 0] + given + [0, 1, 1, 0, 1]), [7] * TABLE)[1]

    def fixing(count, *entries):
        numbers = [count] + [n for entry in entries for n in entry]
        return proper(gauge[:FIXED] + numbers + [0] * (TABLE - FIXED - len(numbers)))

    same([fixing(0), fixing(1, (0, 1, 65535)), fixing(3, (0, 1, 0), (0, 6, 9), (1, 1, 5))], [True] * 3)
    for entry in ((0, 0, 9), (0, 2, 9), (0, 3, 9), (0, 4, 9), (0, 5, 9), (0, 64, 9), (1, 2, 9), (2, 1, 9), (48, 1, 9), (0, 1, 65536)):
        same(fixing(1, entry), False)
    for pair in (((0, 6, 9), (0, 1, 9)), ((0, 6, 9), (0, 6, 9)), ((1, 1, 9), (0, 6, 9))):
        same(fixing(2, *pair), False)
    same([fixing(1, (0, 1, 9), (0, 6, 9)), fixing(0, (0, 0, 9)), fixing(17, (0, 1, 9)), fixing(2, (0, 1, 9))], [False] * 4)

    # occurrence 63
    symbols = [3] + [1] * 63 + [5 + k for k in range(47)] + [5 + 47] * 17
    same(Model(*expression(symbols)).ambiguous(), True)
    symbols = [0] * 63 + [6] * 64
    top = table_of(Schema(0, [Declared(2, {}, Model(*expression(symbols))), Declared(0, {}, None)]))
    same(top[2 + 9], 1 << 63)
    same(top[2 + 74 + 62], 1 << 63)
    many = [1] + [9, 2] * 64 + [2]
    same(check(top, many, 130), (0, 0))
    same(check(top, many[:-3] + [2], 128), (9, 127))
    same(check(top, many[:-1] + [9, 2, 2], 132), (9, 129))

    # depth
    nest = translate(file_of([1, 0, 2, 2, 2, 5, 0]), [0] * TABLE)[1]
    same(check(nest, [1] * 64 + [2] * 64, 128), (0, 0))
    same(check(nest, [1] * 65 + [2] * 65, 130), (4, 0))
    deep = [63] + [0] * 47
    same(edit(nest, [1] * 63 + [2] * 63 + [0] * 4, 126, 1, 63, [1, 1, 2, 2], [0] * 3, deep)[:4], (5, 0, 126, 0))
    same(edit(nest, [1] * 63 + [2] * 63 + [0] * 4, 126, 1, 63, [1, 2], [0] * 3, deep)[:4], (0, 0, 128, 2))
    same(edit(nest, [1] * 63 + [2] * 63 + [0] * 4, 126, 1, 63, [1] * 65 + [2] * 65, [0] * 3, deep)[:2], (4, 0))

    # random models: words found by spelling out the expression, against
    # steps, ambiguity and the run of the table
    chance = random.Random(5)

    def random_symbols(size):
        if size == 1:
            return [5 + chance.randrange(3)]
        if size == 2 or chance.random() < 0.4:
            return [chance.randrange(2, 5)] + random_symbols(size - 1)
        left = chance.randrange(1, size - 1)
        return [chance.randrange(2)] + random_symbols(left) + random_symbols(size - 1 - left)

    def stops(file, table, word, plain):
        """A root with these children, and perhaps a text among them: where its
        content stops, by the list of words."""
        children = list(word)
        if chance.random() < 0.3:
            children.insert(chance.randrange(len(children) + 1), None)
        tokens = [1]
        place = None
        for k, child in enumerate(children):
            if place is None and not any(w[:k + 1] == tuple(children[:k + 1]) for w in plain):
                place = len(tokens)
            tokens += [11] if child is None else [8 * child + 1, 2]
        tokens.append(2)
        if place is None and tuple(children) not in plain:
            place = len(tokens) - 1
        if place is not None:
            same(check(table, tokens, len(tokens)), (9, place))
            same(check_by_schema(schema_of(file), tokens, len(tokens)), (9, place))

    def compared(old, new, element=0, room=SEQUENCE):
        """The answer for two files of schemas: by their tables, which is that
        by their expressions."""
        old, new = file_of(old), file_of(new)
        buffer = [7] * room
        got = compare(translate(old, [0] * TABLE)[1], translate(new, [0] * TABLE)[1], element, buffer)
        same(compare_by_schema(schema_of(old), schema_of(new), element, buffer), got)
        same(got[3][got[2]:], [7] * (room - got[2]))
        return got[:2] + (got[3][:got[2]],)

    def spelled(tree, most):
        """All runs of at most `most` occurrences that match."""
        if isinstance(tree, Name):
            return {(tree,)} if most >= 1 else set()
        if isinstance(tree, Choice):
            return spelled(tree.left, most) | spelled(tree.right, most)
        if isinstance(tree, Optional):
            return spelled(tree.part, most) | {()}
        if isinstance(tree, Sequence):
            right = spelled(tree.right, most)
            return {l + r for l in spelled(tree.left, most) for r in right if len(l + r) <= most}
        part = spelled(tree.part, most)
        all_ = set(part) if isinstance(tree, Plus) else {()}
        while True:
            more = all_ | {l + r for l in all_ for r in part if len(l + r) <= most}
            if more == all_:
                return all_
            all_ = more

    unambiguous = []
    for _ in range(400):
        symbols = random_symbols(chance.randrange(1, 8))
        tree, names = expression(symbols)
        model = Model(tree, names)
        words = spelled(tree, 6)
        begun = {w[:k] for w in words for k in range(len(w) + 1)}
        two = False
        for run_ in begun:
            after = {w[len(run_)] for w in words if w[:len(run_)] == run_ and len(w) > len(run_)}
            two = two or len({x.name for x in after}) != len(after)
        if two:
            same(model.ambiguous(), True)
        elif all(isinstance(x, Name) or not isinstance(x, (Star, Plus)) for x in walk(tree)):
            same(model.ambiguous(), False)      # all words were spelled out
        plain = {tuple(x.name for x in w) for w in words}
        file = file_of([3, 0, 2, len(symbols)] + symbols + [0, 0, 0, 0, 0])
        number, table = translate(file, [0] * TABLE)
        same(number, 3 if model.ambiguous() else 0)
        for length in range(5):
            for word in itertools.product(range(3), repeat=length):
                same(model.describes(word), word in plain)
                if number == 0:
                    same(rules_of(table).elements[0].model.describes(word), word in plain)
                    if chance.random() < 0.06:
                        stops(file, table, word, plain)
        if number == 0:
            same(proper(table), True)
            unambiguous.append((symbols, plain))

    # what the new schema takes of the old patterns
    def one_model(symbols):
        return [3, 0, 2, len(symbols)] + symbols + [0, 0, 0, 1, 0]

    same(compared(one_model([5]), one_model([5])), (0, 1, []))
    same(compared(one_model([3, 6]), one_model([4, 6])), (0, 0, []))
    same(compared(one_model([4, 6]), one_model([3, 6])), (0, 1, []))
    same(compared(one_model([3, 1, 5, 6]), one_model([3, 5])), (0, 0, [1]))
    same(compared(one_model([1, 7, 6]), one_model([5])), (0, 0, [1]))
    same(compared(one_model([2, 7]), [2, 0, 2, 2, 2, 6, 0, 0, 0]), (0, 0, [2]))
    same(compared(one_model([2, 7]), [1, 0, 0, 0]), (0, 0, [2]))
    same(compared([1, 0, 0, 0], one_model([2, 7])), (0, 1, []))
    same(compared([1, 0, 0, 0], one_model([7])), (0, 0, []))
    same(compared(one_model([5]), one_model([5]), room=SEQUENCE - 1), (5, 0, []))
    same(compared(one_model([5]), one_model([5]), 2, 0), (16, 0, []))
    same(compared(one_model([5]), [1, 0, 0, 0], 1, 0), (6, 0, []))
    same(compared(one_model([5]), one_model([5]), 3, 0), (6, 0, []))
    same(compare(table[:-1], table, 9, []), (13, 0, 0, []))
    same(compare(table, [0] * TABLE, 9, []), (13, 0, 0, []))

    def listed(old, new, most):
        """The first lost sequence when all of them are listed in order."""
        for length in range(most + 1):
            for word in itertools.product(range(3), repeat=length):
                if old(word) and not new(word):
                    return list(word)
        return None

    def in_order(got, first, most):
        """A lost sequence is the first one listed, if it is short enough."""
        number, takes_all, sequence = got
        same(number, 0)
        if first is not None:
            same((takes_all, sequence), (0, first))
        else:
            same(takes_all == 1 or len(sequence) > most, True)

    for _ in range(500):
        (one, ones), (two, twos) = chance.choice(unambiguous), chance.choice(unambiguous)
        in_order(compared(one_model(one), one_model(two)), listed(ones.__contains__, twos.__contains__, 6), 6)

    # tables that no schema gives
    def random_table():
        n = chance.randrange(1, 6)
        names = [chance.randrange(3) for _ in range(n)]

        def one_each():
            chosen = {names[k]: k for k in chance.sample(range(n), n) if chance.random() < 0.7}
            return _bits(chosen.values())

        numbers = [3, 0, 2] + [0] * 5 + [n, chance.randrange(2), one_each(), chance.randrange(1 << n)]
        numbers += names + [0] * (64 - n) + [one_each() for _ in names]
        return numbers + [0] * (TABLE - len(numbers))

    for _ in range(300):
        one, two = random_table(), random_table()
        if chance.random() < 0.5:
            two = list(one)
            two[2 + 9] ^= 1 << chance.randrange(one[2 + 6])
        same(proper(two), True)
        number, takes_all, length, after = compare(one, two, 0, [7] * SEQUENCE)
        runs = [rules_of(one).elements[0].model, rules_of(two).elements[0].model]
        in_order((number, takes_all, after[:length]), listed(runs[0].describes, runs[1].describes, 4), 4)
    for old_n, new_n in ((64, 63), (63, 64), (64, 64), (5, 7)):
        # cycles of one name, in tables that no schema gives: the sequence may be long
        numbers = [1, 0, 2] + [0] * 5 + [old_n, 0, 1, 1 << old_n - 1] + [0] * 64
        numbers += [1 << (k + 1) % old_n for k in range(old_n)]
        old = numbers + [0] * (TABLE - len(numbers))
        numbers = [1, 0, 2] + [0] * 5 + [new_n, 0, 1, (1 << new_n) - 1 - (1 << new_n - 2)] + [0] * 64
        numbers += [1 << (k + 1) % new_n for k in range(new_n)]
        new = numbers + [0] * (TABLE - len(numbers))
        wanted = [m for m in range(old_n, 5000, old_n) if (m - 1) % new_n == new_n - 2][:1]
        got = compare(old, new, 0, [7] * 5000)
        same(got[:3], (0, int(not wanted), sum(wanted)))
        same(got[3], [0] * got[2] + [7] * (5000 - got[2]))
    print('self test: %d comparisons, all equal' % done[0])


def walk(tree):
    yield tree
    for part in ('left', 'right', 'part'):
        if hasattr(tree, part):
            yield from walk(getattr(tree, part))


if __name__ == '__main__':
    argparse.ArgumentParser(description=__doc__, formatter_class=argparse.RawDescriptionHelpFormatter).parse_args()
    self_test()
