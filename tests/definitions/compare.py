#!/usr/bin/env python3
"""Compares the definitions of the crate `paper` with reference.py and dtd.py.

Makes COUNT random cases beside some fixed ones at the limits, has these two
give the answers, writes them as equations over the definitions, and has
`rt check` compute these. With --share N one in N of the fixed cases is taken,
others with each seed: N seeds in a row take them all.

With --second PROGRAM its checks, edits, lists, groups and questions are compared with the answers of the
program in second/ instead, and no equations are written.

Exit status: 0 all equal; 1 some differ, or an answer that can occur did not;
2 the equations could not be checked.
"""

import argparse
import copy
import os
import random
import re
import shutil
import subprocess
import sys
import tempfile
import time

sys.dont_write_bytecode = True

import dtd
import reference as ref
from reference import (ID, IDREF, IDREFS, CDATA, START, END, TEXT, ATTRIBUTE, VALUE,
                       TABLE, BLOCK, LARGEST, Element, Text)

HERE = os.path.dirname(os.path.abspath(__file__))
PAPER = os.path.join(os.path.dirname(os.path.dirname(HERE)), 'crates', 'paper')
GROUP = 20               # most terms in one equation
WEIGHT = 6000            # most tokens and bytes in one equation of several terms
TEXTS = 20               # a byte of a DTD text takes as long as so many others

OPERATIONS = {1: 'insert', 2: 'remove', 3: 'replace', 4: 'set', 5: 'drop'}

# ------------------------------------------------- what must have occurred

# Each answer that the paper lets a call give. A whole check never gives 7; an
# edit of a valid document never gives 7. Rows in brackets count the edits once
# more: by the document that they start from, by how the second buffer fits (and
# what is said where it is long enough), and sets by what they find.
ALL = {0, 4, 5, 6, 7, 8, 9, 10, 11, 12, 13, 15}
REQUIRED = {
    'read': {0, 1, 5},
    'write': {0, 4, 5},
    'import': {0, 2, 5, 14},
    'names': {0, 2, 5, 14},
    'spot': {0, 2, 14},
    'translate': {0, 1, 2, 3, 13},
    'compare': {'no', 5, 6, 13, 16},
    'compare, few names': {'yes', 'no'},
    'schema_of': {0, 1, 2, 3},
    'proper': {0, 1},
    'check': {0, 4, 8, 9, 10, 11, 12, 13},
    'checking': {0, 4, 8, 9, 10, 11, 12},
    'checked_counts': {0, 4, 8, 9, 10, 11, 12, 13},
    'edit insert': ALL,
    'edit remove': ALL,
    'edit replace': ALL,
    'edit set': ALL,
    'edit drop': ALL,
    'edit other': {4, 6, 13},
    'edit_by insert': ALL - {13},
    'edit_by remove': ALL - {13},
    'edit_by replace': ALL - {13},
    'edit_by set': ALL - {13},
    'edit_by drop': ALL - {13},
    'edit_by other': {4, 6},
    'check, own table': {0, 4, 8, 9, 10, 11, 12},
    'edit, own table': ALL - {13},
    '(valid before)': ALL - {7, 13},
    '(invalid before)': ALL - {13},
    '(second buffer)': {'of 0', 'of 1', 'of 2', 'of 3', 'just enough', 'one short', 'short, else 0', 'short, else 8',
                        'short, else 9', 'short, else 12', 'steps back'},
    '(set)': {'adds', 'replaces', 'as it was'},
    '(counts)': {'true', 'at -1', 'at 8193', 'at %d' % -2 ** 31, 'at %d' % (2 ** 31 - 1)},
    'list': ALL,
    'elements': {0, 13, 15},
    'group': ALL - {7, 15},
    '(group)': {'list 4', 'list 5', 'second short', 'edit 4', 'edit 5', 'edit 6', 'later edit', 'renamed', 'longer within'},
    '(list)': {'empty', 'ends inside', '257th begun', 'of 256', 'first refused', 'later refused'},
    'list, own fault': {4, 5},
    'printed': {'lines', 'check not 0', 'stop 1', 'stop 2', 'stop 3', 'stop 5'},
}


# ------------------------------------------------------------ antt's terms

def term(numbers):
    """A list of numbers as a term; what repeats is written once."""
    numbers = list(numbers)
    parts, plain, at = [], [], 0
    while at < len(numbers):
        best = None
        for period in range(1, 5):
            end = at + period
            while end < len(numbers) and numbers[end] == numbers[end - period]:
                end += 1
            times = (end - at) // period
            if times >= 4 and times * period >= 10 and (best is None or times * period > best[0] * best[1]):
                best = (times, period)
            if period == 1 and best:
                break
        if best is None:
            plain.append(numbers[at])
            at += 1
            continue
        if plain:
            parts.append(spelled(plain))
            plain = []
        times, period = best
        if period == 1:
            parts.append('replicate %d %s' % (times, numbers[at]))
        else:
            parts.append('repeat %d %s' % (times, spelled(numbers[at:at + period])))
        at += times * period
    if plain or not parts:
        parts.append(spelled(plain))
    text = parts[-1]
    for part in reversed(parts[:-1]):
        text = '%s ++ (%s)' % (part, text)
    return text if text == '[]' else '(%s)' % text


def spelled(numbers):
    if not numbers:
        return '[]'
    return '(%s ∷ [])' % ' ∷ '.join(map(str, numbers))


def signed(number):
    return '(pos %d)' % number if number >= 0 else '(negsuc %d)' % (-number - 1)


def integers(numbers):
    """A list of signed numbers as a term."""
    return term(map(signed, numbers))


def request(operation, place, piece):
    return '(asked %d %d %s)' % (operation, place, term(piece))


SAME = '''-- How an answer of the definitions is compared with the expected one.
use Rattle.std.specs.Prelude.{Bool, true, false, not, ◌&&◌, List, [], ◌∷◌, ◌++◌, ℕ, zero, suc, eqb, ℤ, pos, negsuc, replicate}
use Rattle.std.proofs.Math.Option.{Option, none, some}
use Rattle.paper.specs.Basics.{all, concat}
use Rattle.paper.specs.Inclusion.{Compared}
use Rattle.paper.specs.Dtd.Imported.{Spot}
use Rattle.paper.specs.Files.{Counted}
use Rattle.paper.specs.Schema.{Schema, Parsed, stop, ok}
use Rattle.paper.specs.Edits.{Request, Outcome}
use Rattle.paper.specs.Lists.{Listed}
use Rattle.paper.specs.Groups.{GroupOutcome}

abbrev pub same : List ℕ → List ℕ → Bool
same [] [] = true
same [] (b ∷ m) = false
same (a ∷ l) [] = false
same (a ∷ l) (b ∷ m) = eqb a b && same l m

abbrev pub same_change : ℤ → ℤ → Bool
same_change (pos m) (pos n) = eqb m n
same_change (pos m) (negsuc n) = false
same_change (negsuc m) (pos n) = false
same_change (negsuc m) (negsuc n) = eqb m n

abbrev pub same_counts : List ℤ → List ℤ → Bool
same_counts [] [] = true
same_counts [] (b ∷ m) = false
same_counts (a ∷ l) [] = false
same_counts (a ∷ l) (b ∷ m) = same_change a b && same_counts l m

module _ {A : Type 0} where
  abbrev pub repeat : ℕ → List A → List A
  repeat n l = concat (replicate n l)

abbrev pub asked : ℕ → ℕ → List ℕ → Request
asked op at p = record { operation = op; place = at; piece = p }

abbrev pub counts : Counted → ℕ → ℕ → List ℕ → Bool
counts c n k b = eqb c.number n && eqb c.count k && same c.buffer b

abbrev pub spotted : Spot → ℕ → ℕ → Bool
spotted s n k = eqb s.number n && eqb s.offset k

abbrev pub told : Compared → ℕ → ℕ → ℕ → List ℕ → Bool
told c n t k b = eqb c.number n && eqb c.takes_all t && eqb c.len k && same c.buffer b

abbrev pub same_found : Option (List ℕ) → Option (List ℕ) → Bool
same_found none none = true
same_found none (some v) = false
same_found (some w) none = false
same_found (some w) (some v) = same w v

abbrev pub answers : ℕ × ℕ → ℕ → ℕ → Bool
answers a n p = eqb a.0 n && eqb a.1 p

abbrev pub tables : ℕ × List ℕ → ℕ → List ℕ → Bool
tables a n t = eqb a.0 n && same a.1 t

abbrev pub results : Outcome → ℕ → ℕ → ℕ → ℤ → ℕ → List ℕ → List ℕ → List ℤ → Bool
results o n p u c k b s m = eqb o.number n && eqb o.place p && eqb o.used u && same_change o.change c && eqb o.children k && same o.buffer b && same o.back s && same_counts o.counts m

abbrev pub lists : Listed Outcome → ℕ → ℕ → ℕ → ℕ → ℤ → ℕ → List ℕ → List ℤ → Bool
lists l d n p u c k b m = eqb l.done d && results l.last n p u c k b [] m

abbrev pub groups : GroupOutcome → ℕ → ℕ → ℕ → ℤ → ℕ → List ℕ → List ℕ → Bool
groups o n p u c w b s = eqb o.number n && eqb o.place p && eqb o.used u && same_change o.change c && eqb o.which w && same o.buffer b && same o.second s

abbrev pub each : List Bool → Bool
each l = all (λ b. b) l

abbrev pub with_schema : Parsed Schema → (Schema → List Bool) → Bool
with_schema (stop n) f = false
with_schema (ok s r) f = each (f s)
'''

HEAD = '''-- Computed equations, written by compare.py.
use Rattle.std.specs.Prelude.{◌≡◌, refl, Bool, true, false, not, ◌&&◌, List, [], ◌∷◌, ◌++◌, ℕ, zero, suc, ◌/◌, ◌%◌, eqb, ℤ, pos, negsuc, replicate}
use Rattle.std.proofs.Math.Option.{none, some}
use Rattle.cases.specs.Same.{same, same_change, same_counts, same_found, repeat, asked, counts, spotted, told, answers, tables, results, lists, groups, each, with_schema}
use Rattle.paper.specs.Files.{Counted, read, write}
use Rattle.paper.specs.Schema.{Schema, Parsed, stop, ok, schema_of, refusal_of}
use Rattle.paper.specs.Table.{table_of, translate, proper}
use Rattle.paper.specs.Rules.{of_schema, of_table}
use Rattle.paper.specs.Inclusion.{Compared, lost, shortest_of, compare}
use Rattle.paper.specs.Dtd.Reading.{reading}
use Rattle.paper.specs.Dtd.Imported.{Spot, declared, import, names, spot}
use Rattle.paper.specs.Judgement.{checking, check}
use Rattle.paper.specs.Counts.{checked_counts, elements_of}
use Rattle.paper.specs.Edits.{Request, Outcome, outcome, edit_by, edit}
use Rattle.paper.specs.Lists.{Listed, edit_list}
use Rattle.paper.specs.Groups.{GroupOutcome, group}
use Rattle.paper.specs.Program.{printed}
use Rattle.paper.specs.Open.{all_open}
'''


class Term:
    """One computed comparison: the call, the expected number, the Boolean
    term, the length of its lists, and terms that find out what the
    definitions answer if it fails."""

    def __init__(self, call, number, holds, weight, probes=()):
        self.call = call
        self.number = number
        self.holds = holds
        self.weight = weight
        self.probes = probes         # (label, number term, its most bits) or (label, Boolean term, None)


class Case:
    """One input, its terms, what to tell of it, further rows of the printed
    table in which it counts, and the case and its answer as lines of the
    program in second/, if it answers such cases."""

    def __init__(self, terms, told, rows=(), lines=None):
        self.terms = terms
        self.told = told
        self.lines = lines
        self.rows = [(part.call, part.number) for part in terms] + list(rows)


class Context:
    """A table that several cases share, and its schema file, if it has one.
    `file` is None for a table that no schema file gives."""

    def __init__(self, file, table):
        self.file = file
        self.table = table
        self.schema = ref.schema_of(file) if file is not None else None
        self.good = ref.proper(table)
        self.rules = self.schema or (ref.rules_of(table) if self.good else None)
        self.cases = []
        if self.schema:
            self.depth = depths(self.schema)


def depths(schema):
    """How deep the least valid element of each name is; 99 if there is none."""
    least = [99] * len(schema.elements)

    def cost(tree):
        if isinstance(tree, ref.Name):
            return least[tree.name]
        if isinstance(tree, ref.Sequence):
            return max(cost(tree.left), cost(tree.right))
        if isinstance(tree, ref.Choice):
            return min(cost(tree.left), cost(tree.right))
        if isinstance(tree, ref.Plus):
            return cost(tree.part)
        return 0

    for _ in range(len(least) + 1):
        for e, declared in enumerate(schema.elements):
            inner = cost(declared.model.tree) if declared.kind == 2 else 0
            least[e] = min(99, 1 + inner)
    schema.cost = cost
    return least


# --------------------------------------------------------- random schemas

class Maker:
    """Everything random."""

    def __init__(self, seed):
        self.r = random.Random(seed)

    def chance(self, p):
        return self.r.random() < p

    # -- schemas

    def symbols(self, names, count):
        """A random expression with `names` occurrences of elements below
        `count`, operators first."""
        r = self.r
        pool = list(range(count))
        r.shuffle(pool)
        repeats = r.choice([0.05, 0.2, 0.6])

        def name():
            if pool and not self.chance(repeats):
                return [5 + pool.pop()]
            return [5 + r.randrange(count)]

        def part(n):
            if n == 1:
                out = name()
            else:
                left = r.randrange(1, n)
                out = [r.choice([0, 0, 1])] + part(left) + part(n - left)
            while self.chance(0.3):
                out = [r.choice([2, 3, 3, 4])] + out
            return out

        return part(names)

    def attributes(self):
        r = self.r
        if self.chance(0.35):
            return []
        numbers = sorted(set(r.choice([0, 1, 2, 3, 5, 31, 32, 62, 63, r.randrange(64)])
                             for _ in range(r.choice([1, 1, 2, 2, 3, 4]))))
        out, has = [], False
        for number in numbers:
            kind = r.choice([CDATA, ID, ID, IDREF, IDREF, IDREFS])
            if kind == ID and has:
                kind = r.choice([CDATA, IDREF, IDREFS])
            has = has or kind == ID
            if kind == CDATA and self.chance(0.4):
                out.append((number, kind, 2, r.choice([0, 7, 30, 65535])))          # fixed
            else:
                out.append((number, kind, r.choice([0, 1])))
        return out

    def schema_numbers(self, count=None, names=8, ambiguous=False):
        """The numbers of a schema file, as a list of lists: [E, root], then
        for each element kind, symbols and attributes. Mostly unambiguous."""
        r = self.r
        if count is None:
            count = r.choice([1, 2, 3, 3, 4, 4, 5, 6, 8])
        out = [count, r.randrange(count)]
        for e in range(count):
            kind = 2 if e == out[1] and self.chance(0.9) else r.choice([0, 0, 1, 2, 2])
            out.append(kind)
            if kind == 2:
                least, most = (names // 2, names) if e == out[1] else (1, min(names, 8))
                for _ in range(200):
                    symbols = self.symbols(r.randrange(max(least, 1), most + 1), count)
                    if len(symbols) <= 255 and \
                            ref.Model(*ref.expression(symbols)).ambiguous() == ambiguous:
                        break
                out += [len(symbols)] + symbols
            attributes = self.attributes()
            out.append(len(attributes))
            for attribute in attributes:
                out += attribute
        return out

    def context(self, **how):
        """The numbers of a schema that the translator takes and that has valid
        documents."""
        while True:
            numbers = self.schema_numbers(**how)
            number, table = ref.translate(ref.file_of(numbers), [0] * TABLE)
            if number == 0:
                context = Context(ref.file_of(numbers), table)
                if context.depth[context.schema.root] <= 6:
                    return numbers

    def schema_file(self, wanted):
        """A schema file with the answer wanted, by a small change of a good
        one."""
        r = self.r
        for _ in range(5000):
            numbers = self.schema_numbers(ambiguous=wanted == 3 and self.chance(0.8))
            file = ref.file_of(numbers)
            if wanted == 2:
                numbers = list(numbers)
                at = r.randrange(len(numbers) + 1)
                way = r.randrange(6)
                if way == 0:
                    numbers.insert(at, r.choice([0, 1, 2, 3, 4, 5, 48, 49, 64, 65, 255, 256]))
                elif way == 1 and at < len(numbers):
                    del numbers[at]
                elif way == 2:
                    numbers.append(r.choice([0, 1, 300]))
                elif at < len(numbers):
                    numbers[at] = r.choice([0, 1, 2, 3, 4, 5 + numbers[0], 4 + numbers[0], 48, 49, 63, 64,
                                            65, 255, 256, LARGEST, numbers[at] + 1])
                file = ref.file_of(numbers)
            elif wanted == 1:
                at = r.randrange(len(file) + 1)
                way = r.randrange(4)
                if way == 0:
                    file = file[:at]
                elif way == 1:
                    file = file[:at] + r.choice([[128, 0], [255, 128, 0], [128, 128, 128], [200, 200, 200, 1],
                                                 [128]]) + file[at:]
                elif way == 2 and at < len(file):
                    file[at] += 128 if file[at] < 128 else 0
                elif at < len(file):
                    file[at] = r.randrange(256)
            elif wanted == 3 and self.chance(0.3):
                at = r.randrange(len(numbers))
                numbers[at] = r.choice([0, 1, 5, 6, numbers[at] + 1])
                file = ref.file_of(numbers)
            if ref.translate(file, [0] * TABLE)[0] == wanted:
                return file
        raise SystemExit('no schema file with answer %d' % wanted)

    # -- documents

    def word(self, declared, schema, budget, fuel):
        """A random child sequence, as a rule one that the model describes."""
        r = self.r
        if isinstance(declared.model, ref.Run):
            block = declared.model.block
            if block.none and self.chance(0.3) or not block.first:
                return []
            out, choices = [], block.first
            while choices and len(out) < 12:
                k = r.choice(sorted(choices))
                out.append(block.names[k])
                if k in block.last and self.chance(0.4):
                    break
                choices = block.follow[k]
            return out
        cost = schema.cost

        def part(tree):
            if isinstance(tree, ref.Name):
                fuel[0] -= 1
                return [tree.name]
            if isinstance(tree, ref.Sequence):
                return part(tree.left) + part(tree.right)
            if isinstance(tree, ref.Choice):
                ways = [t for t in (tree.left, tree.right) if cost(t) <= budget]
                if not ways or fuel[0] <= 0:
                    ways = [min((tree.left, tree.right), key=cost)]
                return part(r.choice(ways))
            times = {ref.Optional: r.choice([0, 1]), ref.Star: r.choice([0, 0, 1, 1, 2, 3]),
                     ref.Plus: r.choice([1, 1, 2, 3])}[type(tree)]
            if cost(tree.part) > budget or fuel[0] <= 0:
                times = 1 if isinstance(tree, ref.Plus) else 0
            return [name for _ in range(times) for name in part(tree.part)]

        return part(declared.model.tree)

    def element(self, context, name, budget=6, fuel=None):
        """A random element, attribute values None until `fill`."""
        r = self.r
        fuel = fuel or [r.choice([3, 6, 10, 20])]
        rules = context.rules
        out = Element(name)
        if name >= len(rules.elements):
            return out
        declared = rules.elements[name]
        for number, (kind, required) in sorted(declared.attributes.items()):
            if required or self.chance(0.5):
                out.attributes[number] = [None] * (r.choice([1, 1, 2, 3]) if kind == IDREFS else 1)
        if declared.kind == 1:
            ref.adopt(out, 0, Text(r.choice([0, 1, 30, 65535])))
        elif declared.kind == 2 and budget > 0:
            for child in self.word(declared, rules, budget - 1, fuel):
                ref.adopt(out, len(out.children), self.element(context, child, budget - 1, fuel))
        return out

    def fill(self, context, part, ids, careful=True):
        """Gives the values that are None: new IDs, references to IDs."""
        r = self.r
        empty = []
        for element in part.elements():
            known = element.name < len(context.rules.elements)
            kinds = context.rules.elements[element.name].attributes if known else {}
            fixed = context.rules.elements[element.name].fixed if known else {}
            for number, values in sorted(element.attributes.items()):
                for k, value in enumerate(values):
                    if value is None and number in fixed:
                        values[k] = fixed[number]
                    elif value is None:
                        empty.append((kinds.get(number, (CDATA, False))[0], values, k))
        for kind, values, k in empty:
            if kind == ID:
                value = r.choice([r.randrange(30), r.randrange(65536)])
                while value in ids and careful:
                    value = r.randrange(65536)
                values[k] = value
                ids.append(value)
        for kind, values, k in empty:
            if kind in (IDREF, IDREFS) and ids and self.chance(0.97):
                values[k] = r.choice(ids)
            elif kind != ID:
                values[k] = r.choice([0, 7, 30, 65535])
        return part

    def ids(self, context, root):
        out = []
        for element in root.elements():
            if element.name < len(context.rules.elements):
                kinds = context.rules.elements[element.name].attributes
                for number, values in element.attributes.items():
                    if kinds.get(number, (CDATA,))[0] == ID:
                        out += values
        return out

    def document(self, context):
        root = self.element(context, context.rules.root)
        return self.fill(context, root, [])

    def change_tree(self, context, root, way=None):
        """One small fault, as a rule."""
        r = self.r
        count = len(context.rules.elements)
        way = way or r.choice(TREE_WAYS)
        elements = list(root.elements())
        some = r.choice(elements)
        if way == 'root':
            root.name = r.choice([e for e in list(range(count + 2)) + [65535] if e != context.rules.root])
        elif way == 'undeclared':
            (r.choice(elements[1:]) if elements[1:] else some).name = r.choice([count, count + 1, 48, 64, 65535])
        elif way == 'rename':
            some.name = r.randrange(count)
        elif way == 'attribute more':
            some.attributes[r.choice([0, 1, 2, 63, 64, 65, 127, 128, 65535, r.randrange(64)])] = [r.choice([3, 30])]
        elif way == 'attribute less':
            having = [e for e in elements if e.attributes]
            if having:
                some = r.choice(having)
                del some.attributes[r.choice(sorted(some.attributes))]
        elif way == 'value more':
            having = [e for e in elements if e.attributes]
            if having:
                some = r.choice(having)
                values = some.attributes[r.choice(sorted(some.attributes))]
                values.append(r.choice(values + [5]))
        elif way == 'fixed':
            having = [(e, number) for e in elements if e.name < count for number in context.rules.elements[e.name].fixed]
            if having:
                some, number = r.choice(having)
                value = context.rules.elements[some.name].fixed[number]
                some.attributes[number] = r.choice([[value], [value ^ 1], [value, value], [value, 5]])
        elif way == 'child less':
            having = [e for e in elements if e.children]
            if having:
                some = r.choice(having)
                some.children.remove(r.choice(some.children))
        elif way == 'last child':
            having = [e for e in elements if len(e.children) > 1]
            if having:
                r.choice(having).children.pop()
        elif way == 'child more':
            name = r.choice([r.choice(elements).name, r.randrange(count)])
            if name < count:
                new = self.fill(context, self.element(context, name, 2), self.ids(context, root))
                ref.adopt(some, r.randrange(len(some.children) + 1), new)
        elif way == 'text':
            ref.adopt(some, r.randrange(len(some.children) + 1), Text(r.randrange(100)))
        elif way in ('same id', 'loose'):
            places = []
            for element in elements:
                if element.name < count:
                    kinds = context.rules.elements[element.name].attributes
                    for number, values in element.attributes.items():
                        kind = kinds.get(number, (CDATA,))[0]
                        if (kind == ID) == (way == 'same id') and kind != CDATA:
                            places += [(values, k) for k in range(len(values))]
            if places:
                values, k = r.choice(places)
                values[k] = r.choice(self.ids(context, root)) if way == 'same id' else r.choice([40000, 1])
        return root

    def change_tokens(self, tokens):
        """One small fault of shape, as a rule."""
        r = self.r
        tokens = list(tokens)
        at = r.randrange(len(tokens) + 1)
        here = at % len(tokens)
        way = r.randrange(8)
        if way == 0:
            tokens.insert(at, r.choice([1, 2, 3, 4, 5, 9, 12, 13, 165]))
        elif way == 1:
            del tokens[here]
        elif way == 2:
            tokens[here] = r.choice([0, 6, 7, 10, 16, 18, 8 * 65536 + 1, 8 * 65536 + 3, 8 * 65536 + 4,
                                     8 * 65536 + 5, 8 * 65535 + 3, 2 ** 31, 2 ** 32 + 1, 2 ** 32 - 1])
        elif way == 3:
            tokens[here] = tokens[here] // 8 * 8 + r.randrange(8)
        elif way == 4:
            other = r.randrange(len(tokens))
            tokens[here], tokens[other] = tokens[other], tokens[here]
        elif way == 5:
            tokens = tokens + r.choice([[2], [1, 2], [3], tokens])
        elif way == 6:
            tokens = tokens[:here]
        else:
            tokens[here:here] = tokens[here:here + r.randrange(1, 4)]
        return tokens

    def buffer(self, tokens):
        """The tokens in a buffer, and the used length."""
        r = self.r
        room = [r.choice([0, 1, 2, 7, 9, 2 ** 32 - 1]) for _ in range(r.choice([0, 0, 1, 3, 6, 12]))]
        used = len(tokens)
        if self.chance(0.03):
            used = r.choice([0, 1, 2, used + 1, used - 1, len(tokens + room), len(tokens + room) + 1, 8193, 10 ** 6])
        return tokens + room, max(used, 0)

    # -- edits

    def attribute_piece(self, context, root, element):
        r = self.r
        declared = context.rules.elements[element.name].attributes \
            if element.name < len(context.rules.elements) else {}
        choices = [r.choice([0, 1, 63, 64, 65535])]
        if declared:
            choices += [r.choice(sorted(declared))] * 4
        if element.attributes:
            choices += [r.choice(sorted(element.attributes))] * 3
        number = r.choice(choices)
        if number in element.attributes and self.chance(0.2):
            return [8 * number + ATTRIBUTE] + [8 * v + VALUE for v in element.attributes[number]]
        if declared and number in context.rules.elements[element.name].fixed and self.chance(0.7):
            return [8 * number + ATTRIBUTE, 8 * context.rules.elements[element.name].fixed[number] + VALUE]
        kind = declared.get(number, (CDATA,))[0]
        ids = self.ids(context, root)
        count = r.choice([1, 2, 3]) if kind == IDREFS or self.chance(0.06) else 1
        values = []
        for _ in range(count):
            if kind == CDATA or not ids or self.chance(0.3):
                values.append(r.choice([0, 5, 77, 40000, 65535]))
            else:
                values.append(r.choice(ids))
        return [8 * number + ATTRIBUTE] + [8 * v + VALUE for v in values]

    def item_piece(self, context, root, parent, there):
        r = self.r
        rules = context.rules
        count = len(rules.elements)
        if parent is not None and parent.name < count and rules.elements[parent.name].kind == 1:
            text = 0.6
        else:
            text = 0.1
        if self.chance(text):
            return [8 * r.choice([0, 4, 65535]) + TEXT]
        names = [r.randrange(count)]
        if isinstance(there, Element):
            names += [there.name] * 3
        if parent is not None:
            names += [c.name for c in parent.children if isinstance(c, Element)]
        name = r.choice(names)
        if self.chance(0.08):
            name = r.choice([count, count + 1, 65535])
        if self.chance(0.1):
            part = copy.deepcopy(r.choice(list(root.elements())))
        else:
            ids = self.ids(context, root)
            part = self.fill(context, self.element(context, name, 4), ids, self.chance(0.8))
        if self.chance(0.15):
            part = self.change_tree(context, part)
        return ref.lay(part)

    def bad_piece(self, piece):
        r = self.r
        return r.choice([[], [2], [1], [4], [5], [3, 3], [1, 2, 3], [3, 1, 2], [1, 2, 1, 2], [4, 5], [4, 4], [4, 5, 3],
                         [5, 5], [8 * 65536 + 3], [8 * 65536 + 4], [8 * 65536 + 4, 5], [4, 8 * 65536 + 5], [0], [6], [7],
                         [1, 5, 2], [1, 4, 2], [1, 4, 5, 4, 5, 2], [10], [1] * 65 + [2] * 65, piece + [3], piece + piece,
                         piece[:-1]])

    def edit(self, context, root, operation, bad=0.04):
        """Operation, place and piece, mostly sensible; the piece is bad with
        a chance. `root` has been laid."""
        r = self.r
        tokens = ref.lay(root)
        sorts = {1: (START, TEXT, END), 2: (START, TEXT), 3: (START, TEXT), 4: (START,), 5: (START,)}
        wanted = sorts.get(operation, (START,))
        places = [k for k, token in enumerate(tokens) if token % 8 in wanted and (k or operation >= 3)]
        if not places or self.chance(0.06):
            place = r.choice([0, 1, 2, len(tokens) - 1, len(tokens), len(tokens) + 1, r.randrange(len(tokens)), 10 ** 7])
        else:
            place = r.choice(places)
        spot = ref.find(root, place)
        there = spot[1] if spot else root
        parent = there if spot and spot[0] == END else there.parent
        if operation in (4, 5):
            element = there if isinstance(there, Element) else root
            piece = self.attribute_piece(context, root, element)
            if operation == 5:
                if element.attributes and self.chance(0.8):
                    piece = [8 * r.choice(sorted(element.attributes)) + ATTRIBUTE]
                piece = piece[:1]
        elif operation == 2:
            piece = []
        else:
            piece = self.item_piece(context, root, parent, there)
        if self.chance(bad):
            piece = self.bad_piece(piece)
        return operation, place, piece

    def second(self, buffer, used, operation, place, piece):
        """A second buffer, around what is needed."""
        r = self.r
        need = ref.needed(buffer, used, operation, place, piece) or r.choice([1, 4, 8])
        length = r.choice([need] * 5 + [need + 1, need + 3, need + 6, need - 1, need - 1, r.randrange(4), r.randrange(need)])
        return [r.choice([0, 1, 98, 2 ** 32 - 1]) for _ in range(length)]

    def counts(self, true, out=False):
        """Mostly true ones; else one of them or all are any."""
        r = self.r
        numbers = [-1, -1, 0, 1, 2, 8190, 8191, 8192, 8193, 8193, -2 ** 31, 2 ** 31 - 1]
        counts = list(true)
        if out or self.chance(0.08):
            counts[r.choice([0, 1, 2, 3, r.randrange(48)])] = r.choice(numbers)
        elif self.chance(0.03):
            counts = [r.choice(numbers + [r.randrange(-2 ** 31, 2 ** 31)]) for _ in counts]
        return counts

    # -- tables

    def own_table(self, context, wish=True):
        """A change of a translated table that is proper (wish) or is not."""
        r = self.r
        for _ in range(3000):
            table = list(context.table)
            for _ in range(r.choice([1, 1, 2, 3, 5])):
                self.change_table(table)
            if ref.proper(table) == wish and table != context.table:
                return table
        return None

    def change_table(self, table):
        r = self.r
        way = r.randrange(17)
        count = min(max(table[0], 1), 48) if len(table) > 1 else 1
        if way == 0 and self.chance(0.3):
            table[:] = r.choice([table[:-1], table + [0], [], table[:r.randrange(len(table) + 1)]])
            return
        if len(table) != TABLE:
            return
        if way == 1:
            table[0] = r.choice([0, 1, 47, 48, 49, table[0] + 1, max(table[0] - 1, 0)])
            return
        if way == 2:
            table[1] = r.choice([0, max(table[0] - 1, 0), table[0], r.randrange(48)])
            return
        e = r.randrange(count)
        if self.chance(0.03):
            e = r.randrange(48)
        base = 2 + e * BLOCK
        n = min(table[base + 6], 64)

        def bit(limit):
            return 1 << r.choice([r.randrange(max(limit, 1)), 0, 63, limit % 64])

        if way == 3:
            table[base] = r.choice([0, 1, 2, 3])
        elif way in (4, 5):
            table[base + r.choice([1, 2, 3, 4, 5])] ^= bit(8)
        elif way == 6:
            at = r.choice([2, 3, 4, 5])
            table[base + at] |= bit(4)
            table[base + 1] |= table[base + at]
        elif way == 7:
            table[base + 6] = r.choice([0, 1, n + 1, max(n - 1, 0), 64, 65])
        elif way == 8:
            table[base + 7] = r.choice([0, 1, 1 - min(table[base + 7], 1), 2])
        elif way in (9, 10, 11) and n:
            at = r.choice([8, 9, 9] + [74 + r.randrange(n) for _ in range(3)])
            table[base + at] ^= 1 << r.choice([r.randrange(n)] * 8 + [n % 64, 63])
        elif way == 12 and n:
            table[base + 10 + r.choice([r.randrange(n)] * 8 + [n % 64, 63])] = \
                r.choice([r.randrange(count)] * 4 + [count, 48])
        elif way in (14, 15, 16):
            self.change_fixed(table)
        elif way == 13 and self.chance(0.2):
            table[r.randrange(ref.FIXED)] = r.choice([0, 1, 2, 2 ** 63, 2 ** 64 - 1])


    def change_fixed(self, table):
        """One number of the fixed attributes, or one entry more."""
        r = self.r
        have = min(table[ref.FIXED], ref.MOST_FIXED)
        at = ref.FIXED + 1 + 3 * r.randrange(max(have, 1))
        way = r.randrange(5)
        if way == 0:
            table[ref.FIXED] = r.choice([0, have + 1, max(have - 1, 0), 16, 17])
        elif way == 1 and have < ref.MOST_FIXED:
            e = r.randrange(min(max(table[0], 1), 48))
            allowed = sorted(ref.Block(table[2 + e * BLOCK:2 + (e + 1) * BLOCK]).allowed)
            entry = (e, r.choice(allowed + [r.randrange(64)]), r.choice([0, 9, 65535]))
            entries = [tuple(table[k:k + 3]) for k in range(ref.FIXED + 1, ref.FIXED + 1 + 3 * have, 3)] + [entry]
            if self.chance(0.8):
                entries.sort()
            table[ref.FIXED:ref.FIXED + 1 + 3 * len(entries)] = [len(entries)] + [n for one in entries for n in one]
        else:
            part = r.randrange(3)                           # of an attribute the definitions compute 2 ^ its number
            table[at + part] = r.choice([0, 1, 2, 63, 64, 65535, 65536] + [2 ** 64 - 1] * (part != 1))


TREE_WAYS = ['root', 'undeclared', 'rename', 'attribute more', 'attribute less', 'value more', 'child less',
             'last child', 'child more', 'text', 'same id', 'loose', 'fixed']
FOR_NUMBER = {7: ['undeclared'], 8: ['attribute more', 'attribute less', 'value more', 'fixed'],
              9: ['child less', 'last child', 'last child', 'child more', 'text', 'rename'], 10: ['root'], 11: ['same id', 'child more', 'value more'],
              12: ['loose', 'attribute less', 'child less']}


# ------------------------------------------------------------------ cases

def told(**parts):
    return '\n'.join('    %s: %s' % (key.replace('_', ' '), value) for key, value in parts.items())


def read_case(file, buffer):
    number, count, after = ref.read(file, buffer)
    call = 'read %s %s' % (term(file), term(buffer))
    holds = 'counts (%s) %d %d %s' % (call, number, count, term(after))
    probes = [('number', '(%s).number' % call, 4), ('count', '(%s).count' % call, 14),
              ('buffer as expected', 'same ((%s).buffer) %s' % (call, term(after)), None)]
    return Case([Term('read', number, holds, len(file) + len(buffer), probes)],
                told(call='read', file=file, buffer=buffer, expected=(number, count, after)))


def write_case(tokens, buffer):
    number, count, after = ref.write(tokens, buffer)
    call = 'write %s %s' % (term(tokens), term(buffer))
    holds = 'counts (%s) %d %d %s' % (call, number, count, term(after))
    probes = [('number', '(%s).number' % call, 4), ('count', '(%s).count' % call, 14),
              ('buffer as expected', 'same ((%s).buffer) %s' % (call, term(after)), None)]
    return Case([Term('write', number, holds, len(tokens) + len(buffer), probes)],
                told(call='write', tokens=tokens, buffer=buffer, expected=(number, count, after)))


def text_case(text, file_room, names_room):
    """A DTD text by its three calls, each with a buffer of so many places."""
    terms, expected = [], []
    for name, by_second, room in (('import', dtd.import_dtd, file_room), ('names', dtd.dtd_names, names_room)):
        buffer = [99] * room
        number, count, after = by_second(text, buffer)
        expected.append((number, count, after))
        call = '%s %s %s' % (name, term(text), term(buffer))
        probes = [('number', '(%s).number' % call, 5), ('count', '(%s).count' % call, 15),
                  ('buffer as expected', 'same ((%s).buffer) %s' % (call, term(after)), None)]
        terms.append(Term(name, number, 'counts (%s) %d %d %s' % (call, number, count, term(after)), TEXTS * len(text), probes))
    number, offset = dtd.import_spot(text)
    expected.append((number, offset))
    call = 'spot %s' % term(text)
    probes = [('number', '(%s).number' % call, 5), ('offset', '(%s).offset' % call, 16)]
    terms.append(Term('spot', number, 'spotted (%s) %d %d' % (call, number, offset), TEXTS * len(text), probes))
    return Case(terms, told(call='import, names, spot', text=text, rooms=(file_room, names_room), expected=expected))


def compare_case(old, new, element, room):
    """Two tables, or lists that are none. Where nothing is lost the definition
    tries all sequences: those of at most three names are compared then."""
    number, takes_all, length, after = ref.compare(old, new, element, [99] * room)
    call = 'compare %s %s %d %s' % (term(old), term(new), element, term([99] * room))
    terms = []
    if not takes_all:
        label = number if number else 'no'
        terms.append(Term('compare', label, 'told (%s) %d 0 %d %s' % (call, number, length, term(after)), 1000,
                          [('number', '(%s).number' % call, 5), ('length', '(%s).len' % call, 13)]))
    if number == 0 and (takes_all or length < 4):
        found = 'none' if takes_all else '(some %s)' % term(after[:length])
        few = 'shortest_of 4 %d (lost (of_table %s) (of_table %s) %d)' % (old[0], term(old), term(new), element)
        terms.append(Term('compare, few names', 'yes' if takes_all else 'no', 'same_found (%s) %s' % (few, found), 1000))
    return Case(terms, told(call='compare', old=term(old), new=term(new), element=element, room=room,
                            expected=(number, takes_all, after[:length])))


def translate_case(file, table):
    number, after = ref.translate(file, table)
    call = 'translate %s %s' % (term(file), term(table))
    holds = 'tables (%s) %d %s' % (call, number, term(after))
    probes = [('number', '(%s).0' % call, 4),
              ('table as expected', 'same ((%s).1) %s' % (call, term(after)), None)]
    weight = 8 * len(file) if number in (0, 3) else len(file)
    terms = [Term('translate', number, holds, weight, probes)]
    if len(table) == TABLE:
        call = 'refusal_of (schema_of %s)' % term(file)
        terms.append(Term('schema_of', number, 'eqb (%s) %d' % (call, number), weight, [('number', call, 4)]))
    return Case(terms, told(call='translate', file=file, table_length=len(table), expected=number))


def proper_case(table):
    good = ref.proper(table)
    holds = 'proper %s' % term(table)
    return Case([Term('proper', int(good), holds if good else 'not (%s)' % holds, 100)],
                told(call='proper', table=term(table), expected=good))


def check_case(context, buffer, used, counts=None):
    """Of the context's table, and of its schema if it has one. The counts are
    any, if none are given."""
    counts = counts or [-7] * ref.NAMES
    number, place, counted = ref.check_counts(context.table, buffer, used, counts)
    own = context.file is None
    terms = []

    def add(name, call):
        terms.append(Term(name, number, 'answers (%s) %d %d' % (call, number, place), len(buffer),
                          [('number', '(%s).0' % call, 4),
                           ('place', '(%s).1' % call, 14)]))

    add('check, own table' if own and context.good else 'check', 'check table %s %d' % (term(buffer), used))
    call = 'checked_counts table %s %d %s' % (term(buffer), used, integers(counts))
    terms.append(Term('checked_counts', number, 'same_counts (%s) %s' % (call, integers(counted)), len(buffer)))
    if not own:
        agree('check', (number, place, counted), ref.check_counts_by_schema(context.schema, buffer, used, counts))
        add('checking', 'checking (of_schema s) %s %d' % (term(buffer), used))
    lines = 'check %d | %s | %s' % (used, plain(buffer), plain(counts)), '%d %d | %s' % (number, place, plain(counted))
    return Case(terms, told(call='check', buffer=buffer, used=used, counts=counts, expected=(number, place, counted)), lines=lines)


def true_counts(context, buffer, used):
    """Those of the document, if it is one."""
    try:
        ref.document(buffer, used)
        return ref.starts(buffer[:used], context.rules)
    except (ref.Refused, AttributeError):
        return [0] * ref.NAMES


def edit_case(context, buffer, used, operation, place, piece, second=None, counts=None):
    """With a second buffer that has two places more than needed, and with true
    counts, if none are given."""
    counts = counts or true_counts(context, buffer, used)
    need = ref.needed(buffer, used, operation, place, piece)
    if second is None:
        second = [98] * ((need or 3) + 2)
    answer = ref.edit(context.table, buffer, used, operation, place, piece, second, counts)
    number, where, length, change, children, after, back, counted = answer
    own = context.file is None
    name = OPERATIONS.get(operation, 'other')
    terms = []
    wanted = '%d %d %d %s %d %s %s %s' % (number, where, length, signed(change), children, term(after), term(back), integers(counted))

    def add(name, call):
        probes = [('number', '(%s).number' % call, 4),
                  ('place', '(%s).place' % call, 14),
                  ('used', '(%s).used' % call, 14),
                  ('change as expected', 'same_change ((%s).change) %s' % (call, signed(change)), None),
                  ('children', '(%s).children' % call, 14),
                  ('buffer as expected', 'same ((%s).buffer) %s' % (call, term(after)), None),
                  ('second buffer as expected', 'same ((%s).back) %s' % (call, term(back)), None),
                  ('counts as expected', 'same_counts ((%s).counts) %s' % (call, integers(counted)), None)]
        terms.append(Term(name, number, 'results (%s) %s' % (call, wanted), len(buffer) + len(piece) + len(second), probes))

    parts = '%s %d %s %s %s' % (term(buffer), used, request(operation, place, piece), term(second), integers(counts))
    add('edit, own table' if own and context.good else 'edit ' + name, 'edit table ' + parts)
    if not own:
        agree('edit', answer, ref.edit_by_schema(context.schema, buffer, used, operation, place, piece, second, counts))
        add('edit_by ' + name, 'outcome %s %d %s %s (edit_by (of_schema s) %s)' %
            (term(buffer), used, term(second), integers(counts), parts))
    rows = []
    if context.good:
        before = ref.check_by_schema(context.rules, buffer, used)[0]
        if before != 4:
            rows.append(('(invalid before)' if before else '(valid before)', number))
        if need is not None:
            rows += edges(context, buffer, used, operation, place, piece, second, need)
        if counts == true_counts(context, buffer, used) and before != 4:
            rows.append(('(counts)', 'true'))
            agree('true counts', (True, counted), (number != 15, true_counts(context, after, length)))
        if before == 0 and number == 0 and ref.in_range(counts):
            undone = ref.edit_by_schema(context.rules, after, length, *ref.stepping_back(back), [0] * ref.BACK, counted)
            agree('stepping back', (0, 0, used, -change), undone[:4])
            agree('stepping back', (buffer[:used], counts), (undone[5][:used], undone[7]))
    if number == 15:
        rows.append(('(counts)', 'at %d' % max(counts, key=lambda count: abs(2 * count - ref.TOKENS))))
    lines = ('edit %d %d %d | %s | %s | %s | %s' %
             (used, operation, place, plain(buffer), plain(piece), plain(second), plain(counts)),
             '%s | %s | %s | %s' % (plain(answer[:5]), plain(after), plain(back), plain(counted)))
    return Case(terms, told(call='edit', buffer=buffer, used=used, operation=operation, place=place, piece=piece,
                            counts=counts, expected=answer), rows, lines)


def edges(context, buffer, used, operation, place, piece, second, need):
    """How the second buffer fits, and what a set finds."""
    with_room = ref.edit_by_schema(context.rules, buffer, used, operation, place, piece, [0] * need,
                                   true_counts(context, buffer, used))
    if with_room[0] == 5:
        return []
    labels = []
    if len(second) < 4:
        labels.append('of %d' % len(second))
    if len(second) < need:
        labels.append('short, else %d' % with_room[0])
        if len(second) == need - 1:
            labels.append('one short')
    if len(second) == need:
        labels.append('just enough')
    rows = [('(second buffer)', label) for label in labels]
    if operation == 4 and with_room[0] == 0:
        back, _, old = ref.stepping_back(with_room[6])
        rows.append(('(set)', 'adds' if back == 5 else 'as it was' if old == piece else 'replaces'))
    return rows


def list_case(context, buffer, used, numbers, counts=None):
    """With true counts, if none are given."""
    counts = counts or true_counts(context, buffer, used)
    answer = ref.list_edit(context.table, buffer, used, numbers, counts)
    if context.file is not None:
        agree('list', answer, ref.list_by_schema(context.schema, buffer, used, numbers, counts))
    try:
        edits = ref.edits_of(numbers)
        name, rows = 'list', []
        if answer[0]:
            rows.append(('(list)', 'later refused' if answer[5] else 'first refused'))
        if len(edits) == ref.EDITS:
            rows.append(('(list)', 'of 256'))
    except ref.Refused as refused:
        name, rows = 'list, own fault', [('(list)', '257th begun' if refused.number == 5 else 'ends inside' if numbers else 'empty')]
    number, place, length, change, children, done, after, counted = answer
    call = 'edit_list table %s %d %s %s' % (term(buffer), used, term(numbers), integers(counts))
    holds = 'lists (%s) %d %d %d %d %s %d %s %s' % (call, done, number, place, length, signed(change), children, term(after),
                                                    integers(counted))
    last = '(%s).last' % call
    probes = [('number', last + '.number', 4), ('place', last + '.place', 14), ('used', last + '.used', 14),
              ('edits done', '(%s).done' % call, 9), ('children', last + '.children', 14),
              ('change as expected', 'same_change (%s.change) %s' % (last, signed(change)), None),
              ('buffer as expected', 'same (%s.buffer) %s' % (last, term(after)), None),
              ('counts as expected', 'same_counts (%s.counts) %s' % (last, integers(counted)), None)]
    terms = [Term(name, number, holds, (done + 1) * (len(buffer) + 50) + len(numbers), probes)]
    lines = ('list %d | %s | %s | %s' % (used, plain(buffer), plain(numbers), plain(counts)),
             '%s | %s | %s' % (plain(answer[:6]), plain(answer[6]), plain(answer[7])))
    return Case(terms, told(call='list', buffer=buffer, used=used, numbers=numbers, counts=counts, expected=answer), rows, lines)


def group_case(context, buffer, used, numbers, second):
    answer = ref.group_edit(context.table, buffer, used, numbers, second)
    if context.file is not None:
        agree('group', answer, ref.group_by_schema(context.schema, buffer, used, numbers, second))
    number, place, length, change, which, after, worked = answer
    rows = []
    try:
        edits = ref.edits_of(numbers)
        if len(second) < len(buffer):
            rows.append(('(group)', 'second short'))
        elif which:
            rows.append(('(group)', 'edit %d' % number))
            if which > 1:
                rows.append(('(group)', 'later edit'))
        elif number == 0:
            true = true_counts(context, buffer, used)
            if all(ref.edit_by_schema(context.rules, buffer, used, *one, [0] * ref.BACK, true)[0] == 12 for one in edits):
                rows.append(('(group)', 'renamed'))
            if worked[length:length + 1] == [0] and length >= used and second[length] != 0:
                rows.append(('(group)', 'longer within'))
    except ref.Refused as refused:
        rows.append(('(group)', 'list %d' % refused.number))
    lines = ('group %d | %s | %s | %s' % (used, plain(buffer), plain(numbers), plain(second)),
             '%s | %s | %s' % (plain(answer[:5]), plain(after), plain(worked)))
    call = 'group table %s %d %s %s' % (term(buffer), used, term(numbers), term(second))
    holds = 'groups (%s) %d %d %d %s %d %s %s' % (call, number, place, length, signed(change), which, term(after), term(worked))
    probes = [('number', '(%s).number' % call, 4), ('place', '(%s).place' % call, 14), ('used', '(%s).used' % call, 14),
              ('which edit', '(%s).which' % call, 9),
              ('change as expected', 'same_change ((%s).change) %s' % (call, signed(change)), None),
              ('buffer as expected', 'same ((%s).buffer) %s' % (call, term(after)), None),
              ('second buffer as expected', 'same ((%s).second) %s' % (call, term(worked)), None)]
    terms = [Term('group', number, holds, len(buffer) + len(second) + len(numbers), probes)]
    return Case(terms, told(call='group', buffer=buffer, used=used, numbers=numbers, second=second, expected=answer), rows, lines)


def elements_case(context, counts, name):
    number, count = ref.elements(context.table, counts, name)
    lines = 'elements %d | %s' % (name, plain(counts)), '%d %d' % (number, count)
    call = 'elements_of table %s %d' % (integers(counts), name)
    probes = [('number', '(%s).0' % call, 4), ('count', '(%s).1' % call, 14)]
    terms = [Term('elements', number, 'answers (%s) %d %d' % (call, number, count), 100, probes)]
    return Case(terms, told(call='elements', counts=counts, name=name, expected=(number, count)), lines=lines)


def plain(numbers):
    return ' '.join(map(str, numbers))


def agree(call, by_table, by_schema):
    if by_table != by_schema:
        raise SystemExit('reference.py differs with itself in %s: %r by the table, %r by the schema'
                         % (call, by_table, by_schema))


def printed_case(schema, doc, edits):
    out = ref.program(schema, doc, edits)
    lines = out.decode().splitlines()
    if lines[-1].startswith('stop'):
        kind = lines[-1]
    elif lines[0].split()[1] != '0':
        kind = 'check not 0'
    else:
        kind = 'lines'

    def file(f):
        return 'none' if f is None else '(some %s)' % term(f)

    call = 'printed %s %s %s' % (file(schema), file(doc), file(edits))
    weight = sum(len(f or []) for f in (schema, doc, edits)) + 500 * len(lines)
    return Case([Term('printed', kind, 'same (%s) %s' % (call, term(out)), weight)],
                told(call='printed', schema=schema, doc=doc, edits=edits, expected=lines))


def improved(shade, last):
    """Tables for each clause of what is proper, from that of the small shade
    and from one with sixty-four occurrences; some are proper, some are not."""

    def place(element, at):
        return 2 + element * BLOCK + at

    def put(base, *changes):
        table = list(base)
        for at, value in changes:
            table[at] = value
        return table

    top = 1 << 63
    out = [shade[:-1], shade + [0], [], [1], shade, last]
    for e in (0, 3, 5, 48, 49, 2 ** 64 - 1):
        out.append(put(shade, (0, e)))
    for root in (3, 4, 47, 48):
        out.append(put(shade, (1, root)))
    for element in (0, 2, 3):
        for kind in (0, 1, 2, 3):
            out.append(put(shade, (place(element, 0), kind)))
    for at in (6, 7, 8, 9, 10, 73, 74, 137):
        out.append(put(shade, (place(2, at), 1)))           # text only
        out.append(put(shade, (place(3, at), 1)))           # EMPTY
        out.append(put(shade, (place(4, at), 1)))           # past the elements
    for at in range(6):
        out.append(put(shade, (place(47, at), 1)))
    out.append(put(shade, (TABLE - 1, 1)))
    for at in (2, 3, 4, 5):
        out.append(put(shade, (place(1, at), 4)))           # outside allowed
        out.append(put(shade, (place(1, at), top), (place(1, 1), top + 2)))
    sets = (place(1, 1), 7 + top)
    for one, two in ((3, 4), (3, 5), (4, 5)):
        for bits in (2, 4, top, 4 + top):
            out.append(put(shade, sets, (place(1, 3), 0), (place(1, one), 4), (place(1, two), bits)))
            out.append(put(shade, sets, (place(1, 3), 0), (place(1, one), top), (place(1, two), bits)))
    for ids in (0, 1, 3, top, top + 1, 7):
        out.append(put(shade, sets, (place(1, 3), ids)))
    for n in (0, 1, 2, 3, 63, 64, 65):
        out.append(put(shade, (place(0, 6), n)))
        out.append(put(last, (place(0, 6), n)))
    for flag in (0, 1, 2):
        out.append(put(shade, (place(0, 7), flag)))
    for at in (8, 9, 74, 75, 76, 137):
        for bits in (0, 1, 2, 3, 4, 7, top):
            out.append(put(shade, (place(0, at), bits)))
    for at in (8, 9, 74, 136, 137):
        for bits in (0, 3, 5, top, top + 1, top + 2, 2 ** 64 - 1):
            out.append(put(last, (place(0, at), bits)))
    for at in (10, 11, 12, 73):
        for name in (1, 3, 4, 48):
            out.append(put(shade, (place(0, at), name)))
            out.append(put(last, (place(0, at), name)))
    # fixed attributes: of element 1, attribute 1 is the ID and attributes 2, 3 and 63 are CDATA here; of element 3, 2 is an IDREF and 3 CDATA
    fixed = put(shade, (place(1, 1), 14 + top), (place(1, 2), 2), (place(3, 1), 12), (place(3, 2), 4))
    for count, entries in ((0, []), (1, [1, 2, 0]), (1, [1, 3, 65535]), (1, [1, 3, 65536]), (1, [1, 63, 7]), (2, [1, 2, 0, 1, 3, 0]),
                           (2, [1, 2, 0, 3, 3, 0]), (2, [1, 3, 0, 1, 2, 0]), (2, [1, 3, 0, 1, 3, 0]), (2, [3, 3, 0, 1, 2, 0]),
                           (1, [1, 1, 0]), (1, [3, 2, 0]), (1, [1, 4, 0]), (1, [1, 62, 0]), (1, [1, 64, 0]), (1, [1, 67, 0]),
                           (1, [0, 0, 0]), (1, [4, 2, 0]), (1, [48, 2, 0]), (1, [2, 2, 0]), (1, [1, 2, 0, 1]), (1, [1, 2, 0, 0, 1]),
                           (0, [1, 2, 0]), (0, [0, 0, 1]), (2, [1, 2, 0]), (16, [1, 2, 0]), (17, [1, 2, 0]), (2 ** 64 - 1, []),
                           (1, [1, 2, 0] + [0] * 44 + [1]), (1, [2 ** 64 - 1, 2, 0]), (1, [1, 2 ** 16, 0])):
        out.append(put(fixed, (ref.FIXED, count), *((ref.FIXED + 1 + k, number) for k, number in enumerate(entries))))
    # sixteen of one element, and the seventeenth place is none
    full = put(shade, (place(1, 1), 2 ** 64 - 1), *((ref.FIXED + 1 + 3 * k + j, n) for k in range(16) for j, n in enumerate((1, 2 + k, k))))
    out += [put(full, (ref.FIXED, count)) for count in (15, 16, 17)]
    return out


def schema_files():
    """Schema files at each bound and for the order of faults."""
    broken = [128, 0]
    one = [1, 0]                                            # E and root
    out = [[], [0], [1], [49], [48, 47] + [0, 0] * 48, [48, 48], [1, 1], [2, 1, 0, 0, 0, 0], [3, 3], [128], broken,
           [0] + broken, [1] + broken, one + [3], one + [0], one + [0, 0], one + [1, 0], one + [0, 0, 0],
           one + [0, 0] + broken, one + [3] + broken, one + broken]
    out += [one + [2, 0], one + [2] + ref.groups(256), one + [2] + ref.groups(255) + [2] * 254 + [5, 0],
            one + [2] + ref.groups(255) + [2] * 255, one + [2] + ref.groups(255) + [2] * 254,
            one + [2] + ref.groups(128) + [3] * 127 + [5, 0]]
    # symbols: out of range, too few, too many, then the file's end
    for symbols in ([5], [6], [6, 128, 0], [4], [0, 5], [0, 5, 5], [0, 5, 5, 5], [5, 5], [2], [1, 5], [2, 2, 5], [5, 0, 5],
                    [1, 5, 5], [0, 2, 5, 5], [0, 5, 2, 5], [0, 3, 5, 2], [0, 0, 5, 5, 5], [3, 0, 5, 5], [0, 2, 5, 6]):
        out.append(one + [2, len(symbols)] + symbols)
        out.append(one + [2, len(symbols)] + symbols + [0])
        out.append(one + [2, len(symbols)] + symbols + [65])
        out.append(one + [2, len(symbols) + 1] + symbols)
    # attributes
    for attributes in ([64, 0], [63, 0, 0], [1, 64, 0, 0], [1, 63, 4], [1, 63, 3, 2], [1, 63, 3, 1], [1, 63, 3], [1, 63],
                       [2, 5, 0, 0, 5], [2, 5, 0, 0, 4, 0, 0], [2, 5, 0, 0, 6, 0, 0], [2, 1, 1, 0, 2, 1],
                       [2, 1, 1, 0, 2, 1, 0], [2, 1, 1, 0, 2, 2, 0], [2, 1, 1, 2], [1, 0, 0, 0, 0], [65],
                       [64] + [t for a in range(64) for t in (a, 2 if a else 1, a % 2)],
                       [64] + [t for a in range(63) for t in (a, 0, 0)] + [64],
                       [3, 0, 1, 0, 1, 0, 0, 2, 1] + broken, [2, 0, 1, 0] + broken, [1, 64] + broken):
        out.append(one + [0] + attributes)
        out.append(one + [1] + attributes)
    # fixed attributes
    top = ref.groups(65535)
    for attributes in ([1, 5, 0, 2, 7], [1, 5, 0, 2] + top, [1, 5, 0, 2] + ref.groups(65536), [1, 5, 0, 2], [1, 5, 0, 2] + broken,
                       [1, 5, 1, 2, 7], [1, 5, 2, 2, 7], [1, 5, 3, 2, 7], [1, 5, 1, 2] + broken, [1, 5, 0, 3, 7], [1, 5, 0, 2, 7, 7],
                       [2, 5, 0, 2, 7, 5, 0, 1], [2, 5, 0, 2, 7, 6, 0, 1], [2, 5, 0, 1, 6, 0, 2] + top):
        out.append(one + [0] + attributes)
    for count in (15, 16, 17):
        several = [count] + [n for k in range(count) for n in (k, 0, 2, k)]
        out += [one + [0] + several, [2, 0, 0] + several + [0, 1, 0, 0, 2, 5], [2, 0, 0] + several + [0, 1, 0, 0, 2] + broken,
                [2, 0, 0] + several + [0, 1, 0, 0, 1]]
    return out


TOP = 8 * 65535                  # a token of the largest number, without its sort

# tokens that have shape, and tokens that have not
SHAPES = [
    [1, 2], [1, 2, 2], [1, 1, 2], [3, 1, 2], [1, 2, 3], [1, 2, 1, 2], [2, 1], [1, 3, 2], [1, 3, 3, 2], [1, 4, 2], [1, 4, 5, 2],
    [1, 4, 5, 5, 2], [1, 5, 2], [1, 4, 5, 4, 5, 2], [1, 12, 5, 4, 5, 2], [1, 4, 5, 12, 5, 2], [1, 3, 4, 5, 2],
    [1, 9, 2, 4, 5, 2], [1, 4, 5, 3, 5, 2], [1, 9, 2, 5, 2], [1, 4, 3, 5, 2], [1, 4, 12, 5, 2], [1, 4, 9, 2, 2], [1, 4, 5],
    [1, 10, 2], [1, TOP + 2], [1, 0, 2], [1, 6, 2], [1, 7, 2], [TOP + 1, 2], [TOP + 9, 2], [1, TOP + 3, 2], [1, TOP + 11, 2],
    [1, TOP + 4, 5, 2], [1, TOP + 12, 5, 2], [1, 4, TOP + 5, 2], [1, 4, TOP + 13, 2], [1, 2 ** 32 + 3, 2], [2 ** 32 + 1, 2],
    [1, 9, 2, 2], [1, 9, 4, 5, 2, 2], [1, 4, 5, 9, 12, 5, 2, 2], [1, 9, 2, 9, 2, 2], [1, 9, 12, 5, 17, 3, 2, 2, 2],
    [1, 9, 2, 10], [1, 4, 5, 4, 2], [1, 5, 4, 2], [4, 5, 1, 2]]

# pieces of one sort or none
PIECES = [
    [], [0], [1], [2], [3], [4], [5], [6], [7], [10], [12], [TOP + 1], [TOP + 3], [TOP + 11], [TOP + 4], [TOP + 12], [TOP + 5],
    [TOP + 13], [3, 3], [4, 4], [4, 5], [4, 5, 5], [12, 5], [12, TOP + 5], [12, TOP + 13], [TOP + 4, 5], [TOP + 12, 5], [5, 5],
    [4, 5, 3], [4, 5, 4], [4, 3], [4, 2], [5, 4], [4, 5, 4, 5], [4, 0], [2 ** 32 + 3], [2 ** 32 + 4]]


# ------------------------------------------------------------ the whole set

class Cases:
    def __init__(self, seed, share):
        self.make = Maker(seed)
        self.share = share
        self.turn = seed
        self.r = self.make.r
        self.contexts = []           # with table, and with schema or not
        self.alone = []              # cases with no context
        self.counts = {}
        self.total = 0
        self.fixed = 0

    def add(self, case, context=None):
        (context.cases if context else self.alone).append(case)
        self.total += 1
        for call, number in case.rows:
            row = self.counts.setdefault(call, {})
            row[number] = row.get(number, 0) + 1

    def in_turn(self, case, context=None):
        """Takes one in `share` of the fixed cases."""
        self.turn += 1
        if self.turn % self.share == 0:
            self.add(case, context)

    def missing(self):
        return [(call, number) for call, numbers in REQUIRED.items() for number in sorted(numbers, key=str)
                if number not in self.counts.get(call, {})]

    # -- DTD texts and comparisons

    def text(self, wanted=None):
        r = self.r
        while True:
            text = dtd.sound(r)[0] if self.make.chance(0.6) else dtd.misled(r)
            if self.make.chance(0.3) and len(text) < 400:
                text = r.choice(list(dtd.damages(r, text)))
            number = dtd.import_spot(text)[0]
            if len(text) <= 250 and (wanted in (None, number) or wanted == 5 and number == 0):
                break
        rooms = []
        for made in (dtd.import_dtd, dtd.dtd_names):
            length = made(text, [0] * 500)[1]
            rooms.append(max(0, length + (-1 if wanted == 5 else r.choice([-1, 0, 0, 2]))))
        self.add(text_case(text, *rooms))

    def texts(self):
        """Those at the limits that the definitions compute in seconds."""
        for text, _, _ in dtd.limits():
            if len(text) < 1100 and b'ATTLIST' not in text:
                file, names = (made(text, [0] * 2000)[1] for made in (dtd.import_dtd, dtd.dtd_names))
                self.in_turn(text_case(text, file + 1, names))

    def comparison(self, wanted=None):
        """Of an element with two models of three names, or of a refusal."""
        r = self.r
        while True:
            def table(e):
                out = [e, 0] + [2] + self.symbols(r.randrange(4), e) + [0]
                out += [number for _ in range(e - 1) for number in (r.choice([0, 0, 1]), 0)]
                return ref.translate(ref.file_of(out), [0] * TABLE)
            old, new = table(3), table(r.choice([2, 3, 3, 3]))
            if old[0] or new[0]:
                continue
            old, new = old[1], new[1]
            element = r.choice([0, 0, 0, 0, 1, 2, 3])
            room = ref.SEQUENCE - self.make.chance(0.1)
            if self.make.chance(0.1):
                r.choice([old, new])[6 + r.randrange(100)] = 77
            number, takes_all, length, _ = ref.compare(old, new, element, [99] * room)
            label = number or ('yes' if takes_all else 'no')
            if length < 4 and wanted in (None, label):
                return self.add(compare_case(old, new, element, room))

    def symbols(self, depth, e):
        """A count of symbols and the symbols of a model."""
        r = self.r

        def tree(depth):
            if depth == 0 or self.make.chance(0.2):
                return [5 + r.randrange(e)]
            operator = r.randrange(5)
            return [operator] + tree(depth - 1) + (tree(depth - 1) if operator < 2 else [])

        symbols = tree(depth)
        return [len(symbols)] + symbols

    # -- calls without a document

    def read(self, wanted=None):
        r = self.r
        while True:
            numbers = [r.choice([0, 1, 127, 128, 16383, 16384, LARGEST, r.randrange(128), r.randrange(LARGEST + 1)])
                       for _ in range(r.choice([0, 1, 2, 3, 5, 8]))]
            file = ref.file_of(numbers)
            if self.make.chance(0.3):
                at = r.randrange(len(file) + 1)
                file[at:at] = r.choice([[128, 0], [128, 128, 0], [255, 255, 255], [129], [255, 255, 127], [128, 128, 1]])
            if self.make.chance(0.2):
                file = file[:r.randrange(len(file) + 1)]
            if self.make.chance(0.1):
                file = [r.choice([0, 1, 127, 128, 129, 255, r.randrange(256)]) for _ in range(r.randrange(8))]
            buffer = [r.randrange(1000) for _ in range(max(0, len(numbers) + r.choice([-2, -1, 0, 0, 1, 4])))]
            if wanted in (None, ref.read(file, buffer)[0]):
                return self.add(read_case(file, buffer))

    def write(self, wanted=None):
        r = self.r
        while True:
            tokens = [r.choice([0, 1, 127, 128, 16383, 16384, LARGEST, r.randrange(128), r.randrange(LARGEST + 1)])
                      for _ in range(r.choice([0, 1, 2, 3, 5, 8]))]
            if tokens and self.make.chance(0.3):
                tokens[r.randrange(len(tokens))] = r.choice([LARGEST + 1, 2 ** 32 - 1, 2 ** 40])
            size = len(ref.file_of(tokens))
            buffer = [r.randrange(256) for _ in range(max(0, size + r.choice([-2, -1, 0, 0, 1, 5])))]
            if wanted in (None, ref.write(tokens, buffer)[0]):
                return self.add(write_case(tokens, buffer))

    def translate(self, wanted=None):
        r = self.r
        if wanted is None:
            wanted = r.choice([0, 0, 1, 1, 2, 2, 2, 3, 3, 13])
        before = r.choice([[0] * TABLE, [7] * TABLE, list(range(10)) + [2 ** 64 - 1] * (TABLE - 10)])
        if wanted == 13:
            length = r.choice([0, 1, 10, TABLE - 1, TABLE + 1])
            file = self.make.schema_file(r.choice([0, 1, 2, 3]))
            return self.add(translate_case(file, (before + [3])[:length]))
        return self.add(translate_case(self.make.schema_file(wanted), before))

    def proper(self, wanted=None):
        wish = bool(wanted) if wanted is not None else self.make.chance(0.4)
        table = None
        while table is None:
            table = self.make.own_table(self.r.choice(self.translated()), wish)
        self.add(proper_case(table))

    def printed(self, wanted=None):
        r = self.r
        while True:
            context = r.choice(self.translated())
            root = self.make.document(context)
            if self.make.chance(0.1):
                root = self.make.change_tree(context, root)
            tokens = ref.lay(root)
            schema, doc = context.file, ref.file_of(tokens)
            edits = []
            table, buffer, used = context.table, tokens + [0] * 400, len(tokens)
            for _ in range(r.choice([0, 1, 2, 4, 6])):
                tree = ref.tree_of(buffer[:used])
                if tree is None:
                    break
                asked = self.make.edit(context, tree, r.choice([1, 1, 2, 3, 4, 4, 5, 0]))
                edits += [asked[0], asked[1], len(asked[2])] + asked[2]
                _, _, used, _, _, buffer, _, _ = ref.edit(table, buffer, used, *asked, [0] * ref.BACK,
                                                         true_counts(context, buffer, used))
            if any(number > LARGEST for number in edits):
                continue
            edits = ref.file_of(edits)
            way = r.random() if wanted != 'lines' else 1
            if way < 0.1:
                edits = edits[:r.randrange(len(edits) + 1)]
            elif way < 0.2:
                edits = edits + r.choice([[1], [128, 0], ref.file_of([1, 1, 8193]), ref.file_of([1, 1, 8192]), [1, 1]])
            elif way < 0.3:
                doc = r.choice([doc + [128], doc[:-1], [], [1, 2], ref.file_of([LARGEST])])
            elif way < 0.5:
                schema = self.make.schema_file(r.choice([1, 2, 3]))
            elif way < 0.55:
                files = [schema, doc, edits]
                files[r.randrange(3)] = r.choice([None, None, [0] * 65537])
                schema, doc, edits = files
            case = printed_case(schema, doc, edits)
            if wanted in (None, case.terms[0].number):
                return self.add(case)

    # -- contexts

    def translated(self):
        return [c for c in self.contexts if c.file is not None and c.random]

    def own(self):
        return [c for c in self.contexts if c.file is None and c.good]

    def improper(self):
        return [c for c in self.contexts if c.file is None and not c.good]

    def new_context(self, **how):
        self.translated_context(self.make.context(**how), True)

    def translated_context(self, numbers, random=False):
        """Adds the schema and the case that it is translated. Random cases
        take only random schemas."""
        file = ref.file_of(numbers)
        context = Context(file, ref.translate(file, [0] * TABLE)[1])
        context.random = random
        self.contexts.append(context)
        self.add(translate_case(file, [7] * TABLE), context)
        return context

    def new_own(self, wish, lively=False):
        """A table that no schema file gives: proper or not; with valid
        documents and IDs if it is to be lively."""
        table = None
        while table is None or lively and not self.lively(Context(None, table)):
            table = self.make.own_table(self.r.choice(self.translated()), wish)
        self.contexts.append(Context(None, table))
        self.add(proper_case(table))

    def lively(self, context):
        ids = any(context.table[2 + BLOCK * e + 3] for e in range(context.table[0]))
        return ids and any(self.valid(context, ref.lay(self.make.document(context))) for _ in range(10))

    def valid(self, context, tokens):
        return len(tokens) <= 300 and ref.check_by_schema(context.rules, tokens, len(tokens))[0] == 0

    def tree(self, context, wanted, sound):
        """A document, sound or with some faults."""
        root = self.make.document(context)
        faults = 0 if sound else self.r.choice([1, 1, 2, 3])
        for _ in range(faults):
            way = self.r.choice(FOR_NUMBER[wanted]) if wanted in FOR_NUMBER and self.make.chance(0.8) else None
            root = self.make.change_tree(context, root, way)
        return root

    def candidates(self, contexts):
        """The contexts' rules; an improper table has those of a translated
        one."""
        context = self.r.choice(contexts)
        return context, context if context.good else self.r.choice(self.translated())

    def check(self, wanted=None, contexts=None):
        contexts = contexts or (self.improper() if wanted == 13 else self.translated())
        for _ in range(20000):
            context, guide = self.candidates(contexts)
            sound = self.make.chance({0: 0.95, None: 0.4}.get(wanted, 0.1))
            tokens = ref.lay(self.tree(guide, wanted, sound))
            if len(tokens) > 300:
                continue
            if self.make.chance(0.8 if wanted == 4 else 0.03):
                tokens = self.make.change_tokens(tokens)
            buffer, used = self.make.buffer(tokens)
            number = 13 if not context.good else ref.check_by_schema(context.rules, buffer, used)[0]
            if wanted in (None, number):
                return self.add(check_case(context, buffer, used, self.make.counts([self.r.choice([-7, 3])] * 48)), context)
        raise SystemExit('no check with answer %s' % wanted)

    def edit(self, operation=None, wanted=None, contexts=None, row=None):
        contexts = contexts or (self.improper() if wanted == 13 else self.translated())
        for _ in range(40000):
            context, guide = self.candidates(contexts)
            root = self.tree(guide, wanted, self.make.chance(0.6))
            tokens = ref.lay(root)
            if len(tokens) > 300:
                continue
            op = operation if operation is not None else self.r.choice([1, 1, 1, 2, 2, 3, 3, 4, 4, 5, 5])
            if op == 0:
                op = self.r.choice([0, 6, 7, 255, 10 ** 6])
            _, place, piece = self.make.edit(guide, root, op, 0.6 if wanted == 4 else 0.03)
            if self.make.chance(0.3 if wanted == 4 else 0.02):
                tokens = self.make.change_tokens(tokens)
            buffer, used = self.make.buffer(tokens)
            second = self.make.second(buffer, used, op, place, piece)
            counts = self.make.counts(true_counts(context, buffer, used), wanted == 15 or row and row[0] == '(counts)')
            number = 13 if not context.good else \
                ref.edit_by_schema(context.rules, buffer, used, op, place, piece, second, counts)[0]
            if wanted in (None, number):
                case = edit_case(context, buffer, used, op, place, piece, second, counts)
                if row is None or row in case.rows:
                    return self.add(case, context)
        raise SystemExit('no edit %s with answer %s' % (operation, row or wanted))

    def run_back(self):
        """A run of edits of a valid document, and the way back by what each
        left in its second buffer."""
        context = self.r.choice(self.translated() + self.own())
        first = ref.lay(self.make.document(context))
        if not self.valid(context, first):
            return self.run_back()
        buffer, used, steps = first + [7] * self.r.choice([0, 4, 12]), len(first), []
        for _ in range(self.r.choice([2, 3, 4, 5])):
            for _ in range(20):
                asked = self.make.edit(context, ref.tree_of(buffer[:used]), self.r.choice([1, 1, 2, 3, 3, 4, 4, 5]))
                second = [98] * ((ref.needed(buffer, used, *asked) or 3) + self.r.choice([0, 0, 2]))
                number, _, length, _, _, after, back, _ = ref.edit_by_schema(context.rules, buffer, used, *asked, second,
                                                                            true_counts(context, buffer, used))
                if number == 0:
                    self.add(edit_case(context, buffer, used, *asked, second), context)
                    steps.append(ref.stepping_back(back))
                    buffer, used = after, length
                    break
        while steps:
            asked = steps.pop()
            case = edit_case(context, buffer, used, *asked, [98] * ref.needed(buffer, used, *asked))
            case.rows.append(('(second buffer)', 'steps back'))
            self.add(case, context)
            number, _, used, _, _, buffer, _, _ = ref.edit_by_schema(context.rules, buffer, used, *asked, [0] * ref.BACK,
                                                                     true_counts(context, buffer, used))
            agree('stepping back', number, 0)
        agree('a run stepped back', buffer[:used], first)

    def grouping(self, wanted=None, row=None):
        """An ID renamed with its references, or edits that are in form; or a
        group with a fault of its own."""
        r = self.r
        contexts = self.improper() if wanted == 13 else self.translated() + self.own()
        for _ in range(40000):
            context, guide = self.candidates(contexts)
            tokens = ref.lay(self.tree(guide, wanted, self.make.chance(0.7)))
            if len(tokens) > 200:
                continue
            buffer, used = self.make.buffer(tokens)
            edits = self.renaming(guide, tokens) if self.make.chance(0.4) else []
            after = tokens
            for _ in range(0 if edits else r.choice([1, 1, 2, 3])):
                root = ref.tree_of(after)
                if root is None:
                    break
                asked = self.make.edit(guide, root, r.choice([1, 1, 2, 3, 3, 4, 4, 5, 0]), 0.1)
                edits.append(asked)
                try:
                    after = ref.stepped(after, len(buffer), *asked)
                except ref.Refused:
                    break
            if row and row[1] == 'longer within' and edits:
                edits = [(1, len(tokens) - 1, [3]), (2, len(tokens) - 1, [])] + edits
            numbers = ref.list_numbers(edits)
            if self.make.chance(0.1) or row and row[1].startswith('list'):
                numbers = r.choice([numbers[:-1], numbers + [1], [], numbers + ref.list_numbers([(2, 1, [])] * ref.EDITS)])
            more = r.choice([0, 0, 1, 3, 9, -1] if not row or 'second' not in row[1] else [-1, -2])
            second = [r.choice([1, 98, 2 ** 32 - 1]) for _ in range(max(0, len(buffer) + more))]
            case = group_case(context, buffer, used, numbers, second)
            if (wanted is None or ('group', wanted) in case.rows) and (row is None or row in case.rows):
                return self.add(case, context)
        raise SystemExit('no group with answer %s' % (row or wanted))

    def renaming(self, context, tokens):
        """Sets that give an ID and its references another value; none if there
        is no ID."""
        root = ref.tree_of(tokens)
        ids = self.make.ids(context, root) if root else []
        if not ids:
            return []
        ref.lay(root)
        old, new = self.r.choice(ids), self.r.choice([self.r.randrange(65536)] * 5 + ids)
        edits = []
        for element in root.elements():
            if element.name < len(context.rules.elements):
                kinds = context.rules.elements[element.name].attributes
                for number, values in sorted(element.attributes.items()):
                    if kinds.get(number, (CDATA,))[0] != CDATA and old in values and self.make.chance(0.95):
                        piece = [8 * number + ATTRIBUTE] + [8 * (new if value == old else value) + VALUE for value in values]
                        edits.append((4, element.place, piece))
        return edits

    def question(self, wanted=None):
        r = self.r
        while True:
            context = r.choice(self.contexts if wanted != 13 else self.improper())
            name = r.choice([0, 1, 2, 3, 4, 47, 48, 2 ** 32 - 1])
            case = elements_case(context, self.make.counts([r.choice([0, 1, 8192]) for _ in range(48)], wanted == 15), name)
            if wanted is None or ('elements', wanted) in case.rows:
                return self.add(case, context)

    def listing(self, wanted=None, row=None):
        """Edits that are done, then one that is not looked at; or a list with
        a fault of its own."""
        r = self.r
        contexts = self.improper() if wanted == 13 else self.translated() + self.own()
        for _ in range(40000):
            context, guide = self.candidates(contexts)
            tokens = ref.lay(self.tree(guide, wanted, self.make.chance(0.7)))
            if len(tokens) > 200:
                continue
            buffer, used = self.make.buffer(tokens)
            after, length, edits = buffer, used, []
            for _ in range(r.choice([1, 1, 2, 3, 5])):
                root = ref.tree_of(after[:length])
                if root is None:
                    break
                asked = self.make.edit(guide, root, r.choice([1, 1, 2, 3, 3, 4, 4, 5, 0]), 0.1)
                number, _, length, _, _, after, _, _ = ref.edit_by_schema(guide.rules, after, length, *asked, [0] * ref.BACK,
                                                                         true_counts(guide, after, length))
                edits.append(asked)
                if number and self.make.chance(0.7):
                    break
            numbers = ref.list_numbers(edits)
            if self.make.chance(0.2) or row:
                fill = edits[0] if edits else (2, 1, [])
                numbers += r.choice([[], [], [], ref.list_numbers([fill] * (ref.EDITS - len(edits))),
                                     ref.list_numbers([fill] * (ref.EDITS + 1))])
                numbers = r.choice([numbers, numbers, numbers[:-1], numbers + [1], [], numbers + [2, 1, 1]])
            counts = self.make.counts(true_counts(context, buffer, used), wanted == 15)
            case = list_case(context, buffer, used, numbers, counts)
            if case.terms[0].weight > WEIGHT:
                continue                                    # too long for the definitions
            if (wanted is None or ('list', wanted) in case.rows) and (row is None or row in case.rows):
                return self.add(case, context)
        raise SystemExit('no list with answer %s' % (row or wanted))

    # -- large ones

    def large(self):
        """The limits: tokens, depth, files, occurrence 63, 48 elements."""
        add = self.in_turn
        for count in (8192, 8193):
            add(read_case([5] * count, [4] * 8200))
            add(write_case([5] * count, [4] * 8200))
        add(read_case([5] * 8193 + [128, 0], [4] * 8192))
        add(read_case([5] * 8192 + [128, 0], [4] * 8192))
        add(write_case([LARGEST + 1] * 8193, []))
        add(write_case([300] * 8192, [9] * 16384))
        add(write_case([300] * 8192, [9] * 16383))
        shade, small = ref.file_of(ref.SHADE), ref.file_of(ref.SHADE_DOC)
        edits = ref.file_of([2, 3, 0, 1, 10, 4, 9, 12, 173, 2, 3, 3, 4, 9, 12, 173, 2, 2, 14, 0, 2, 3, 0])
        add(printed_case(shade, small, edits))
        add(printed_case(shade, [5] * 8193, []))
        add(printed_case(shade, [5] * 8192, []))
        add(printed_case([0] * 65537, None, None))
        add(printed_case(shade, small, [0] * 65536 + [0]))

        # the small shade: each operation at each place, each piece, and a
        # bad piece at a bad place
        context = self.translated_context(ref.SHADE)
        use, panel, root = [25, 20, 165, 2], [9, 12, 173, 2], [1, 4, 61, 9, 12, 165, 2, 2]
        inside = [9, 12, 173, 17, 3, 2, 17, 2, 2]           # the second row has no text
        pieces = {0: [[]], 1: [use, panel, [3], [9, 2]], 2: [[]], 3: [use, panel, [3], [9, 2], root],
                  4: [[12, 173], [4, 61], [20, 165], [12, 5, 5]], 5: [[4], [12], [20]], 6: [[]]}
        room = ref.SHADE_DOC + [7, 8, 9, 10, 11, 12, 13, 14, 15, 16]
        for operation in pieces:
            for piece in pieces[operation]:
                for place in range(17):
                    add(edit_case(context, room, 15, operation, place, piece), context)
        add(edit_case(context, room, 15, 1, 3, inside), context)
        add(edit_case(context, room, 15, 3, 10, inside), context)
        for piece in SHAPES + [[1, 4, 5, 9, 12, 5, 17, 2, 2, 2], [1, 4, 5, 9, 2, 2], [1, 4, 5, 25, 20, 5, 2, 2]]:
            add(edit_case(context, room, 15, 3, 0, piece), context)
        for operation in OPERATIONS:
            for piece in SHAPES + PIECES:
                add(edit_case(context, room, 15, operation, 3, piece), context)
            for piece in PIECES[::3]:
                add(edit_case(context, room, 15, operation, 1, piece), context)
        for tokens in SHAPES + PIECES:
            add(check_case(context, tokens + [7], len(tokens)), context)
        for used in (0, 1, 2, 14, 15, 16, 8193, 10 ** 6):
            add(check_case(context, ref.SHADE_DOC, used), context)
            add(edit_case(context, ref.SHADE_DOC, used, 6, 1, []), context)

        # root (a*), a EMPTY with CDATA 0, an ID 1 and IDREFS 2, all implied
        wide = self.translated_context([2, 0, 2, 2, 3, 6, 0, 0, 3, 0, 0, 1, 1, 1, 1, 2, 3, 1])
        full = [1] + [9, 2] * 4095 + [2]
        for tokens, used in ((full, 8192), (full, 8191), ([1] + [9, 2] * 4096 + [2], 8194)):
            add(check_case(wide, tokens, used), wide)
        room = full + [7] * 8
        for operation, place, piece in ((1, 1, [9, 2]), (2, 3, []), (3, 1, [9, 2]), (3, 8189, [9, 4, 5, 2]),
                                        (4, 1, [4, 5]), (3, 0, [1] + [9, 2] * 96 + [2]), (1, 1, [9, 2] * 4097),
                                        (3, 0, full), (4, 1, [4] + [5] * 8192)):
            add(edit_case(wide, room, 8192, operation, place, piece), wide)
        many = [1] + [9, 2] * 400 + [2]
        for operation, place, piece in ((2, 799, []), (1, 801, [9, 12, 5, 2]), (4, 799, [20, 5])):
            add(edit_case(wide, many + [7] * 8, 802, operation, place, piece), wide)
        few = [1, 9, 12, 5, 2, 9, 2, 2] + [7] * 9000
        for piece in ([20] + [5] * 8184, [20] + [5] * 8183, [20] + [5] * 8191, [20] + [5] * 8192):
            add(edit_case(wide, few, 8, 4, 1, piece), wide)
        # second buffers for inverses of over 8,000 tokens, and none or few places
        long = [1, 9, 12, 5, 20] + [5] * 8184 + [2, 2]
        for second in (8187, 8188, 8189):
            add(edit_case(wide, long, 8191, 5, 1, [20], [9] * second), wide)
            add(edit_case(wide, long, 8191, 4, 1, [20, 5], [9] * second), wide)
        for second in (8194, 8195, 8196):
            add(edit_case(wide, room, 8192, 3, 0, [1, 9, 2, 2], [9] * second), wide)
        for second in range(6):
            for operation, place, piece in ((1, 1, [9, 2]), (2, 1, []), (3, 5, [9, 4, 5, 2]), (4, 5, [4, 5]), (4, 1, [12, 5]),
                                            (4, 1, [12, 13]), (5, 1, [12]), (3, 0, [9, 2]), (2, 0, []), (1, 1, [3])):
                add(edit_case(wide, few[:20], 8, operation, place, piece, [9] * second), wide)

        # a? inside a: sixty-four deep
        nest = self.translated_context([1, 0, 2, 2, 2, 5, 0])
        for depth in (63, 64, 65):
            tokens = [1] * depth + [2] * depth
            add(check_case(nest, tokens, len(tokens)), nest)
            for operation, place, piece in ((1, depth, [1, 2]), (1, depth, [3]), (3, 0, [1] * 64 + [2] * 64),
                                            (3, 0, [1] * 65 + [2] * 65), (3, depth - 1, [1, 1, 2, 2]),
                                            (1, 1, [1] * 65 + [2] * 65), (1, 0, [1] * 65 + [2] * 65)):
                add(edit_case(nest, tokens + [7] * 10, len(tokens), operation, place, piece), nest)
        self.told_apart(context, nest, wide)

        # occurrence 63: sixty-four names of two elements in turn
        symbols = [0] * 63 + [6, 7] * 32
        last = self.translated_context([3, 0, 2, 127] + symbols + [1, 63, 3, 0] + [0, 1, 63, 1, 0] + [0, 0])
        children = [t for k in range(32) for t in (9, 508, 8 * k + 5, 2, 17, 2)]
        for some in (children, children[:-2], children + [17, 2], children[6:]):
            tokens = [1, 508] + [8 * k + 5 for k in range(2)] + some + [2]
            add(check_case(last, tokens, len(tokens)), last)

        # the same in a table that no schema gives: occurrence 63 may be first,
        # follow itself and be last; no attributes
        table = list(last.table)
        top = 1 << 63
        for at, value in ((1, 0), (2, 0), (3, 0), (4, 0), (5, 0), (8, top + (top >> 1)), (9, top), (74 + 62, top), (74 + 63, top + 1)):
            table[2 + at] = value
        for at in range(1, 6):
            table[2 + BLOCK + at] = 0
        own = Context(None, table)
        self.contexts.append(own)
        add(proper_case(table))
        for names in ([2], [1], [1, 2], [2, 2, 2], [2, 1], [2, 1, 2], [1, 2, 2, 1], []):
            tokens = [1] + [t for name in names for t in (8 * name + 1, 2)] + [2]
            add(check_case(own, tokens, len(tokens)), own)
            add(edit_case(own, tokens + [7] * 4, len(tokens), 1, 1, [17, 2]), own)

        # forty-eight elements, each once in the root's model
        names = [3] + [1] * 46 + [5 + e for e in range(1, 48)]
        most = self.translated_context([48, 0, 2, len(names)] + names + [0] + [0, 0] * 47)
        tokens = [1] + [t for e in range(1, 48) for t in (8 * e + 1, 2)] + [2]
        add(check_case(most, tokens, len(tokens)), most)
        add(edit_case(most, tokens + [0] * 4, len(tokens), 1, 95, [8 * 47 + 1, 2]), most)
        add(edit_case(most, tokens + [0] * 4, len(tokens), 1, 95, [8 * 48 + 1, 2]), most)

        self.counted(context, most)
        self.listed(context)
        self.grouped(context)
        self.held()

        for table in improved(ref.translate(shade, [0] * TABLE)[1], last.table):
            add(proper_case(table))

        for file in schema_files():
            add(translate_case(file, [3] * TABLE))

        # models at the limits of the file
        for symbols in ([2] * 254 + [5], [3] * 255 + [5], [0] * 64 + [6] * 65, [0, 2, 6, 6], [1, 0, 6, 7, 0, 6, 8],
                        [3, 0, 3, 6, 3, 7], [4] * 200 + [0, 6, 7], [1] * 8 + [6] * 9):
            add(translate_case(ref.file_of(ref.SHADE[:2] + [2, len(symbols)] + symbols + ref.SHADE[9:]), [0] * TABLE))

    def counted(self, shade, most):
        """Item 7: counts at their ends, by edits that move them and edits that
        don't; what a check writes; the question."""
        add = self.in_turn
        room, true, ends = ref.SHADE_DOC + [7] * 10, [1] * 4 + [0] * 44, (-2 ** 31, 2 ** 31 - 1)
        use, rows = [25, 20, 165, 2], [17, 2, 17, 243, 2, 2]

        def put(name, number):
            return true[:name] + [number] + true[name + 1:]

        for operation, place, piece in ((1, 10, use), (2, 10, []), (4, 0, [4, 69])):
            for name, numbers in ((3, (-1, 0, 8191, 8192, 8193) + ends), (4, (-1, 8192) + ends), (47, (8192, 8193))):
                for number in numbers:
                    add(edit_case(shade, room, 15, operation, place, piece, None, put(name, number)), shade)
        for operation, place, piece in ((1, 3, [9, 12, 173] + rows), (3, 3, [9, 12, 165] + rows), (3, 10, [9, 12, 173, 2]),
                                        (3, 0, [1, 4, 61, 9, 12, 173] + rows + [2]), (2, 7, [])):
            for counts in (true, put(2, 8192), put(2, 0)):
                add(edit_case(shade, room, 15, operation, place, piece, None, counts), shade)
        # behind the place and both 5s, before judgement
        for operation, place, second in ((2, 1, 12), (2, 3, 9), (2, 3, 10), (5, 0, 12)):
            add(edit_case(shade, room, 15, operation, place, [4] * (operation == 5), [98] * second, put(0, -1)), shade)
        add(edit_case(shade, ref.SHADE_DOC, 15, 1, 10, use, None, put(0, -1)), shade)
        # element 4 is not declared: it goes, it comes
        other = [1, 4, 61, 9, 12, 165, 2, 33, 2, 2] + [7] * 4
        for operation, piece in ((2, []), (3, [9, 12, 173, 2]), (1, [33, 2])):
            add(edit_case(shade, other, 10, operation, 7, piece, None, [1, 1, 0, 0, 8192] + [0] * 43), shade)
        for used in (15, 14):
            for counts in (true, [-7] * 48, [2 ** 31 - 1] * 48):
                add(check_case(shade, room, used, counts), shade)
        add(check_case(shade, other, 10, [5] * 48), shade)
        # forty-eight elements: the last one is counted
        tokens = [1] + [t for e in range(1, 48) for t in (8 * e + 1, 2)] * 2 + [2]
        add(check_case(most, tokens, len(tokens), [-1] * 48), most)
        for number in (8191, 8192):
            add(edit_case(most, tokens + [0] * 2, len(tokens), 1, 1, [8 * 47 + 1, 2], None, [1] + [2] * 46 + [number]), most)
        for counts in ([1, 8192, 0, 7, 9] + [0] * 43, true[:47] + [-1], put(4, 8193), [ends[1]] + true[1:]):
            for name in (0, 1, 3, 4, 47, 48, 2 ** 32 - 1):
                add(elements_case(shade, counts, name), shade)
        add(elements_case(most, [1] + [2] * 46 + [8192], 47), most)

    def listed(self, shade):
        """Item 6: edits done and refused, and the list's own faults."""
        add = self.in_turn
        room, true = ref.SHADE_DOC + [7] * 10, [1] * 4 + [0] * 44
        title, steps = [4, 0, 2, 4, 69], [2, 3, 0, 1, 10, 4, 9, 12, 173, 2, 3, 3, 4, 9, 12, 173, 2, 2, 14, 0, 2, 3, 0]
        none = Context(None, [])
        self.contexts.append(none)
        for numbers in [steps, steps[3:], steps[3:10] + steps[17:], [], title * 16, title * 256, title * 257, title * 255 + [4],
                        [4, 0, 3, 4, 69], [9, 9, 2 ** 32 - 1], title + [6, 0, 0], title + [1, 0, 0], title + [2, 14, 0] + title,
                        [2, 10, 0, 4, 0, 8193, 4] + [69] * 8192, [2, 10, 0, 4, 0, 8192, 4] + [69] * 8191] + \
                [title * times + title[:cut] for times in (0, 1, 256) for cut in range(1, 5)]:
            add(list_case(shade, room, 15, numbers), shade)
        for numbers in ([], title, title[:3], title * 257):
            add(list_case(none, room, 15, numbers), none)
            add(list_case(shade, room, 99, numbers), shade)
            add(list_case(shade, room, 15, numbers, [-1] + true[1:]), shade)
        panels = [1, 10, 4, 9, 12, 173, 2, 1, 10, 4, 9, 12, 181, 2]
        for number in (8190, 8191, 8192):                   # how many come until there are too many
            add(list_case(shade, room, 15, panels, [1, number, 1, 1] + [0] * 44), shade)
        add(list_case(shade, room, 15, [2, 10, 0] + panels, true), shade)

    def grouped(self, shade):
        """Item 9: a panel renamed, edits that only a group can make, and each
        refusal."""
        add = self.in_turn
        rename, title, use = [4, 3, 2, 12, 173, 4, 10, 2, 20, 173], [4, 0, 2, 4, 69], [1, 10, 4, 25, 20, 165, 2]
        lengths = use + [2, 10, 0, 2, 10, 0]                # 19, 15 and 11 tokens
        for numbers in (rename, rename[5:] + rename[:5], rename[:5], rename[5:], lengths, lengths + [9, 0, 0], lengths + use, [9, 0, 0],
                        [2, 3, 0], [2, 3, 0, 1, 3, 4, 9, 12, 165, 2], rename[:5] + [1, 3, 1, 4], rename[:5] + [2, 4, 0], use * 2, use * 3,
                        [3, 0, 8, 9, 4, 61, 9, 12, 165, 2, 2], [3, 0, 8, 1, 4, 61, 9, 12, 165, 2, 2], title * 256, title[:4], title * 257):
            for first, second in ((25, 25), (23, 30), (22, 40), (15, 19)):
                add(group_case(shade, ref.SHADE_DOC + [7] * (first - 15), 15, numbers, [98] * second), shade)
        # before any edit: table, shape, list, second buffer
        none = Context(None, [])
        self.contexts.append(none)
        for numbers in ([], title, title * 257):
            for second in (25, 24):
                add(group_case(none, ref.SHADE_DOC + [7] * 10, 99, numbers, [98] * second), none)
                add(group_case(shade, ref.SHADE_DOC + [7] * 10, 99, numbers, [98] * second), shade)
                add(group_case(shade, ref.SHADE_DOC + [7] * 10, 15, numbers, [98] * second), shade)
        # judged whole: a fault that no edit touches, and one that an edit takes away
        faulty = [1, 4, 61, 9, 12, 165, 25, 20, 165, 2, 2, 2, 7, 7]
        for numbers in (title, title + [2, 6, 0], [2, 6, 0] + use):
            add(group_case(shade, faulty, 12, numbers, [98] * 14), shade)

    def held(self):
        """Item 8: sixteen fixed attributes. The root has attribute 0, required,
        1 and 63, fixed, and an ID; the next element shares attribute 1; the last
        has the other thirteen."""
        add = self.in_turn
        gauge = self.translated_context(
            [3, 0, 2, 4, 3, 1, 6, 7] + [4, 0, 0, 0, 1, 0, 2, 20, 2, 1, 1, 63, 0, 2, 65535] + [0, 2, 1, 0, 2, 30, 2, 0, 1] +
            [0, 14] + [n for a in range(13) for n in (a, 0, 2, a)] + [20, 0, 1])
        attributes = [(0, 1, 20), (0, 63, 65535), (1, 1, 30), (2, 0, 0), (2, 1, 1), (2, 12, 12)]
        for e, number, value in attributes:
            for values in ([], [value], [value ^ 1], [value, value], [value, 5], [5, value], [30], [20]):
                given = [8 * number + ATTRIBUTE] * bool(values) + [8 * one + VALUE for one in values]
                inner = [] if e == 0 else [8 * e + 1] + given + [2]
                tokens = [1, 4, 61] + (given if e == 0 else []) + inner + [2]
                add(check_case(gauge, tokens + [7], len(tokens)), gauge)
                plain_one = [1, 4, 61] + ([] if e == 0 else [8 * e + 1, 2]) + [2]
                place = 0 if e == 0 else 3
                if values:
                    add(edit_case(gauge, plain_one + [7] * 6, len(plain_one), 4, place, given), gauge)
                add(edit_case(gauge, tokens + [7] * 6, len(tokens), 5, place, [8 * number + ATTRIBUTE]), gauge)
                if e:
                    add(edit_case(gauge, [1, 4, 61, 2] + [7] * 9, 4, 1, 3, inner), gauge)

    def told_apart(self, shade, nest, wide):
        """With every seed: a case for each slip that the comparison must notice (tests/wrong-definitions --compare)."""
        panel = [9, 12, 173, 2]
        faulty = [1, 4, 61, 9, 12, 165, 2, 25, 2, 2]        # the fault is directly behind the piece
        self.add(check_case(nest, [1] * 65 + [2] * 65, 130), nest)
        self.add(edit_case(shade, ref.SHADE_DOC, 15, 1, 0, panel), shade)       # not a place, and no room
        self.add(edit_case(shade, ref.SHADE_DOC + [7] * 6, 15, 2, 10, []), shade)
        self.add(edit_case(shade, faulty + [7] * 6, 10, 1, 7, panel), shade)
        room = ref.SHADE_DOC + [7] * 6
        for operation, place, piece in ((2, 10, []), (3, 3, [9, 12, 165, 2]), (4, 0, [4, 69]), (4, 0, [4, 61]), (1, 10, panel)):
            need = ref.needed(room, 15, operation, place, piece)
            for length in (need - 1, need, need + 2):
                self.add(edit_case(shade, room, 15, operation, place, piece, [98] * length), shade)
        self.add(edit_case(shade, room, 15, 2, 3, [], [98] * 9), shade)         # no room for the inverse, and then content
        self.add(edit_case(shade, room, 15, 2, 3, [], [98] * 12), shade)
        self.add(edit_case(wide, [1, 9, 2, 2] + [7] * 6, 4, 4, 1, [4, 5], [98] * 5), wide)
        self.add(edit_case(wide, [1, 9, 4, 5, 12, 5, 2, 2], 8, 5, 1, [12], [98] * 6), wide)
        rows = [17, 243, 2, 17, 2]                          # of the piece's elements, one has children and one has a text
        self.add(edit_case(shade, ref.SHADE_DOC + [7] * 9, 15, 1, 3, [9, 12, 173] + rows + [2]), shade)
        self.add(edit_case(shade, ref.SHADE_DOC + [7] * 9, 15, 3, 0, [1, 4, 61, 9, 12, 173] + rows + [2, 2]), shade)
        self.add(translate_case([1, 0, 0, 2, 1, 1, 0, 2, 1], [3] * TABLE))      # a second ID, and then no status
        self.add(elements_case(shade, [1, 1, 1, 1, 9] + [0] * 43, 4), shade)    # the name E, and a number where it would be counted
        self.add(group_case(shade, room, 99, [2, 10, 0] * 257, [98] * 21), shade)       # no shape, and a 257th edit
        self.add(group_case(shade, room, 15, [9, 0, 0], [98] * 21), shade)
        falling = [3, 2, 0, 1, 63, 0]                       # by element, where attributes rise
        table = list(shade.table)
        for e in (1, 3):
            table[2 + e * BLOCK + 1:2 + e * BLOCK + 6] = [2 ** 63 + 6, 0, 0, 0, 0]
        self.add(proper_case(table[:ref.FIXED] + [2] + falling + [0] * (TABLE - ref.FIXED - 7)))
        self.add(proper_case(table[:ref.FIXED] + [2] + falling[3:] + falling[:3] + [0] * (TABLE - ref.FIXED - 7)))

    # -- all

    def build(self, count):
        r = self.r
        self.large()
        self.texts()
        self.fixed = self.total
        for k in range(max(6, count // 40)):
            self.new_context()
        self.new_context(count=30, names=24)
        self.new_context(count=40, names=36)
        for k in range(max(6, count // 60)):
            self.new_own(True, k % 2 == 0)
        for _ in range(3):
            self.new_own(False)
        operations = {name: op for op, name in OPERATIONS.items()}
        operations['other'] = 0
        for call, number in self.missing():
            if number in self.counts.get(call, {}):
                continue
            if call in ('read', 'write', 'translate', 'proper', 'printed'):
                getattr(self, call)(number)
            elif call in ('import', 'names', 'spot'):
                self.text(number)
            elif call.startswith('compare'):
                self.comparison(number)
            elif call == 'schema_of':
                self.translate(number)
            elif call in ('check', 'checking', 'checked_counts'):
                self.check(number)
            elif call == 'check, own table':
                self.check(number, self.own())
            elif call == 'edit, own table':
                self.edit(None, number, self.own())
            elif call == 'group':
                self.grouping(number)
            elif call == '(group)':
                self.grouping(row=(call, number))
            elif call == 'elements':
                self.question(number)
            elif call == '(counts)':
                self.edit(None, None if number == 'true' else 15, row=(call, number))
            elif call == 'list':
                self.listing(number)
            elif call in ('(list)', 'list, own fault'):
                self.listing(row=(call, number))
            elif number == 'steps back':
                self.run_back()
            elif call == '(second buffer)':
                self.edit(None, None if number == 'just enough' else 5, row=(call, number))
            elif call == '(set)':
                self.edit(4, row=(call, number))
            elif call.startswith('('):
                self.edit(None, number, row=(call, number))
            else:
                self.edit(operations[call.split()[1]], number)
        ways = [(self.read, 5), (self.write, 4), (self.translate, 11), (self.proper, 5), (self.printed, 5),
                (self.comparison, 5)]
        checks = sorted(REQUIRED['check'])
        pairs = [(op, number) for op, name in OPERATIONS.items() for number in sorted(REQUIRED['edit_by ' + name])]
        ways += [(self.run_back, 1), (self.listing, 8), (self.grouping, 6), (self.question, 2), (lambda: self.check(), 4), (lambda: self.check(r.choice(checks)), 10),
                 (lambda: self.check(r.choice([None, 0, 9]), self.own()), 6),
                 (lambda: self.edit(), 8), (lambda: self.edit(None, 0), 16),
                 (lambda: self.edit(*r.choice(pairs)), 20),
                 (lambda: self.edit(None, r.choice([None, 0, 9, 8, 11, 12]), self.own()), 8)]
        makers = [way for way, weight in ways for _ in range(weight)]
        while self.total - self.fixed < count:
            r.choice(makers)()
        for _ in range(count // 4):
            self.text()


# ------------------------------------------------------- the scratch check

class Equation:
    """A group of terms of one module."""

    def __init__(self, module, context, parts):
        self.module = module
        self.context = context
        self.parts = parts           # (case, term)


def equations(cases):
    out, modules = [], 0

    def cut(context, parts):
        nonlocal modules
        groups = [[]]
        for case, part in parts:
            weight = sum(other.weight for _, other in groups[-1])
            if len(groups[-1]) >= GROUP or groups[-1] and weight + part.weight > WEIGHT:
                groups.append([])
            groups[-1].append((case, part))
        for at, group in enumerate(groups):
            modules += at % 4 == 0
            if group:
                out.append(Equation('C%03d' % modules, context, group))

    for context in cases.contexts:
        cut(context, [(case, part) for case in context.cases for part in case.terms])
    by_call = {}
    for case in cases.alone:
        for part in case.terms:
            by_call.setdefault(part.call, []).append((case, part))
    for call in sorted(by_call):
        cut(None, by_call[call])
    return out


def declared(name, context, holds):
    """One equation: all these Boolean terms are true."""
    lines = '\n    ∷ '.join(holds) + '\n    ∷ []'
    if context is not None and context.file is not None:
        left = 'with_schema (schema_of file) (λ s.\n    %s)' % lines
    else:
        left = 'each (\n    %s)' % lines
    return '\n%s : %s ≡ true\nunfolding all_open reading declared import names spot\n%s = refl\n' % (name, left, name)


class Unchecked(Exception):
    """Something else than an equation failed."""


class Scratch:
    """A repository with the crate `paper` and a crate of equations."""

    def __init__(self, paper):
        self.folder = tempfile.mkdtemp(prefix='compare-definitions-')
        crates = os.path.join(self.folder, 'crates')
        shutil.copytree(paper, os.path.join(crates, 'paper'))
        os.makedirs(os.path.join(crates, 'cases', 'src'))
        self.specs = os.path.join(crates, 'cases', 'specs')
        os.makedirs(self.specs)
        self.put('crates.txt', 'paper:\ncases: paper\n')
        self.put('crates/cases/src/lib.rt', '// Only equations: see specs/.\n')
        self.put('crates/cases/specs/Same.antt', SAME)

    def put(self, name, text):
        with open(os.path.join(self.folder, name), 'w') as file:
            file.write(text)

    def check(self, modules):
        """modules: {name: (context, [(equation name, Boolean terms)])}.
        Gives the names of the equations that fail; raises Unchecked."""
        for name in os.listdir(self.specs):
            if name not in ('Same.antt',):
                os.remove(os.path.join(self.specs, name))
        self.put('crates/cases/specs/Lib.antt', 'pub mod Same\n' + ''.join('pub mod %s\n' % m for m in modules))
        for name, (context, parts) in modules.items():
            text = HEAD
            if context is not None:
                text += '\nabbrev table : List ℕ\ntable = %s\n' % term(context.table)
                if context.file is not None:
                    text += '\nabbrev file : List ℕ\nfile = %s\n' % term(context.file)
            for label, holds in parts:
                text += declared(label, context, holds)
            self.put('crates/cases/specs/%s.antt' % name, text)
        environment = dict(os.environ, RT_JOBS='1')
        done = subprocess.run(['rt', 'check'], cwd=os.path.join(self.folder, 'crates', 'cases'), env=environment, stdout=subprocess.PIPE,
                              stderr=subprocess.STDOUT)
        output = done.stdout.decode('utf-8', 'replace')
        self.put('output.txt', output)
        if done.returncode == 0:
            return set()
        failed, strange = set(), []
        for line in output.splitlines():
            if ': error' in line:
                found = re.search(r'specs/(\w+)\.antt:\d+:\d+: error: `(\w+)`', line)
                if found and ('differ' in line or 'expected type' in line):
                    failed.add((found.group(1), found.group(2)))
                else:
                    strange.append(line[:600])
        if strange or not failed:
            raise Unchecked('\n'.join(strange[:20]) or output[-3000:])
        return failed


def locate(scratch, failed):
    """The failing terms of failing equations, and a report of the first 20,
    with what the definitions answer in the first 5."""
    modules, by_name = {}, {}
    for equation in failed:
        _, parts = modules.setdefault(equation.module, (equation.context, []))
        for case, part in equation.parts:
            label = 'e%d' % len(parts)
            parts.append((label, [part.holds]))
            by_name[equation.module, label] = (equation, case, part)
    bad = [by_name[name] for name in sorted(scratch.check(modules))]
    modules, probed = {}, 5
    for k, (equation, _, part) in enumerate(bad[:probed]):
        parts = []
        for at, (_, text, bits) in enumerate(part.probes):
            name = 'p%d' % at
            if bits is None:
                parts.append((name, [text]))
            for bit in range(bits or 0):
                parts.append(('%sb%d' % (name, bit), ['eqb ((%s) / %d %% 2) 1' % (text, 2 ** bit)]))
        modules['P%03d' % k] = (equation.context, parts)
    try:
        wrong = scratch.check(modules)
    except Unchecked:
        probed = 0
    lines = []
    for k, (equation, case, part) in enumerate(bad[:20]):
        answers = []
        for at, (label, text, bits) in enumerate(part.probes):
            if k >= probed:
                break
            if bits is None:
                answers.append('%s: %s' % (label, 'no' if ('P%03d' % k, 'p%d' % at) in wrong else 'yes'))
            else:
                answers.append('%s %d' % (label, sum(2 ** bit for bit in range(bits)
                                                     if ('P%03d' % k, 'p%db%d' % (at, bit)) not in wrong)))
        lines.append('%s, expected %s' % (part.call, part.number))
        if equation.context is not None:
            lines.append('    schema file: %s' % equation.context.file)
            if equation.context.file is None:
                lines.append('    table: %s' % term(equation.context.table))
        lines.append(case.told)
        lines.append('    definitions: %s' % ('; '.join(answers) or 'another answer'))
        lines.append('')
    return bad, '\n'.join(lines)


def compared_with(program, cases):
    """Compares checks, edits, lists and groups with the answers of the program in second/,
    whose tokens have 32 bits; gives the exit status."""
    asked, wanted = [], []
    for context in cases.contexts:
        asked.append('schema ' + plain(context.file) if context.file is not None else 'table ' + plain(context.table))
        for case in context.cases:
            if case.lines and all(int(number) < 2 ** 32 for number in re.findall(r'\d+', case.lines[0])):
                asked.append(case.lines[0])
                wanted.append((case, context))
    done = subprocess.run([program, 'answers'], input='\n'.join(asked).encode(), stdout=subprocess.PIPE)
    answers = done.stdout.decode().splitlines()
    if done.returncode or len(answers) != len(wanted):
        print('%s ends with %d after %d of %d answers' % (program, done.returncode, len(answers), len(wanted)))
        return 2
    bad = [pair for pair in zip(wanted, answers) if pair[0][0].lines[1].split() != pair[1].split()]
    for (case, context), answer in bad[:5]:
        print('schema file: %s\n%s\n    second: %s\n' % (context.file, case.told, answer))
    print('%d checks, edits, lists, groups and questions of both programs, %d differ' % (len(wanted), len(bad)))
    return 1 if bad else 0


def main():
    words = argparse.ArgumentParser(description=__doc__, formatter_class=argparse.RawDescriptionHelpFormatter)
    words.add_argument('seed', metavar='SEED', type=int, nargs='?', default=1, help='default: 1')
    words.add_argument('count', metavar='COUNT', type=int, nargs='?', default=600, help='random cases; default: 600')
    words.add_argument('--share', metavar='N', type=int, default=1, help='one in N of the fixed cases; default: all')
    words.add_argument('--second', metavar='PROGRAM', help='compare with this program in place of the definitions')
    words.add_argument('--keep', action='store_true', help='keep the scratch repository')
    words.add_argument('--paper', metavar='FOLDER', default=PAPER, help='definitions of another folder than crates/paper')
    words = words.parse_args()
    seed, keep = words.seed, words.keep
    began = time.time()
    cases = Cases(seed, words.share)
    cases.build(words.count)
    made = time.time()
    if words.second:
        sys.exit(compared_with(words.second, cases))
    all_equations = equations(cases)
    print('seed %d: %d random cases and %d fixed ones, %d comparisons, made in %.0f s' %
          (seed, cases.total - cases.fixed, cases.fixed, sum(len(equation.parts) for equation in all_equations),
           made - began))
    modules, names = {}, {}
    for equation in all_equations:
        _, parts = modules.setdefault(equation.module, (equation.context, []))
        label = 'g%d' % len(parts)
        parts.append((label, [part.holds for _, part in equation.parts]))
        names[equation.module, label] = equation
    scratch = Scratch(words.paper)
    sys.stdout.flush()
    try:
        failed = scratch.check(modules)
    except Unchecked as what:
        print(what)
        print('the equations could not be checked: see %s' % scratch.folder)
        sys.exit(2)
    print('%d equations computed in %.0f s' % (len(all_equations), time.time() - made))
    print()
    for call in REQUIRED:
        row = cases.counts.get(call, {})
        print('%-18s %5d   %s' % (call, sum(row.values()), '  '.join(
            '%s: %d' % (number, row[number]) for number in sorted(row, key=lambda n: (str(type(n)), n)))))
    print()
    status = 0
    missing = cases.missing()
    if missing:
        status = 1
        print('did not occur: %s' % missing)
    if failed:
        status = 1
        bad, report = locate(scratch, [names[name] for name in sorted(failed)])
        scratch.put('failures.txt', report)
        print('%d comparisons differ; the first 20 are in %s' % (len(bad), os.path.join(scratch.folder, 'failures.txt')))
        print(report[:4000])
    else:
        print('all equal')
        if keep:
            print('kept: %s' % scratch.folder)
        else:
            shutil.rmtree(scratch.folder)
    sys.exit(status)


if __name__ == '__main__':
    main()
