"""Runs the edit program in a folder of its own for the sample and for each way to stop, and compares what it prints.

`tools/program --make run_edits` makes the program. Fails at the first difference.
"""
import argparse
import os
import subprocess
import tempfile

HERE = os.path.dirname(os.path.abspath(__file__))
SAMPLE = os.path.join(HERE, '..', 'samples', 'small-shade')
PROGRAM = [os.path.join(HERE, '..', 'tools', 'program'), 'run_edits']


def sample(name):
    with open(os.path.join(SAMPLE, name), 'rb') as f:
        return f.read()


def numbers(*values):
    """Numbers as groups of seven bits, lowest first."""
    out = bytearray()
    for n in values:
        while n > 127:
            out.append(128 + n % 128)
            n //= 128
        out.append(n)
    return bytes(out)


SCHEMA, DOC, EDITS = sample('schema.dat'), sample('doc.dat'), sample('edits.dat')
CHECK = '0 0 0 15\n'
REMOVED = numbers(2, 10, 0)  # done: 11 tokens are left
ROW = '1 0 0 11\n'

FOLDER = object()

# what it shows, the three files (None: there is none), what is printed
RUNS = [
    ("the paper's sample", SCHEMA, DOC, EDITS, sample('printed.txt').decode()),
    # "First, a file over 65,536 bytes or not to be opened stops with 5"
    ('no schema', None, DOC, EDITS, 'stop 5\n'),
    ('no document', SCHEMA, None, EDITS, 'stop 5\n'),
    ('no edits', SCHEMA, DOC, None, 'stop 5\n'),
    ('no edits, before a broken schema', b'', DOC, None, 'stop 5\n'),
    ('a folder as schema', FOLDER, DOC, EDITS, 'stop 5\n'),
    ('a folder as document', SCHEMA, FOLDER, EDITS, 'stop 5\n'),
    ('a folder as edits', SCHEMA, DOC, FOLDER, 'stop 5\n'),
    ('a schema of 65,537 bytes', bytes(65537), DOC, EDITS, 'stop 5\n'),
    ('a document of 65,537 bytes', SCHEMA, bytes(65537), EDITS, 'stop 5\n'),
    ('edits of 65,537 bytes', SCHEMA, DOC, bytes(65537), 'stop 5\n'),
    ('a schema of 65,536 bytes', bytes(65536), DOC, EDITS, 'stop 2\n'),
    ('a document of 65,536 bytes', SCHEMA, bytes(65536), EDITS, 'stop 5\n'),
    ('as many edits as a file can have', SCHEMA, DOC, bytes(65536),
     CHECK + ''.join(f'{k} 6 0 15\n' for k in range(1, 21846)) + 'stop 1\n'),
    # "A refused schema or document file"
    ('an empty schema', b'', DOC, EDITS, 'stop 1\n'),
    ('a schema that ends inside', SCHEMA[:-1], DOC, EDITS, 'stop 1\n'),
    ('a schema with a byte too many', SCHEMA + b'\0', DOC, EDITS, 'stop 2\n'),
    ('49 elements', numbers(49), DOC, EDITS, 'stop 2\n'),
    ('an ambiguous model', numbers(1, 0, 2, 4, 0, 2, 5, 5, 0), DOC, EDITS, 'stop 3\n'),
    ('an ambiguous model, before a broken document', numbers(1, 0, 2, 4, 0, 2, 5, 5, 0), b'\x80', EDITS, 'stop 3\n'),
    ('a broken number in the document', SCHEMA, DOC + b'\x80\0', EDITS, 'stop 1\n'),
    ('a document that ends inside a number', SCHEMA, b'\x80', EDITS, 'stop 1\n'),
    ('8,193 tokens', SCHEMA, numbers(*[2] * 8193), EDITS, 'stop 5\n'),
    # "After a check that isn't 0 nothing more is printed."
    ('an empty document', SCHEMA, b'', EDITS, '0 4 0 0\n'),
    ('8,192 tokens without shape', SCHEMA, numbers(*[2] * 8192), EDITS, '0 4 0 8192\n'),
    ('a root that is not the schema\'s', SCHEMA, numbers(9, 12, 165, 2), b'\x80', '0 10 0 4\n'),
    ('a shade without panels', SCHEMA, numbers(1, 4, 61, 2), EDITS, '0 9 3 4\n'),
    ('a reference to none', SCHEMA, numbers(1, 4, 61, 9, 12, 165, 2, 25, 20, 173, 2, 2), EDITS, '0 12 9 12\n'),
    # "A text-only element now has no text or one [..] and two texts side by side stay a content fault."
    ('a row with nothing in it', SCHEMA, DOC, numbers(2, 7, 0), CHECK + '1 0 0 14\n'),
    ('a row with two texts', SCHEMA, DOC, numbers(1, 7, 1, 243), CHECK + '1 9 8 15\n'),
    # "Answer 9 shall give the first child or text at which no valid content can begin that way"
    ('a text behind the panel', SCHEMA, DOC, numbers(1, 10, 1, 243), CHECK + '1 9 10 15\n'),
    ('a text in the use', SCHEMA, DOC, numbers(1, 13, 1, 243), CHECK + '1 9 13 15\n'),
    # a broken edit file: "lines already printed stand"
    ('no edit', SCHEMA, DOC, b'', CHECK),
    ('one edit', SCHEMA, DOC, REMOVED, CHECK + ROW),
    ('an end after the operation', SCHEMA, DOC, REMOVED + numbers(1), CHECK + ROW + 'stop 1\n'),
    ('an end after the place', SCHEMA, DOC, REMOVED + numbers(1, 3), CHECK + ROW + 'stop 1\n'),
    ('an end after the count', SCHEMA, DOC, REMOVED + numbers(1, 3, 1), CHECK + ROW + 'stop 1\n'),
    ('an end inside the piece', SCHEMA, DOC, REMOVED + numbers(1, 3, 4, 9, 12), CHECK + ROW + 'stop 1\n'),
    ('an end inside a number', SCHEMA, DOC, REMOVED + b'\x80', CHECK + ROW + 'stop 1\n'),
    ('a broken operation', SCHEMA, DOC, REMOVED + b'\x80\0' + REMOVED, CHECK + ROW + 'stop 1\n'),
    ('a broken place', SCHEMA, DOC, REMOVED + b'\1\x80\0\0', CHECK + ROW + 'stop 1\n'),
    ('a broken count', SCHEMA, DOC, REMOVED + b'\1\3\xff\xff\xff\1', CHECK + ROW + 'stop 1\n'),
    ('a broken token', SCHEMA, DOC, REMOVED + b'\1\3\1\x80\0', CHECK + ROW + 'stop 1\n'),
    ('a piece of 8,193', SCHEMA, DOC, REMOVED + numbers(1, 3, 8193), CHECK + ROW + 'stop 5\n'),
    ('a piece of 8,192', SCHEMA, DOC, REMOVED + numbers(1, 3, 8192, *[2] * 8192), CHECK + ROW + '2 4 0 11\n'),
    ('an edit of the largest numbers', SCHEMA, DOC, numbers(2097151, 2097151, 0) + REMOVED, CHECK + '1 6 0 15\n2 0 0 11\n'),
]


def put(folder, files):
    """Puts the three files into a folder."""
    for name, content in zip(('schema.dat', 'doc.dat', 'edits.dat'), files):
        path = os.path.join(folder, name)
        if content is FOLDER:
            os.mkdir(path)
        elif content is not None:
            with open(path, 'wb') as f:
                f.write(content)


def hold(shows, got, expected):
    if got != expected:
        raise SystemExit(f'tests/edits.py: {shows}\nexpected\n{str(expected)[:500]}\nwas\n{str(got)[:500]}')


def printed(files):
    """Status and output of the program on three files."""
    with tempfile.TemporaryDirectory() as folder:
        put(folder, files)
        ran = subprocess.run(PROGRAM, cwd=folder, stdout=subprocess.PIPE)
        return ran.returncode, ran.stdout.decode()


def lost(files):
    """Status and whether something is said, where output cannot be written."""
    with tempfile.TemporaryDirectory() as folder, open('/dev/full', 'wb') as full:
        put(folder, files)
        ran = subprocess.run(PROGRAM, cwd=folder, stdout=full, stderr=subprocess.PIPE)
        return ran.returncode, ran.stderr.startswith(b'run_edits: standard output: ')


def main():
    argparse.ArgumentParser(description=__doc__, formatter_class=argparse.RawDescriptionHelpFormatter).parse_args()
    for shows, schema, doc, edits, expected in RUNS:
        hold(shows, printed((schema, doc, edits)), (0, expected))
    hold('output that cannot be written', lost((SCHEMA, DOC, EDITS)), (1, True))
    hold('a stop that cannot be written', lost((None, DOC, EDITS)), (1, True))
    usage = subprocess.run(PROGRAM + ['--help'], stdout=subprocess.PIPE)
    hold('--help', (usage.returncode, usage.stdout.startswith(b'usage: run_edits\n')), (0, True))
    print(f'the edit program prints what it must, {len(RUNS) + 3} times')


if __name__ == '__main__':
    main()
