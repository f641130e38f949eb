"""What a select takes that groups keys which the program hashes alike, beside one over other keys.

The keys of groups stand in an `IndexSet`, whose hasher, a `FoldHasher`, starts the same in each run. It takes
in a value by a product of 128 bits, whose halves it joins by xor, and so whoever knows it can choose keys
that collide. Of what comes out the table joins the halves again, to 32 bits: the lowest bits choose where a
key is looked for, among twelve at a time, and the highest eight tell with which of these it is compared.
"""
import itertools
import os
import statistics
import sys
import tempfile

import beside
import measure

KEYS = 10_000
# How often a script has the select.
TIMES = 5
RUNS = 3
MOST_TIMES = 2

FIRST_STATE = 0x243f_6a88_85a3_08d3
MULTIPLIER = 0x9e37_79b9_7f4a_7c15
# What a number is multiplied by, which is written as eight bytes.
OF_NUMBERS = MULTIPLIER ^ 2 * 8
# How many low bits choose where a key is looked for, in a table of up to 147,456 keys.
PLACE_BITS = 14


# ---- keys that collide, and others like them

def texts(count):
    """Rows of a text, whose hashes are all 0. Of 16 bytes the last eight are joined by xor with the
    multiplier, and these are its own: they make 0, and so does each product with it."""
    tail = MULTIPLIER.to_bytes(8, 'little')
    return [(b'%08d' % number + tail,) for number in range(count)]


def pairs(count):
    """Rows of two numbers, whose hashes are all 0. The second is the hasher's state behind the first."""
    return [(number, with_number(FIRST_STATE, number)) for number in range(count)]


def numbers(count):
    """Rows of a number, whose hashes agree in the bits that choose where they are looked for.

    What is multiplied is b * (2^32 + 1), for numbers b whose product with the multiplier has the words q2, q1
    and q0 of 32 bits. The whole product has the words q2, q2 + q1, q1 + q0 and q0, and their xor is the hash
    of the table. Where the low bits of q1 are 0, those of the xor are too, unless a sum carries, as it does
    for about every third.
    """
    found = (b * (2**32 + 1) ^ FIRST_STATE for b in factors())
    return [(number,) for number in itertools.islice(filter(has_place_0, found), count)]


def factors():
    """The numbers below 2^32 whose product with the multiplier has zeros from bit 32 on, as many as choose a
    place: its rest by the modulus is below 2^32. From one to the next is a step that makes the rest greater,
    one that makes it less, or both."""
    modulus = 2**(32 + PLACE_BITS)
    step_up = next(b for b in itertools.count(1) if b * OF_NUMBERS % modulus < 2**32)
    step_down = next(b for b in itertools.count(1) if -b * OF_NUMBERS % modulus < 2**32)
    up, down = step_up * OF_NUMBERS % modulus, -step_down * OF_NUMBERS % modulus
    b = rest = 0
    while b < 2**32:
        yield b
        goes_down, goes_up = rest + up >= 2**32, rest < down or rest + up < 2**32
        b += goes_down * step_down + goes_up * step_up
        rest += goes_up * up - goes_down * down


def with_number(state, number):
    """The hasher's state behind a number: the halves of the product, joined by xor."""
    product = (state ^ number) * OF_NUMBERS
    return product % 2**64 ^ product >> 64


def has_place_0(number):
    """Whether a number is looked for in the first place of the table."""
    state = with_number(FIRST_STATE, number)
    return (state ^ state >> 32) % 2**PLACE_BITS == 0


def other_texts(count):
    """Rows of a text, as long as those that collide."""
    return [(b'%08d, a text' % number,) for number in range(count)]


def other_numbers(count):
    """Rows of a number of 64 bits."""
    return [(number,) for number in beside.numbers(count)]


def other_pairs(count):
    """Rows of two numbers."""
    return list(enumerate(beside.numbers(count)))


# What is grouped by, rows of keys that collide, and rows of others.
KINDS = [
    ('a text', texts, other_texts),
    ('two numbers', pairs, other_pairs),
    ('a number', numbers, other_numbers),
]


# ---- what a select takes

class Grouped:
    """A select that makes a group of each of these rows, and the scripts without and with it."""

    def __init__(self, folder, rows):
        self.lines = sorted(b'\t'.join(map(told, row)) + b'\t1' for row in rows)
        names = [b'c%d' % at for at in range(len(rows[0]))]
        columns = b', '.join(name + b' ' + kind(value) for name, value in zip(names, rows[0]))
        spelled = b', '.join(b'(%s)' % b', '.join(map(literal, row)) for row in rows)
        inserts = (b'a: CREATE TABLE t (%s) ENGINE = MergeTree ORDER BY c0\n' % columns
                   + b'a: INSERT INTO t VALUES %s\n' % spelled)
        keys = b', '.join(names)
        selects = TIMES * (b'a: SELECT %s, count() FROM t GROUP BY %s\n' % (keys, keys))
        self.alone, self.script = os.path.join(folder, 'alone'), os.path.join(folder, 'script')
        for path, text in (self.alone, inserts), (self.script, inserts + selects):
            with open(path, 'wb') as file:
                file.write(text)

    def seconds(self, program):
        """What the select took in a run. The bench ends where it isn't answered right."""
        inserts, ended = measure.run([program], self.alone), measure.run([program], self.script)
        lines, each = ended.output.splitlines()[2:], len(self.lines) + 1
        heads = [b'%d a rows %d' % (line, len(self.lines)) for line in range(3, 3 + TIMES)]
        answers = [sorted(lines[first + 1:first + each]) for first in range(0, len(lines), each)]
        if ended.status != 0 or lines[::each] != heads or answers != TIMES * [self.lines]:
            sys.exit(f'{len(self.lines)} groups were answered wrongly, with status {ended.status}')
        return (ended.seconds - inserts.seconds) / TIMES


def kind(value):
    """The kind of a value, as a CREATE TABLE has it."""
    return b'String' if isinstance(value, bytes) else b'UInt64'


def told(value):
    """A value as an answer has it."""
    return value if isinstance(value, bytes) else b'%d' % value


def literal(value):
    """A value as an INSERT has it."""
    return b"'%s'" % value if isinstance(value, bytes) else b'%d' % value


def run_kind(name, collide, others, program):
    """Prints the line of keys of a kind, and gives its bar."""
    medians = []
    for rows in collide(KEYS), others(KEYS):
        with tempfile.TemporaryDirectory() as folder:
            grouped = Grouped(folder, rows)
            medians.append(statistics.median(grouped.seconds(program) for _ in range(RUNS)))
    times = medians[0] / medians[1]
    print(f'| {name} | {KEYS} | {medians[0] * 1000:.1f} | {medians[1] * 1000:.2f} | {times:.1f} |',
          flush=True)
    return (times <= MOST_TIMES,
            f'groups by {name}: {times:.1f} times as long where keys collide, at most {MOST_TIMES}')


def run_all(program):
    """Prints the table of a select over keys that collide, and gives its bars."""
    print('| groups by | keys | ms of keys that collide | ms of others | times |')
    print('|---|---|---|---|---|')
    return [run_kind(*each, program) for each in KINDS]
