"""Times selects over many rows, beside sqlite3 in memory on the same rows.

A table of two columns of numbers and one of texts gets up to 500,000 rows. A script has a select many times.
What the script takes longer than the INSERTs alone is the time of the selects, with the writing of their
rows. Each script is run five times. Where the command sqlite3 is missing, its part is skipped.
"""
import collections
import os
import shutil
import statistics
import sys
import tempfile

import measure

SIZES = [62_500, 125_000, 250_000, 500_000]
ROWS_EACH = 10_000
RUNS = 5

# A select: its name, its text, the text for sqlite3 (None where it is the same), how often a script has it at
# the greatest size, how many times as long as sqlite3 it may take there, its greatest growth exponent, what
# works out the lines of its answer from the rows, and whether they have an order. Smaller sizes have it more
# often, so that each script goes over as many rows.
Select = collections.namedtuple('Select', 'name text sql times most_times most_exponent answer is_ordered')


def numbers(count):
    """So many numbers of 64 bits, from a linear congruential generator."""
    drawn, state = [], 42
    for _ in range(count):
        state = (6364136223846793005 * state + 1442695040888963407) % 2**64
        drawn.append(state)
    return drawn


class Table:
    """The INSERTs of these rows, for the program and for sqlite3."""

    def __init__(self, folder, rows):
        self.folder, self.rows = folder, rows
        spelled = [f"({k}, {v}, '{s}')" for k, v, s in rows]
        inserts = ['INSERT INTO t VALUES ' + ', '.join(spelled[first:first + ROWS_EACH])
                   for first in range(0, len(spelled), ROWS_EACH)]
        creates = 'CREATE TABLE t (k UInt64, v UInt64, s String) ENGINE = MergeTree ORDER BY k'
        self.done = len(inserts) + 1
        self.script = ''.join(f'a: {statement}\n' for statement in [creates, *inserts])
        creates = 'CREATE TABLE t (k INTEGER, v INTEGER, s TEXT)'
        self.sql = ''.join(f'{statement};\n' for statement in [creates, *inserts])

    def written(self, name, text):
        """The path of a file of the text."""
        path = os.path.join(self.folder, name)
        with open(path, 'w') as file:
            file.write(text)
        return path


class Timed:
    """A select over a table: its scripts, and what they and the INSERTs alone took in each run."""

    def __init__(self, table, select):
        self.rows, self.select, self.done = len(table.rows), select, table.done
        self.times = select.times * SIZES[-1] // self.rows
        self.lines = self.arranged(select.answer(table.rows))
        place = f'{select.name}{self.rows}'
        self.script = table.written(f'{place}.pj', table.script + f'a: {select.text}\n' * self.times)
        self.sql = table.written(f'{place}.sql', table.sql + f'{select.sql or select.text};\n' * self.times)
        self.seconds, self.sqlite_seconds = [], []

    def arranged(self, lines):
        """The lines of an answer, sorted where they may come in any order."""
        return lines if self.select.is_ordered else sorted(lines)

    def check(self, ended, is_sqlite):
        """Ends the bench where a run didn't answer right."""
        heads, skipped = (0, 0) if is_sqlite else (1, self.done)
        lines, each = ended.output.decode().splitlines()[skipped:], heads + len(self.lines)
        answers = [lines[first:first + each] for first in range(0, len(lines), each)]
        places = range(self.done + 1, self.done + self.times + 1)
        announced = [[f'{place} a rows {len(self.lines)}'][:heads] for place in places]
        right = ended.status == 0 and [answer[:heads] for answer in answers] == announced
        known = self.lines
        for answer in answers if right else []:
            # Answers are mostly the same, and then only the first is sorted.
            right = right and (answer[heads:] == known or self.arranged(answer[heads:]) == self.lines)
            known = answer[heads:]
        if not right:
            sys.exit(f'{"sqlite3" if is_sqlite else "the program"} answered wrongly over {self.rows} rows: '
                     f'{self.select.name}')


def run_all(program, sqlite, folder, row, selects):
    """Runs all scripts by turns, so that a busy machine slows each of them alike."""
    drawn = [row(number) for number in numbers(SIZES[-1])]
    tables = [Table(folder, drawn[:rows]) for rows in SIZES]
    alone = [(table.written(f'{len(table.rows)}.pj', table.script),
              table.written(f'{len(table.rows)}.sql', table.sql)) for table in tables]
    timed = [[Timed(table, select) for select in selects] for table in tables]
    for _ in range(RUNS):
        for (script, sql), of_table in zip(alone, timed):
            inserts = measure.run([program], script)
            sqlite_inserts = measure.run(sqlite, sql) if sqlite else None
            for each in of_table:
                ended = measure.run([program], each.script)
                each.check(ended, False)
                each.seconds.append((ended.seconds - inserts.seconds) / each.times)
                if sqlite:
                    ended = measure.run(sqlite, each.sql)
                    each.check(ended, True)
                    each.sqlite_seconds.append((ended.seconds - sqlite_inserts.seconds) / each.times)
    return timed


def run_select(of_one):
    """Prints the lines of a select, one for each size, and gives its bars."""
    select = of_one[0].select
    for each in of_one:
        mine, beside = statistics.median(each.seconds), None
        beside_ms = times = '-'
        if each.sqlite_seconds:
            beside = statistics.median(each.sqlite_seconds)
            beside_ms, times = f'{beside * 1000:.2f}', f'{mine / beside:.2f}'
        print(f'| {select.name} | {each.rows} | {each.times} | {mine * 1000:.2f}'
              f' | {mine * 1e9 / each.rows:.1f} | {beside_ms} | {times} |')
    grown = measure.exponent([(each.rows, statistics.median(each.seconds)) for each in of_one])
    bars = [(grown <= select.most_exponent,
             f'{select.name}: growth exponent {grown:.2f}, at most {select.most_exponent}')]
    if beside:
        bars.append((mine <= select.most_times * beside, f'{select.name}: {times} times sqlite3 at '
                     f'{each.rows} rows, at most {select.most_times}'))
    return bars


def main(row, selects):
    """Times selects over rows, each made of a number. Gives the status: 0 where each bar is met, else 1."""
    program, sqlite = measure.program(), shutil.which('sqlite3')
    command = sqlite and [sqlite, '-batch', '-separator', '\t', ':memory:']
    print('Times are processor time, user and system, of one select.')
    print()
    with tempfile.TemporaryDirectory() as folder:
        timed = run_all(program, command, folder, row, selects)
    print('| select | rows | times in a script | ms | ns per row | ms of sqlite3 | times sqlite3 |')
    print('|---|---|---|---|---|---|---|')
    bars = [bar for of_one in zip(*timed) for bar in run_select(of_one)]
    print()
    if not sqlite:
        print('skipped: sqlite3 is missing')
    return 0 if all([measure.bar(*each) for each in bars]) else 1
