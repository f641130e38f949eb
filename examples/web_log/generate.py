#!/usr/bin/env python3
"""Writes script.pj: 4,000 requests to a web server, one each minute, and eight questions about them.

    examples/web_log/generate.py > examples/web_log/script.pj

Each run writes the same.
"""
ROWS = 4000
ROWS_EACH = 500
START = 1_790_000_000
STEP = 60
PATHS = ['/', '/about', '/search', '/news/today', "/o''brien", '/img/logo.png']
STATUSES = [200] * 14 + [404] * 3 + [301] * 2 + [500]
VISITORS = 500


def draws(state):
    """Numbers below 2 to the power of 31, the high bits of a linear congruential generator."""
    while True:
        state = (state * 6364136223846793005 + 1442695040888963407) % 2**64
        yield state >> 33


def main():
    draw, draw_visitor = draws(42), draws(7)
    rows = []
    for number in range(ROWS):
        status = STATUSES[next(draw) % len(STATUSES)]
        path = PATHS[next(draw) % len(PATHS)]
        size = 512 if status != 200 else next(draw) % 100_000
        visitor = next(draw_visitor) % VISITORS
        rows.append(f"({START + number * STEP}, {status}, '{path}', {size}, {visitor})")

    print('a: CREATE TABLE log (ts UInt64, status UInt64, path String, bytes UInt64, visitor UInt64)'
          ' ENGINE = MergeTree ORDER BY ts')
    for first in range(0, ROWS, ROWS_EACH):
        print('a: INSERT INTO log VALUES ' + ', '.join(rows[first:first + ROWS_EACH]))
    print("a: SELECT count() FROM log WHERE status >= 500 AND (path = '/search' OR path = '/o''brien')")
    print("a: SELECT ts, path, bytes FROM log WHERE status = 200 AND path >= '/n' ORDER BY bytes DESC, ts LIMIT 5")
    print("a: SELECT intDiv(bytes + 1023, 1024) AS kib, path, ts FROM log WHERE bytes >= 99000 AND NOT path = '/'"
          ' ORDER BY kib DESC, path, ts LIMIT 8')
    print('a: SELECT path, count() AS hits FROM log GROUP BY path ORDER BY hits DESC, path')
    print('a: SELECT intDiv(ts, 86400) AS day, uniqExact(visitor), count() FROM log GROUP BY day ORDER BY day')
    print('a: SELECT status, count(), sum(bytes), max(bytes) FROM log GROUP BY status ORDER BY status')
    print('a: SELECT path, status, count() AS failed FROM log WHERE status >= 400 GROUP BY path, status'
          ' ORDER BY failed DESC, path, status LIMIT 5')
    print('a: SELECT count(), uniqExact(visitor), min(ts), max(ts), sum(bytes) FROM log')


if __name__ == '__main__':
    main()
