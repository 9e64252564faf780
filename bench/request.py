#!/usr/bin/env python3
"""request.py N: writes the request that `join_tool gen N` answers, as JSON: its query, and its rows as a text.

A draw sets x to (x * 6364136223846793005 + 1442695040888963407) mod 2^64, from 0 on, and gives x >> 33. Build row i, of N, has
id i / 2 in whole division and grp draw mod 100. Then each of the 4N probe rows has id draw mod N and amt draw mod 1000 - 500.
"""
import sys


def draws():
    x = 0
    while True:
        x = (x * 6364136223846793005 + 1442695040888963407) % 2**64
        yield x >> 33


def rows(pairs):
    return "[[" + ",".join(f"[{one},{other}]" for one, other in pairs) + "]]"


def main():
    if len(sys.argv) != 2 or not sys.argv[1].isdigit() or int(sys.argv[1]) == 0:
        sys.exit("usage: request.py N, with N of at least 1")
    n, drawn = int(sys.argv[1]), draws()
    build = [(i // 2, next(drawn) % 100) for i in range(n)]
    probe = [(next(drawn) % n, next(drawn) % 1000 - 500) for _ in range(4 * n)]
    print(
        '{"build":{"schema":[["id","Int64"],["grp","Int64"]],"frames":' + rows(build) + "},\n"
        '"probe":{"schema":[["id","Int64"],["amt","Int64"]],"frames":' + rows(probe) + "},\n"
        '"join":{"build":["id"],"probe":["id"],"keep_probe":true,"keep_build":true},\n'
        '"group":["build.grp"],\n'
        '"reduce":[["sum","probe.amt"],["min","probe.amt"],["max","probe.amt"],["first","probe.amt"],["last","probe.amt"]]}'
    )


main()
