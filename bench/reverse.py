#!/usr/bin/env python3
"""reverse.py N: writes a request that joins N build rows, of the keys 0 to N - 1, with N probe rows of the same keys in reverse
order, so that no two rows that join stand near one another."""
import sys


def main():
    if len(sys.argv) != 2 or not sys.argv[1].isdigit() or int(sys.argv[1]) == 0:
        sys.exit("usage: reverse.py N, with N of at least 1")
    n = int(sys.argv[1])
    build = ",".join(f"[{i},{i % 100}]" for i in range(n))
    probe = ",".join(f"[{i},{i % 1000}]" for i in reversed(range(n)))
    print(
        '{"build":{"schema":[["id","Int64"],["grp","Int64"]],"frames":[[' + build + "]]},\n"
        '"probe":{"schema":[["id","Int64"],["amt","Int64"]],"frames":[[' + probe + "]]},\n"
        '"join":{"build":["id"],"probe":["id"]},"group":["build.grp"],"reduce":[["sum","probe.amt"]]}'
    )


main()
