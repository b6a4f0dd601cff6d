#!/usr/bin/env python3
"""Writes a script of many clients, registrations and posts to standard output.

    bench/delivery.py [CLIENTS [VARIABLES [POSTS]]]        64, 1,000 and 100,000 where none are given

Each client makes four registrations, of patterns with and without intervals, and then the clients post in turn, two
pairs a line, and fetch at every hundredth line. Nothing here is part of the gate, and no figure is promised.
"""
import sys

ASKED = ["*", "V*5 1 c*", "V123", "V?7* 0.1 c0?1"]


def script(clients, variables, posts):
    for client in range(clients):
        for asked in ASKED:
            yield f"0 c{client:03} register {asked}"
    for line in range(posts // 2):
        client = line % clients
        stamp = f"{line // 1000}.{line % 1000:03}"
        first, second = 2 * line % variables, (2 * line + 1) % variables
        yield f"{stamp} c{client:03} post V{first:03}=5 # V{second:03}=6"
        if line % 100 == 0:
            yield f"{stamp} c{client:03} fetch"


def main():
    given = [int(word) for word in sys.argv[1:]]
    clients, variables, posts = given + [64, 1_000, 100_000][len(given):]
    for line in script(clients, variables, posts):
        print(line)


if __name__ == "__main__":
    main()
