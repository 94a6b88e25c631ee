#!/usr/bin/env python3
"""Clients for the tests, each on a thread of its own: clients.py URL NAME FILE [CLIENT WINDOW FORMULA VALUES]..

After each turn in which something came, a client adds a line to the file: its number, its change, and a digest of its
rows, which are settled then. If VALUES is 1, a digest of their sizes and times follows, and whether these are as of the
change, 1 or 0; else it is 0 and 0."""
import os, sys, threading

from case import digest

from beyond.client import Follower, follow
from beyond.engine import Log


def run(url, name, out, client, window, formula, has_values):
    follower, written = Follower(Log(url, name), window, formula, has_values=has_values == "1"), None

    def turned():
        nonlocal written
        if follower.is_settled and written != (follower.seq, follower.change):
            written = follower.seq, follower.change
            told = client, follower.change, digest(follower.rows)
            values = {node: (row["size"], row["last_modified"]) for node, row in follower.values.items()}
            told += (digest(values), int(follower.at == follower.change)) if follower.has_values else (0, 0)
            os.write(out, f"{' '.join(map(str, told))}\n".encode())

    follow(follower, turned)


def main(url, name, file, *clients):
    out = os.open(file, os.O_WRONLY | os.O_CREAT | os.O_APPEND)
    for at in range(0, len(clients), 4):
        threading.Thread(target=run, args=(url, name, out, *clients[at : at + 4])).start()


main(*sys.argv[1:])
