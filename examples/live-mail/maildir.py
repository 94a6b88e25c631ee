#!/usr/bin/env python3
"""Makes a Maildir, and lets mail come and go in it, from a seed.

    maildir.py MAILDIR [MESSAGES [ACTS [SEED]]]    3,000 messages and then 300 acts, at seed 1
"""
import os, random, sys, time

PEOPLE = ["Ann <ann@example.org>", "Bob <bob@example.org>", "=?utf-8?q?J=C3=BCrgen?= <j@example.org>", "shop@example.com"]


class Mail:
    """A Maildir that this process alone alters. `messages` has each message's path by its key."""

    def __init__(self, maildir, seed):
        self.maildir, self.random, self.made, self.messages = maildir, random.Random(seed), 0, {}
        for place in "tmp", "new", "cur":
            os.makedirs(f"{maildir}/{place}", exist_ok=True)

    def deliver(self):
        """Writes a message in tmp, and renames it into new."""
        self.made += 1
        key, person = f"{self.made:06}.P1.host", self.random.choice(PEOPLE)
        body = "x" * self.random.choice([10, 900, 40_000])
        with open(f"{self.maildir}/tmp/{key}", "w", encoding="ascii") as file:
            file.write(f"From: {person}\nSubject: message {self.made}\n\n{body}\n")
        self.rename(key, f"{self.maildir}/tmp/{key}", f"{self.maildir}/new/{key}")

    def rename(self, key, old, new):
        os.rename(old, new)
        self.messages[key] = new

    def flag(self, key):
        """Gives a message other flags, in cur, as a mail program does."""
        flags = self.random.choice(["", "S", "RS", "F"])
        self.rename(key, self.messages[key], f"{self.maildir}/cur/{key}:2,{flags}")

    def act(self):
        """Delivers, flags or removes a message."""
        chance = self.random.random()
        if chance < 0.4 or not self.messages:
            return self.deliver()
        key = self.random.choice([*self.messages])
        if chance < 0.8:
            return self.flag(key)
        os.remove(self.messages.pop(key))


def main(words):
    if not 1 <= len(words) <= 4:
        sys.exit(__doc__.rstrip())
    messages, acts, seed = [*map(int, words[1:])] + [3000, 300, 1][len(words) - 1 :]
    mail = Mail(words[0], seed)
    for _ in range(messages):
        mail.deliver()
    for _ in range(acts):
        mail.act()
        time.sleep(0.01)


if __name__ == "__main__":
    main(sys.argv[1:])
