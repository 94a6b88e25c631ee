#!/usr/bin/env python3
"""The command yazgoulm-mail in a clone: live mail folders over a Maildir. README.md says more.

    live_mail.py MAILDIR [FORMULA..]    shows each folder, and what enters and leaves it, until Ctrl-C
"""
import os, sys

sys.path.append(os.path.join(os.path.dirname(os.path.realpath(__file__)), "../../python"))

from yazgoulm._mail import main

if __name__ == "__main__":
    sys.exit(main())
