"""What the tests of live_folder share. LQ in the environment names another program than ./lq; BY=--library has all of
them run over the library."""
import os, subprocess, sys, unittest

sys.dont_write_bytecode = True
HERE = os.path.dirname(os.path.dirname(os.path.realpath(__file__)))
sys.path.append(os.path.join(HERE, "../../tests/python"))

from on_disk import OnDisk

LIVE = os.path.join(HERE, "live_folder")
LQ = os.path.realpath(os.environ.get("LQ") or os.path.join(HERE, "../../lq"))
BY = os.environ.get("BY", "").split()
LONG = b"\xff" * 200  # a name that lq refuses: as text it is too long
SECONDS = int(os.environ.get("TEST_SECONDS", 60))  # the longest wait for something that has to come


def run(*words, **variables):
    """The status of live_folder, its standard output and its standard error."""
    env = {**os.environ, "LQ": LQ, **variables}
    done = subprocess.run([LIVE, *BY, *words], capture_output=True, timeout=60, env=env, text=True)
    return done.returncode, done.stdout, done.stderr


of_a_process = unittest.skipIf(BY, "there is no process of lq")


class Case(OnDisk):
    def script(self, name, command):
        """The path of a shell script beside the folder."""
        path = f"{self.folder}-{name}"
        with open(path, "w") as file:
            file.write(f"#!/bin/sh\n{command}\n")
        os.chmod(path, 0o700)
        return path

    def check(self, command, folder=None, formula="name==*.txt"):
        """Runs --check on a folder. F is the test's folder for the command."""
        return run("--check", command, folder or self.folder, formula, F=self.folder)

    def start(self, *words, stdout=subprocess.PIPE, **variables):
        """A live_folder that goes on until the test has ended."""
        env = {**os.environ, "LQ": LQ, **variables}
        error = subprocess.PIPE
        live = subprocess.Popen([LIVE, *BY, *words], stdout=stdout, stderr=error, env=env, text=True)

        def end():
            live.kill()
            live.communicate()

        self.addCleanup(end)
        return live

    def assert_ends(self, live, status, line=None):
        """It ends by itself."""
        live.wait(SECONDS)
        self.assert_said(live.returncode, live.stderr.read(), status, line)

    def assert_said(self, seen, error, status, line=None):
        """The status, and one line on standard error with some words in it, or none."""
        self.assertEqual(seen, status, error)
        self.assertEqual(error.count("\n"), 0 if line is None else 1, error)
        self.assertIn(line or "", error)
