"""What tests of a folder on disk share: a case with a folder of its own, and which of them run."""
import os, subprocess, tempfile, unittest

PACKAGE = os.environ.get("YAZGOULM_PACKAGE") or os.path.realpath(f"{os.path.dirname(os.path.realpath(__file__))}/../../python")


def load_tests(loader, tests, pattern):
    """All, but those of the commands where .ci/python tries the two ways to call the library on a package that wasn't
    installed: nothing of a command depends on the way, and .ci/live-folder runs these tests."""
    installed = os.path.exists(f"{PACKAGE}/bin/yazgoulm-folder")
    if installed or "YAZGOULM_BACKEND" not in os.environ:
        return tests
    return unittest.TestSuite(it for it in tests if not any("Command" in type(each).__name__ for each in it))


class OnDisk(unittest.TestCase):
    """Each test has a folder of its own, `self.folder`, in a room that goes after it."""

    def setUp(self):
        self.room = tempfile.mkdtemp(prefix="folder-")
        self.addCleanup(subprocess.run, ["rm", "-rf", self.room])
        self.folder = os.path.join(self.room, "folder")
        os.mkdir(self.folder)

    def path(self, *names):
        return os.path.join(self.folder, *names)

    def write(self, name, size=0):
        with open(self.path(name), "wb") as file:
            file.write(b"x" * size)

    def write_raw(self, name):
        """An empty file under a name of any bytes."""
        os.close(os.open(os.path.join(os.fsencode(self.folder), name), os.O_CREAT))
