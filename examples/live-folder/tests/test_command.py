"""live_folder as a command: its lines, its status, and what it can't use."""
import os, signal, subprocess, sys

from case import LONG, LQ, Case, of_a_process, run


class Words(Case):
    """The words of the command, and LQ."""

    def test_a_slash_after_the_folder(self):
        self.write("a.txt")
        status, out, _ = self.check("touch $F/b.txt", self.folder + "//")
        self.assertEqual(status, 0, out)
        shown = f"= {self.folder}/a.txt\n+ {self.folder}/b.txt\n"
        self.assertTrue(out.startswith(f"{shown}2 entries on disk, 0 differ"), out)

    def test_a_link_to_a_folder(self):
        self.write("a.txt")
        os.symlink("folder", self.folder + "-link")
        status, out, _ = self.check("touch $F/b.txt", self.folder + "-link")
        self.assertEqual(status, 0, out)
        self.assertIn(f"+ {self.folder}-link/b.txt\n2 entries on disk, 0 differ", out)

    def test_a_folder_that_is_missing_or_is_a_file(self):
        self.write("file")
        for name, line in (
            ("none", "folder/none: No such file"),
            ("file", "folder/file: Not a directory"),
            ("n" * 300, "n: File name too long"),
            ("\x1b[1m", "folder/\\x1b[1m: No such file"),
        ):
            status, _, error = run(self.path(name), "name==*")
            self.assert_said(status, error, 2, line)
        status, _, error = run("", "name==*")
        self.assert_said(status, error, 2, ": No such file")

    def test_words_that_are_not_understood(self):
        for words in (
            [],
            ["one"],
            ["--check", "true", self.folder],
            ["--web", "0", self.folder, "a==b"],
        ):
            status, out, error = run(*words)
            self.assertEqual((status, out), (2, ""), error)
            self.assertIn("live_folder --check COMMAND FOLDER FORMULA", error)

    def test_a_formula_that_is_refused(self):
        self.write_raw(LONG)  # a second line, if the listing came first
        status, out, error = self.check("true", formula="name==*&&size>")
        said = "live_folder: the formula can't be read: BadQuery at byte 14\n    name==*&&size>\n                  ^\n"
        self.assertEqual((status, out, error), (2, "", said))

    @of_a_process
    def test_a_program_that_is_not_lq(self):
        for program, status, line in (
            ("/nowhere/lq", 2, "/nowhere/lq can't be run: No such file"),
            (self.folder, 2, "can't be run: Permission denied"),
            (self.script("cat", "exec cat"), 2, "isn't lq"),
            ("/bin/true", 3, "/bin/true ended with status 0"),
            (self.script("echo", "read line; echo no"), 3, "isn't JSON"),
        ):
            seen, _, error = run(self.folder, "name==*", LQ=program)
            self.assert_said(seen, error, status, line)

    def test_a_command_that_fails(self):
        status, out, _ = self.check("touch $F/a; exit 3")
        self.assertEqual(status, 1)
        self.assertIn("the command failed with status 3\n1 entries on disk, 0 differ", out)
        status, out, _ = self.check("kill -9 $$")
        self.assertEqual(status, 1)
        self.assertIn("the command failed with signal 9\n", out)


class Values(Case):
    """Sizes and dates that change within the result."""

    def test_a_size_and_a_date(self):
        self.write("a.txt", 9)
        os.utime(self.path("a.txt"), (941000000, 941000000))
        live = self.start(self.folder, "name==*.txt && size>5", TZ="UTC")
        self.assertEqual(live.stdout.readline(), f"= {self.path('a.txt')}\n")
        os.utime(self.path("a.txt"), (941000060, 941000060))
        self.assertEqual(live.stdout.readline(), f"~ {self.path('a.txt')}: 9 bytes, 1999-10-27 04:54:20\n")
        with open(self.path("a.txt"), "ab") as file:
            file.write(b"more")
        line = live.stdout.readline()
        self.assertTrue(line.startswith(f"~ {self.path('a.txt')}: 13 bytes, 20"), line)
        with open(self.path("a.txt"), "wb") as file:
            file.write(b"less")
        while line.startswith("~"):
            line = live.stdout.readline()
        self.assertEqual(line, f"- {self.path('a.txt')}\n")


class Ends(Case):
    """What may end while live_folder runs."""

    @of_a_process
    def test_lq_is_killed_while_nothing_happens(self):
        number = self.folder + "-number"
        program = self.script("lq", f'echo $$ > "{number}"; exec "{LQ}" "$@"')
        self.write("a")
        live = self.start(self.folder, "name==*", LQ=program)
        live.stdout.readline()
        with open(number) as file:
            os.kill(int(file.read()), signal.SIGKILL)
        self.assert_ends(live, 3, "ended by signal 9")

    def test_the_reader_goes(self):
        self.write("a")
        for lines in 0, 1:
            live = self.start(self.folder, "name==*")
            for _ in range(lines):
                live.stdout.readline()
            live.stdout.close()
            self.assert_ends(live, 141)
            live.stdout = open(os.devnull)

    def test_standard_output_is_full(self):
        self.write("a")
        with open("/dev/full", "w") as full:
            live = self.start(self.folder, "name==*", stdout=full)
        self.assert_ends(live, 3, "standard output: No space left")

    def test_the_folder_is_moved_or_removed(self):
        self.write("a")
        for command in 'mv "$F/in/it" "$F/moved"', 'rm -r "$F/in/it"', 'mv "$F/in" "$F/out"':
            os.makedirs(self.path("in", "it", "deep"))
            status, out, error = self.check(command, self.path("in", "it"))
            self.assert_said(status, error, 3, "in/it was moved or removed")
            self.assertNotIn("differ", out)
            subprocess.run(["rm", "-rf", self.path("in")])

    def test_the_folder_goes_while_it_is_shown(self):
        live = self.start(self.folder + "/", "name==*")
        self.write("a")
        live.stdout.readline()
        subprocess.run(["rm", "-r", self.folder])
        self.assert_ends(live, 3, "folder was moved or removed")


class Names(Case):
    def test_nothing_raw_goes_to_the_terminal(self):
        names = {
            b"\x1b[31mred": r"\x1b[31mred",
            b"two\nlines": r"two\nlines",
            "\u202etxt.exe".encode(): r"\u202etxt.exe",
            b"\x9b1m": r"\x9b1m",
            "\x9b1m".encode(): r"\u009b1m",
            b"back\\x1b": r"back\\x1b",
            "schön 日本".encode(): "schön 日本",
        }
        for name in names:
            self.write_raw(name)
        status, out, _ = self.check("true", formula="name==*")
        lines = sorted(f"= {self.folder}/{shown}" for shown in names.values())
        self.assertEqual((status, out.splitlines()[:-1]), (0, lines))
        status, out, _ = run("--check", "true", self.folder, "name==s*", PYTHONIOENCODING="ascii")
        shown = rf"= {self.folder}/sch\xf6n \u65e5\u672c"
        self.assertEqual((status, out.splitlines()[0]), (0, shown))

    def test_a_name_that_lq_refuses(self):
        self.write_raw(LONG)
        status, out, error = self.check("true")
        self.assert_said(status, error, 1, "live_folder: lq refused create")
        self.assertIn("1 entries on disk, 1 differ", out)
        self.assertIn("1 lines refused", out)

    def test_paths_that_are_longer_than_the_system_accepts(self):
        name = "n" * 250
        deep = f"for i in $(seq 20); do mkdir {name}; cd -P {name} || exit 9; touch a.txt; done"
        os.mkdir(self.path("before"))
        subprocess.run(["bash", "-c", deep], cwd=self.path("before"), check=True)
        changes = "echo x > a.txt; mv a.txt b.txt; sleep 0.1; rm ../a.txt; mv ../../a.txt ."
        status, out, error = self.check(f"bash -c 'cd $F; {deep}; sleep 0.1; {changes}'")
        self.assertEqual((status, error), (0, ""))
        line = out.splitlines()[-1]
        self.assertIn("80 entries on disk, 0 differ; window of 39 entries after", line)

    def test_folders_a_thousand_deep(self):
        deep = "import os\nfor _ in range(1100): os.mkdir('d'); os.chdir('d')\nopen('a.txt', 'w')"
        subprocess.run([sys.executable, "-c", deep], cwd=self.folder, check=True)
        for command, line in (
            ("mv $F/d $F/e", "1101 entries on disk, 0 differ; window of 1 entries after 0 m"),
            ("rm -r $F/e/d", "1 entries on disk, 0 differ; window of 0 entries after 1 m"),
        ):
            status, out, error = self.check(command)
            self.assertEqual((status, error), (0, ""))
            self.assertIn(line, out.splitlines()[-1])
