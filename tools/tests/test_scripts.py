"""Unit tests of the scripts of the front door: what they make of help texts, costs, outcomes and versions.

usage: tools/tests/test_scripts.py
"""
import io
import json
import os
import re
import subprocess
import sys
import tempfile
import unittest
import xml.etree.ElementTree as xml
from contextlib import redirect_stdout

TOP = os.path.dirname(os.path.dirname(os.path.dirname(os.path.realpath(__file__))))
sys.dont_write_bytecode = True
sys.path.insert(0, f"{TOP}/tools")
import c_library
import check
import command_help
import completions
import man_pages
import manual_roff
import proved
import stages
import statement
import unproved

SHORT = """Writes the same messages; each with its segments

Usage: hagzimot convert [OPTIONS] [FILE]...

Arguments:
  [FILE]...  Files of messages

Options:
      --in <FORM>      The form [default: framed] [possible values: framed, packed]
  -o, --output <FILE>  Writes to FILE
      --plain          Isn't trimmed
  -h, --help           Print help

Status: 0 done
"""
# The same in the long form, in which a text is below its option.
LONG = """Writes the same messages; each with its segments

Usage: hagzimot convert [OPTIONS] [FILE]...

Arguments:
  [FILE]...
          Files of messages

Options:
      --in <FORM>
          The form

          [default: framed]
          [possible values: framed, packed]

  -o, --output <FILE>
          Writes to FILE

      --plain
          Isn't trimmed

  -h, --help
          Print help

Status: 0 done
"""
WHOLE = """Reads messages

Usage: hagzimot <COMMAND>

Commands:
  convert  Writes the same messages
  help     Print this message

Options:
  -h, --help  Print help

Status: 0 done
"""
FAKE_CHECK = """import os, sys
verb, names = sys.argv[1], sys.argv[4:]
for name in names:
    with open(os.environ["FAKE_LOG"], "a") as file:
        file.write(f"{verb} {name}\\n")
    is_bad = name == os.environ["FAKE_BAD"]
    with open(f"crates/{name}/out/build.log", "w") as file:
        file.write("logic=not-proved functions=1\\n" if is_bad else "logic=proved functions=2 axioms=39 sum=0\\n")
    print(f"{name}: NOT PROVED, see its log" if is_bad else f"{name}: proved", flush=True)
    if is_bad:
        sys.exit(1)
    if verb == "program":
        with open(f"crates/{name}/out/{name}", "w") as file:
            file.write("made")
"""


class Help(unittest.TestCase):
    def seen(self, text):
        command = command_help.command_of("convert", text)
        return [(it.flags, it.value, it.plain_text, it.choices, it.default) for it in command.options]

    def test_short_and_long_forms_mean_the_same(self):
        wanted = [
            (["--in"], "<FORM>", "The form", ["framed", "packed"], "framed"),
            (["-o", "--output"], "<FILE>", "Writes to FILE", [], None),
            (["--plain"], "", "Isn't trimmed", [], None),
            (["-h", "--help"], "", "Print help", [], None),
        ]
        self.assertEqual(self.seen(SHORT), wanted)
        self.assertEqual(self.seen(LONG), wanted)

    def test_other_parts(self):
        for text in (SHORT, LONG):
            command = command_help.command_of("convert", text)
            self.assertEqual(command.about, "Writes the same messages; each with its segments")
            self.assertEqual(command.usage, "hagzimot convert [OPTIONS] [FILE]...")
            self.assertEqual([(it.value, it.text) for it in command.arguments], [("[FILE]...", "Files of messages")])
            self.assertEqual(command.after, "Status: 0 done")

    def test_statuses_under_a_head(self):
        text = SHORT.replace("Status: 0 done", "Status:\n  0  done\n  3  skipped")
        self.assertEqual(command_help.command_of("convert", text).after, "Status:\n0  done\n3  skipped")

    def test_a_text_without_usage_is_refused(self):
        with self.assertRaises(command_help.Unreadable):
            command_help.command_of("convert", "error: no such command\n")


class Pages(unittest.TestCase):
    def setUp(self):
        self.whole, self.command = command_help.command_of("hagzimot", WHOLE), command_help.command_of("convert", SHORT)

    def test_roff_has_no_request_by_chance(self):
        self.assertEqual(man_pages.quoted(".so \\x --in 'a'"), "\\&.so \\ex \\-\\-in \\(aqa\\(aq")

    def test_page_has_each_option(self):
        page = man_pages.command_page(self.command, "2026-11-30", "0.2.0")
        for text in ("\\fB\\-o\\fR, \\fB\\-\\-output\\fR \\fIFILE\\fR", "One of \\fBframed\\fR, \\fBpacked\\fR.", ".SH EXIT STATUS\n", ".SH EXAMPLES\n"):
            self.assertIn(text, page)
        self.assertIn("hagzimot\\-convert \\- write the same messages in another form, framed or packed\n", page)
        self.assertNotIn("Also: ", page)

    def test_a_command_without_a_page_is_refused(self):
        with self.assertRaisesRegex(command_help.Unreadable, "docs/manual/unknown.md"):
            man_pages.page_of("unknown")

    def test_links_become_references(self):
        self.assertEqual(manual_roff.inline("use [`redact`](redact.md)"), "use \\fBhagzimot\\-redact\\fR(1)")
        self.assertEqual(manual_roff.inline("[paths](calls.md#paths)"), "paths (\\fBhagzimot\\-calls\\fR(7))")
        self.assertEqual(manual_roff.inline("[why](../concepts.md) and [below](#below)"), "why and below")
        self.assertEqual(manual_roff.inline("`a*b` *c* 2*3"), "\\fBa*b\\fR \\fIc\\fR 2*3")

    def test_tables_and_lists_of_a_page(self):
        lines = ["| Status | When |", "|---|---|", "| 0 | `a|b` done |", "", "- one", "  more", "- two"]
        self.assertEqual(manual_roff.roff_of(lines), [".TP", "0", "\\fBa|b\\fR done", ".IP \\(bu 2", "one more", ".IP \\(bu 2", "two"])
        wide = ["| A | B | C |", "|---|---|---|", "| x | y | z |"]
        self.assertEqual(manual_roff.roff_of(wide), [".TP", "x", "B: y.", ".br", "C: z."])

    def test_long_lines_of_code_are_folded(self):
        command = manual_roff.folded("$ hagzimot show --schema shop.capnp --root Order --where 'a = b and c = d' orders.bin")
        self.assertEqual(command, ["$ hagzimot show --schema shop.capnp --root Order \\", "    --where 'a = b and c = d' orders.bin"])
        self.assertTrue(all(len(it) <= manual_roff.COLUMNS for it in manual_roff.folded("x" * 200)))

    def test_completions_have_each_option(self):
        made = {name: make(self.whole, [self.command]) for name, make in completions.SHELLS.items()}
        self.assertIn("'convert --output' | 'convert -o') echo '-f'".replace("'convert --output' | 'convert -o'", "'convert -o' | 'convert --output'"), made["hagzimot.bash"])
        self.assertIn("'convert --in') echo 'framed packed'", made["hagzimot.bash"])
        self.assertIn("'--in[The form]:FORM:(framed packed)'", made["_hagzimot"])
        self.assertIn("-l in -x -a 'framed packed' -d 'The form'", made["hagzimot.fish"])
        self.assertIn("Isn\\'t trimmed", made["hagzimot.fish"])


class Proof(unittest.TestCase):
    def test_what_is_left_goes_by_costs_and_speed(self):
        stored = {"a": 100, "b": 300}
        self.assertEqual(proved.expected(["a", "b"], [], 0, stored), 400)
        self.assertEqual(proved.expected(["b"], ["a"], 50, stored), 150)
        self.assertEqual(proved.expected(["unknown"], [], 0, stored), proved.USUAL_COST)

    def build(self, room, bad=""):
        """Proves two crates and a program by a stand-in for tools/check.py, in a repository of its own."""
        for name in ("low", "high", "app"):
            os.makedirs(f"{room}/crates/{name}/out")
        os.makedirs(f"{room}/tools")
        for path, text in ((f"{room}/crates.txt", "low:\nhigh: low\napp: high low\n"), (f"{room}/tools/check.py", FAKE_CHECK)):
            with open(path, "w", encoding="utf-8") as file:
                file.write(text)
        top, listed, costs = proved.TOP, unproved.crates_listed, proved.costs
        os.environ.update(FAKE_LOG=f"{room}/log", FAKE_BAD=bad)
        proved.TOP, unproved.crates_listed = room, lambda: listed(room)
        proved.costs, notes = lambda: {"low": 60, "high": 60, "app": 60}, []
        try:
            return proved.build(("app",), room, notes.append), notes
        finally:
            proved.TOP, unproved.crates_listed, proved.costs = top, listed, costs

    def test_crates_are_proved_lowest_first(self):
        with tempfile.TemporaryDirectory() as room:
            lines, notes = self.build(room)
            with open(f"{room}/log", encoding="utf-8") as file:
                self.assertEqual(file.read(), "build low\nbuild high\nprogram app\n")
            self.assertEqual(list(lines), ["low", "high", "app"])
            self.assertTrue(all(it == "logic=proved functions=2 axioms=39 sum=0" for it in lines.values()))
            self.assertTrue(os.path.isfile(f"{room}/app"))
            self.assertIn("proving 3 crates", notes[0])
            self.assertIn("high is proved, 2 of 3", notes[2])

    def test_a_crate_that_is_not_proved_ends_it(self):
        for bad in ("high", "app"):
            with tempfile.TemporaryDirectory() as room:
                with self.assertRaisesRegex(unproved.Failed, f"{bad}: it isn't proved\nlogic=not-proved"):
                    self.build(room, bad)
                self.assertFalse(os.path.exists(f"{room}/app"))

    def test_statement_of_a_proof(self):
        with tempfile.TemporaryDirectory() as room:
            with open(f"{room}/hagzimot", "wb") as file:
                file.write(b"abc")
            said = statement.statement([f"{room}/hagzimot"], {"hagzimot": "logic=proved axioms=39"})
            self.assertEqual((said["proved"], said["axioms"], said["handles"]), (True, 39, "none"))
            # The sum of "abc", from the standard of SHA-256.
            self.assertEqual(said["programs"]["hagzimot"]["sha256"], "ba7816bf8f01cfea414140de5dae2223b00361a396177a9cb410ff61f20015ad")
            self.assertNotIn("axioms", statement.statement([f"{room}/hagzimot"], None))

    def test_costs_name_crates(self):
        listed = unproved.crates_listed()
        self.assertLessEqual({"hagzimot", "capnp_model"}, set(proved.costs()) & set(listed))


class Stages(unittest.TestCase):
    def outcomes(self):
        def wrong():
            raise stages.Wrong("first\nlast")

        def skipped():
            raise stages.Skipped("zsh isn't installed")

        stage = stages.Stage
        found = [stage("good", lambda: "a\nall well\n"), stage("bad", wrong), stage("after", lambda: "no", ("bad",)), stage("shell", skipped)]
        with redirect_stdout(io.StringIO()):
            return stages.Runner(found, 2).run()

    def test_each_stage_ends_as_it_should(self):
        self.assertEqual([it.status for it in self.outcomes()], [stages.PASSED, stages.FAILED, stages.NOT_RUN, stages.SKIPPED])

    def test_sum(self):
        said = io.StringIO()
        with tempfile.TemporaryDirectory() as room, redirect_stdout(said):
            status = stages.sum_up(self.outcomes(), "t", f"{room}/t.xml")
            suite = xml.parse(f"{room}/t.xml").getroot()
        self.assertEqual((status, said.getvalue().splitlines()[-1]), (1, "1 passed, 2 failed"))
        self.assertEqual((suite.get("tests"), suite.get("failures"), suite.get("skipped")), ("4", "1", "2"))
        self.assertEqual(suite.findall("testcase")[1].find("failure").text, "first\nlast")

    def test_no_stage_is_no_success(self):
        with tempfile.TemporaryDirectory() as room, redirect_stdout(io.StringIO()):
            self.assertEqual(stages.sum_up([stages.Outcome("a", stages.SKIPPED, 0, "")], "t", f"{room}/t.xml"), 1)

    def test_status_77_is_skipped(self):
        outcome = stages.outcome_of(stages.Stage("s", stages.command("sh", "-c", "echo no tmux; exit 77")))
        self.assertEqual((outcome.status, outcome.line()), (stages.SKIPPED, "no tmux"))


class Fake:
    """A crate with the crates that it uses."""

    def __init__(self, name, *deps):
        self.name, self.deps = name, deps

    def below(self):
        found = {it.name: it for dep in self.deps for it in [*dep.below(), dep]}
        return list(found.values())


class Order(unittest.TestCase):
    """The order in which crates are built."""

    def setUp(self):
        self.low = Fake("low")
        self.left, self.right = Fake("left", self.low), Fake("right", self.low)
        self.top = Fake("top", self.left, self.right)
        self.lone = Fake("lone")
        self.all = [self.lone, self.top, self.right, self.left, self.low]

    def built(self, broken=()):
        order = []

        def build(crate):
            order.append(crate.name)
            return crate.name in broken

        return check.in_order(self.all, 1, build), order

    def test_crates_come_after_those_below_them(self):
        failed, order = self.built()
        self.assertEqual(([], "low"), (failed, order[0]))
        self.assertEqual(sorted(it.name for it in self.all), sorted(order))
        self.assertGreater(order.index("top"), max(order.index("left"), order.index("right")))

    def test_longest_chain_comes_first(self):
        self.assertEqual({"low": 3, "left": 2, "right": 2, "top": 1, "lone": 1}, check.chains(self.all))
        self.assertNotEqual("lone", self.built()[1][0])

    def test_crates_above_a_failed_one_are_not_built(self):
        failed, order = self.built(broken=("left",))
        self.assertEqual(["left", "top"], sorted(failed))
        self.assertNotIn("top", order)
        self.assertIn("lone", order)


class Files(unittest.TestCase):
    def test_crates_below_come_after_their_own(self):
        self.assertEqual(unproved.crates_below("c", {"a": ["std"], "b": ["a"], "c": ["b", "a", "clap"]}), ["a", "b"])

    def test_workflows_are_yaml(self):
        folder = f"{TOP}/.github/workflows"
        for name in os.listdir(folder):
            with open(f"{folder}/{name}", encoding="utf-8") as file:
                text = file.read()
            self.assertNotIn("\t", text)
            jobs = re.findall(r"(?m)^ {4}runs-on: ", text)
            try:
                import yaml
            except ImportError:
                self.assertTrue(jobs)
                continue
            read = yaml.safe_load(text)
            self.assertEqual(len(read["jobs"]), len(jobs))
            for job in read["jobs"].values():
                for step in job["steps"]:
                    self.assertEqual(len({"uses", "run"} & set(step)), 1)
                    command = step.get("run", "./try").split()[0]
                    self.assertTrue(os.access(f"{TOP}/{command}", os.X_OK), command)

    def test_version_and_changelog_agree(self):
        with open(f"{TOP}/CHANGELOG.md", encoding="utf-8") as file:
            self.assertEqual(re.search(r"(?m)^## (\d+\.\d+\.\d+)", file.read())[1], statement.version())

    def test_each_script_has_help(self):
        for name in ("try", "test", "install", "release", "tools/reproducible", "tools/c_library.py", "packaging/build_packages", "packaging/build_library"):
            run = subprocess.run([sys.executable, f"{TOP}/{name}", "--help"], capture_output=True, text=True, check=False)
            self.assertEqual(run.returncode, 0, name)
            self.assertIn("usage: ", run.stdout, name)

    def test_costs_are_json(self):
        with open(f"{TOP}/packaging/costs.json", encoding="utf-8") as file:
            self.assertTrue(all(isinstance(it, int) for it in json.load(file)["seconds"].values()))

    def test_each_export_is_a_function_of_the_header_and_of_python(self):
        functions = c_library.functions()
        self.assertEqual(sorted(it.replace("hz_", "hagzimot_") for it in c_library.exports()), sorted(functions))
        with open(f"{TOP}/bindings/python/hagzimot.py", encoding="utf-8") as file:
            declared = re.findall(r'_declare\("(\w+)"', file.read())
        self.assertEqual(sorted(declared), sorted(functions))


if __name__ == "__main__":
    unittest.main()
