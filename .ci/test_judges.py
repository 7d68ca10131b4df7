#!/usr/bin/env python3
"""Unit tests of the scripts that judge: each has to pass what is right, and to see what is wrong.

usage: test_judges.py

Bytes are worked by hand from the encoding, or are the examples of its document (packing).
"""
import json
import os
import random
import stat
import struct
import subprocess
import sys
import tempfile
import unittest

HERE = os.path.dirname(os.path.realpath(__file__))
TOP = os.path.dirname(HERE)
sys.dont_write_bytecode = True
sys.path.insert(0, HERE)
os.chdir(TOP)
import builder_trees
import faults_of_builders
import faults_of_dynamic
import message_values
import plain_judge
import program_runs
import quick
import random_builders
import random_messages
import random_sets
import source_texts
import stored_runs
import style
import tool_peers
import tool_sources
import tool_walk

# A framed message of one segment: a struct of one word that holds 7.
SEVEN = struct.pack("<IIQQ", 0, 2, 1 << 32, 7)


def request_of_node(number, scope, gap=0):
    """A request with one node of an id and a scope, which begins some words after its list's pointer."""
    root = 4 << 48
    nodes = (3 + gap) << 2 | 1 | 7 << 32 | 11 << 35
    tag = 1 << 2 | 5 << 32 | 6 << 48
    words = [root, nodes, 0, 0, 0, *[0] * gap, tag, number, 0, scope, 0, 0, *[0] * 6]
    return struct.pack(f"<II{len(words)}Q", 0, len(words), *words)


class Sources(unittest.TestCase):
    """Random sources and mutations."""

    def test_a_seed_gives_one_set_of_files(self):
        self.assertEqual(source_texts.schema(3), source_texts.schema(3))
        self.assertNotEqual(source_texts.schema(3), source_texts.schema(4))

    def test_sources_have_every_construct(self):
        text = "".join(it for seed in range(60) for it in source_texts.schema(seed).values())
        for word in ("struct", "union", "group", "enum", "const", "annotation", "interface", "extends", "stream", "using", "import", "List(", "AnyPointer", "= (", "= [", "$a"):
            self.assertIn(word, text)

    def test_mutations_change_a_text(self):
        chance, text = random.Random(1), b"struct A { a @0 :UInt8; }"
        others = {source_texts.mutated(chance, text, [text]) for _ in range(50)}
        self.assertGreater(len(others - {text}), 30)


class Requests(unittest.TestCase):
    """The comparison of two requests of the compiler."""

    def test_the_same_is_passed_wherever_it_is(self):
        self.assertEqual(tool_sources.Message(SEVEN).root(), ("struct", b"\x07", []))
        self.assertEqual(tool_sources.differences(request_of_node(5, 6), request_of_node(5, 6, gap=3)), [])

    def test_other_nodes_are_seen(self):
        for other in (request_of_node(6, 6), request_of_node(5, 7)):
            self.assertTrue(tool_sources.differences(request_of_node(5, 6), other))

    def test_a_header_that_lies_is_seen(self):
        with self.assertRaises(ValueError):
            tool_sources.Message(request_of_node(5, 6) + bytes(8))


class Peers(unittest.TestCase):
    """The comparison of what two programs print of a message."""

    def same(self, ours, theirs):
        return tool_peers.are_same(tool_peers.values_in_text(ours), tool_peers.values_in_text(theirs), False)

    def test_other_spelling_of_the_same(self):
        self.assertTrue(self.same(b'(a = 1, b = "\\t", c = [1.5])', b'( a = 1,\n b = "\\x09", c = [1.50e0] )'))
        self.assertTrue(self.same(b'(d = 0x"6869")', b'(d = "hi")'))
        self.assertTrue(self.same(b"(f = 0.1)", b"(f = 0.10000000149011612)"))

    def test_what_differs(self):
        for ours, theirs in (
            (b"(a = 1)", b"(a = 2)"),
            (b"(a = 1)", b"(b = 1)"),
            (b"(a = 1, b = 2)", b"(b = 2, a = 1)"),
            (b"(a = [1])", b"(a = [1, 1])"),
            (b"(a = 18446744073709551615)", b"(a = 18446744073709551614)"),
            (b'(a = "b")', b"(a = b)"),
            (b"(f = 0.1)", b"(f = 0.11)"),
            (b"(a = 1)", b"(a = 1)\n(a = 1)"),
        ):
            self.assertFalse(self.same(ours, theirs), (ours, theirs))

    def test_json_is_compared_as_floats_of_64_bits(self):
        read = tool_peers.values_in_json
        self.assertTrue(tool_peers.are_same(read(b'{"a": 0.5, "b": [1]}'), read(b'{"a": 5e-1, "b": [1]}'), True))
        self.assertFalse(tool_peers.are_same(read(b'{"a": 0.1}'), read(b'{"a": 0.10000000149011612}'), True))


class Walk(unittest.TestCase):
    """The commands of the documents."""

    TEXT = "before\n```console\n$ hagzimot show a\nx\ny\n$ cat b\n```\nbetween\n```\n$ rm c\n```\n"

    def test_commands_with_what_they_print(self):
        self.assertEqual(list(tool_walk.commands(self.TEXT)), [("hagzimot show a", ["x", "y"]), ("cat b", [])])

    def test_only_readers_of_files_run(self):
        self.assertTrue(tool_walk.is_allowed("hagzimot show a | cat"))
        for command in ("rm a", "cat a | sh", "cat a; rm b", "cat a && rm b", "cat a & cat b"):
            self.assertFalse(tool_walk.is_allowed(command), command)

    def test_output_and_status_are_seen(self):
        with tempfile.TemporaryDirectory() as room:
            program = f"{room}/p"
            with open(program, "w", encoding="utf-8") as file:
                file.write('#!/bin/sh\necho "got $1"\necho wrong >&2\nexit 3\n')
            os.chmod(program, stat.S_IRWXU)
            self.assertEqual(tool_walk.said_by("hagzimot x", room, program), ["got x", "wrong", "[status 3]"])


class StoredRuns(unittest.TestCase):
    """The comparison of a run with the stored one."""

    def difference(self, script, **wanted):
        run = {"args": [], "files": {}, "stdin": "6162", "status": 0, "stdout": "6162", "stderr": "", **wanted}
        with tempfile.TemporaryDirectory() as room:
            with open(f"{room}/p", "w", encoding="utf-8") as file:
                file.write(f"#!/bin/sh\n{script}\n")
            os.chmod(f"{room}/p", stat.S_IRWXU)
            return program_runs.difference(f"{room}/p", run)

    def test_the_same_is_passed(self):
        self.assertIsNone(self.difference("cat"))
        self.assertIsNone(self.difference("cat; echo well >&2; exit 1", status=1, log="well\n"))

    def test_each_part_is_compared(self):
        for script in ("cat; echo c", "cat; echo c >&2", "cat; exit 1", "true"):
            self.assertIsNotNone(self.difference(script), script)

    def test_files_are_given(self):
        self.assertIsNone(self.difference("cat a", files={"a": "6162"}))
        self.assertIsNone(self.difference("cat a", files={"a": [1]}, stdout=json.dumps([1]).encode().hex()))

    def test_messages_of_a_stream_end_where_they_should(self):
        self.assertEqual(stored_runs.message_ends(SEVEN * 2, "framed"), ([24, 48], None))
        self.assertEqual(stored_runs.message_ends(SEVEN + SEVEN[:20], "framed")[0], [24])
        self.assertIsNotNone(stored_runs.message_ends(SEVEN[:20], "framed")[1])
        packed = bytes.fromhex("100200" + "1001" + "0107")
        self.assertEqual(stored_runs.message_ends(bytes.fromhex("1002" + "1001" + "0107"), "packed"), ([6], None))
        self.assertIsNotNone(stored_runs.message_ends(packed[:-1], "packed")[1])


class Encoders(unittest.TestCase):
    """The encoder of values beside which the relay is tried, and the judge of plain messages."""

    def test_struct_and_text(self):
        self.assertEqual(random_sets.framed(random_sets.Struct([7], [])), SEVEN)
        # A struct without words whose one pointer leads to the text "hi" with its zero byte.
        wanted = struct.pack("<II", 0, 3) + struct.pack("<QQQ", 1 << 48, 1 | 2 << 32 | 3 << 35, int.from_bytes(b"hi\0", "little"))
        self.assertEqual(random_sets.framed(random_sets.Struct([], [b"hi\0"])), wanted)

    def test_zeros_and_nulls_at_the_end_are_trimmed(self):
        self.assertEqual(random_sets.framed(random_sets.Struct([7, 0], [None])), SEVEN)

    def test_unpacking_as_the_document_has_it(self):
        self.assertEqual(plain_judge.unpacked(bytes.fromhex("51080302" + "3119aa01")), bytes.fromhex("0800000003000200" + "1900 0000 aa01 0000"))
        self.assertEqual(plain_judge.unpacked(bytes.fromhex("0003")), bytes(32))

    def test_the_plain_judge_tries_itself(self):
        run = subprocess.run([sys.executable, f"{HERE}/plain_judge.py"], capture_output=True, text=True, check=False)
        self.assertEqual(run.returncode, 0, run.stdout + run.stderr)

    def test_another_number_is_seen(self):
        self.assertIsNone(plain_judge.difference("framed", SEVEN, [SEVEN]))
        other = SEVEN[:-8] + struct.pack("<Q", 8)
        self.assertIsNotNone(plain_judge.difference("framed", other, [SEVEN]))
        self.assertIsNotNone(plain_judge.difference("framed", SEVEN * 2, [SEVEN]))
        self.assertIsNotNone(plain_judge.difference("framed", SEVEN[:-1], [SEVEN]))


class Builders(unittest.TestCase):
    """Random builder calls, and the plain model beside them."""

    def test_trees_are_spelled_by_the_encoding(self):
        seven = builder_trees.Node("struct", data=1)
        seven.words = [7]
        self.assertEqual(builder_trees.framed(seven), SEVEN.hex())
        text = builder_trees.Node("numbers", builder_trees.BYTE, 3)
        text.words = list(b"hi\0")
        self.assertEqual(builder_trees.framed(text)[16:], "010000001a0000006869000000000000")
        text.widen(1, 1)
        self.assertEqual((text.sort, text.words, text.kids), ("structs", list(b"hi\0"), [None] * 3))

    def test_another_answer_is_seen(self):
        script = random_builders.Script(1)
        for line in script.answers:
            with self.assertRaises(random_builders.Differs):
                script.correct(line, "Ok(Some(77))")
        for line in script.looks:
            with self.assertRaises(random_builders.Differs):
                script.correct(line, "Err(Shape)")

    def test_only_what_takes_words_is_refused_for_room(self):
        script, room = random_builders.Script(1), "Err(Refused(OutOfMemory))"
        line, number = next((line, it) for line, it in script.answers.items() if not script.calls[it].takes)
        with self.assertRaises(random_builders.Differs):
            script.correct(line, room)
        line, number = next((line, it) for line, it in script.answers.items() if script.calls[it].takes)
        before = script.lines[:line]
        script.correct(line, room)
        self.assertEqual((script.lines[:line], script.lines[line], script.refused), (before, "= em", {number: "m"}))
        with self.assertRaises(random_builders.Differs):
            script.correct(line, room)

    def test_a_program_that_is_wrong_is_seen(self):
        with tempfile.TemporaryDirectory() as room:
            for said in ("line 5 of scripts differs: Ok(Some(7))", "", "1 scripts of scripts are as they should be"):
                with open(f"{room}/p", "w", encoding="utf-8") as file:
                    file.write(f"#!/bin/sh\necho '{said}'\n")
                os.chmod(f"{room}/p", stat.S_IRWXU)
                run = subprocess.run([sys.executable, f"{HERE}/random_builders.py", f"{room}/p", "100"], capture_output=True, check=False)
                self.assertEqual(run.returncode, 1, said)


class Messages(unittest.TestCase):
    """The small reader of messages, and the lines and scripts that are made with it."""

    def read(self, *segments, levels=8, limit=None):
        """A message of segments in hex: the value, or the fault, with what was granted and followed."""
        words = [[int.from_bytes(bytes.fromhex(it)[at : at + 8], "little") for at in range(0, len(it) // 2, 8)] for it in segments]
        walk, value, fault = random_messages.read_of(words, levels, limit)
        return fault or value, walk.granted, walk.followed

    def test_pads_of_one_word_and_of_two_lead_to_a_struct(self):
        seven = ("struct", [7], [])
        self.assertEqual(self.read("0200000001000000", "00000000010000000700000000000000"), (seven, 2, 1))
        self.assertEqual(self.read("0600000001000000", "02000000020000000000000001000000", "0700000000000000"), (seven, 3, 1))

    def test_faults_are_told_in_the_order_of_reading(self):
        self.assertEqual(self.read("0600000001000000", "02000000020000000200000000000000"), ("MalformedFarPointer", 0, 1))
        self.assertEqual(self.read("0200000005000000"), ("OutOfBounds", 0, 1))
        nested = "0000000000000100" + "010000001a000000" + "6869000000000000"
        self.assertEqual(self.read(nested, levels=1)[0], "NestingLimitExceeded")
        self.assertEqual(self.read(nested), (("struct", [], [("bits", 2, 3, 0x6968)]), 2, 2))
        self.assertEqual(self.read(nested, limit=1)[0], "ReadLimitExceeded")

    def test_values_are_trimmed_and_spelled(self):
        value = ("structs", 2, 1, [([1, 0], [None]), ([0, 0], [None])])
        self.assertEqual(message_values.trimmed(value), ("structs", 1, 0, [([1], []), ([0], [])]))
        self.assertEqual(random_messages.hex_of(message_values.spelled(("struct", [7], []))), "00000000010000000700000000000000")
        self.assertEqual(message_values.spelled(("struct", [], [])), [0xFFFFFFFC])

    def test_what_is_scattered_is_read_back(self):
        chance = random.Random(5)
        for _ in range(200):
            value, segments = random_messages.value(chance, 3), [[0]]
            random_messages.scatter(chance, segments, (0, 0), value)
            self.assertEqual(random_messages.read_of(segments, 8)[1:], (value, None))

    def test_a_program_that_is_wrong_is_seen(self):
        with tempfile.TemporaryDirectory() as room:
            for said in ("file: the case of line 5 differs", "line 7 of file differs: Ok(None)", "", "file: 1 cases are as they should be"):
                with open(f"{room}/p", "w", encoding="utf-8") as file:
                    file.write(f"#!/bin/sh\necho '{said}'\n")
                os.chmod(f"{room}/p", stat.S_IRWXU)
                run = subprocess.run([sys.executable, f"{HERE}/random_messages.py", f"{room}/p", f"{room}/p", "20"], capture_output=True, check=False)
                self.assertEqual(run.returncode, 1, said)


class Growths(unittest.TestCase):
    """The judge of builder calls whose growths are refused."""

    CASE = (["set_text", "may leave 00"], ["0 1 1", "6 0 1 aa", "2 1 0 25", "= k0", "2 0 0 5 0", "= k", "1 A B"])

    def test_a_refused_call_is_made_again(self):
        case = faults_of_builders.Case(*self.CASE)
        wanted = ["0 1 1", "6 0 1 aa", "2 1 0 25", "= k0", "2 0 0 5 0", "= em", "13 0 1 aa", "2 0 0 5 0", "= k", "1 A B"]
        self.assertEqual((case.name, case.is_free, case.refused(case.states[0])), ("set_text", False, wanted))
        self.assertEqual(case.states[1], f"1 00 {faults_of_builders.NULL}")

    def test_only_differences_before_the_refusal_are_elsewhere(self):
        case = faults_of_builders.Case(*self.CASE)
        refused, memory = faults_of_builders.REFUSED, faults_of_builders.MEMORY
        for said in ((5, "Ok(None)"), (5, memory), (0, memory), (3, refused)):
            self.assertTrue(faults_of_builders.is_elsewhere(case, said), said)
        for said in ((5, refused), (5, "Err(Refused(OutOfBounds))"), (7, "Err(Shape)"), (8, memory), (8, "Ok(None)"), (10, "Err(Shape)")):
            self.assertFalse(faults_of_builders.is_elsewhere(case, said), said)

    def test_stored_scripts_have_one_call_each(self):
        cases = list(faults_of_builders.cases_of(f"{TOP}/crates/cases_builders/data/growths.txt"))
        self.assertEqual(len({it.name for it in cases}), len(cases))
        self.assertTrue(all(it.lines[0] == "0 1 1" and it.lines[-1].startswith("1 ") for it in cases))
        self.assertTrue(any(it.is_free for it in cases) and any(len(it.states) > 1 for it in cases))


class DynamicGrowths(unittest.TestCase):
    """The judge of dynamic calls whose growths are refused."""

    SCRIPTS = f"{TOP}/crates/cases_dynamic/data/growths.txt"

    def test_a_refused_call_is_made_again(self):
        lines = ["N 1 5 0000000000000000", "clear .text", "= k", "get", "= 'x", ". AA"]
        case = faults_of_dynamic.Case("[]", ["* clear", "* may leave BB"], lines)
        front = ["[]", lines[0], "where .numbers", "= 'list 2", "clear .text"]
        self.assertEqual(case.made, [*front, "= k", ". AA"])
        self.assertEqual(case.left, [[*front, "= eOutOfMemory", it] for it in (". 00000000010000000000000000000000", ". BB")])
        self.assertEqual(case.again, [*front, "= eOutOfMemory", "clear .text", "= k", ". AA"])

    def test_stored_scripts_have_one_call_each(self):
        cases = list(faults_of_dynamic.cases_of(self.SCRIPTS))
        self.assertEqual(len({it.name for it in cases}), len(cases))
        self.assertTrue(any(it.is_free for it in cases) and any(len(it.left) > 1 for it in cases))

    def test_a_program_that_is_wrong_is_seen(self):
        with tempfile.TemporaryDirectory() as room:
            for said in ("script: 1 cases are as they should be, 0 differ", "script: 0 cases are as they should be, 1 differ", "", "script: no case"):
                with open(f"{room}/p", "w", encoding="utf-8") as file:
                    file.write(f"#!/bin/sh\necho '{said}'\n")
                os.chmod(f"{room}/p", stat.S_IRWXU)
                run = subprocess.run([sys.executable, f"{HERE}/faults_of_dynamic.py", f"{room}/p", self.SCRIPTS], capture_output=True, check=False)
                self.assertEqual(run.returncode, 1, said)


class QuickLook(unittest.TestCase):
    """What is quick to see."""

    def test_parameters_are_counted(self):
        self.assertEqual(quick.parameters_of(quick.parts_of("(a b : Nat) → {c : Nat} → Nat → Type", "→")), 3)

    def test_edit_that_fits_nothing(self):
        with tempfile.TemporaryDirectory() as room:
            path = f"{room}/e.edit"
            with open(path, "w", encoding="utf-8") as file:
                file.write("file: src/main.rt\nold: no such text stands there\nnew: x\n")
            self.assertIn("0 times", quick.fault_of_edit("hagzimot", path))
            with open(path, "w", encoding="utf-8") as file:
                file.write("file: src/main.rt\n")
            self.assertIsNotNone(quick.fault_of_edit("hagzimot", path))


class Style(unittest.TestCase):
    """The English that docs/STYLE.md rules out."""

    # A text that breaks each pattern of the list, in the list's order.
    PLANTED = (
        "It is true exactly where the list is empty.",
        "It returns `None` where the list is empty.",
        "The bytes behind the table are read.",
        "It tells the length.",
        "What stands there is read.",
        "Else the list is empty.",
        "A word that is no number is refused.",
        "Such a call is none.",
        "This word alone is read.",
        "Whoever reads it is slow.",
        "Each growth is refused.",
        "A list, of which two are read.",
        "It takes so many words.",
        "It gives back the list.",
        "All words but for the last are read.",
        "It is read anew.",
        "The other road is slow.",
        "It wants a list.",
        "A list is got.",
        "The list and the words thereof.",
    )
    CLEAN = (
        "It is true exactly when the list is empty. Otherwise it returns `None`. Nothing else is read; who else would?",
        "The file is where the list is, and `stands behind` is code. There is no other, and it is no longer than 8 words.",
        "It stands for a list. Let alone two. Therefore it is read.",
        "There are two lists, each of which is read, and there are none after them.",
    )

    def whats(self, text, is_source=False):
        return [what for _, what in style.faults_of_text(text, is_source)]

    def test_each_pattern_finds_its_fault(self):
        self.assertEqual(len(self.PLANTED), len(style.PATTERNS))
        for text, (pattern, instead) in zip(self.PLANTED, style.PATTERNS):
            found = self.whats(text)
            self.assertEqual(len(found), 1, (text, found))
            self.assertTrue(found[0].endswith(f"say {instead}"), (text, pattern.pattern, found))

    def test_clean_text_passes(self):
        for text in self.CLEAN:
            self.assertEqual(self.whats(text), [], text)
            self.assertEqual(self.whats(f"/// {text}\nfn a() {{}}", is_source=True), [], text)

    def test_code_is_not_read(self):
        self.assertEqual(self.whats("Run:\n\n```\nit tells\n```\n\n    it tells\n\nThe word `tells` and [a](tells)."), [])
        self.assertEqual(self.whats("// It tells.\nfn a() { let tells = \"tells\"; }", is_source=True), [])

    def test_each_part_of_a_page_is_read(self):
        for text in ("# It tells", "- a\n- It tells", "| a | it tells |", "1. It tells", "a\nand it\ntells"):
            self.assertEqual(len(self.whats(text)), 1, text)
        self.assertEqual(style.faults_of_text("a\n\nb\nthat is\nno c\n", False)[0][0], 4)

    def test_long_sentences(self):
        words = " ".join(["word"] * 45)
        self.assertEqual(self.whats(f"{words}. {words}.\n\n- {words}\n- {words}"), [])
        self.assertEqual(len(self.whats(f"{words} more. {words}.")), 1)
        self.assertEqual(len(self.whats(f"/// {words}\n/// more.", is_source=True)), 1)

    def test_openers_of_doc_comments(self):
        for text in ("/// What a list has.", "    /// How it is read.\n    /// And more.", "//! The same for lists.", "/// As `a`."):
            self.assertEqual(len(self.whats(text, is_source=True)), 1, text)
        for text in ("/// Returns what a list has.", "/// Returns\n/// What.", "// What a list has.", "/// Asks."):
            self.assertEqual(self.whats(text, is_source=True), [], text)

    def test_allowed_list_only_shrinks(self):
        def faults(allowed):
            return list(style.faults_of_list(allowed, ["a", "b", "c"], {"c"}))

        self.assertEqual(faults(["a", "b"]), [])
        for allowed in (["b", "a"], ["a", "a"], ["a", "d"], ["a", "c"]):
            self.assertEqual(len(faults(allowed)), 1, allowed)

    def test_a_fault_in_a_file_is_seen(self):
        with tempfile.TemporaryDirectory() as room:
            path = f"{room}/a.rt"
            with open(path, "w", encoding="utf-8") as file:
                file.write("fn a() {}\n\n/// It tells.\nfn b() {}\n")
            self.assertEqual(style.faults_of_file(path), [f"{path}:3: 'tells': say reports, says, indicates, distinguishes"])
            run = subprocess.run([sys.executable, f"{HERE}/style.py", path], capture_output=True, text=True, check=False)
            self.assertEqual(run.returncode, 1)


if __name__ == "__main__":
    unittest.main()
