"""The worked examples and the stored cases: right ones pass, and each kind of fault is noticed."""

import os
import tempfile
import unittest

from generator.dice import Dice
from generator.stored_cases import tagrun_input, worked_session, worked_steps
from generator.stored_check import check, file_differences, session_faults, worked_faults, write
from tagmodel.casebook import Casebook
from tagmodel.crc import crc_by_bits
from worked import EXAMPLES, SESSION_INPUT, SESSION_OUTPUT
from worked.examples import Step, crc_text, faults, shown_crc

from .support import run_program


class Worked(unittest.TestCase):
    def test_crc(self):
        """The CRC of the examples is written apart from the model's; samples of 001 and 01, then any bytes."""
        for data, expected in (("00", "78F0"), ("00F06B", "1167"), ("00916B", "9C1B"), ("010F", "68EE"),
                               ("0000F0C8D601042302E0", "64A3"), ("", "0000")):
            self.assertEqual(crc_text(data), expected)
        dice = Dice(11)
        for length in range(1, 60):
            data = dice.bytes(length)
            self.assertEqual(crc_text(data.hex()), crc_by_bits(data).to_bytes(2, "little").hex().upper())

    def test_shown_crc(self):
        """High byte first: 'CRC of 00 is 78 F0', low byte first."""
        self.assertEqual((shown_crc("00"), shown_crc("00F06B")), ("F078", "6711"))

    def test_model_answers_as_printed(self):
        book = Casebook()
        for example in EXAMPLES:
            for step in example.steps:
                self.assertEqual(faults(step, book.answer(step.line)), [], (example.source, step.line[:60]))

    def test_every_source_is_there(self):
        documents = [example.source.partition(",")[0] for example in EXAMPLES]
        self.assertEqual(sorted(set(documents)), ["001", "003", "004", "01"])
        self.assertEqual(EXAMPLES[0].words, "Option_flag write: silence, bytes changed; EOF gives 00 78 F0.")

    def test_each_difference_is_noticed(self):
        record = "00" * 70 + "0100"
        step = Step(b"EOF", "0078F0", record={70: 1}, memory="F078", room="1234")
        self.assertEqual(faults(step, f"0 3 0078F0 {record} F078 1234"), [])
        for answer in (f"1 3 0078F0 {record} F078 1234", f"0 4 0078F0 {record} F078 1234",
                       f"0 3 0078F1 {record} F078 1234", f"0 3 - {record} F078 1234",
                       f"0 3 0078F0 {'00' * 72} F078 1234", f"0 3 0078F0 {record} F079 1234",
                       f"0 3 0078F0 {record} F078 1235", "ok", "?", ""):
            self.assertNotEqual(faults(step, answer), [], answer)
        step = Step(b"LOAD ..", "", "5d:15")
        self.assertEqual(faults(step, f"5d:15 0 - {record} F078 1234"), [])
        for number in ("5", "5d", "5d:17", "5c:15", "5D:15", "5d:15:", "5d:015", "0"):
            self.assertNotEqual(faults(step, f"{number} 0 - {record} F078 1234"), [], number)
        step = Step(b"SEARCH 1 ..", "F0C8D601042302E0", room="1234", requests=1)
        self.assertEqual(faults(step, "0 1 F0C8D601042302E0 1234"), [])
        for answer in ("6 1 F0C8D601042302E0 1234", "0 2 F0C8D601042302E0 1234", "0 1 - 1234", "0 1 F0C8D601042302E0 1235",
                       "0 1 F0C8D601042302E0", "0 1 F0C8D601042302E0 1234 1234", "ok", "?"):
            self.assertNotEqual(faults(step, answer), [], answer)
        self.assertEqual(faults(Step(b"MEM 1"), "ok"), [])
        self.assertNotEqual(faults(Step(b"MEM 1"), "?"), [])
        self.assertNotEqual(faults(Step(b"EOF", ""), f"0 3 0078F0 {record} F078 1234"), [])


class Checks(unittest.TestCase):
    def test_worked_lines_and_answers(self):
        book, steps = Casebook(), worked_steps()
        stream = b"".join(step.line + b"\n" for step in steps)
        output = [book.answer(step.line) for step in steps]
        self.assertEqual(worked_faults(stream, "\n".join(output).encode("ascii")), [])
        place = next(n for n, step in enumerate(steps) if step.answer == "0078F0")
        output[place] = output[place].replace("0078F0", "0078F1")
        found = worked_faults(stream, "\n".join(output).encode("ascii"))
        self.assertEqual(len(found), 1)
        self.assertIn(f"line {place + 1}, answer", found[0])
        self.assertEqual(len(worked_faults(b"", b"")), len(steps))

    def test_session(self):
        pairs = worked_session()
        stream = b"".join(line + b"\n" for line, _ in pairs)
        output = "".join(answer + "\n" for _, answer in pairs).encode("ascii")
        self.assertTrue(stream.startswith(SESSION_INPUT) and output.startswith(SESSION_OUTPUT))
        self.assertEqual(session_faults(stream + b"ON", output + b"%d -\n" % (len(pairs) + 1)), [])
        self.assertEqual(session_faults(stream, output.replace(b"6 0078F0\n", b"6 0078F1\n", 1)),
                         ["tagrun line 6: expected 6 0078F0, found 6 0078F1"])
        self.assertEqual(len(session_faults(b"ON\n", b"1 -\n")), len(pairs) - 1)
        self.assertEqual(len(session_faults(stream, b"")), len(pairs))

    def test_lines_of_a_file(self):
        self.assertEqual(file_differences("f", b"a\nb\n", b"a\nb\n"), [])
        for found in (b"a\nc\n", b"a\n", b"a\nb", b"a\nb\nc\n", b""):
            self.assertNotEqual(file_differences("f", found, b"a\nb\n"), [], found)
        self.assertIn("line 2", file_differences("f", b"a\nc\n", b"a\nb\n")[0])


class Program(unittest.TestCase):
    def test_absent_files(self):
        with tempfile.TemporaryDirectory() as folder:
            self.assertEqual(check(folder, "casebook", b"")[0], ["casebook: stdin or stdout is absent"])

    def test_written_files_pass_and_altered_ones_do_not(self):
        made = tagrun_input()
        with tempfile.TemporaryDirectory() as folder:
            write(folder, "tagrun", made)
            self.assertEqual(check(folder, "tagrun", made)[0], [])
            for name, line in (("stdin", b"EOF"), ("stdout", b"9999 -")):
                with open(os.path.join(folder, "tagrun", name), "ab") as file:
                    file.write(b"\n" + line)
                self.assertNotEqual(check(folder, "tagrun", made)[0], [], name)

    def test_too_few_cases(self):
        """Cases that are right but reach too little are a fault."""
        with tempfile.TemporaryDirectory() as folder:
            write(folder, "tagrun", SESSION_INPUT)
            found = check(folder, "tagrun", SESSION_INPUT)[0]
        self.assertIn("tagrun: no case reaches tagrun.OFF", found)

    def test_list(self):
        code, output = run_program("stored", b"", "--examples")
        self.assertEqual(code, 0)
        self.assertTrue(output.startswith(b"lines 1 to 7: 01, Bench cases\n"))
        self.assertIn(b": case check-2-under-4\n", output)
        self.assertIn(b"\ntagrun lines 7 to 11: case tagrun-16-kbit\n", output)
