#!/usr/bin/env python3
"""Tests what the tools over real files are made of: scripts and their answers, recorded calls, the disk model, and the rules of the files.

It runs no program.
"""
import os
import random
import sys
import tempfile
import unittest
from unittest import mock

sys.path.insert(0, os.path.dirname(os.path.abspath(__file__)))
from command_line import run_tests  # noqa: E402
from crash_images import EDITS  # noqa: E402
from folders import Files  # noqa: E402
from store_runs import (  # noqa: E402
    CHECKPOINT, Call, Case, Disk, Ended, Image, Progress, acknowledged, answers_of, calls_of, commands, order_faults, role,
)  # fmt: skip

# A warehouse without entries, and the frame of a first one, a policy, in its log.
LEFT = bytes.fromhex("01 4657484f55534532 0100000000000000 1300000000000000 03000000 555344 0000000000000000 00000000 00")
FRAME = bytes.fromhex("01 1b000000 01000000 0100000061 0100000000000000 03 0100000074 00000000 00")
# A run that creates a warehouse and stores this entry, as it has to order its calls.
CREATED = [
    Call("openat", "left", 1, made=True), Call("openat", "right", 2, made=True), Call("fsync", "folder", 1),
    Call("fdatasync", "left", 1), Call("fdatasync", "right", 2),
    Call("pwrite64", "left", 1, 0, b"\0", 1), Call("fdatasync", "left", 3),
    Call("pwrite64", "left", 2, 1, LEFT[1:], 44), Call("fdatasync", "left", 4),
    Call("pwrite64", "left", 3, 0, b"\1", 1), Call("fdatasync", "left", 5),
    Call("pwrite64", "left", 4, 45, FRAME[1:], 32), Call("fdatasync", "left", 6),
    Call("pwrite64", "left", 5, 44, b"\1", 1), Call("fdatasync", "left", 7),
    Call("write", "out", 1, 0, b"accepted 1\n", 11),
]  # fmt: skip


def disk_after(calls):
    disk = Disk()
    for call in calls:
        disk.apply(call)
    return disk


def left_of(disk):
    """What a crash may leave of Left."""
    return {contents[0] for _, contents in disk.images(random.Random(1))}


class Scripts(unittest.TestCase):
    def test_a_script_has_so_many_entries_and_one_answer_a_command(self):
        case = Case(commands(7, 20))
        self.assertEqual(case.entries, 20)
        self.assertEqual(len(case.answers), len(case.commands))
        self.assertTrue(case.histories[0].startswith(b"state 0 0 0 0\n"))
        self.assertTrue(case.histories[20].startswith(b"state 20 "))

    def test_a_script_of_any_seed_has_so_many_entries_and_an_added_purchase(self):
        for seed in range(1, 40):
            for entries in (2, 6, 24):
                case = Case(commands(seed, entries))
                self.assertEqual(case.entries, entries)
                done = zip(case.commands, case.answers)
                self.assertTrue(any(command.startswith(b"add ") and answer.startswith(b"accepted ") for command, answer in done), (seed, entries))

    def test_the_second_entry_of_each_third_seed_is_a_withdrawal_of_the_first(self):
        for seed in range(1, 40, 3):
            for entries in (4, 6, 24):
                case = Case(commands(seed, entries))
                self.assertEqual(case.entries, entries)
                entered = [command for command, answer in zip(case.commands, case.answers) if answer.startswith(b"accepted ")]
                _, origin, number, _ = entered[0].partition(b"\n")[0].split()
                self.assertEqual((entered[0][:5], entered[1]), (b"post ", b"withdraw %s %d %s\n" % (origin, int(number) + 1, number)))

    def test_scripts_withdraw_posts_and_are_refused_others(self):
        cases = [Case(commands(seed, 24)) for seed in range(1, 40)]
        answers = [answer for case in cases for command, answer in zip(case.commands, case.answers) if command.startswith(b"withdraw ")]
        for right in (b"accepted ", b"refused J6 NoSuchPost\n", b"refused J7 Withdrawn\n"):
            self.assertGreater(sum(answer.startswith(right) for answer in answers), 20, right)

    def test_a_script_has_two_checkpoints_in_a_row(self):
        made = commands(7, 20)
        self.assertIn((CHECKPOINT, CHECKPOINT), list(zip(made, made[1:])))

    def test_the_rest_of_a_script_follows_its_last_entry(self):
        case = Case(commands(7, 20))
        rest, answers = case.rest(5)
        self.assertEqual(len(rest), len(answers))
        self.assertEqual(case.answers[len(case.answers) - len(answers) - 1], b"accepted 5\n")

    def test_answers_are_told_apart(self):
        self.assertEqual(answers_of(b"accepted 1\nbytes 4\na\nb\nstate 1 1 0 0\n"), [b"accepted 1\n", b"bytes 4\na\nb\n", b"state 1 1 0 0\n"])
        self.assertEqual(acknowledged(b"accepted 1\nalready 7\nstate 3 1 0 0\n"), 3)
        self.assertIsNone(acknowledged(b"bytes 4\na\nb\n"))


class Model(unittest.TestCase):
    def test_after_a_sync_a_crash_leaves_what_a_read_gives(self):
        disk = disk_after(CREATED[:11])
        self.assertEqual([contents for _, contents in disk.images(random.Random(1))], [(LEFT, b"")])

    def test_a_gate_that_is_not_synced_is_old_new_or_any_byte(self):
        found = left_of(disk_after(CREATED[:14]))
        self.assertLessEqual({LEFT + FRAME[1:], LEFT[:44] + FRAME}, found)
        self.assertTrue(all(len(one) == 77 and one[:44] == LEFT[:44] and one[45:] == FRAME[1:] for one in found))
        self.assertGreater(len(found), 4)

    def test_a_frame_that_is_not_synced_is_torn_and_of_any_length(self):
        found = left_of(disk_after(CREATED[:12]))
        self.assertLessEqual({LEFT, LEFT + FRAME[1:]}, found)
        self.assertTrue(all(one[:45] == LEFT and 45 <= len(one) <= 77 for one in found))
        self.assertGreater(len({len(one) for one in found}), 3)
        self.assertTrue(any(len(one) == 77 and one[45:] not in (FRAME[1:], bytes(32)) for one in found))

    def test_a_file_that_was_made_may_be_missing_until_its_folder_is_synced(self):
        self.assertIn(None, left_of(disk_after(CREATED[:2])))
        self.assertNotIn(None, left_of(disk_after(CREATED[:3])))

    def test_a_write_that_failed_may_be_there(self):
        failed = Call("pwrite64", "left", 4, 45, FRAME[1:], -1)
        disk = disk_after([*CREATED[:11], failed])
        self.assertEqual(disk.as_read(), (LEFT, b""))
        self.assertIn(LEFT + FRAME[1:], left_of(disk))

    def test_a_sync_that_failed_settles_nothing(self):
        disk = disk_after([*CREATED[:14], Call("fdatasync", "left", 7, result=-1)])
        self.assertFalse(disk.is_settled())

    def test_several_writes_are_each_there_or_not(self):
        steps = [call for call in CREATED[:14] if call.number not in (6,) or call.name != "fdatasync"]
        found = left_of(disk_after(steps))
        self.assertTrue(any(one[44:45] == b"\1" and one[45:] != FRAME[1:] for one in found))


class Images(unittest.TestCase):
    def fault(self, least, most, found):
        """What is wrong with an image of a script of three entries, in which the program finds this."""
        image = Image(Case(commands(7, 3)), (LEFT, b""), "an image", least, most)
        with tempfile.TemporaryDirectory() as folder, mock.patch("store_runs.run", return_value=found):
            return image.fault("focusd", folder)

    def test_what_the_answers_say_to_be_there(self):
        histories = Case(commands(7, 3)).histories
        self.assertEqual(self.fault(1, 2, Ended(0, histories[2], b"")), (2, ""))
        self.assertIn("it has to hold 1 to 2 entries", self.fault(1, 2, Ended(0, histories[3], b""))[1])
        self.assertIn("it has to hold 2 to 2 entries", self.fault(2, 2, Ended(0, histories[1], b""))[1])
        self.assertIn("it has to hold 1 to 1 entries", self.fault(1, 1, Ended(1, b"", b"focusd: S2 Corrupt\n"))[1])

    def test_more_frames_than_the_script_has_entries(self):
        self.assertIn("it has to hold 3 to 9 entries", self.fault(3, 9, Ended(1, b"", b"focusd: S2 Corrupt\n"))[1])

    def test_less_was_written_than_was_answered(self):
        self.assertIn("it has to hold 2 to 1 entries", self.fault(2, 1, Ended(0, Case(commands(7, 3)).histories[1], b""))[1])


class Order(unittest.TestCase):
    def test_kinds_of_writes(self):
        kinds = [role(call) for call in CREATED if call.name == "pwrite64"]
        self.assertEqual(kinds, ["closing", "filling", "opening", "frame", "gate"])

    def test_the_right_order_has_no_fault(self):
        self.assertEqual(order_faults(CREATED), [])

    def test_wrong_orders_have(self):
        for name in (
            "no sync after a frame", "no sync after a gate", "answers before the last sync", "no sync after filling a side", "no syncs at all",
            "each sync made of the other file",
        ):  # fmt: skip
            self.assertTrue(order_faults(EDITS[name](CREATED)), name)

    def test_a_write_that_is_lost_leaves_less_than_was_answered(self):
        for name in ("a frame that isn't written", "a gate that isn't written", "a body that isn't written"):
            steps = EDITS[name](CREATED)
            self.assertEqual(len(steps), len(CREATED) - 1, name)
            self.assertEqual(order_faults(steps), [], name)
            self.assertNotEqual(disk_after(steps).as_read(), disk_after(CREATED).as_read(), name)

    def test_each_edit_changes_the_calls(self):
        for name in EDITS:
            self.assertNotEqual(EDITS[name](CREATED), CREATED, name)

    def test_what_has_to_stand(self):
        progress, seen = Progress(Disk(), None, 0), []
        for call in CREATED:
            progress.apply(call)
            seen.append((progress.least, progress.frames))
        self.assertEqual(seen[9:], [(None, 0), (0, 0), (0, 1), (0, 1), (0, 1), (1, 1), (1, 1)])


class Traces(unittest.TestCase):
    def calls(self, text):
        with tempfile.NamedTemporaryFile("w", suffix=".trace") as file:
            file.write(text)
            file.flush()
            return calls_of(file.name, "/d")

    @staticmethod
    def hexed(text):
        return "".join(f"\\x{byte:02x}" for byte in text.encode())

    def test_lines_of_strace(self):
        left = self.hexed("/d/left")
        text = f'1 openat(AT_FDCWD<{self.hexed("/")}>, "{left}", O_RDWR|O_CREAT|O_CLOEXEC, 0666) = 4<{left}>\n'
        text += f'1 pwrite64(4<{left}>, "{self.hexed("hallo")}", 5, 3) = 5\n1 fdatasync(4<{left}>) = -1 EIO (Input/output error) (INJECTED)\n'
        text += f'1 write(1<{self.hexed("pipe:[1]")}>, "{self.hexed("accepted 1")}", 10) = 10\n1 fdatasync(4<{left}>) = ?\n'
        calls = self.calls(text)
        self.assertEqual([(call.name, call.where, call.result) for call in calls[:4]], [
            ("openat", "left", 4), ("pwrite64", "left", 5), ("fdatasync", "left", -1), ("write", "out", 10),
        ])  # fmt: skip
        self.assertTrue(calls[0].made)
        self.assertEqual((calls[1].at, calls[1].data), (3, b"hallo"))
        self.assertEqual((calls[4].number, calls[4].result), (2, None))

    def test_a_call_that_is_not_known_is_not_passed_over(self):
        for call in ("ftruncate(4<{}>, 7) = 0", 'write(4<{}>, "\\x61", 1) = 1', "fallocate(4<{}>, 0, 0, 9) = 0"):
            with self.assertRaises(Exception):
                self.calls("1 " + call.format(self.hexed("/d/left")) + "\n")


class Rules(unittest.TestCase):
    def test_the_fault_or_the_entries_of_damaged_files(self):
        whole = LEFT[:44] + FRAME
        files = Files((whole, b""), 1)
        changed = {
            whole: 1,
            LEFT + FRAME[1:]: 0,
            LEFT[:25]: "S1 NoHouse",
            b"\0" + whole[1:]: "S1 NoHouse",
            LEFT[:44]: "S2 Corrupt",
            whole[:8] + b"9" + whole[9:]: "S2 Corrupt",
            whole[:9] + bytes(8) + whole[17:]: "S2 Corrupt",
            whole[:17] + b"\xff" * 8 + whole[25:]: "S2 Corrupt",
            LEFT[:44] + b"\1": "S2 Corrupt",
            whole[:45] + bytes(4) + whole[49:]: "S2 Corrupt",
            whole[:76]: "S2 Corrupt",
            whole + b"\1\1\1": 1,
            whole[:29] + b"usd" + whole[32:]: None,
            whole[:58] + b"\2" + whole[59:]: None,
        }
        for content, verdict in changed.items():
            self.assertEqual(files.verdict((content, b"")), verdict, content.hex())
        self.assertEqual(files.verdict((whole, whole)), "S2 Corrupt")


if __name__ == "__main__":
    run_tests(__doc__)
