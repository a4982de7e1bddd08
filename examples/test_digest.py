#!/usr/bin/env python3
"""Runs `focusd verify --digest` and `--expect` of a built program.

    examples/test_digest.py out/focusd

What a digest must be is computed here, by hashlib over the bytes of each entry as docs/FORMATS.md has them (tools/fuzz/encode.py writes these).
tools/bit_changes.py changes single bits of the files.
"""
import hashlib
import re
import shutil
import sys
import tomllib

from program_tests import HERE, Case, focusd, focusd_bytes, run_tests

sys.path.insert(0, str(HERE.parent / "tools" / "fuzz"))
import encode  # noqa: E402
import oracle  # noqa: E402
import texts  # noqa: E402

SCRIPTS = ("first-report.script", "commitments.script", "providers.script")


def seconds_of(entry):
    """The seconds of the purchases of an entry's TOML, by its origin and number."""
    table = tomllib.loads(entry.content.decode())
    bought = table["purchase"] if "purchase" in table else [table]
    return [texts.second(it["at"].encode()) for it in bought]


def bytes_of(one, commands):
    """The bytes of an entry. What encode.py reads keeps the hours of purchases alone, so their seconds are read here."""
    origin, number, kind, content = one
    if kind == encode.COMMIT:
        start = encode.entry(origin, number, encode.WITHDRAW, 0)[:-9]
        return start + bytes([kind]) + encode.commitment(content, seconds_of(commands[origin, number]))
    if kind == encode.ADD:
        start = encode.entry(origin, number, encode.WITHDRAW, 0)[:-9]
        [second] = seconds_of(commands[origin, number])
        return start + bytes([kind]) + encode.text(content.id) + encode.number(second, 8) + encode.number(content.billed, 8)
    return encode.entry(*one)


def digest_of(script, currency=b"USD"):
    """The digest of the entries of a script that are accepted."""
    commands, kept = {}, oracle.Oracle()
    for command in oracle.commands_of(script):
        if kept.answer(command).startswith("accepted "):
            words = command.line.split()
            commands[words[1], int(words[2])] = command
    return hashlib.sha256(currency + b"".join(bytes_of(one, commands) for one in encode.entries_of(script))).hexdigest()


def entries_alone(script):
    """A script without its questions."""
    lines, kept = iter(script.splitlines(keepends=True)), []
    for line in lines:
        words = line.split()
        if words[0] in (b"post", b"commit", b"policy", b"add", b"withdraw"):
            kept.append(line)
            count = int(words[3]) if words[0] != b"withdraw" else 0
            kept.extend(next(lines) for _ in range(count))
    return b"".join(kept)


class Digests(Case):
    def warehouse(self, name, script, currency="USD"):
        """A warehouse in a folder of this name, which was sent a script."""
        folder = self.new_folder(name)
        self.assertEqual(focusd("run", "--dir", folder, "--create", "--currency", currency, given=script)[0], 0)
        return folder

    def digest(self, folder):
        status, printed, said = focusd("verify", "--dir", folder, "--digest")
        self.assertEqual((status, said), (0, ""))
        self.assertRegex(printed, r"\A[0-9a-f]{64}\n\Z")
        return printed[:-1]

    def test_it_is_the_sha_256_of_the_entries(self):
        for name in SCRIPTS:
            with self.subTest(name):
                script = (HERE / name).read_bytes()
                self.assertEqual(self.digest(self.warehouse(name, script)), digest_of(script))

    def test_the_cases(self):
        tried = 0
        for path in sorted((HERE / "cases").glob("*.script")):
            script = path.read_bytes()
            with self.subTest(path.name):
                wanted = digest_of(script)
                self.assertEqual(self.digest(self.warehouse(path.name, script)), wanted)
                tried += 1
        self.assertGreater(tried, 30)

    def test_of_an_empty_warehouse(self):
        for currency in ("USD", "EUR"):
            folder = self.warehouse(currency, b"state\n", currency)
            self.assertEqual(self.digest(folder), hashlib.sha256(currency.encode()).hexdigest())

    def test_checkpoints_copies_and_dumps_keep_it(self):
        for name in SCRIPTS:
            with self.subTest(name):
                script = (HERE / name).read_bytes()
                folder = self.warehouse(name, script)
                wanted = digest_of(script)
                for _ in range(2):
                    self.assertEqual(focusd("checkpoint", "--dir", folder)[0], 0)
                    self.assertEqual(self.digest(folder), wanted)
                copy = self.top / f"{name}.copy"
                shutil.copytree(folder, copy)
                self.assertEqual(self.digest(copy), wanted)
                status, dumped, _ = focusd_bytes("dump", "--dir", folder)
                self.assertEqual(status, 0)
                self.assertEqual(self.digest(self.warehouse(f"{name}.dumped", dumped)), wanted)

    def test_earlier_forms_and_both_sides(self):
        """Folders that earlier versions wrote have the digest of their scripts."""
        tried = 0
        for source in sorted((HERE / "volumes").iterdir()):
            if source.is_dir():
                with self.subTest(source.name):
                    script = entries_alone((HERE / "volumes" / f"{source.name}.script").read_bytes().replace(b"checkpoint\n", b""))
                    self.assertEqual(self.digest(source), digest_of(script))
                    tried += 1
        self.assertGreater(tried, 3)

    def test_each_entry_changes_it(self):
        script = entries_alone((HERE / "commitments.script").read_bytes())
        folder = self.warehouse("more", b"state\n")
        seen = {self.digest(folder)}
        lines, commands = iter(script.splitlines(keepends=True)), []
        for line in lines:
            words = line.split()
            count = int(words[3]) if words[0] != b"withdraw" else 0
            commands.append(line + b"".join(next(lines) for _ in range(count)))
        for command in commands:
            status, said, _ = focusd("run", "--dir", folder, given=command)
            self.assertEqual((status, said.split()[0]), (0, "accepted"))
            found = self.digest(folder)
            self.assertNotIn(found, seen)
            seen.add(found)
            # A repeat isn't an entry.
            self.assertTrue(focusd("run", "--dir", folder, given=command)[1].startswith("already "))
            self.assertEqual(self.digest(folder), found)
        self.assertEqual(len(seen), len(commands) + 1)

    def test_one_that_is_expected(self):
        script = (HERE / "commitments.script").read_bytes()
        folder, wanted = self.warehouse("costs", script), digest_of(script)
        sound = focusd("verify", "--dir", folder)
        self.assertEqual(sound[0], 0)
        for text in (wanted, wanted.upper()):
            self.assertEqual(focusd("verify", "--dir", folder, "--expect", text), sound)
            self.assertEqual(focusd("verify", "--dir", folder, "--expect", text, "--digest"), (0, wanted + "\n", ""))
        for at in (0, 31, 63):
            other = wanted[:at] + f"{(int(wanted[at], 16) + 1) % 16:x}" + wanted[at + 1 :]
            for more in ((), ("--digest",)):
                status, printed, said = focusd("verify", "--dir", folder, "--expect", other, *more)
                self.assertEqual((status, printed), (1, ""))
                self.assertEqual(said.splitlines()[0], f"focusd: {folder}: the digest is {wanted}, and {other} was expected")
                self.assertTrue(said.splitlines()[1].startswith("What to do: "))

    def test_what_is_no_digest(self):
        folder = self.warehouse("costs", b"state\n")
        wanted = hashlib.sha256(b"USD").hexdigest()
        for text in ("", "0", wanted[:-1], wanted + "0", wanted[:-1] + "g", " " + wanted[1:], "0x" + wanted[2:]):
            status, printed, said = focusd("verify", "--dir", folder, "--expect", text)
            self.assertEqual((status, printed), (2, ""), text)
            self.assertRegex(said, r"^focusd: --expect: .* is not a digest of 64 hex digits")

    def test_another_amount_is_sound_and_found(self):
        """What verify can't see without a digest."""
        script = entries_alone((HERE / "first-report.script").read_bytes())
        folder = self.warehouse("costs", script)
        cost = [row.billed for _, _, kind, rows in encode.entries_of(script) if kind == encode.POST for row in rows][0]
        data = (folder / "left").read_bytes()
        written = encode.number(cost, 8)
        at = data.index(written)
        (folder / "left").write_bytes(data[:at] + bytes([data[at] ^ 1]) + data[at + 1 :])
        self.assertTrue(focusd("verify", "--dir", folder)[1].startswith("sound\n"))
        status, printed, said = focusd("verify", "--dir", folder, "--expect", digest_of(script))
        self.assertEqual((status, printed), (1, ""))
        self.assertIn(digest_of(script), said)

    def test_faults_of_a_folder(self):
        missing = self.top / "none"
        for more in (("--digest",), ("--expect", "0" * 64)):
            status, printed, said = focusd("verify", "--dir", missing, *more)
            self.assertEqual((status, printed, said.split("\n")[0]), (1, "", "focusd: K1 Io"))
        damaged = self.warehouse("damaged", b"state\n")
        data = (damaged / "left").read_bytes()
        (damaged / "left").write_bytes(data[:1] + b"X" + data[2:])
        for more in (("--digest",), ("--expect", "0" * 64)):
            status, printed, said = focusd("verify", "--dir", damaged, *more)
            self.assertEqual((status, printed, said), (1, "", f"focusd: S2 Corrupt\n{damaged}/left: damaged at byte 1\n"))

    def test_the_help_says_what_is_not_seen(self):
        said = focusd("verify", "--help")[1]
        self.assertRegex(re.sub(r"\s+", " ", said), "where a byte of an amount was changed, the row has another amount")


if __name__ == "__main__":
    run_tests(__doc__)
