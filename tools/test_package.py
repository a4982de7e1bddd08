#!/usr/bin/env python3
"""Installs the packages of a built focusd in a clean Debian, runs it there, and removes it again. Run by hand, by root.

    tools/test_package.py
    tools/test_package.py --program out/focusd --suite bookworm

It makes a Debian without anything else in a folder of its own (debootstrap: Debian 12: `apt-get install debootstrap`),
packs out/focusd as tools/package does, installs the Debian package, makes a first report, asks for the manual page's text and the completions, removes the
package, and compares the files with those before. Then the same with the archive. --root takes a Debian that is there, and leaves it.

Exit status: 0 where all is right, 1 where it isn't, 2 where it can't be tried.
"""
import os
import pathlib
import shutil
import subprocess
import sys
import tempfile

from command_line import parser_of

TOP = pathlib.Path(__file__).resolve().parent.parent
SCRIPT = b"""post aws 1 2
BilledCost,EffectiveCost,BillingCurrency,ChargeCategory,ChargePeriodStart,ChargePeriodEnd,Tags
0.1,0.25,USD,Usage,2024-01-01T00:00Z,2024-01-01T01:00Z,"{""team"":""web""}"
report team 2024-01-01T00:00Z 2024-01-02T00:00Z
"""
REPORT = b"web,0.100000000,0.250000000,0.250000000\n"
# What tells where the packages put things, below /usr.
PUT = ("bin/focusd", "share/man/man1/focusd.1.gz", "share/bash-completion/completions/focusd", "share/fish/vendor_completions.d/focusd.fish", "share/doc/focusd/README.md")
# What dpkg itself writes.
OF_DPKG = ("/var/lib/dpkg/", "/var/log/", "/var/cache/")


class Wrong(Exception):
    """What isn't right."""


def inside(root, *words, given=b""):
    """What a command prints in the clean Debian."""
    ran = subprocess.run(["chroot", root, *words], input=given, capture_output=True, check=False)
    if ran.returncode:
        raise Wrong(f"{words}: status {ran.returncode}: {ran.stderr.decode(errors='replace')}")
    return ran.stdout


def files_in(root):
    """All files and folders, but for what dpkg writes."""
    found = set()
    for at, folders, files in os.walk(root):
        found |= {os.path.join(at, name)[len(str(root)) :] for name in [*folders, *files]}
    return {it for it in found if not f"{it}/".startswith(OF_DPKG)}


def wanted(is_right, what):
    if not is_right:
        raise Wrong(what)
    print(f"right: {what}")


def try_program(root, program, prefix):
    """The program reports, and its pages are there."""
    wanted(inside(root, program, "--version").startswith(b"focusd "), f"{program} says its version")
    wanted(inside(root, program, "run", given=SCRIPT).endswith(REPORT), f"{program} makes a first report")
    wanted(all((root / prefix / it).is_file() for it in PUT), f"{prefix} has the manual page, completions and pages")


def try_deb(root, package):
    before = files_in(root)
    shutil.copy(package, root / package.name)
    inside(root, "dpkg", "--install", f"/{package.name}")
    (root / package.name).unlink()
    try_program(root, "/usr/bin/focusd", "usr")
    wanted((root / "usr/share/zsh/vendor-completions/_focusd").is_file(), "zsh's completions are where Debian has them")
    inside(root, "dpkg", "--purge", "focusd")
    wanted(files_in(root) == before, "nothing is left of the package that was removed")


def try_archive(root, archive):
    before = files_in(root)
    (root / "opt").mkdir(exist_ok=True)
    subprocess.run(["tar", "-xzf", archive, "-C", root / "opt"], check=True)
    (name,) = (it.name for it in (root / "opt").iterdir() if it.name.startswith("focusd-"))
    try_program(root, f"/opt/{name}/bin/focusd", f"opt/{name}")
    shutil.rmtree(root / "opt" / name)
    wanted(files_in(root) == before, "nothing is left of the archive that was removed")


def main():
    parser = parser_of(__doc__)
    parser.add_argument("--program", default=TOP / "out" / "focusd", help="the built program (out/focusd)")
    parser.add_argument("--suite", default="bookworm", help="the release of Debian (bookworm)")
    parser.add_argument("--root", type=pathlib.Path, help="a clean Debian that is there")
    options = parser.parse_args()
    if os.geteuid() or not (options.root or shutil.which("debootstrap")):
        print("tools/test_package.py: this needs root, and debootstrap or --root", file=sys.stderr)
        return 2
    with tempfile.TemporaryDirectory(prefix="clean-") as room:
        root = options.root or pathlib.Path(room, "root")
        try:
            if not options.root:
                subprocess.run(["debootstrap", "--variant=minbase", options.suite, root], check=True, stdout=subprocess.DEVNULL)
            packed = subprocess.run([TOP / "tools/package", "--program", options.program, "--into", room], check=True, stdout=subprocess.PIPE).stdout
            package, archive = map(pathlib.Path, packed.decode().split())
            try_deb(root, package)
            try_archive(root, archive)
        except (Wrong, OSError, subprocess.CalledProcessError) as why:
            print(f"tools/test_package.py: {why}", file=sys.stderr)
            return 1
    return 0


if __name__ == "__main__":
    sys.exit(main())
