"""Makes a release of a proved build: an archive to unpack anywhere, and a package of Debian, without a toolchain."""
from collections.abc import Sequence
from pathlib import Path

from gmr.commands.frame import new_parser, run_command
from gmr.program import CHECKOUT
from gmr.release.build import make_release
from gmr.release.proof import ask_unproved_build, find_proved_build

EXAMPLES = """examples:
  tools/release out/release          gmr-VERSION-x86_64-linux.tar.xz and gmr_VERSION_amd64.deb, in that folder

PROOF in both says what stands behind the program. It is made in a checkout, by tar, xz and dpkg-deb."""


def main(words: Sequence[str]) -> None:
    """Makes the release, and names its files."""
    parser = new_parser("release", __doc__, EXAMPLES)
    parser.add_argument("--from-unproved", type=Path, metavar="PROGRAM",
                        help="for tests alone: take this program, and say UNPROVED in the names and in PROOF")
    parser.add_argument("out", type=Path, metavar="OUT", help="the folder of the two files")
    chosen = parser.parse_args(words)
    program: Path | None = chosen.from_unproved
    build = ask_unproved_build(CHECKOUT, program) if program else find_proved_build(CHECKOUT)
    for path in make_release(CHECKOUT, build, chosen.out):
        print(path)


def run() -> int:
    """Makes a release by the words of the command line; the status."""
    return run_command("release", main)
