"""The whole gate: is release/ of these sources, all proofs, all tests.

usage: .ci/run

It runs, in this order:

  bin/release --check    whether release/ was made of the sources in this clone;
                         if not, nothing else is run
  bin/prove              every proof, the edits that have to fail, and whether
                         the program just proved is the one in release/
  bin/test               all tests, with the program just proved

The status is 0 if all passed, 1 if something failed, 2 if the call is wrong or
the toolchain is missing, and 130 after an interrupt.
"""
import os
import sys

TOP = os.path.dirname(os.path.dirname(os.path.realpath(__file__)))
sys.path.insert(0, os.path.join(TOP, "bin"))
from running import passed_on, until_interrupted  # noqa: E402
import programs  # noqa: E402
from arguments import Parser  # noqa: E402


def main():
    Parser(__doc__).parse_args()
    stale = passed_on([os.path.join(TOP, "bin", "release"), "--check"])
    if stale:
        return stale
    proved = passed_on([os.path.join(TOP, "bin", "prove")])
    try:
        programs.look(programs.BUILT, programs.made_of("--sources"))
    except programs.Stale:
        print("run: bin/test is left out: there is no program that was proved", file=sys.stderr)
        return proved or 1
    tested = passed_on([os.path.join(TOP, "bin", "test")], env={**os.environ, "PLAN_JUDGE": os.path.join(programs.BUILT, programs.NAME)})
    return proved or tested


if __name__ == "__main__":
    sys.exit(until_interrupted(main, "run"))
