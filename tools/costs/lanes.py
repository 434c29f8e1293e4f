"""Prints how many checks the merge gate makes side by side, for RT_JOBS: one for each processor, if
there are 4 GiB of free memory for each. So each check has one job: if a check has more, each of its
jobs reads the libraries, and the same proofs take a third more processor time.

Status: 0; 2 for a word, since it takes none."""
import commands
from bozintar.words import Words


def main():
    Words(__doc__).parse_args()
    print(commands.lanes())
