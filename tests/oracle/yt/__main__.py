"""python3 -m oracle.yt WORDS < input: the reference of yt as a program."""
import os
import sys

from .program import main
from .replies import WRITE

if __name__ == "__main__":
    sys.setrecursionlimit(10000)
    try:
        code = main(sys.argv[1:])
        sys.stdout.flush()
    except BrokenPipeError:
        code = WRITE
        os._exit(code)
    sys.exit(code)
