"""python3 -m oracle WORDS < input: the reference as a program."""
import sys

from .commands import youtopia


def main():
    sys.setrecursionlimit(10000)
    status, out, err = youtopia(sys.argv[1:], sys.stdin.buffer.read())
    sys.stdout.buffer.write(b"(the text of help or the version)\n" if out is None else out)
    sys.stderr.buffer.write(err)
    sys.exit(status)


if __name__ == "__main__":
    main()
