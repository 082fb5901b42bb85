#!/usr/bin/env python3
"""bench/conversation.py [UPDATES]: a conversation for `yt_live`, of ten lines for each update, by default 1,000 updates.

Each painting hangs in a museum whose houses are known. Its update makes three steps and stops at a question; the question is
asked for, and answered by one of the houses; then the update is stepped to its end.
"""
import sys

MUSEUMS = 50


def main():
    count = int(sys.argv[1]) if len(sys.argv) > 1 else 1000
    print("youtopia 1\nrelation Painting 2\nrelation House 2\nrelation Shows 2")
    print("mapping hangs: Painting(t, m) -> House(m, h), Shows(h, t)")
    for m in range(MUSEUMS):
        print(f'base House("museum {m}", "town {m}")')
    print("end")
    for n in range(1, count + 1):
        m = n % MUSEUMS
        print(f'update u{n} ann insert Painting("painting {n}", "museum {m}")')
        print("step\nstep\nstep")
        print(f"question u{n}")
        print(f'answer u{n} unify House("museum {m}", "town {m}")')
        print("step\nstep\nstep\nstep")


if __name__ == "__main__":
    main()
