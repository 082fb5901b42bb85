#!/usr/bin/env python3
"""tests/log_drill.py PROGRAM [PART ..]: attacks the log of a workspace in a file, by the program `try_log`.

kills    a process that appends is killed at a random moment; what it had not synced is torn, cut, zeroed or made random, and the
         gate that it had not acknowledged takes any byte. All that it acknowledged is there, and at most one text more.
bits     each bit of a small log is flipped, one at a time
damages  logs are cut, overwritten, and reassembled at random
crowd    processes append to one file at the same time: all texts are there, each process's texts in its order
folds    some of them fold meanwhile: a text stands after the last fold, or was there before one
stays    a process that stays open reads what others append and fold, and appends in between
limits   a file that may not grow: the append is refused, and what was acknowledged stays

The right answer comes from a reader of its own (`read`), never from the program. ROUNDS and SEED in the environment. The last
line is 'N passed, M failed'.
"""
import hashlib
import os
import random
import resource
import signal
import subprocess
import sys
import tempfile
import time
from pathlib import Path

PROGRAM = os.path.abspath(sys.argv[1])
PARTS = sys.argv[2:] or ["kills", "bits", "damages", "crowd", "folds", "stays", "limits"]
ROUNDS = int(os.environ.get("ROUNDS", "1000"))
RANDOM = random.Random(int(os.environ.get("SEED", "1")))
passed, failed = 0, 0


def check(name, right, *told):
    global passed, failed
    if right:
        passed += 1
    else:
        failed += 1
        print("FAILED", name, *told)


# ---- the format, by itself

def mark_of(before, text):
    return hashlib.sha256(before + text).hexdigest()[:16].encode()


def frame(payload):
    return len(payload).to_bytes(4, "big") + payload


def log_of(texts):
    mark, out = b"", []
    for text in texts:
        mark = mark_of(mark, text)
        out.append(frame(mark + b"\n" + text))
    return b"\1".join(out) + b"\0"


def text_in(before, payload):
    text = payload[17:]
    whole = len(payload) >= 17 and payload[16:17] == b"\n" and payload[:16] == mark_of(before, text)
    return text if whole else None


def frame_at(data, place):
    size = int.from_bytes(data[place:place + 4], "big")
    end = place + 4 + size
    return (data[place + 4:end], end) if place + 4 <= len(data) and end <= len(data) else None


def sealed_at(before, data, place):
    """The mark of the payload at the place, and the place of its end, if it is whole and has its mark."""
    found = frame_at(data, place)
    return (found[0][:16], found[1]) if found and text_in(before, found[0]) is not None else None


def read(data):
    """The texts, or the damage, in the words of the program."""
    texts, mark, place = [], b"", 0
    gate = 0
    while True:
        found = frame_at(data, place)
        if found is None:
            return "damaged at %d" % gate
        payload, end = found
        text = text_in(mark, payload)
        if text is None:
            return "record %d is not as it was written" % len(texts)
        texts.append(text)
        mark, gate = payload[:16], end
        if gate >= len(data):
            return "damaged at %d" % gate
        if data[gate] != 1:
            first = sealed_at(mark, data, gate + 1)
            if first and data[first[1]:first[1] + 1] == b"\1" and sealed_at(first[0], data, first[1] + 1):
                return "damaged at %d" % gate
            return texts
        place = gate + 1


def shown(told):
    return told if isinstance(told, str) else "\n".join([str(len(told))] + [t.decode("latin1") for t in told])


# ---- the program

def run(*words, **more):
    return subprocess.run([PROGRAM, *words], capture_output=True, timeout=120, **more)


def show(path):
    done = run("show", path)
    if done.returncode == 0:
        return done.stdout.decode("latin1").rstrip("\n")
    return done.stderr.decode("latin1").strip()


def said(number):
    return ("%d %s" % (number, str(number).rjust(number % 977))).encode()


# ---- kills

def torn(data, gate, acknowledged):
    """What a power cut may leave besides: any bytes in the place of what was not synced."""
    how = RANDOM.randrange(5)
    if how == 0:
        return data
    if acknowledged:
        return data[:gate] + bytes([RANDOM.choice([0, 1, RANDOM.randrange(256)])]) + data[gate + 1:]
    tail = bytearray(data[gate + 1:])
    if how == 1:
        tail = tail[:RANDOM.randrange(len(tail) + 1)]
    elif how == 2:
        for i in range(len(tail)):
            if RANDOM.random() < 0.3:
                tail[i] = RANDOM.randrange(256)
    elif how == 3:
        tail = bytes(RANDOM.randrange(256) for _ in range(RANDOM.randrange(3000)))
    else:
        tail = bytes(len(tail))
    return data[:gate + 1] + bytes(tail)


def gates_of(data):
    """The places of the gates, the closed one last."""
    places, place = [], 0
    while True:
        place = frame_at(data, place)[1]
        places.append(place)
        if data[place] != 1:
            return places
        place += 1


def kills(folder):
    path = os.path.join(folder, "kills.yt")
    have = 0
    for turn in range(ROUNDS):
        if turn % 50 == 0:
            Path(path).unlink(missing_ok=True)
            run("make", path)
            have = 1
        process = subprocess.Popen([PROGRAM, "on", path], stdout=subprocess.PIPE)
        time.sleep(RANDOM.random() * 0.03)
        process.send_signal(signal.SIGKILL)
        lines = process.stdout.read().decode().split("\n")[:-1]
        process.wait()
        have = max([have] + [int(line) for line in lines])
        data = Path(path).read_bytes()
        gates = gates_of(data)
        check("kill %d" % turn, have <= len(gates) <= have + 1, have, len(gates))
        # a text more than was acknowledged: its gate may not be synced; otherwise what stands after the gate may not be
        data = torn(data, gates[have - 1], len(gates) == have + 1)
        Path(path).write_bytes(data)
        told = show(path)
        right = read(data)
        check("kill %d is read" % turn, told == shown(right), told[:80], shown(right)[:80])
        if isinstance(right, list):
            check("kill %d keeps" % turn, have <= len(right) <= have + 1 and right[1:] == [said(n) for n in range(1, len(right))], have, len(right))
            have = len(right)
        else:
            check("kill %d reads" % turn, False, right)


# ---- damage

def bits(folder):
    path = os.path.join(folder, "bits.yt")
    texts = [b"head", b"one", b"two two", b"three"]
    data = log_of(texts)
    gates = gates_of(data)
    for place in range(len(data)):
        for bit in range(8):
            other = bytearray(data)
            other[place] ^= 1 << bit
            Path(path).write_bytes(other)
            told, right = show(path), read(bytes(other))
            check("bit %d of %d" % (bit, place), told == shown(right), told, shown(right))
            last = place in (gates[-1], gates[-2])
            check("bit %d of %d is told" % (bit, place), last or isinstance(right, str) or right == texts, place)


def damages(folder):
    path = os.path.join(folder, "damages.yt")
    texts = [b"head"] + [said(n) for n in range(1, 40)]
    data = log_of(texts)
    for turn in range(ROUNDS):
        other = bytearray(data)
        for _ in range(RANDOM.choice([1, 1, 2, 5])):
            how, at = RANDOM.randrange(5), RANDOM.randrange(len(data))
            if how == 0:
                del other[at:]
            elif how == 1:
                other[at:at + 1] = bytes([RANDOM.randrange(256)])
            elif how == 2:
                other[at:at + RANDOM.randrange(40)] = bytes(RANDOM.randrange(256) for _ in range(RANDOM.randrange(40)))
            elif how == 3:
                other[at:at + 4] = (2 ** 32 - 1 - RANDOM.randrange(9)).to_bytes(4, "big")
            else:
                other += data[at:]
        Path(path).write_bytes(other)
        told, right = show(path), read(bytes(other))
        check("damage %d" % turn, told == shown(right), told[:100], shown(right)[:100])


# ---- many at once

def appended(path, name, count):
    for n in range(count):
        done = run("append", path, "%s %d" % (name, n))
        if done.returncode != 0:
            print(name, n, done.stderr.decode().strip(), flush=True)
            os._exit(1)
    os._exit(0)


def crowd(folder, folding=0):
    path = os.path.join(folder, "crowd.yt")
    Path(path).unlink(missing_ok=True)
    run("make", path)
    count = max(10, ROUNDS // 20)
    names = ["p%d" % k for k in range(8)]
    children = []
    for name in names:
        pid = os.fork()
        if pid == 0:
            appended(path, name, count)
        children.append(pid)
    folds = 0
    for _ in range(folding):
        time.sleep(0.05)
        folds += run("fold", path, "head %d" % folds).returncode == 0
    check("all could append", all(os.waitpid(pid, 0)[1] == 0 for pid in children))
    texts = read(Path(path).read_bytes())
    check("the log is whole", isinstance(texts, list), texts)
    for name in names:
        own = [int(t.split()[1]) for t in texts[1:] if t.split()[0].decode() == name]
        right = list(range(count)) if not folding else list(range(count - len(own), count))
        check("%s in its order" % name, own == right, own[:5], len(own))
    check("no file is left beside", os.listdir(folder).count("crowd.yt") == 1 and not [f for f in os.listdir(folder) if f.endswith(".new")])


def folds(folder):
    crowd(folder, folding=20)


def stays(folder):
    path = os.path.join(folder, "stays.yt")
    run("make", path)
    process = subprocess.Popen([PROGRAM, "stay", path], stdin=subprocess.PIPE, stdout=subprocess.PIPE)
    texts, seen = [b"head"], 1
    for turn in range(max(20, ROUNDS // 10)):
        another = False
        for k in range(RANDOM.randrange(3)):
            if RANDOM.random() < 0.2:
                run("fold", path, "head %d" % turn)
                texts, another = [b"head %d" % turn], True
            else:
                run("append", path, "other %d %d" % (turn, k))
                texts.append(b"other %d %d" % (turn, k))
        own = RANDOM.choice([b"", b"mine %d" % turn])
        process.stdin.write(own + b"\n")
        process.stdin.flush()
        new = texts if another else texts[seen:]
        told = [process.stdout.readline().rstrip(b"\n")]
        told += [process.stdout.readline().rstrip(b"\n") for _ in range(int(told[0].split()[1]))]
        check("turn %d" % turn, told == [b"%s %d" % (b"another" if another else b"same", len(new))] + new, told, new)
        if own:
            while b"mine" in own and read(Path(path).read_bytes())[-1] != own:
                time.sleep(0.001)
            texts.append(own)
        seen = len(texts)
    process.stdin.close()
    check("it ends", process.wait() == 0)
    check("all is there", read(Path(path).read_bytes()) == texts)


def limits(folder):
    path = os.path.join(folder, "limits.yt")
    for size in [3000, 5000, 9000]:
        Path(path).unlink(missing_ok=True)
        run("make", path)

        def small():
            signal.signal(signal.SIGXFSZ, signal.SIG_IGN)
            resource.setrlimit(resource.RLIMIT_FSIZE, (size, size))
        done = run("on", path, preexec_fn=small)
        lines = done.stdout.decode().split()
        check("refused at %d" % size, done.returncode == 1 and b"cannot write" in done.stderr, done.stderr[:100])
        texts = read(Path(path).read_bytes())
        check("kept at %d" % size, isinstance(texts, list) and len(texts) >= int(lines[-1]), shown(texts)[:80])
        check("read at %d" % size, show(path) == shown(texts))


with tempfile.TemporaryDirectory() as home:
    for part in PARTS:
        before = passed, failed
        globals()[part](home)
        print("%s: %d passed, %d failed" % (part, passed - before[0], failed - before[1]), flush=True)
print("%d passed, %d failed" % (passed, failed))
sys.exit(1 if failed else 0)
