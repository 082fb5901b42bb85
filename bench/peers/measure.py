#!/usr/bin/env python3
"""measure.py PROGRAM [SESSION..]: the program beside SQLite, PostgreSQL and gringo on the same work, in instructions an update.

A SESSION is the words for sessions.py; without any, those of bench/RESULTS.md are taken. It prints a line of Markdown for each, with
thousands of instructions (callgrind) for each update, without those of loading. Each peer has to leave the repository of `serial` up to
the names of nulls. README.md says how each of them works. A peer that is not there is installed (apt-get, as root); one that cannot be
had is skipped with a word. `nice` in front of it is passed on to all that it starts.
"""
import os
import re
import shutil
import subprocess
import sys
import tempfile
from pathlib import Path

HERE = Path(__file__).resolve().parent
USUAL = ('groups', 'chain', 'join', 'shop --kind quiet --fan 3', 'shop --kind quiet --fan 10', 'shop --kind mixed --fan 3')
SERVERS = '/usr/lib/postgresql'
# What has to be there for each peer, and the packages of Debian that bring it.
NEEDED = {
    'SQLite': (lambda: Path('/usr/include/sqlite3.h').exists() and shutil.which('gcc'), ['libsqlite3-dev', 'gcc', 'libc6-dev']),
    'PostgreSQL': (lambda: list(Path(SERVERS).glob('*/bin/postgres')), ['postgresql']),
    'gringo': (lambda: shutil.which('gringo'), ['gringo'])}


def is_there(peer):
    there, packages = NEEDED[peer]
    if not there():
        subprocess.run(['apt-get', 'install', '-y', '--no-install-recommends', *packages], capture_output=True, check=False)
    if not there():
        print(f'{peer} cannot be had: skipped', file=sys.stderr)
    return bool(there())


def output(words, data=b'', user=()):
    ran = subprocess.run([*user, *words], input=data, capture_output=True, check=False)
    if ran.returncode:
        sys.exit(f'{words[0]}: status {ran.returncode}: {ran.stderr[-1000:].decode(errors="replace")}')
    return ran.stdout, ran.stderr


def instructions(words, data=b'', user=()):
    _, told = output(['valgrind', '--tool=callgrind', '--callgrind-out-file=/dev/null', *words], data, user)
    return int(re.findall(rb'Collected : (\d+)', told)[-1])


class Work:
    """One session in a folder, with its translations and the repository that the program leaves."""

    def __init__(self, program, words, folder):
        self.program, self.words, self.folder = program, words, folder
        self.session, _ = output([sys.executable, HERE.parent / 'sessions.py', *words.split()])
        (folder / 'session').write_bytes(self.session)
        self.updates = len(re.findall(rb'^update ', self.session, re.M))
        self.head = re.sub(rb'^(update|answer) .*\n', b'', self.session, flags=re.M)
        (folder / 'result').write_bytes(output([program, 'serial'], self.session)[0])
        output([sys.executable, HERE / 'translate.py', folder / 'session', folder])

    def an_update(self, whole, load):
        return (whole - load) / self.updates / 1000

    def compare(self, peer, left):
        """Says so if the peer left another repository than the program."""
        (self.folder / 'left').write_bytes(left)
        ran = subprocess.run([HERE / 'same.py', self.folder / 'result', self.folder / 'left'], stdout=subprocess.PIPE, check=False)
        if ran.returncode:
            print(f'{self.words}: {peer}: {ran.stdout.decode().strip()}', file=sys.stderr)

    # ---- each program

    def ours(self, *words):
        return self.an_update(*(instructions([self.program, *words], data) for data in (self.session, self.head)))

    def driver(self):
        """The words that take the updates in SQLite, after one run whose repository is compared."""
        drive = self.folder / 'sqlite_drive'
        output(['gcc', '-O2', '-o', drive, HERE / 'sqlite_drive.c', '-lsqlite3'])
        words = [drive, self.folder / 'sqlite']
        self.compare('SQLite', output([*words, 'dump'])[0])
        return words

    def sqlite(self):
        words = self.driver()
        return self.an_update(instructions(words), instructions([*words, 'load']))

    def postgres(self):
        server = Server(self.folder / 'postgres')
        server.take('make')
        load = server.counted('ready')
        whole = server.counted('updates')
        server.take('dump')
        self.compare('PostgreSQL', b''.join(file.read_bytes() for file in server.folder.glob('*.dump')))
        return self.an_update(whole, load)

    def gringo(self):
        rules, updates, none = (self.folder / 'gringo' / name for name in ('rules.lp', 'updates.lp', 'none.lp'))
        if not rules.exists():
            return None
        words = ['gringo', '--text', rules]
        self.compare('gringo', output([*words, updates])[0])
        return self.an_update(instructions([*words, updates]), instructions([*words, none]))


class Server:
    """A cluster of PostgreSQL of its own, taken by one backend that runs alone. Root may not run it, so the user of the package does."""

    def __init__(self, folder):
        self.folder, self.cluster = folder, folder / 'cluster'
        self.bin = max(Path(SERVERS).glob('*/bin'))
        self.user = ('runuser', '-u', 'postgres', '--') if os.getuid() == 0 else ()
        if self.user:
            shutil.chown(folder, 'postgres')
        output([self.bin / 'initdb', '-D', self.cluster, '--auth=trust', '--no-locale', '-E', 'UTF8'], user=self.user)

    def backend(self):
        said = ('fsync=off', 'jit=off', 'shared_buffers=512MB', 'random_page_cost=1.1', 'plan_cache_mode=force_generic_plan')
        return [self.bin / 'postgres', '--single', '-D', self.cluster, *(word for it in said for word in ('-c', it)), '-j', 'postgres']

    def take(self, name):
        _, told = output(self.backend(), (self.folder / f'{name}.sql').read_bytes(), self.user)
        if b'ERROR' in told:
            sys.exit(f'PostgreSQL: {told[-1000:].decode()}')

    def counted(self, name):
        return instructions(self.backend(), (self.folder / f'{name}.sql').read_bytes(), self.user)


def measured(program, words, peers):
    with tempfile.TemporaryDirectory() as folder:
        os.chmod(folder, 0o755)
        work = Work(program, words, Path(folder))
        yield work.ours('serial')
        yield work.ours('run', '--workers', '1')
        for peer, one in (('SQLite', work.sqlite), ('PostgreSQL', work.postgres), ('gringo', work.gringo)):
            yield one() if peer in peers else None


def main():
    program, sessions = Path(sys.argv[1]).resolve(), sys.argv[2:] or USUAL
    peers = [peer for peer in NEEDED if is_there(peer)]
    print('| Session | `serial` | `run --workers 1` | SQLite | PostgreSQL | gringo, all at once |\n|---|---|---|---|---|---|')
    for words in sessions:
        cells = ('' if figure is None else f'{figure:.1f}' for figure in measured(program, words, peers))
        print(f'| `{words}` | ' + ' | '.join(cells) + ' |', flush=True)


if __name__ == '__main__':
    main()
