"""A database of SQLite, made of statements in a file of its own, which then takes the name."""
import os
import stat


def write_database(path, script):
    """Makes the database. Raises an OSError if the file cannot be written."""
    import sqlite3      # not every build of Python has it
    path = os.path.realpath(path)
    made = "%s.%d.new" % (path, os.getpid())
    open(made, "wb").close()
    try:
        base = sqlite3.connect(made)
        base.executescript(script)
        base.close()
        if os.path.exists(path + "-wal") or os.path.exists(path + "-journal"):
            raise OSError(0, "it is in use: a log stands beside it")
        if os.path.exists(path):
            mode = os.stat(path).st_mode
            if not stat.S_ISREG(mode):
                raise OSError(0, "it is no plain file")
            os.chmod(made, stat.S_IMODE(mode))
        os.replace(made, path)
    except sqlite3.Error as e:
        raise OSError(0, str(e)) from e
    finally:
        if os.path.exists(made):
            os.remove(made)
