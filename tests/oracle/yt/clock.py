"""The time, and work that is done in a process of its own, so that nothing changes here."""
import os
import pickle
import time as clock


def now():
    return os.environ.get("YT_TIME") or clock.strftime("%Y-%m-%dT%H:%M:%SZ", clock.gmtime())


def apart(work):
    """The result or the exception of work that is done in a process of its own, so that nothing changes here."""
    r, w = os.pipe()
    pid = os.fork()
    if pid == 0:
        try:
            os.close(r)
            try:
                out = (work(), None)
            except Exception as e:
                out = (None, e)
            with os.fdopen(w, "wb") as f:
                f.write(pickle.dumps(out))
        finally:
            os._exit(0)
    os.close(w)
    with os.fdopen(r, "rb") as f:
        data = f.read()
    os.waitpid(pid, 0)
    if not data:
        raise MemoryError
    reply, fault = pickle.loads(data)
    if fault is not None:
        raise fault
    return reply
