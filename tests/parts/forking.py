"""Runs a script once for each case that it is asked for, each in a fork of itself. `forks.py`
starts it, as the user and with the environment and the folder of the cases:

    python3 forking.py SCRIPT < SOCKET

First it runs the script's statements down to its last import, so that Python has loaded what the
script loads, and nothing else: this file itself loads only `gc` and `_socket`, which are written in
C. A fork gets the streams and words of its case, and runs the whole script as `__main__`. It ends
as Python ends each script, since Python itself ends it. Only the depth of its calls is two more.

A case comes as a message of the socket: the numbers of the streams that are open, such as 012 or
02, and the script's words, with a zero byte before each; and the files of these streams. The
answers are `begun` with the number of the process, and `ended` with its status, or below 0 with the
signal that has ended it. The number is no other process's until the next case comes.
"""
START = dict(globals())

import _socket, gc, os, sys

STREAMS = ("stdin", "stdout", "stderr")
SPACE = _socket.CMSG_SPACE(4 * len(STREAMS))


def load(path, text):
    """Runs the script down to its last import. What it has set for that is as before then."""
    parts = compile(text, path, "exec", 0x400, True)  # The tree, as of ast.parse.
    kinds = [type(it).__name__ in ("Import", "ImportFrom") for it in parts.body]
    del parts.body[len(kinds) - kinds[::-1].index(True) :]
    before = list(sys.path), sys.dont_write_bytecode, sys.pycache_prefix
    exec(compile(parts, path, "exec", 0, True), {"__name__": "__main__", "__file__": path})
    sys.path[:], sys.dont_write_bytecode, sys.pycache_prefix = before


def files_in(more):
    data = b"".join(it[2] for it in more)
    return [int.from_bytes(data[it : it + 4], sys.byteorder) for it in range(0, len(data), 4)]


def await_case(asked):
    """Forks for each case. Returns the case, in the fork alone: the open streams, with their files,
    and the words."""
    process = None
    while True:
        data, more, *_ = asked.recvmsg(1 << 17, SPACE)
        if process:
            os.waitpid(process, 0)
        if not data:
            os._exit(0)
        numbers, *words = data.split(b"\0")
        files = files_in(more)
        process = os.fork()
        if process == 0:
            return dict(zip(map(int, numbers.decode()), files)), [os.fsdecode(it) for it in words]
        for it in files:
            os.close(it)
        asked.send(b"begun %d" % process)
        end = os.waitid(os.P_PID, process, os.WEXITED | os.WNOWAIT)
        is_exit = end.si_code == os.CLD_EXITED
        asked.send(b"ended %d" % (end.si_status if is_exit else -end.si_status))


def take(files):
    """Makes these files the standard streams, and closes those that are not there."""
    for number, name in enumerate(STREAMS):
        if number in files:
            os.dup2(files[number], number)
            os.close(files[number])
        else:
            os.close(number)
            setattr(sys, name, None)
            setattr(sys, f"__{name}__", None)


def tell(kind, fault, trace, sys=sys):
    """What Python says of an exception, without the line of this file."""
    sys.__excepthook__(kind, fault.with_traceback(trace.tb_next), trace.tb_next)


def case_of(path):
    """Returns, in the fork of a case alone, the script's code and its globals."""
    try:
        asked = _socket.socket(fileno=0)
        sys.argv[:] = [path]
        sys.path[0] = os.path.dirname(os.path.realpath(path))
        with open(path, "rb") as file:
            text = file.read()
        load(path, text)
        code = compile(text, path, "exec", 0, True)
        gc.freeze()  # Else a fork writes to all that is loaded, and so copies it.
        files, words = await_case(asked)
        asked.detach()
        take(files)
    except (KeyboardInterrupt, ConnectionError):
        os._exit(1)
    sys.argv += words
    if hasattr(sys, "orig_argv"):
        sys.orig_argv = [sys.orig_argv[0], *sys.argv]
    sys.excepthook = tell
    main = type(sys)("__main__")
    loader = type(__loader__)("__main__", path)
    main.__dict__.update(START, __doc__=None, __file__=path, __loader__=loader)
    sys.modules["__main__"] = main
    return code, main.__dict__


exec(*case_of(sys.argv[1]))
