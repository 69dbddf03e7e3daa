"""The processor time of runs, for the scripts that measure by hand."""
import os
import shutil
import signal

HERE = os.path.dirname(os.path.realpath(__file__))


def programs():
    """The program, as tests/run takes it, and tclsh."""
    tested = os.environ.get("TCLINT") or os.path.join(os.path.dirname(HERE), "crates/tclint/out/tclint")
    return [os.path.abspath(tested), shutil.which("tclsh")]


def seconds(words, stdin=os.devnull):
    """The processor time of one run over an input; None where a limit of time ended it."""
    files = [(os.POSIX_SPAWN_OPEN, 0, stdin, os.O_RDONLY, 0), (os.POSIX_SPAWN_OPEN, 1, os.devnull, os.O_WRONLY, 0)]
    pid = os.posix_spawn(words[0], words, os.environ, file_actions=files)
    _, status, used = os.wait4(pid, 0)
    if os.WIFSIGNALED(status) and os.WTERMSIG(status) == signal.SIGXCPU:
        return None
    if status:
        raise SystemExit(f"{' '.join(words)} failed")
    return used.ru_utime + used.ru_stime
