"""How a program that prints ends where nobody reads on (`tools/promise demand3 | head`), and where it is interrupted: by the signal, as others do, without a traceback."""
import contextlib
import os
import select
import signal


def unread():
    """Whether nobody reads standard output any more; a pipe to another program may be closed too, and that is a fault."""
    poll = select.poll()
    poll.register(1, 0)
    return any(what & select.POLLERR for _, what in poll.poll(0))


def end_by(number):
    signal.signal(number, signal.SIG_DFL)
    os.kill(os.getpid(), number)


@contextlib.contextmanager
def ending():
    """Around all that a program does."""
    try:
        try:
            yield
        finally:
            # what is left to be written is written here, so that a closed pipe is met here
            print(end="", flush=True)
    except KeyboardInterrupt:
        end_by(signal.SIGINT)
    except BrokenPipeError:
        if not unread():
            raise
        end_by(signal.SIGPIPE)
