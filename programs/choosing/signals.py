"""The signals that end a program: heard at once, or once what is begun has come to its end."""
import contextlib
import signal

SIGNALS = signal.SIGHUP, signal.SIGINT, signal.SIGTERM
waiting = [False]  # whether signals wait: the last one counts
late = []  # the signals that came while they had to wait


class Stopped(BaseException):
    """A signal that ends the program."""


def ignore(numbers):
    for number in numbers:
        signal.signal(number, signal.SIG_IGN)


def stop(number, _=None):
    """Ends the program by a signal, as an error does, or once signals wait no more."""
    if waiting[-1]:
        late.append(number)
        return
    # what tidies up is not cut off
    ignore(SIGNALS)
    raise Stopped(number)


def stop_on_signals():
    """Has signals end the program as an error does, so that its temporary files are removed. How a program ends that this one runs is
    heard, also if whoever began this one ignores that: else each of them would count as one that did well."""
    signal.signal(signal.SIGCHLD, signal.SIG_DFL)
    for number in SIGNALS:
        if signal.getsignal(number) != signal.SIG_IGN:
            signal.signal(number, stop)


def hear_late():
    """Ends the program by a signal that had to wait, if signals wait no more."""
    if late and not waiting[-1]:
        stop(late.pop())


@contextlib.contextmanager
def signals_wait(is_so=True):
    """Brings what is begun in this block to its end before a signal is heard. If `is_so` is False, signals are heard at once, also
    within a block in which they wait."""
    waiting.append(is_so)
    try:
        hear_late()
        yield
    finally:
        waiting.pop()
        hear_late()


def status_of(call):
    """Returns what `call` returns: the status of a program that it runs. A signal ends that program at once, and this one when
    signals wait no more. The status is then the negative number of the signal."""
    depth = len(waiting)
    try:
        with signals_wait(False):
            return call()
    except Stopped as stopped:
        del waiting[depth:]
        late.append(stopped.args[0])
        return -stopped.args[0]
