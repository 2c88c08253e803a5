"""Imported first by a script: an interrupt is one line from then on, also while the rest of the script is loaded. Later its `main` takes over."""
import os
import signal
import sys

ENDED = 130  # the status after an interrupt


def end(*_):
    """Ends a script that has not begun."""
    name = os.path.splitext(os.path.basename(sys.argv[0]))[0]
    os.write(2, f"{name}: interrupted\n".encode())
    os._exit(ENDED)


signal.signal(signal.SIGINT, end)
