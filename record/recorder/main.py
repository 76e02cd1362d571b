"""The command line of rebug-record. Whatever goes wrong is told in a sentence, and has a status."""

import os

from .checking import check
from .depslog import BrokenLog
from .fields import printable
from .folders import BadFolder
from .from_logs import FromLogs
from .installed import launcher
from .manifest import BadManifest
from .options import BadOptions, Checking, HelpWanted, read_words
from .session import NOT_RECORDED, NOT_RUN, Failure, Session
from .signals import Ended, Signals, name_of, write_all
from .words import BadWords


def say(text):
    """A sentence for the user, on standard error as long as somebody reads it."""
    write_all(2, f"rebug-record: {printable(str(text))}\n".encode())


def show(text):
    """A line of an answer, on standard output."""
    write_all(1, f"{printable(text)}\n".encode())


def _named(why):
    """The file that an error of the system is about, for the beginning of a sentence."""
    return f"{os.fsdecode(why.filename)}: " if isinstance(why.filename, (str, bytes)) else ""


def _fill_missing_descriptors():
    """Opens what the caller has closed of the first three, so that no file of a recording is taken for one of them."""
    for descriptor in range(3):
        try:
            os.fstat(descriptor)
        except OSError:
            os.open(os.devnull, os.O_RDWR)


def main(words):
    _fill_missing_descriptors()
    signals = Signals(say)
    try:
        asked = read_words(words)
        if isinstance(asked, Checking):
            return check(asked.out, asked.rebug, show, launcher())
        signals.install()
        recorder = FromLogs if asked.from_logs else Session
        return recorder(asked, signals, say, launcher()).run()
    except HelpWanted as why:
        for text in str(why).split("\n"):
            show(text)
        return 0
    except Failure as why:
        say(why)
        return why.status
    except BadFolder as why:
        say(f"{why}. Ninja was not run")
        return NOT_RUN
    except (BadOptions, BadWords, BadManifest, BrokenLog) as why:
        say(why)
        return NOT_RUN
    except Ended as why:
        say(f"ended by {name_of(why.number)}: nothing was recorded, and what was there stays")
        return 128 + why.number
    except OSError as why:
        say(f"{_named(why)}{why.strerror or why}: nothing was recorded")
        return NOT_RECORDED
    except Exception as why:  # no traceback for users; the kind of the error is for those who mend the recorder
        say(f"a fault of the recorder, {type(why).__name__}: {why}. Nothing was recorded")
        return NOT_RECORDED
    finally:
        signals.give_back()
