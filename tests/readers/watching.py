"""Hears what a reader asks for, and stops it before it imports what isn't listed."""

from listed import LISTED

RUNS = ("os.system", "os.exec", "os.fork", "os.posix_spawn", "subprocess.Popen", "socket.connect")


class Stopped(BaseException):
    """A reader is about to import a name that isn't listed, or takes too long."""


class Watch:
    """What the readers ask for."""

    def __init__(self):
        self.asked, self.reader, self.is_on = [], "", False

    def hear(self, event, words):
        if event == "pickle.find_class" and self.is_on and tuple(words) not in LISTED:
            self.asked.append([self.reader, *(str(word)[:200] for word in words)])
            raise Stopped
        if event in RUNS:
            raise Stopped

    def run(self, reader, read, *words):
        """Runs a reader, and returns what it read; None if it stopped."""
        self.reader, self.is_on = reader, True
        try:
            return read(*words)
        except (Exception, Stopped):
            return None
        finally:
            self.is_on = False
