"""What tests share: the texts in data/, a folder of their own with files, and patches that end with the test."""
import os
import tempfile
import unittest
from unittest import mock

from dt_commands.texts import read_text, write_file


def data(name):
    """Returns a text that tests look at."""
    return read_text(os.path.join(os.path.dirname(os.path.abspath(__file__)), "data", name))


class WithRoom(unittest.TestCase):
    """A test with a folder of its own."""

    def setUp(self):
        room = tempfile.TemporaryDirectory()
        self.addCleanup(room.cleanup)
        self.room = room.name

    def write(self, file, text, mode=None):
        """Writes a file of the folder."""
        write_file(f"{self.room}/{file}", text, mode)

    def patch(self, what, name, value):
        self.begin(mock.patch.object(what, name, value))

    def set(self, **environment):
        self.begin(mock.patch.dict(os.environ, environment))

    def begin(self, patch):
        patch.start()
        self.addCleanup(patch.stop)
