"""Tests of python/examples/ over Dask's workers, one of which is ended in the middle of its work.

They are skipped without Dask. RBBI_PIECES is how many million bytes the document in pieces has, 8 if it isn't
set; the file of it is made for the test.
"""
import os
import random
import signal
import sys
import tempfile
import unittest
from collections import Counter

from rbbi import Table
from rbbi._scan import chunks

try:
    import distributed
except ImportError:
    distributed = None

sys.path.insert(0, os.path.join(os.path.dirname(os.path.abspath(__file__)), '..', 'examples'))
import corpus  # noqa: E402
import pieces  # noqa: E402

WORDS = ['the ', 'quick 3.14 ', "can't; ", 'Gr\u00fc\u00dfe, ', '\u0440\u0443\u0441\u0441\u043a\u0438\u0439 ', '\u65e5\u672c\u8a9e',
         '\u3053\u3093', '\u0e20\u0e32\u0e29\u0e32', '\u05e9\u05dc\u05d5\u05dd ', '\U0001f469\u200d\U0001f52c', '\U0001f1eb\U0001f1f7', 'e\u0301a', '. ']


def write_document(name, size):
    """Writes a document of about so many bytes, without lines."""
    source = random.Random(7)
    blocks = [''.join(source.choices(WORDS, k=4000)).encode() for _ in range(64)]
    with open(name, 'wb') as file:
        while file.tell() < size:
            file.write(source.choice(blocks))


def whole(table, name):
    """What pieces.counted gives of a whole document, by one scan of it."""
    statuses, total = Counter(), 0
    with open(name, 'rb') as file:
        text = file.read()
    for places, found in chunks(table._ref, text, len(text), 'rbbi_breaks', 2):
        statuses.update(found.cast('I'))
        total += sum(places.cast('Q'))
    return statuses, total


def ended_once(mark, table, name):
    """Counts the words of a document, but the first process that comes here is killed."""
    try:
        os.close(os.open(mark, os.O_CREAT | os.O_EXCL))
    except FileExistsError:
        return corpus.counted(table, name)
    os.kill(os.getpid(), signal.SIGKILL)


class Pieces(unittest.TestCase):
    """One long document."""

    def test_eight_pieces_have_the_boundaries_of_one_scan(self):
        with tempfile.TemporaryDirectory() as folder, Table.named('word') as table:
            name = os.path.join(folder, 'document')
            write_document(name, 1000000 * int(os.environ.get('RBBI_PIECES', 8)))
            cut = pieces.pieces_of('word', name, 8)
            self.assertEqual(len(cut), 8)
            found = [pieces.counted('word', name, piece) for piece in cut]
            self.assertEqual((sum((one for one, _ in found), Counter()), sum(two for _, two in found)),
                             whole(table, name))


@unittest.skipUnless(distributed, 'Dask is not installed')
class Workers(unittest.TestCase):
    """Documents over two processes."""

    def setUp(self):
        self.folder = tempfile.TemporaryDirectory()
        self.addCleanup(self.folder.cleanup)
        source = random.Random(1)
        self.names = [os.path.join(self.folder.name, f'{number:03}') for number in range(40)]
        for name in self.names:
            with open(name, 'w', encoding='utf-8') as file:
                file.write(''.join(source.choices(WORDS, k=source.randint(0, 500))))

    def test_a_worker_that_is_ended_changes_nothing(self):
        mark = os.path.join(self.folder.name, 'mark')
        calls = [(mark, 'word', name) for name in self.names]
        found = corpus.over_dask(ended_once, calls, 2)
        self.assertTrue(os.path.exists(mark))
        self.assertEqual(found, [corpus.counted('word', name) for name in self.names])
        self.assertGreater(sum(words for _, _, words in found), 1000)

    def test_pieces_over_workers_are_those_of_one_process(self):
        name = self.names[0] + '-long'
        write_document(name, 300000)
        calls = [('word', name, piece) for piece in pieces.pieces_of('word', name, 5)]
        self.assertEqual(corpus.over_dask(pieces.counted, calls, 2), [pieces.counted(*call) for call in calls])


if __name__ == '__main__':
    unittest.main()
