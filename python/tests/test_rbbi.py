"""Tests of the package as it is installed: `python3 -m unittest discover python/tests`, or pytest."""
import copy
import ctypes
import inspect
import io
import pickle
import random
import sys
import threading
import unittest
from array import array
from concurrent.futures import ProcessPoolExecutor

import rbbi
from rbbi import Answer, Error, Fault, LoneSurrogate, Segment, Table, Unit

PIECED = "ab 12.A'\r\n\u0301\u05d0\u200d\u3042\u4e00\U0001f1e6\U0001f600"

RULES = """!!chain;
$Letter = [A-Za-z\u00e4];
[0-9]+ {100};
$Letter+ {200};
$Letter+ ['] $Letter+ {200};
"""


class Sessions(unittest.TestCase):
    """Questions and edits."""

    def setUp(self):
        self.table = Table.compile(RULES)

    def tearDown(self):
        self.table.close()

    def test_segments_have_the_greatest_status_of_their_end(self):
        with self.table.session("can't 32") as session:
            self.assertEqual(list(session), [(0, 5, 200), (5, 6, 0), (6, 8, 100)])
            self.assertEqual(list(session)[0], Segment(start=0, end=5, status=200))

    def test_places_count_the_unit(self):
        text = '\u00e4\U0001f600b'
        for unit, places in [(Unit.CHARS, [1, 2, 3]), (Unit.UTF16, [1, 3, 4]), (Unit.UTF8, [2, 6, 7])]:
            with self.table.session(text, unit) as session:
                self.assertEqual([segment.end for segment in session], places)
                self.assertEqual(session.length(), places[-1])

    def test_a_tally_counts_while_the_text_is_edited(self):
        with self.table.tally("can't 32 \u00e4", Unit.UTF8) as tally:
            self.assertEqual((tally.segments(), tally.counts()), (5, {0: 2, 100: 1, 200: 2}))
            with self.assertRaises(Error) as caught:
                tally.replace(10, 1, '')
            self.assertEqual(caught.exception.answer, Answer.INSIDE)
            tally.replace(5, 1, '')
            self.assertEqual((tally.count(200), tally.count(100), tally.count(7)), (2, 1, 0))
            self.assertEqual(list(tally.counts().items()), [(0, 1), (100, 1), (200, 2)])
        rules = ''.join(f'[{chr(97 + i)}] {{{i + 1}}};' for i in range(20))
        with Table.compile(rules) as table, table.tally('abcdefghijklmnopqrst') as tally:
            self.assertEqual(tally.counts(), {i + 1: 1 for i in range(20)})

    def test_each_question_moves_the_cursor(self):
        with self.table.session(b'ab 12') as session:
            self.assertEqual((session.first(), session.current()), (0, 0))
            self.assertEqual((session.last(), session.current()), (5, 5))
            self.assertEqual((session.status(), session.statuses()), (100, [100]))
            self.assertIsNone(session.next())
            self.assertEqual((session.previous(), session.next()), (3, 5))
            self.assertEqual((session.following(0), session.status()), (2, 200))
            self.assertEqual((session.preceding(5), session.preceding(0)), (3, None))
            self.assertTrue(session.is_boundary(2))
            self.assertFalse(session.is_boundary(1))
            self.assertEqual(session.current(), 2)
            self.assertIsNone(session.following(2 ** 32 - 1))

    def test_boundaries_are_those_that_next_gives(self):
        text = "can't \u00e432 \U0001f600" * 2000
        for unit in Unit:
            with self.table.session(text, unit) as session:
                ends = [(segment.end, segment.status) for segment in session]
                session.following(7)
                cursor = session.current()
                self.assertEqual(list(zip(*session.boundaries())), ends)
                self.assertEqual(list(zip(*session.boundaries(5, 30))),
                                 [end for end in ends if 5 < end[0] <= 30])
                self.assertEqual(list(session.boundaries_before().places),
                                 [end for end, _ in reversed(ends)] + [0])
                self.assertEqual(list(session.boundaries_before(30, 5).places),
                                 [end for end, _ in reversed(ends) if 5 <= end < 30])
                self.assertEqual(session.current(), cursor)

    def test_the_segment_at_a_place_leaves_the_cursor(self):
        with self.table.session("can't 32") as session:
            session.next()
            self.assertEqual([session.segment(place) for place in (0, 4, 5, 7)],
                             [(0, 5, 200), (0, 5, 200), (5, 6, 0), (6, 8, 100)])
            self.assertIsNone(session.segment(8))
            self.assertEqual(session.current(), 5)

    def test_text_is_read_back(self):
        with self.table.session('a\U0001f600b', Unit.UTF16) as session:
            self.assertEqual((session.text(), session.text(1, 3), session.text(1, 1)),
                             ('a\U0001f600b', '\U0001f600', ''))
            for start, end, answer in [(0, 5, Answer.OUTSIDE), (3, 1, Answer.OUTSIDE),
                                       (0, 2, Answer.INSIDE)]:
                with self.assertRaises(Error) as caught:
                    session.text(start, end)
                self.assertEqual(caught.exception.answer, answer)

    def test_utf16_is_taken_and_lone_surrogates_are_refused(self):
        units = array('H', 'a\U0001f600b'.encode(f'utf-16-{sys.byteorder[0]}e'))
        with self.table.session_utf16(units) as session:
            self.assertEqual((session.length(), session.text()), (4, 'a\U0001f600b'))
            session.replace_utf16(1, 2, array('H', [0x63]))
            self.assertEqual(session.text(), 'acb')
            with self.assertRaises(LoneSurrogate) as caught:
                session.replace_utf16(0, 0, array('H', [0x61, 0xdc00]))
            self.assertEqual((caught.exception.at, session.text()), (1, 'acb'))
        with self.assertRaises(LoneSurrogate) as caught:
            self.table.session_utf16(array('H', [0x61, 0x62, 0xd83d, 0x63]))
        self.assertEqual(caught.exception.at, 2)
        with self.assertRaises(ValueError):
            self.table.session_utf16(b'abc')

    def test_utf16_is_a_buffer_of_bytes_or_of_units(self):
        units = array('H', [0x61, 0x62])
        for buffer in (units, units.tobytes(), bytearray(units.tobytes()), memoryview(units),
                       (ctypes.c_uint16 * 2)(0x61, 0x62)):
            with self.table.session_utf16(buffer) as session:
                self.assertEqual(session.text(), 'ab')
        with self.table.session('x') as session:
            for code in 'hiIlLqQfd':
                with self.assertRaises(TypeError):
                    self.table.session_utf16(array(code, [0x61, 0x62]))
                with self.assertRaises(TypeError):
                    session.replace_utf16(0, 0, array(code, [0x61]))
            self.assertEqual(session.text(), 'x')

    def test_edits_answer_as_a_new_session_over_the_new_text(self):
        draw = random.Random(1)
        text = ''.join(draw.choice("ab1' \u00e4\U0001f600") for _ in range(300))
        with self.table.session(text) as session:
            for _ in range(100):
                at = draw.randint(0, len(text))
                remove = draw.randint(0, min(3, len(text) - at))
                insert = ''.join(draw.choice("ab1' \u00e4") for _ in range(draw.randint(0, 3)))
                session.replace(at, remove, insert)
                text = text[:at] + insert + text[at + remove:]
                with self.table.session(text) as new:
                    self.assertEqual(list(session), list(new))

    def test_an_edit_tells_what_it_changed(self):
        with self.table.session('ab 12 cd') as session:
            change = session.replace_changed(3, 2, "x'y")
            self.assertEqual(change, (3, 5, 6))
            self.assertEqual((change.start, change.old_end, change.new_end), (3, 5, 6))
            self.assertEqual(session.redraw(change), (2, 7))
            self.assertEqual([segment.end for segment in session], [2, 3, 6, 7, 9])
            self.assertEqual(session.redraw(session.replace_changed(0, 0, 'a')), (0, 3))
            with self.assertRaises(Error) as caught:
                session.replace_changed(10, 1, '')
            self.assertEqual(caught.exception.answer, Answer.OUTSIDE)

    def test_filters_leave_boundaries_out_or_turn_characters(self):
        with Table.named('sentence') as table, table.session('I met Mr. Fox. He ran.') as session:
            self.assertEqual(session.next(), 10)
            session.suppress('# titles\nMr.\n')
            self.assertEqual([segment.end for segment in session], [15, 22])
            session.replace(15, 2, 'We\U0001f98a')
            self.assertEqual(([segment.end for segment in session], session.length()), ([15, 23], 23))
            for call in (session.fork, session.boundaries, lambda: session.segment(0)):
                with self.assertRaises(Error) as refused:
                    call()
                self.assertEqual(refused.exception.answer, Answer.FILTERED)
        with self.table.session('a\u00b7b', Unit.UTF8) as session:
            with self.assertRaises(Fault) as refused:
                session.tailor('00B7;61\n')
            self.assertEqual((refused.exception.name, refused.exception.line), ('BadLine', 1))
            self.assertEqual([segment.end for segment in session], [1, 3, 4])
            session.tailor('00B7;0061\n')
            self.assertEqual([segment.end for segment in session], [4])

    def test_a_fork_has_a_text_and_a_cursor_of_its_own(self):
        with self.table.session('ab 12', Unit.UTF16) as session:
            session.following(2)
            copy = session.fork()
            self.assertEqual((copy.current(), copy.text()), (3, 'ab 12'))
            copy.replace(0, 3, '')
            self.assertEqual((session.current(), session.text()), (3, 'ab 12'))
        with copy:
            self.assertEqual(list(copy), [(0, 2, 100)])

    def test_edits_that_cannot_be_are_refused_and_change_nothing(self):
        with self.table.session('a\U0001f600', Unit.UTF16) as session:
            for at, remove, answer in [(3, 1, Answer.OUTSIDE), (2, 0, Answer.INSIDE)]:
                with self.assertRaises(Error) as caught:
                    session.replace(at, remove, 'x')
                self.assertEqual(caught.exception.answer, answer)
            self.assertEqual(session.length(), 3)

    def test_numbers_past_32_bits_and_texts_that_are_not_utf8_are_refused(self):
        with self.table.session('ab') as session:
            for number in (-1, 2 ** 32):
                with self.assertRaises(ValueError):
                    session.following(number)
            with self.assertRaises(UnicodeEncodeError):
                session.replace(0, 0, '\ud800')
        with self.assertRaises(Error) as caught:
            self.table.session(b'\xff')
        self.assertEqual(caught.exception.answer, Answer.NOT_UTF8)

    def test_a_unit_is_one_of_three(self):
        for unit in (-1, 3, 2 ** 32, 2 ** 32 + 1):
            for opened in (lambda: self.table.session('ab', unit),
                           lambda: self.table.session_utf16(b'a\0', unit),
                           lambda: self.table.tally('ab', unit)):
                with self.assertRaises(Error) as caught:
                    opened()
                self.assertEqual(caught.exception.answer, Answer.UNIT)
        with self.table.session('\u00e4', 1) as session:
            self.assertEqual(session.length(), 2)

    def test_a_session_has_a_length_in_units_and_no_number_of_segments(self):
        with self.table.session('', Unit.UTF16) as session:
            self.assertEqual((session.length(), list(session)), (0, []))
            self.assertTrue(session)
            with self.assertRaises(TypeError):
                len(session)

    def test_a_session_outlives_its_table_and_is_closed_once(self):
        with Table.named('word') as table:
            session = table.session('ab cd')
        self.assertEqual(session.next(), 2)
        session.close()
        session.close()
        with self.assertRaises(Error) as caught:
            session.next()
        self.assertEqual(caught.exception.answer, Answer.HANDLE)


class Tables(unittest.TestCase):
    """Rules, table files and the tables of the library."""

    def test_a_table_is_written_loaded_and_shared(self):
        with Table.compile(RULES) as table, table.share() as other:
            with Table.load(table.write()) as loaded:
                self.assertEqual(loaded.write(), other.write())
                with loaded.session('ab 12') as session:
                    self.assertEqual([segment.end for segment in session], [2, 3, 5])

    def test_a_table_of_the_library_has_a_name(self):
        ends = {'grapheme': [1, 3, 4], 'word': [3, 4], 'sentence': [4], 'line': [4]}
        for name, wanted in ends.items():
            with Table.named(name) as table, table.session('ae\u0301.') as session:
                self.assertEqual([segment.end for segment in session], wanted, name)
        with self.assertRaises(Error) as caught:
            Table.named('words')
        self.assertEqual(caught.exception.answer, Answer.NAME)
        for name in ('word\0', 'word\0x', '\0word'):
            with self.assertRaises(Error) as caught:
                Table.named(name)
            self.assertEqual(caught.exception.answer, Answer.NAME)

    def test_a_fault_has_a_name_and_a_place(self):
        with self.assertRaises(Fault) as caught:
            Table.compile('a;\n\u00e4 $;')
        fault = caught.exception
        self.assertEqual((fault.name, fault.line, fault.column, fault.byte), ('BadName', 2, 3, 6))
        self.assertEqual((fault.sentence, fault.answer), ('no name follows', Answer.FAULT))
        self.assertEqual(str(fault), '2:3: BadName: no name follows')
        with self.assertRaises(Fault) as caught:
            Table.load(b'RBBI')
        self.assertIsNone(caught.exception.line)

    def test_property_files_are_used_and_their_faults_told(self):
        rows = b'0061..0063 ; Y\n'
        with Table.compile(r'\p{X=Y}+;', [('X', rows)]) as table, table.session('abcd') as session:
            self.assertEqual(session.next(), 3)
        with self.assertRaises(Fault) as caught:
            Table.compile('a;', [('X', rows + b'no\n')])
        self.assertEqual((caught.exception.name, caught.exception.line), ('BadRow', 2))
        with self.assertRaises(ValueError):
            Table.compile('a;', [('X\0', rows)])

    def test_dictionary_is_ignored_if_the_word_is_true(self):
        rules = '$dictionary = [a]; a;'
        with self.assertRaises(Fault):
            Table.compile(rules)
        for true in (True, 1, 2 ** 32):
            Table.compile(rules, ignore_dictionary=true).close()


def refused(call):
    """The error that a call raises."""
    with unittest.TestCase().assertRaises(Error) as caught:
        call()
    return caught.exception


class Texts(unittest.TestCase):
    """A text that nobody edits."""

    PIECES = ['word', ' ', "can't", '32.3', '. ', '\r\n', 'e\u0301', '\u65e5\u672c', '\u0e44\u0e17\u0e22',
              '\U0001f469\u200d\U0001f467', '\U0001d54f', '\U0001f1ed\U0001f1fa']

    def test_words_of_many_scripts(self):
        self.assertEqual(rbbi.words("can't 32.3."), ["can't", '32.3'])
        self.assertEqual(rbbi.words('\U0001f600 \U0001d54f\U0001d54f, a_b \u0e44\u0e17!'),
                         ['\U0001d54f\U0001d54f', 'a_b', '\u0e44', '\u0e17'])
        self.assertEqual(rbbi.words('na\u00efve'.encode()), ['na\u00efve'.encode()])
        self.assertEqual(rbbi.words(''), [])

    def test_the_built_in_tables_split_a_text(self):
        self.assertEqual(rbbi.graphemes('e\u0301\r\n\U0001f1ed\U0001f1fa'),
                         ['e\u0301', '\r\n', '\U0001f1ed\U0001f1fa'])
        self.assertEqual(rbbi.sentences('Is it 3 p.m.? No.'), ['Is it 3 p.m.? ', 'No.'])
        self.assertEqual(rbbi.lines('one two-three'), ['one ', 'two-', 'three'])

    def test_lines_are_tailored_as_icu_does(self):
        text = '\u30ab\u30c3\u4eba\u3005\u5c71\u301c\u5ddd\u2010\u4e2d\u20255\uff05\u201ca\u201d'
        for name, ends in [('line', [2, 4, 6, 8, 10, 15]), ('line-strict', [2, 4, 6, 8, 10, 15]),
                           ('line-normal', [1, 2, 4, 6, 8, 10, 15]), ('line-loose', [1, 2, 3, 4, 6, 8, 10, 15]),
                           ('line-cj', [2, 4, 6, 8, 10, 12, 15]), ('line-normal-cj', [1, 2, 4, 5, 6, 8, 10, 12, 15]),
                           ('line-loose-cj', [1, 2, 3, 4, 5, 6, 7, 8, 10, 11, 12, 15])]:
            with Table.named(name) as table:
                self.assertEqual(list(table.boundaries(text).places), ends, name)

    def test_boundaries_are_those_of_a_session(self):
        random.seed(3)
        with Table.named('word') as table:
            for _ in range(300):
                text = ''.join(random.choices(self.PIECES, k=random.randint(0, 9)))
                for given, unit in [(text, Unit.CHARS), (text.encode(), Unit.UTF8)]:
                    with table.session(given, unit) as session:
                        wanted, found = session.boundaries(), table.boundaries(given)
                    self.assertEqual(list(found.places), list(wanted.places), text)
                    self.assertEqual(list(found.statuses), list(wanted.statuses), text)
                    self.assertEqual(given[:0].join(table.split(given)), given)

    def test_more_than_one_call_of_c_is_made(self):
        text = 'ab ' * 50000 + '\U0001f600 \u00e9'
        with Table.named('word') as table:
            self.assertEqual(table.words(text), ['ab'] * 50000 + ['\u00e9'])
            self.assertEqual(table.spans(text)[-3:],
                             [(150000, 150001), (150001, 150002), (150002, 150003)])

    def test_pieces_that_are_searched_apart_have_the_boundaries_of_the_whole(self):
        source = random.Random(3)
        rules = "[a-z]+ / ' ' [0-9]+ {3}; [a-z ]+ {1}; [a-z]+ ' '* [A-Z]{2}; .;"
        tables = [Table.named(name) for name in ('grapheme', 'word', 'sentence', 'line')]
        for table in tables + [Table.compile(rules)]:
            for _ in range(60):
                text = ''.join(source.choices(PIECED, k=source.randint(1, 150)))
                for whole in (text, text.encode()):
                    places, statuses = [], []
                    for piece in table.pieces(whole, source.randint(1, 8)):
                        found = table.boundaries_in(piece, whole[piece.start:piece.end])
                        places += found.places
                        statuses += found.statuses
                    self.assertEqual((places, statuses), tuple(map(list, table.boundaries(whole))))
        with self.assertRaises(ValueError):
            tables[0].pieces('a', 0)
        self.assertEqual(tables[1].pieces('', 3), [(0, 0, 0, 0)])

    def test_bytes_that_are_not_utf8_are_refused(self):
        with Table.named('word') as table, self.assertRaises(Error) as caught:
            table.boundaries(b'ab \xff')
        self.assertEqual(caught.exception.answer, Answer.NOT_UTF8)

    def test_a_file_is_scanned_piece_by_piece(self):
        random.seed(4)
        with Table.named('word') as table:
            for _ in range(20):
                text = ''.join(random.choices(self.PIECES, k=random.randint(0, 20000))).encode()
                segments = list(table.scan(io.BytesIO(text)))
                self.assertEqual([s.end for s in segments], list(table.boundaries(text).places))
                self.assertEqual([s.status for s in segments], list(table.boundaries(text).statuses))
                self.assertEqual([(s.start, s.end) for s in segments], table.spans(text))
                words = table.scan(io.BytesIO(text), only_words=True)
                self.assertEqual([text[s.start:s.end] for s in words], table.words(text))

    def test_a_fault_of_a_file_comes_after_the_segments_before_it(self):
        with Table.named('word') as table:
            found = table.scan(io.BytesIO(b'ab cd \xff ef'))
            self.assertEqual([next(found).end for _ in range(3)], [2, 3, 5])
            with self.assertRaises(Error) as caught:
                list(found)
        self.assertEqual(caught.exception.answer, Answer.NOT_UTF8)

    def test_a_table_is_pickled(self):
        with Table.compile(RULES) as table, pickle.loads(pickle.dumps(table)) as again:
            self.assertEqual(again.split('ab 12'), ['ab', ' ', '12'])


class Errors(unittest.TestCase):
    """Errors go from process to process."""

    def errors(self):
        with Table.compile(RULES) as table, table.session('ab') as session:
            return [refused(lambda: session.replace(1, 2, '')),
                    refused(lambda: Table.named('words')),
                    refused(lambda: Table.compile('a;\n\u00e4 $;')),
                    refused(lambda: Table.load(b'RBBI')),
                    refused(lambda: session.suppress('a\n b\n')),
                    refused(lambda: table.session_utf16(array('H', [0x61, 0xd83d]))),
                    Error(Answer.MEMORY, 'of a caller')]

    def test_each_survives_pickling_and_copying(self):
        for error in self.errors():
            error.told = 'by the caller'
            for protocol in range(pickle.HIGHEST_PROTOCOL + 1):
                self.assert_same(pickle.loads(pickle.dumps(error, protocol)), error)
            self.assert_same(copy.copy(error), error)
            self.assert_same(copy.deepcopy(error), error)

    def assert_same(self, other, error):
        self.assertIs(type(other), type(error))
        self.assertEqual((str(other), vars(other)), (str(error), vars(error)))

    def test_a_process_hands_one_back(self):
        with ProcessPoolExecutor(1) as processes:
            with self.assertRaises(Fault) as caught:
                processes.submit(Table.compile, 'a;\n\u00e4 $;').result(60)
        self.assertEqual((caught.exception.name, caught.exception.byte), ('BadName', 6))


class Package(unittest.TestCase):
    """What holds of the package as a whole."""

    def test_threads_share_a_table_and_a_session(self):
        text, found = "can't 32.3. " * 50, []
        with Table.named('word') as table, table.session(text) as alone, table.session(text) as one:
            wanted = list(alone)

            def work():
                for _ in range(10):
                    with table.session(text) as session:
                        found.append(list(session) == wanted)
                    one.replace(0, 1, 'c')
                    one.following(20)

            threads = [threading.Thread(target=work) for _ in range(4)]
            for thread in threads:
                thread.start()
            for thread in threads:
                thread.join()
            self.assertEqual(found, [True] * 40)
            self.assertEqual(list(one), wanted)

    def test_versions(self):
        self.assertRegex(rbbi.version, r'^\d+\.\d+\.\d+$')
        self.assertRegex(rbbi.unicode_version, r'^\d+\.\d+\.\d+$')

    def test_each_answer_has_a_sentence(self):
        for answer in Answer:
            self.assertNotIn('no answer', str(Error(answer)))

    def test_all_that_is_public_is_documented(self):
        for name in rbbi.__all__:
            thing = getattr(rbbi, name)
            if not inspect.isclass(thing):
                continue
            self.assertTrue(thing.__doc__, name)
            for part, value in vars(thing).items():
                if inspect.isfunction(value) and not part.startswith('_'):
                    self.assertTrue(value.__doc__, f'{name}.{part}')

    def test_handles_are_as_c_has_them(self):
        self.assertEqual(ctypes.sizeof(rbbi._library.Handle), ctypes.sizeof(ctypes.c_void_p))
        self.assertEqual(ctypes.sizeof(rbbi._library.CFault), 52)


if __name__ == '__main__':
    unittest.main()
