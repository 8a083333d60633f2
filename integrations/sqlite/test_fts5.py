"""Tests of the tokenizer: indexes documents of eight languages, and compares each token with the library's.

    test_fts5.py [DOCUMENTS]

The documents are made of sentences of the languages, 20,000 if no number is given. For each token of the
index its place in the text is looked up by highlight(), and the words of the text by the library itself.
Then queries, damaged text, rule and table files, and how long indexing takes beside `unicode61`.
"""
import ctypes
import os
import random
import sqlite3
import sys
import tempfile
import time
import unicodedata

HERE = os.path.dirname(os.path.abspath(__file__))
SENTENCES = [
    "The quick fox can't jump 32.3 feet, e.g. over 3,000 dogs.", 'Der Igel läßt es um 12:30 sein; "Warum?", fragt er.',
    "L'élève n'a pas lu l'œuvre d'Aragon.", 'A tűzhelyhez közel ült az öregember 1848-ban.',
    'Съешь ещё этих мягких французских булок, 25 штук.', 'ภาษาไทยไม่มีช่องว่าง', '私は東京へ行きました。カタカナ語', 'السلام عليكم يا 5 أصدقاء',
    'שלום עולם, צה"ל', 'क्षत्रिय लोग', '👩‍👩‍👧 🇭🇺 a_b x2', 'İstanbul Ĳssel ﬁn ǅ',
]


class Library:
    """The words of a text, from the extension's own copy of the library."""

    def __init__(self):
        self.calls = ctypes.CDLL(os.environ.get('RBBI_LIBRARY', os.path.join(HERE, '../../out/librbbi.so')))
        self.table = ctypes.c_void_p()
        assert self.calls.rbbi_table_named(ctypes.byref(self.table), b'word') == 0

    def words(self, text):
        starts, ends = (ctypes.c_uint64 * 4096)(), (ctypes.c_uint64 * 4096)()
        count, resume = ctypes.c_size_t(), ctypes.c_uint64()
        answer = self.calls.rbbi_words(ctypes.byref(self.table), text, ctypes.c_size_t(len(text)), ctypes.c_uint64(0), starts,
                                       ends, None, ctypes.c_size_t(4096), ctypes.byref(count), ctypes.byref(resume))
        assert answer == 0, answer
        return [text[starts[at]:ends[at]] for at in range(count.value)]


def connect(path=':memory:'):
    database = sqlite3.connect(path)
    database.enable_load_extension(True)
    database.load_extension(os.path.join(HERE, 'rbbifts'))
    return database


def tokens(database, text, arguments='word'):
    """The tokens of a text with the offsets in bytes, as an index has them."""
    database.execute('DROP TABLE IF EXISTS one')
    database.execute(f"CREATE VIRTUAL TABLE one USING fts5(body, tokenize = 'rbbi {arguments}')")
    database.execute('CREATE VIRTUAL TABLE IF NOT EXISTS one_words USING fts5vocab(one, instance)')
    database.execute('INSERT INTO one VALUES (?)', (text,))
    found = database.execute('SELECT term, offset FROM one_words ORDER BY offset').fetchall()
    database.execute('DROP TABLE one_words')
    return [term for term, _ in found]


def folded(word, keep=False):
    """A word as SQLite folds it: lower case, and without the marks of Latin letters."""
    lower = word.lower()
    return lower if keep else ''.join(c for c in unicodedata.normalize('NFD', lower) if not unicodedata.combining(c))


def check_tokens(database, library, documents):
    """Every token of every document: its text in the index, and its place by highlight."""
    database.execute("CREATE VIRTUAL TABLE t USING fts5(body, tokenize = 'rbbi word')")
    database.executemany('INSERT INTO t VALUES (?)', [(text,) for text in documents])
    database.execute("INSERT INTO t(t) VALUES ('integrity-check')")
    database.execute('CREATE VIRTUAL TABLE words USING fts5vocab(t, instance)')
    by_document = {}
    for term, document, offset in database.execute('SELECT term, doc, offset FROM words'):
        by_document.setdefault(document, {})[offset] = term
    for number, text in enumerate(documents, 1):
        wanted = library.words(text.encode())
        found = by_document.get(number, {})
        assert len(found) == len(wanted), (text, found, wanted)
        for at, word in enumerate(wanted):
            assert unicodedata.normalize('NFC', folded(found[at])) == unicodedata.normalize('NFC', folded(word.decode())), (word, found[at])


def check_places(database, documents):
    """The words that highlight marks are the words that were asked for, and nothing else changes."""
    for word in ["can't", '32.3', '東', 'カタカナ語'[:4], 'ещё', 'ไ', "d'aragon", 'a_b', 'عليكم']:
        query = '"' + word + '"'
        rows = database.execute("SELECT body, highlight(t, 0, '\x02', '\x03') FROM t WHERE t MATCH ? LIMIT 50", (query,))
        rows = rows.fetchall()
        assert rows, word
        for body, marked in rows:
            assert marked.replace('\x02', '').replace('\x03', '') == body
            inside = [part.split('\x03')[0] for part in marked.split('\x02')[1:]]
            assert all(folded(part) == folded(word) for part in inside), (word, inside)


def check_rest(database, folder):
    assert tokens(database, "can't 32.3") == ["can't", '32.3']
    assert tokens(database, 'ไทย') == ['ไ', 'ท', 'ย']
    assert tokens(database, 'ÉCOLE Straße') == ['ecole', 'straße']
    assert tokens(database, 'ÉCOLE', 'word remove_diacritics 0') == ['école']
    assert tokens(database, 'a, b; !') == ['a', 'b'] and tokens(database, '') == [] and tokens(database, '!?') == []
    # Bytes that are no character are no part of a word, and break none of what follows.
    for damaged in (b'ab \xff cd', b'ab\xc3', b'ab \xed\xa0\x80 cd', b'\xf0\x9f\x98', b'ab \xe0\x80\x80 cd'):
        found = tokens(database, '')
        database.execute('DELETE FROM one')
        database.execute('INSERT INTO one VALUES (CAST(? AS TEXT))', (damaged,))
        database.execute("INSERT INTO one(one) VALUES ('integrity-check')")
        database.execute('CREATE VIRTUAL TABLE one_words USING fts5vocab(one, instance)')
        found = [row[0] for row in database.execute('SELECT term FROM one_words ORDER BY offset')]
        database.execute('DROP TABLE one_words')
        wanted = [part for part in ('ab', 'cd') if part.encode() in damaged]
        assert found == wanted, (damaged, found)
    rules = os.path.join(folder, 'own.rules')
    with open(rules, 'w', encoding='utf-8') as file:
        file.write("[a-z0-9]+ ('-' [a-z0-9]+)* {200}; ")
    assert tokens(database, 'a-1 b_c', f"rules ''{rules}''") == ['a-1', 'b', 'c']
    assert tokens(database, "can't", f"table ''{os.path.join(HERE, '../../tables/word.table')}''") == ["can't"]
    database.execute("CREATE VIRTUAL TABLE p USING fts5(body, tokenize = 'porter rbbi word')")
    database.execute("INSERT INTO p VALUES ('running foxes')")
    assert database.execute("SELECT count(*) FROM p WHERE p MATCH 'fox AND run'").fetchone() == (1,)
    for wrong in ('words', 'rules', f"rules ''{folder}/none''", "word remove_diacritics 9"):
        try:
            tokens(database, 'a', wrong)
        except sqlite3.Error:
            continue
        raise AssertionError(wrong)


def seconds(database, documents, name, tokenizer):
    best = 1e9
    for _ in range(3):
        database.execute(f'DROP TABLE IF EXISTS {name}')
        database.execute(f"CREATE VIRTUAL TABLE {name} USING fts5(body, tokenize = '{tokenizer}')")
        begun = time.process_time()
        with database:
            database.executemany(f'INSERT INTO {name} VALUES (?)', [(text,) for text in documents])
        best = min(best, time.process_time() - begun)
    return best


def main():
    count = int(sys.argv[1]) if len(sys.argv) > 1 else 20000
    random.seed(7)
    documents = [' '.join(random.choices(SENTENCES, k=random.randint(1, 12))) for _ in range(count)]
    database = connect()
    check_tokens(database, Library(), documents)
    check_places(database, documents)
    with tempfile.TemporaryDirectory() as folder:
        check_rest(database, folder)
    ours, theirs = seconds(database, documents, 'a', 'rbbi word'), seconds(database, documents, 'b', 'unicode61')
    print(f'{count} documents, each token right; indexing takes {ours / theirs:.2f} times as long as by unicode61')


if __name__ == '__main__':
    main()
