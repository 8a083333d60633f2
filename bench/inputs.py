"""Makes the texts, rule files and scripts that bench/run measures.

Everything is made by this file from a fixed seed, so that two machines measure the same; nothing is
downloaded. A text is made in blocks of 100,000 characters, so that the larger text of a kind begins
with the smaller one.
"""
import functools
import itertools
import os
import random
import string

BLOCK = 100_000
SIZES = {'1 M': 1_000_000, '12 M': 12_000_000}


def some_words(source, letters, count, least, most):
    return [''.join(source.choices(letters, k=source.randint(least, most))) for _ in range(count)]


def span(first, last):
    return [chr(code) for code in range(first, last + 1)]


LATIN = list('etaoinshrdlucmfwypvbgkjqxz')
# By how often a letter is drawn, in the order of LATIN.
LATIN_MANY = [letter for i, letter in enumerate(LATIN) for _ in range(1 + (26 - i) ** 2 // 40)]


def prose(source):
    """Sentences of Latin words with a few numbers, quotes and apostrophes, in paragraphs."""
    words = some_words(source, LATIN_MANY, 3000, 1, 11)
    weights = [1 / (rank + 3) for rank in range(len(words))]
    out = []
    for _ in range(1500):
        sentence = source.choices(words, weights, k=source.randint(4, 22))
        for i in range(len(sentence)):
            roll = source.random()
            if roll < 0.02:
                sentence[i] = f'{source.randint(1, 9)},{source.randint(100, 999)}.{source.randint(0, 9)}'
            elif roll < 0.06:
                sentence[i] += source.choice(["'s", "n't", "'ll"])
            elif roll < 0.12:
                sentence[i] += ','
            elif roll < 0.13:
                sentence[i] = f'“{sentence[i]}”'
        end = source.choice(['. '] * 8 + ['? ', '! ', '.\n', '.\n\n'])
        out.append(' '.join(sentence).capitalize() + end)
    return ''.join(out)


def code(source):
    """Lines of a program: names, numbers, operators, brackets, strings, indentation."""
    names = ['_'.join(some_words(source, LATIN_MANY, source.randint(1, 3), 2, 7)) for _ in range(500)]
    out = []
    for _ in range(4000):
        a, b, c = source.choices(names, k=3)
        number = source.choice(['0', '1', '0x1F', '3.25', str(source.randint(2, 99999))])
        indent = '    ' * source.randint(0, 4)
        out.append(indent + source.choice([
            f'let {a} = {b}({c}, {number});\n', f'if {a}.{b}() < {number} && !{c} {{\n', '}\n', '\n',
            f'{a}[{b} + {number}] -= {c} / 2;\n', f'// {a} {b} {c}.\n', f'return "{a}: %d\\n";\n',
            f'fn {a}<T: {b}>({c}: &[u8]) -> Option<T> {{\n']))
    return ''.join(out)


def scripts(source):
    """Words of many scripts, each sentence in one, with the marks and the punctuation of the script."""
    marks = span(0x300, 0x30F)
    kinds = [
        (LATIN_MANY + list('àéîõüçñß'), ' ', '. '),
        (span(0x3B1, 0x3C9), ' ', '. '),
        (span(0x430, 0x44F), ' ', '. '),
        (span(0x5D0, 0x5EA), ' ', '. '),
        (span(0x627, 0x64A) + span(0x64B, 0x650), ' ', '۔ '),
        (span(0x915, 0x939) * 2 + span(0x93E, 0x94D), ' ', '। '),
        (span(0xE01, 0xE2E) * 2 + span(0xE30, 0xE3A) + span(0xE40, 0xE4E), '', ' '),
        (span(0xAC00, 0xD7A3), ' ', '. '),
        (span(0x4E00, 0x9FFF), '', '。'),
        (span(0x3042, 0x3093) + span(0x4E00, 0x4FFF)[::8], '', '。'),
        (span(0x30A2, 0x30F3) + ['ー'], '、', '。'),
        (span(0x1200, 0x1248), '፡', '። '),
        (span(0x61, 0x7A) + marks, ' ', '! '),
    ]
    out = []
    for _ in range(2400):
        letters, gap, end = source.choice(kinds)
        out.append(gap.join(some_words(source, letters, source.randint(3, 16), 1, 9)) + end)
        if source.random() < 0.1:
            out.append('\n')
    return ''.join(out)


def emoji(source):
    """Emoji: single ones, with modifiers and selectors, joined by ZWJ, keycaps, flags, a word between."""
    faces = span(0x1F600, 0x1F64F) + span(0x1F400, 0x1F4FF)
    people = ['\U0001F468', '\U0001F469', '\U0001F466', '\U0001F467', '\U0001F9D1']
    flags = span(0x1F1E6, 0x1F1FF)
    out = []
    for _ in range(48000):
        roll = source.random()
        if roll < 0.45:
            out.append(source.choice(faces))
        elif roll < 0.55:
            out.append(source.choice(people) + chr(0x1F3FB + source.randrange(5)))
        elif roll < 0.70:
            out.append('\u200D'.join(source.choices(people, k=source.randint(2, 4))))
        elif roll < 0.78:
            out.append('\u2764\uFE0F')
        elif roll < 0.88:
            out.append(source.choice(flags) + source.choice(flags))
        elif roll < 0.92:
            out.append(source.choice('0123456789#*') + '\uFE0F\u20E3')
        else:
            out.append(' ' + ''.join(source.choices(LATIN_MANY, k=source.randint(2, 7))) + ' ')
    return ''.join(out)


def letters(source):
    """One run of letters."""
    return ''.join(source.choices(LATIN_MANY, k=BLOCK))


def flags(source):
    """One run of regional indicators."""
    return ''.join(source.choices(span(0x1F1E6, 0x1F1FF), k=BLOCK))


TEXTS = {'prose': prose, 'code': code, 'scripts': scripts, 'emoji': emoji, 'letters': letters,
         'flags': flags}


def make_text(folder, kind, size):
    """The path of a text file of the kind with `size` characters, a multiple of BLOCK."""
    path = os.path.join(folder, f'{kind}-{size}.txt')
    if not os.path.exists(path):
        with open(path + '.part', 'w', encoding='utf-8', newline='') as file:
            for number in range(size // BLOCK):
                block = TEXTS[kind](random.Random(f'{kind} {number}'))
                if len(block) < BLOCK:
                    raise ValueError(f'{kind}: a block has {len(block)} characters alone')
                file.write(block[:BLOCK])
        os.rename(path + '.part', path)
    return path


# Rule files at the limits of the language, each with the property that it is made for.

def distinct_letters(count):
    return span(0x4E00, 0x4E00 + count - 1)


def doubling(names, use):
    """A chain of variables each of which is the one before it twice: 2 to the power of names - 1."""
    lines = ['$v0 = x;']
    lines += [f'$v{i} = $v{i - 1} $v{i - 1};' for i in range(1, names)]
    return '\n'.join(lines + [f'{use};', ''])


def many_rows():
    """One literal of 4,093 characters of 999 letters: 4,095 rows of 1,000 categories."""
    source = random.Random('rows')
    letters_ = [chr(0x4E00 + k) for k in range(999)]
    return "'" + ''.join(letters_ + source.choices(letters_, k=4093 - 999)) + "';\n"


def literal():
    source = random.Random('literal')
    return "'" + ''.join(source.choices(LATIN, k=4000)) + "';\n"


def rounds(count):
    """The counting rule: which of the last `count` characters were an a."""
    return '(a|b)*a' + '(a|b)' * count + ';\n'


def many_rules():
    """4,096 rules of two letters each."""
    letters_ = distinct_letters(64)
    return '\n'.join(a + b + ';' for a in letters_ for b in letters_) + '\n'


def many_statuses():
    """4,000 rules, each with a status number of its own: 4,001 status lists."""
    letters_ = distinct_letters(64)
    words = [a + b for a in letters_ for b in letters_][:4000]
    return ''.join(f'{word}{{{1000 + i}}};\n' for i, word in enumerate(words))


def many_leaves():
    """One rule of 8,192 leaves, whose sets are scripts and general categories in turn."""
    sets = ['L', 'Lu', 'Ll', 'Lt', 'Lm', 'Lo', 'M', 'Mn', 'Mc', 'N', 'Nd', 'Nl', 'No', 'P', 'Pc', 'Pd',
            'Ps', 'Pe', 'Pi', 'Pf', 'Po', 'S', 'Sm', 'Sc', 'Sk', 'So', 'Zs', 'Cc', 'Cf', 'Latin', 'Greek',
            'Cyrillic', 'Hebrew', 'Arabic', 'Devanagari', 'Bengali', 'Tamil', 'Thai', 'Tibetan',
            'Georgian', 'Hangul', 'Ethiopic', 'Cherokee', 'Khmer', 'Mongolian', 'Hiragana', 'Katakana',
            'Han', 'Armenian']
    seq = ' '.join(f'\\p{{{sets[i % len(sets)]}}}' for i in range(64))
    return '\n'.join([f'$part = {seq};', '|'.join(['$part'] * 128) + ';', ''])


def many_lookaheads():
    """32 rules with a look-ahead, and one for everything else."""
    letters_ = distinct_letters(33)
    return ''.join(f'{letters_[i]} / {letters_[i + 1]};\n' for i in range(32)) + '.;\n'


def one_lookahead():
    letters_ = distinct_letters(2)
    return f'{letters_[0]} / {letters_[1]};\n.;\n'


LIMITS = {
    'leaves': (many_leaves, '8,192 leaves, sets of scripts and categories'),
    'sets10': (lambda: rounds(10), '(a|b)*a and 10 times (a|b), 2,049 rows'),
    'sets13': (lambda: rounds(13), '(a|b)*a and 13 times (a|b), refused as TooManyRows'),
    'sets14': (lambda: rounds(14), '(a|b)*a and 14 times (a|b), refused as TooManySets'),
    'rows': (many_rows, '4,095 rows of 1,000 categories'),
    'literal': (literal, 'a literal of 4,000 characters'),
    'rules': (many_rules, '4,096 rules'),
    'statuses': (many_statuses, '4,001 status lists'),
    'lookaheads': (many_lookaheads, '32 look-ahead rules'),
    'onelookahead': (one_lookahead, '1 look-ahead rule'),
    'doubling14': (lambda: doubling(14, '$v13'), '8,192 leaves by 14 doublings, refused as TooManyRows'),
    'doubling15': (lambda: doubling(15, '$v14'), '16,384 leaves by 15 doublings, refused'),
    'doubling60': (lambda: doubling(60, '$v59'), '60 doublings, refused'),
}

# Rule files of 1 MiB for the front end.

MIB = 1 << 20


def padded(text):
    """A rule file of exactly 1 MiB."""
    return text + ' ' * (MIB - len(text.encode('utf-8')))


def repeat(piece, head='', tail=''):
    count = (MIB - len((head + tail).encode('utf-8'))) // len(piece.encode('utf-8'))
    return padded(head + piece * count + tail)


def big_set():
    """A set of every second letter from U+0400 on, as many as fit."""
    out, size, code = ['['], 4, 0x400
    while size + 4 <= MIB and code < 0x10FFFF:
        if not 0xD800 <= code <= 0xDFFF and code not in (0x200E, 0x2028):
            out.append(chr(code))
            size += len(chr(code).encode('utf-8'))
        code += 2
    return padded(''.join(out) + '];')


def operands(form, head='[', tail='];'):
    """One set with as many operands as fit, each of the form with a character of its own. No two of
    the characters are neighbours."""
    out, room, code = [head], MIB - len((head + tail).encode('utf-8')), 0x10000
    size = len(form.replace('@', chr(code)).encode('utf-8'))
    while room >= size and code < 0x10FFFF:
        out.append(form.replace('@', chr(code)))
        room, code = room - size, code + 2
    return padded(''.join(out) + tail)


def variables(form, head=''):
    """As many variables as fit, each a set of the form, with a character of its own where that has
    one. No two of the characters are neighbours."""
    letters = string.ascii_letters
    names = (a + b + c for a in letters for b in letters for c in letters)
    out, room, code = [head], MIB - 2 - len(head), 0x10000
    for name in names:
        statement = f'${name}={form};'.replace('@', chr(code))
        size = len(statement.encode('utf-8'))
        if room < size:
            break
        out.append(statement)
        room, code = room - size, code + 2
    return padded(''.join(out) + 'b;')


def spellings():
    """One set of the property of letters, spelled in another way each time."""
    names = (''.join(gaps) for gaps in itertools.product('_- ', repeat=10))
    return padded('[' + ''.join(f'\\p{{L{gaps}}}' for gaps in names) + '];')


# Two variables of sets with many ranges.
LARGE = '$v=[\\p{L}];$w=[\\p{Lu}];'

# A variable of 100,000 letters, no two of which are neighbours.
MANY = '$v=[' + ''.join(chr(code) for code in range(0x30000, 0x30000 + 200000, 2)) + '];'


def apart(count):
    """A variable of so many letters, no two of which are neighbours, each in a set of its own."""
    return '$v=[' + ''.join(f'[{chr(0x80000 + 2 * i)}]' for i in range(count)) + '];'


def overlapping():
    """One set of sets of one range, from a random character to another further behind."""
    source = random.Random('overlapping')
    out, room = ['['], MIB - 3
    while room >= 10:
        piece = f'[{chr(source.randrange(0x800, 0xD7FF))}-{chr(source.randrange(0x20000, 0x10FFFF))}]'
        out.append(piece)
        room -= len(piece.encode('utf-8'))
    return padded(''.join(out) + '];')


def combinations():
    """Variables of what some of eight sets of 12,000 random letters have, with one letter beside."""
    source = random.Random('combinations')
    letters_ = [chr(0x20000 + 2 * i) for i in range(60000)]
    out = [f'${name}=[{"".join(sorted(source.sample(letters_, 12000)))}];' for name in 'ABCDEFGH']
    names = (a + b + c for a in string.ascii_lowercase for b in string.ascii_letters
             for c in string.ascii_letters)
    room = MIB - 2 - sum(len(piece.encode('utf-8')) for piece in out)
    for name in names:
        parts = ''.join(source.choice(['', '-', '&']) + '$' + source.choice('ABCDEFGH')
                        for _ in range(4)).lstrip('-&')
        piece = f'${name}=[{parts}[b]];'
        if room < len(piece):
            break
        out.append(piece)
        room -= len(piece)
    return padded(''.join(out) + 'b;')



def large_leaves():
    """4,096 rules of two leaves, each with a letter of its own beside the many or lacking both."""
    letters_ = [chr(0x10000 + 2 * i) for i in range(4096)]
    return padded(MANY + ''.join(f'[{letter}$v][^{letter}$v];' for letter in letters_))


FRONT = {
    'statements': (lambda: repeat('a;'), '524,288 times `a;`'),
    'empty': (lambda: repeat(';', tail='a;'), 'a million empty statements'),
    'sequence': (lambda: repeat('a', '$x=', ';b;'), 'one sequence of a million letters'),
    'groups': (lambda: repeat('(' * 63 + 'a' + ')' * 63, '$x=', ';b;'), 'groups nested 63 deep'),
    'set': (big_set, 'one set of 270,000 letters'),
    'ranges': (lambda: repeat('a-z', '[', '];'), 'one set of 350,000 ranges'),
    'properties': (lambda: repeat('\\p{Lu}\\p{Nd}', '[', '];'), 'one set of 170,000 properties'),
    'alternating': (lambda: repeat('\\p{Lu}-\\p{Lu}', '[\\p{L}', '];'),
                    'one set that adds a property and takes it away 80,000 times'),
    'categories': (lambda: repeat('\\p{Lu}\\p{Ll}-\\p{Lu}\\p{Lu}-\\p{Ll}', '[\\p{L}', '];'),
                   'one set that adds two properties and takes them away 33,000 times'),
    'nested': (lambda: operands('[@]'), 'one set of 170,000 sets of one letter'),
    'taken': (lambda: operands('-[@]', '[[\\p{L}]'), 'one set with 150,000 letters taken away'),
    'met': (lambda: operands('&[^@]', '[[\\p{L}]'), 'one set that 130,000 others are met with'),
    'differences': (lambda: operands('[\\p{L}-[@]]'),
                    'one set of 75,000 sets that lack one letter'),
    'cut': (lambda: repeat('&\\p{L}', '[\\p{L}', '];'), 'one set met with a property 170,000 times'),
    'named': (lambda: repeat('$v', '$v=[\\p{L}];[', '];'), 'one set of 500,000 times one variable'),
    'inturn': (lambda: repeat('$v$w', LARGE + '[', '];'),
               'one set of two variables in turn, 500,000 times in all'),
    'spellings': (spellings, 'one set of 59,000 spellings of one property'),
    'inner': (lambda: repeat('[\\p{L}-\\p{Lu}]', '[', '];'),
              'one set of 75,000 sets, each a property without another'),
    'pairs': (lambda: repeat('[$v$w]', LARGE + '[', '];'),
              'one set of 175,000 sets of two variables'),
    'common': (lambda: operands('[@$v&$w]', LARGE + '['),
               'one set of 95,000 sets of what two variables have in common, and a letter'),
    'lacking': (lambda: operands('[^@$v-$w]', LARGE + '['),
                'one set of 87,000 negated sets of a variable without another, and a letter'),
    'deep': (lambda: repeat('[^' * 60 + '\\p{L}' + ']' * 60, '[', '];'),
             'one set of 5,600 sets negated 60 deep'),
    'wide': (lambda: operands('[@$v&$v]', MANY + '['),
             'one set of 59,000 sets of a variable of 100,000 letters, twice, and a letter'),
    'complements': (lambda: repeat('[^$v]', MANY + '[', '];'),
                    'one set of 130,000 complements of a variable of 100,000 letters'),
    'meets': (lambda: repeat('[$v&$v]', MANY + '[', '];'),
              'one set of 92,000 sets of a variable of 100,000 letters met with itself'),
    'others': (lambda: operands('[^@]'), 'one set of 150,000 complements of one letter'),
    'apart': (lambda: repeat('$v', apart(80000) + '[', '];'),
              'one set of 280,000 times a variable of 80,000 letters, each in a set of its own'),
    'lackingmany': (lambda: operands('[^@$v]', apart(20000) + '['),
                    'one set of 103,000 complements of a variable of 20,000 such letters, and a letter'),
    'overlapping': (overlapping, 'one set of 100,000 sets of a range each, which overlap'),
    'combinations': (combinations, '31,000 variables of what eight sets of 12,000 random letters have'),
    'leaves': (large_leaves, '8,192 leaves, each with a set of 100,000 ranges of its own'),
    'variables': (lambda: variables('[\\p{L}]'), '80,000 variables of one property'),
    'without': (lambda: variables('[\\p{L}-\\p{Lu}]'),
                '52,000 variables, each a property without another'),
    'different': (lambda: variables('[\\p{L}@]'),
                  '60,000 variables of one property and a letter each'),
    'joined': (lambda: variables('[@$v$w]', LARGE),
               '65,000 variables of two others and a letter each'),
    'lone': (lambda: repeat('[\\p{L}];'), '130,000 rules of one property, refused'),
    'samename': (lambda: '$x=' + '\\p{L}' * 40000 + ';b;', '40,000 times \\p{L} in a sequence'),
    'names': (lambda: repeat('$ab', '$ab=[a-z];$x=', ';b;'), 'one sequence of 350,000 names'),
}


def make_rules(folder, name, make):
    path = os.path.join(folder, f'{name}.rules')
    text = make()
    with open(path, 'w', encoding='utf-8', newline='') as file:
        file.write(text)
    return path


# Scripts and tests.

def edit_script(size, edits, asked):
    """Edits of one character at random places of a text of `size` characters, each with a question."""
    source = random.Random(f'edits {size}')
    lines = []
    for i in range(edits):
        place = source.randrange(size - 1)
        lines.append(f'replace {place} 1 x')
        if asked:
            lines.append(f'following {source.randrange(size)}')
    return '\n'.join(lines) + '\n'


# A character of one, two, three and four bytes.
OF_SIZE = {1: 'x', 2: '\u00E9', 3: '\u0E01', 4: '\U0001D11E'}


@functools.lru_cache(maxsize=1)
def text_of(path):
    with open(path, encoding='utf-8') as file:
        return file.read()


def unit_script(path, count, edits, unit):
    """Questions at random places of a text, in characters or in bytes, each with an edit before it where
    `edits` says so. An edit puts a character in place of one of as many bytes, so that all characters
    begin where they began."""
    text = text_of(path)
    source = random.Random(f'units {len(text)}')
    places = [source.randrange(len(text)) for _ in range(count * (2 if edits else 1))]
    starts = dict(zip(places, places))
    if unit == 'utf8':
        start, before = 0, 0
        for place in sorted(starts):
            start, before = start + len(text[before:place].encode()), place
            starts[place] = start
    lines = []
    for number, place in enumerate(places):
        if edits and number % 2 == 0:
            size = len(text[place].encode())
            lines.append(f'replace {starts[place]} {size if unit == "utf8" else 1} {OF_SIZE[size]}')
        else:
            lines.append(f'following {starts[place]}')
    return '\n'.join(lines) + '\n'


def abbreviations(count):
    """A file of so many abbreviations: words of the prose, each with a full stop."""
    words = some_words(random.Random('prose 0'), LATIN_MANY, 3000, 1, 11)
    return ''.join(f'{word}.\n' for word in list(dict.fromkeys(words))[10:10 + count])


def pairs(count):
    """A file of so many pairs: letters past ASCII, each turned into a letter of ASCII."""
    return ''.join(f'{0x100 + number:04X} ; {0x61 + number % 26:04X}\n' for number in range(count))


def question_script(size, count, number):
    """Questions at random places of a text of `size` characters: `following`, `preceding` and `is` in
    turn. Scripts of two numbers have other places."""
    source = random.Random(f'questions {size} {number}')
    words = itertools.cycle(('following', 'preceding', 'is'))
    return ''.join(f'{next(words)} {source.randrange(1, size)}\n' for _ in range(count))


# The calls of a session, by what bench/table.py names them, and how many of each a script has, of at most 1 MiB.
CALL_LINES = {
    'next': ('next', 100_000), 'previous': ('previous', 100_000), 'following': ('following {0}', 50_000),
    'preceding': ('preceding {0}', 50_000), 'is_boundary': ('is {0}', 50_000),
    'change': ('replace {0} 1 x\npreceding {1}\nfollowing {0}', 16_000),
}


def call_script(size, call, count):
    """So many of one call over a text of `size` characters: from the middle, or at random places."""
    source = random.Random(f'calls {size}')
    places = (source.randrange(size) for _ in range(count))
    line, _ = CALL_LINES[call]
    return f'following {size // 2}\n' + ''.join(line.format(place, place + 1) + '\n' for place in places)


def write_file(folder, name, text):
    path = os.path.join(folder, name)
    with open(path, 'w', encoding='utf-8', newline='') as file:
        file.write(text)
    return path


def make_big_table(folder):
    """A valid table file near the largest: all ranges of one code point, and status lists as long as
    they fit. By each category one half of its rows leads to the whole other half, and that half to
    one row. So all pairs are safe, and each takes as many comparisons as can be."""
    path = os.path.join(folder, 'big.table')
    if os.path.exists(path):
        return path
    categories, rows, lists, ranges = 1000, 4095, 4095, 0x110000
    half = (rows - 1) // 2

    def number(value, size):
        return value.to_bytes(size, 'little')

    def cells(row):
        if row == 0:
            return [0] * categories
        if row > half:
            return [half + 1] * categories
        return [half + 1 + (row + 7 * category) % (rows - 1 - half) for category in range(categories)]
    with open(path + '.part', 'wb') as file:
        file.write(bytes.fromhex('5242424954424C02'))
        file.write(number(categories, 2) + number(ranges, 4) + number(lists, 2) + number(rows, 2)
                   + number(0, 2))
        file.write(b''.join(number(code, 4) + number(code % categories, 2) for code in range(ranges)))
        file.write(number(1, 2) + number(0, 4))
        every = b''.join(number(value, 4) for value in range(2 * 4096))
        for first in range(1, lists):
            file.write(number(4096, 2) + every[4 * first:4 * (first + 4096)])
        for row in range(rows):
            ends = row > 1
            file.write(number(int(ends), 2) + number(0, 4) + number(row - 1 if ends else 0, 2))
            file.write(b''.join(number(next_, 2) for next_ in cells(row)))
        bits = categories * categories
        file.write(b'\xFF' * (bits // 8))
    os.rename(path + '.part', path)
    return path
