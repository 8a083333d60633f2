#!/usr/bin/python3
"""Compares the rule files for lines with ICU 72's iterators, over Unicode 15.0.

    beside_icu.py [--texts N] [--seed N] [--data FOLDER] [--corpus FILE]..

It needs python3-icu with ICU 72, and the C library (RBBI_LIBRARY). The rule files are 15.0/line.rules with
the edits of ICU (EDITS_OF_ICU), tailored for each name by tailored.py. N random texts are drawn for
each name, as `compare.py` draws them, a third of their characters of those that some name tailors;
they have no character of class SA, which ICU looks up in a dictionary, and no ZWJ after a regional
indicator, past which ICU counts these anew. FILEs are texts in UTF-8, less
their characters of class SA and those that 15.0 doesn't assign. Places and statuses must be the same;
each text that differs is told. The status is 1 if one does.
"""
import argparse
import os
import random
import sys

sys.dont_write_bytecode = True
import icu  # noqa: E402

import compare  # noqa: E402
import files  # noqa: E402
import models  # noqa: E402
import tailored  # noqa: E402

sys.path.insert(0, os.path.join(files.HERE, '..', 'python', 'src'))
import rbbi  # noqa: E402

LOCALES = {
    'line-strict': ('en', 'en@lb=strict'),
    'line-normal': ('ja', 'en@lb=normal'),
    'line-loose': ('en@lb=loose', 'ko@lb=loose'),
    'line-cj': ('zh', 'ja@lb=strict'),
    'line-normal-cj': ('ja@lb=normal', 'zh@lb=normal'),
    'line-loose-cj': ('ja@lb=loose', 'zh@lb=loose'),
}

# Where the rules of ICU 72 aren't those of 15.0/line.rules: as in later versions of the annex there is no
# break after a hyphen that begins a word, nor between IS and a number, but one before that IS after spaces.
EDITS_OF_ICU = [
    [('$SY $X $HL; ', '^[$HY \\u2010] $X $AL;\n$SY $X $HL; ')],
    [('$X ([$OP $HY] $X)? $NU; ', '$X ([$OP $HY] $X)? ($IS $X)? $NU; ')],
    [('[$OP $HY] $X $NU; ', '[$OP $HY $IS] $X $NU; ')],
    [('.;  ', '([$Base - $OP] $X | $OP $X $SP+ $Mark+) $SP+ / $IS $X $NU;\n^$Mark* $SP+ / $IS $X $NU;\n.;  ')],
]

SPECIAL = [int(code, 16) for code in '''2010 2013 201C 201D 2018 2019 FF01 FF1F 301C 30A0 3005 303B 309D 309E
    30FD 30FE 203C 2047 2048 2049 30FB FF1A FF1B FF65 A4 B1 20AC 2116 FE69 FF04 FFE1 FFE5 FFE6 B0 2030 2032 2033
    2035 2103 2109 FE6A FF05 FFE0 24 25 2024 2026 22EF 3041 30FC FF6F 31F0 4E00 3042 61 31 28 29 20 2E 2D 300C
    300D 3001 301 200D 5D0 2014'''.split()]


def is_left_out(model, code):
    return 0xD800 <= code <= 0xDFFF or model.classes(code)[0] == 'SA'


def drawn(model, source):
    """A random text that ends with a line feed."""
    text = compare.draw_text(model, source, source.random() < 0.5)[:-1]
    mixed = [source.choice(SPECIAL) if source.random() < 0.33 else code for code in text]
    kept, after_flag = [], False
    for code in mixed:
        kind = model.classes(code)[0]
        if kind == 'SA' or 0xD800 <= code <= 0xDFFF or kind == 'ZWJ' and after_flag:
            continue
        kept.append(code)
        after_flag = kind == 'RI' or kind == 'CM' and after_flag
    return kept + [compare.LINE_FEED]


def by_icu(locale, text):
    """The boundaries of a text by ICU, in characters, with their statuses."""
    iterator = icu.BreakIterator.createLineInstance(icu.Locale(locale))
    iterator.setText(icu.UnicodeString(text))
    found, at, units = [], 0, 0
    for place in iterator:
        while units < place:
            units += 2 if ord(text[at]) > 0xFFFF else 1
            at += 1
        found.append((at, iterator.getRuleStatus()))
    return found


def table_of(name, data):
    """The table of a name over 15.0, with the edits of ICU."""
    rules = files.rules_of('line', True)
    with open(rules, encoding='utf-8') as file:
        text = tailored.edited(file.read(), tailored.EDITS.get(name, []) + EDITS_OF_ICU)
    words = files.options(rules, data)[1::2]
    rows = []
    for word in words:
        prop, _, path = word.partition('=')
        with open(path, 'rb') as file:
            rows.append((prop, file.read()))
    return rbbi.Table.compile(text, rows)


def differing(name, locale, table, texts, most=3):
    """How many of some texts differ; the first are told."""
    whole = ''.join(chr(code) for text in texts for code in text)
    places, statuses = table.boundaries(whole)
    ours, theirs = list(zip(places, statuses)), by_icu(locale, whole)
    if ours == theirs:
        return 0
    ours, theirs = set(ours), set(theirs)
    start = count = 0
    for text in texts:
        end = start + len(text)
        mine, icus = (sorted((p - start, s) for p, s in found if start < p <= end) for found in
                      ({it for it in ours if start < it[0] <= end}, {it for it in theirs if start < it[0] <= end}))
        if mine != icus:
            count += 1
            if count <= most:
                print(f'{name} {locale}: ' + ' '.join(f'{c:04X}' for c in text) + f'\n  ours {mine}\n  ICU  {icus}')
        start = end
    return count


def main():
    parser = argparse.ArgumentParser(usage=__doc__.split('\n\n')[1].strip())
    parser.add_argument('--texts', type=int, default=100000)
    parser.add_argument('--seed', type=int, default=1)
    parser.add_argument('--data', default='/usr/share/unicode')
    parser.add_argument('--corpus', action='append', default=[])
    arguments = parser.parse_args()
    model = models.line(arguments.data, True)
    general = models.Property(arguments.data, 'DerivedGeneralCategory.txt', 'Cn')
    corpus = []
    for path in arguments.corpus:
        with open(path, encoding='utf-8') as file:
            corpus += [[ord(c) for c in line if not is_left_out(model, ord(c)) and general.of(ord(c)) != 'Cn']
                       for line in file.read().splitlines(True)]
    wrong = 0
    for name, locales in LOCALES.items():
        table = table_of(name, arguments.data)
        for locale in locales:
            source, left, differ = random.Random(f'{arguments.seed} {name}'), arguments.texts, 0
            while left > 0:
                count = min(left, 500)
                differ += differing(name, locale, table, [drawn(model, source) for _ in range(count)], 3 - differ)
                left -= count
            of_corpus = differing(name, locale, table, corpus) if corpus else 0
            print(f'{name} beside {locale}: texts {arguments.texts} differing {differ}; lines {len(corpus)} '
                  f'differing {of_corpus}')
            wrong += differ + of_corpus
    return 1 if wrong else 0


if __name__ == '__main__':
    sys.exit(main())
