#!/usr/bin/env python3
"""Compares the rule files of this folder with plain models of the annexes that they render.

    compare.py [--15.0] [--data FOLDER] [--tests FOLDER] [--texts N] [--seed N] [--batch N]
               [--only NAME [--classes CLASS,..]] [--kit PROGRAM] [COMMAND WORD..]
    compare.py --only NAME --without RULE,.. [--instead LINE]..

First each model is run over Unicode's test file of 15.0, which --tests has, and must differ where
README.md lists a line as changed since. Then N random texts of each of two sorts are broken by the
model and by the engine, and each boundary and status that differs is told: texts of characters drawn
evenly over the classes of the annex's property, and texts drawn evenly over a few of them, or over
those that `--classes` names.

The engine is a command with words, `bin/rbbi breaks` where none is given. It gets the options
`--prop NAME=FILE` that the rule file's head names, the rule file and a text file, and writes a line
`PLACE STATUS,..` for each boundary. Many texts stand in one file, each with a line feed behind it:
in all four annexes nothing in front of a line feed counts behind it. With --kit the program that
crates/rbbi_unicode makes breaks the texts too: by the kit's `unicode_segmentation`, and for lines by
the definition of crates/rbbi_annexes, with statuses and over the tests too.

With --without no text is broken. The tests are run with the model without these rules, or with the lines
of --instead in their place, and it prints how many lines that come out right by the whole model then don't:
how many lines confirm these rules.

The data are those of unicode/. With --15.0 the rules and models are those of Unicode 15.0, and FOLDER
holds its data. The status is 1 where anything differs.
"""
import argparse
import itertools
import os
import random
import subprocess
import sys
import tempfile

sys.dont_write_bytecode = True
import files  # noqa: E402
import models  # noqa: E402

LINE_FEED = 10


def read_tests(name, folder):
    """Unicode's tests: the number of each one's line, its text, and the places of its boundaries."""
    with open(files.tests_of(name, folder), encoding='utf-8') as lines:
        for number, line in enumerate(lines, 1):
            words = line.split('#')[0].split()
            if words:
                text = [int(word, 16) for word in words[1::2]]
                yield number, text, [0] + [i for i, mark in enumerate(words[2::2], 1) if mark == '÷']


def check_tests(model, arguments):
    """Runs a model over Unicode's test file, and returns how many tests come out as they must not."""
    changed = set() if arguments.is_15 else files.changed_tests(model.name)
    tests = wrong = 0
    for number, text, marks in read_tests(model.name, arguments.tests):
        tests += 1
        if (model.boundaries(text) == marks) == (number in changed):
            wrong += 1
            print(f'{model.name}: line {number} of the tests comes out as it must not')
    print(f'{model.name}: model over the tests: {tests}, of which changed {len(changed)} wrong {wrong}')
    return wrong


def count_confirming(make, arguments):
    """Prints how many tests come out right by the whole model alone, and not without some of its rules."""
    whole, other = (make(arguments.data, arguments.is_15) for _ in range(2))
    lines, left_out = whole.text.strip().split('\n'), arguments.without.split(',')
    first = next(at for at, line in enumerate(lines) if line.split()[0] in left_out)
    lines[first:first] = arguments.instead
    other.read('\n'.join(line for line in lines if line in arguments.instead or line.split()[0] not in left_out))
    tests = list(read_tests(whole.name, arguments.tests))
    right = [(number, text, marks) for number, text, marks in tests if whole.boundaries(text) == marks]
    lost = [number for number, text, marks in right if other.boundaries(text) != marks]
    print(f'{whole.name}: tests {len(tests)} right {len(right)}, of which {len(lost)} not without {arguments.without}')


def draw_text(model, source, few, classes=()):
    """A random text: 1 to 20 characters of classes of the property, and a line feed."""
    values = sorted(model.samples)
    if few:
        values = list(classes) or source.sample(values, source.randint(2, 6))
    text = []
    for _ in range(source.randint(1, 20)):
        tuples = model.samples[source.choice(values)]
        ranges = tuples[source.choice(sorted(tuples))]
        first, last = source.choice(ranges)
        text.append(source.randint(first, last))
    return text + [LINE_FEED]


def run_engine(command, texts, folder):
    """The boundaries of some texts in one file by the engine, as pairs of place and statuses."""
    path = os.path.join(folder, 'texts')
    with open(path, 'wb') as file:
        file.write(''.join(chr(code) for text in texts for code in text).encode('utf-8'))
    run = subprocess.run(command + [path], stdout=subprocess.PIPE, check=False)
    if run.returncode != 0:
        sys.stdout.buffer.write(run.stdout)
        sys.exit(f'the engine ended with status {run.returncode}')
    found = []
    for line in run.stdout.decode().splitlines():
        place, statuses = line.split(' ')
        found.append((int(place), [int(status) for status in statuses.split(',')]))
    return found


def expected(model, texts):
    """The boundaries of the same file by the model."""
    found, start = [(0, [0])], 0
    for text in texts:
        found += [(start + place, statuses) for place, statuses in model.segments(text)[1:]]
        start += len(text)
    return found


def tell(name, texts, found, wanted):
    """Tells which texts of a batch differ, and returns how many."""
    start = differing = 0
    for text in texts:
        end = start + len(text)
        ours = [(place - start, statuses) for place, statuses in found if start < place <= end]
        theirs = [(place - start, statuses) for place, statuses in wanted if start < place <= end]
        if ours != theirs:
            differing += 1
            codes = ' '.join(f'{code:04X}' for code in text)
            print(f'{name}: {codes}\n  rules {ours}\n  model {theirs}')
        start = end
    return differing


def run_kit(name, program, texts, folder):
    """The starts of the segments of some texts in one file by the kit, each with its status if there is one."""
    path = os.path.join(folder, 'texts')
    with open(path, 'wb') as file:
        file.write(''.join(chr(code) for text in texts for code in text).encode('utf-8'))
    run = subprocess.run([program, name, path], stdout=subprocess.PIPE, check=True)
    lines = [[int(word) for word in line.split()] for line in run.stdout.splitlines()]
    found = {line[0]: line[1:] for line in lines}
    sizes = [len(chr(code).encode('utf-8')) for text in texts for code in text]
    bytes_at = itertools.accumulate(sizes, initial=0)
    return {0: [], **{place: found[byte] for place, byte in enumerate(bytes_at) if byte in found}}


def check_kit(name, program, texts, folder, wanted):
    """Compares the kit's boundaries with the model's, and returns how many texts differ."""
    found, ends = run_kit(name, program, texts, folder), dict(wanted)
    start = differing = 0
    for text in texts:
        at = range(start, start + len(text))
        if any((place in ends) != (place in found) or found.get(place) not in ([], ends.get(place))
               for place in at if place in ends or place in found):
            differing += 1
            print(f'{name}: the kit differs: ' + ' '.join(f'{code:04X}' for code in text))
        start += len(text)
    return differing


def check_kit_tests(name, program, arguments):
    """Runs the definition of line breaks over Unicode's tests, and returns how many come out as they must not."""
    rows = list(read_tests(name, arguments.tests))
    changed, start, wrong = files.changed_tests(name), 0, 0
    with tempfile.TemporaryDirectory() as folder:
        found = run_kit(name, program, [text + [LINE_FEED] for _, text, _ in rows], folder)
    for number, text, marks in rows:
        inside = [place for place in range(1, len(text)) if start + place in found]
        if (inside == marks[1:-1]) == (number in changed):
            wrong += 1
            print(f'{name}: line {number} of the tests comes out as it must not by the definition')
        start += len(text) + 1
    print(f'{name}: definition over the tests: {len(rows)}, of which changed {len(changed)} wrong {wrong}')
    return wrong


def check_texts(model, command, arguments):
    """Compares an engine with a model over random texts, and returns how many texts differ."""
    rules = files.rules_of(model.name, arguments.is_15)
    command = command + files.options(rules, arguments.data) + [rules]
    has_kit = arguments.kit and not arguments.is_15 and '-' not in model.name
    differing = by_kit = 0
    with tempfile.TemporaryDirectory() as folder:
        for few in (False, True):
            source = random.Random(f'{arguments.seed} {model.name} {few}')
            left = arguments.texts
            while left > 0:
                count = min(left, arguments.batch)
                texts = [draw_text(model, source, few, arguments.classes) for _ in range(count)]
                found, wanted = run_engine(command, texts, folder), expected(model, texts)
                if found != wanted:
                    differing += tell(model.name, texts, found, wanted)
                if has_kit:
                    by_kit += check_kit(model.name, arguments.kit, texts, folder, wanted)
                left -= count
    print(f'{model.name}: rules against model: texts {2 * arguments.texts} differing {differing}')
    if has_kit:
        print(f'{model.name}: kit against model: texts {2 * arguments.texts} differing {by_kit}')
    return differing + by_kit


def main():
    parser = argparse.ArgumentParser(usage=__doc__.split('\n\n')[1].strip())
    parser.add_argument('--15.0', dest='is_15', action='store_true')
    parser.add_argument('--data')
    parser.add_argument('--tests', default='/usr/share/unicode')
    parser.add_argument('--texts', type=int, default=100000)
    parser.add_argument('--seed', type=int, default=1)
    parser.add_argument('--batch', type=int, default=10000)
    parser.add_argument('--only', default='')
    parser.add_argument('--classes', default=(), type=lambda word: word.split(','))
    parser.add_argument('--kit')
    parser.add_argument('--without', default='')
    parser.add_argument('--instead', action='append', default=[])
    parser.add_argument('command', nargs=argparse.REMAINDER)
    arguments = parser.parse_args()
    arguments.data = arguments.data or (arguments.tests if arguments.is_15 else files.DATA)
    command = arguments.command or [os.path.join(files.HERE, '..', 'bin', 'rbbi'), 'breaks']
    differing = 0
    for make in models.MODELS:
        if arguments.without:
            if arguments.only == make.__name__:
                count_confirming(make, arguments)
        elif arguments.only in ('', make.__name__):
            model = make(arguments.data, arguments.is_15)
            if '-' not in model.name:  # Unicode has no tests of a tailoring
                differing += check_tests(model, arguments)
            if arguments.kit and model.name == 'line' and not arguments.is_15:
                differing += check_kit_tests(model.name, arguments.kit, arguments)
            if arguments.texts:
                differing += check_texts(model, command, arguments)
    sys.exit(1 if differing else 0)


if __name__ == '__main__':
    main()
