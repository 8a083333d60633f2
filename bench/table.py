"""The lines of the table, in groups: what is measured, and the target of each line that has one."""
import dataclasses
import itertools
import math
import os
import subprocess
import sys

import inputs
from harness import MIB, NOT_BUILT, Line, both_verdicts, rate_text, size_text, time_text, verdict
from measure import Result, held, measure

ONE_MILLION, TWELVE_MILLION = inputs.SIZES.values()

# How many questions are asked by units, same, tally, without edits and with one before each: a script has at most 1 MiB.
UNIT_QUESTIONS = {False: 51_000, True: 21_000}


def start(bench):
    yield Line('start and end of the program, with no words', time_text(bench.seconds([])))


def texts(bench):
    """Each rule file over each text. Reading and printing are in the characters a second; the start
    of the program and the compiling of the rules aren't, since two sizes are compared."""
    ratios = []
    for name in ('letters', 'words', 'grapheme', 'word', 'sentence', 'line'):
        path, props, theirs = bench.rules(name)
        words = ['breaks'] + props + [path]
        lacking = bench.lacking(words + [bench.tiny()])
        for kind in inputs.TEXTS:
            paths = [inputs.make_text(bench.folder, kind, size) for size in bench.sizes]
            line = Line(f'`breaks`, {name}.rules, {kind}, {bench.sizes[-1] // 1_000_000} M', lacking,
                        target='2 times ICU')
            rate = None
            if not lacking:
                results = [bench.run(words + [text]) for text in paths]
                rate = bench.rate(results)
                line.time, line.rate = time_text(results[-1].seconds), rate_text(rate)
                line.peak = size_text(results[-1].peak)
            if bench.icu:
                icu = bench.rate([bench.best([bench.icu, 'breaks', theirs, text]) for text in paths])
                alone = bench.icu_answer(['scan', theirs, paths[0], '5'])[1]
                loop = rate_text(bench.sizes[0] / max(alone, 1e-9))
                line.icu = f'{rate_text(icu)} (loop alone {loop})'
                if rate:
                    ratios.append(rate / icu)
                    line.ratio = f'{rate / icu:.2f}'
                    line.verdict = 'met' if rate / icu >= 2 else f'{rate / icu:.2f} times'
            yield line
    if ratios:
        yield mean_of(ratios, 3)


def mean_of(ratios, target):
    """The geometric mean of the ratios of the lines before."""
    mean = math.exp(sum(map(math.log, ratios)) / len(ratios))
    return Line('the geometric mean of these', ratio=f'{mean:.2f}', target=f'{target} times ICU',
                verdict='met' if mean >= target else f'{mean:.2f} times')


def printing(bench):
    """Many boundaries, and the memory that a character takes."""
    rules = bench.file('z.rules', 'z;\n')
    text = inputs.make_text(bench.folder, 'letters', TWELVE_MILLION)
    yield bench.below('`breaks` of 12 M boundaries', ['breaks', rules, text], 1.0)
    for name in ('letters', 'word'):
        path, props, _ = bench.rules(name)
        words = ['breaks'] + props + [path]
        line = Line(f'`breaks`, {name}.rules: memory a character, beside the file, with the output',
                    bench.lacking(words + [bench.tiny()]), target='4.5 bytes')
        if not line.time:
            held = []
            for size in (ONE_MILLION, TWELVE_MILLION):
                text = inputs.make_text(bench.folder, 'prose', size)
                out = os.path.join(bench.folder, 'printed')
                result = measure(bench.program + words + [text], out)
                held.append(result.peak - os.path.getsize(text))
            each = (held[1] - held[0]) / (TWELVE_MILLION - ONE_MILLION)
            line.peak, line.verdict = f'{each:.1f} bytes', verdict(each, 4.5)
        yield line


def compiling(bench):
    """Rules to a table, without the reading of property files, and the table's loading."""
    one = bench.file('one.rules', 'a;\n')
    for name, target in (('words', None), ('grapheme', None), ('word', 0.020), ('sentence', None),
                         ('line', 0.060)):
        path, props, theirs = bench.rules(name)
        table = os.path.join(bench.folder, f'{name}.table')
        words = ['compile'] + props + [path, table]
        line = Line(f'`compile`, {name}.rules, property files apart', bench.lacking(words),
                    target=time_text(target) if target else '')
        seconds = None
        if not line.time:
            result = bench.run(words)
            seconds = max(result.seconds - bench.seconds(['check'] + props + [one]), 1e-6)
            line.what += f', a table of {os.path.getsize(table):,} bytes'
            line.time, line.peak = time_text(seconds), size_text(result.peak)
            line.verdict = verdict(seconds, target) if target else ''
        yield bench.beside_icu(line, theirs, 5, seconds)
    none, written = ('/dev/null', os.path.join(bench.folder, 'one.table'))
    alone, *others = (min(measure(bench.program + words).seconds for _ in range(40))
                      for words in (['check', one], ['compile', one, none], ['compile', one, written]))
    for what, seconds in zip(('into /dev/null', 'into a file'), others):
        yield Line(f'`compile` of the one rule `a;` {what}, over `check` of it, the least of 40 each',
                   f'{1e6 * max(seconds - alone, 1e-9):.1f} µs')
    for name in ('grapheme', 'word', 'sentence', 'line'):
        yield loading(bench, name)


def loading(bench, name):
    """The time for the table of one of our rule files, on a text that is broken in no time."""
    table = os.path.join(bench.folder, f'{name}.table')
    words = ['breaks', '--table', table, bench.tiny()]
    line = Line(f'`breaks --table`, the table of {name}.rules, the start of the program apart',
                bench.lacking(words) if os.path.exists(table) else bench.lacking(['compile']),
                target='1.0 ms')
    if not line.time:
        seconds = bench.seconds(words) - bench.seconds([])
        line.time, line.verdict = time_text(seconds), verdict(seconds, 0.001)
    return line


def front(bench):
    """Rule files of 1 MiB. Where there is no `check`, `breaks` reads them: those with a form that
    doesn't run yet are refused behind the grammar."""
    empty = bench.file('empty.txt', '')
    command, more = 'check', []
    if bench.lacking(['check', bench.file('one.rules', 'a;\n')]):
        command, more = 'breaks', [empty]
    for name, (make, said) in inputs.FRONT.items():
        path = inputs.make_rules(bench.folder, f'front-{name}', make)
        memory = (150 if name == 'statements' else 200) * MIB
        result = bench.run([command, path] + more)
        yield Line(f'`{command}`, {said}', time_text(result.seconds), peak=size_text(result.peak),
                   target=f'{time_text(0.8)}, {size_text(memory)}', verdict=both_verdicts(result, 0.8, memory))


def limits(bench):
    """The rule files at the limits of the language."""
    table = os.path.join(bench.folder, 'limit.table')
    for name, (make, said) in inputs.LIMITS.items():
        path = inputs.make_rules(bench.folder, f'limit-{name}', make)
        if name in ('doubling15', 'doubling60'):
            yield bench.below(f'`check`, {said}', ['check', path], 0.050)
        elif name != 'onelookahead':
            theirs = None if 'refused' in said else path
            yield bench.below(f'`compile`, {said}', ['compile', path, table], 5.0, 256 * MIB, theirs)
    yield lookaheads(bench)


def lookaheads(bench):
    """A search isn't slower for look-ahead rules that it doesn't meet."""
    text = inputs.make_text(bench.folder, 'letters', bench.sizes[-1])
    many, one = (os.path.join(bench.folder, f'limit-{name}.rules')
                 for name in ('lookaheads', 'onelookahead'))
    line = Line('`breaks`, 32 look-ahead rules over 1, each character a segment',
                bench.lacking(['breaks', many, bench.tiny()]), target='1.1 times')
    if not line.time:
        times = bench.seconds(['breaks', many, text]) / bench.seconds(['breaks', one, text])
        line.time, line.verdict = f'{times:.2f} times', verdict(times, 1.1)
    return line


def tables(bench):
    path = inputs.make_big_table(bench.folder)
    what = f'`breaks --table`, a table of {size_text(os.path.getsize(path))}, checked whole'
    yield bench.below(what, ['breaks', '--table', path, bench.tiny()], 5.0, 256 * MIB + os.path.getsize(path))


def loop(bench):
    """The loop over one long segment: `next` alone over the text in memory, against the bare loop over
    the same table, and the scan of the text by pieces, where `last` scans it anew after an edit."""
    path, _, _ = bench.rules('words')
    text = inputs.make_text(bench.folder, 'letters', bench.sizes[-1])
    yield segment(bench, path, text)
    few, many = (bench.file(f'last-{count}', 'replace 0 1 a\nlast\n' * count) for count in (1, 11))
    line = Line('`run`, words.rules: the scan of one long segment of a text by pieces',
                bench.lacking(['run', path, bench.tiny(), few]))
    if not line.time:
        passed = bench.seconds(['run', path, text, many]) - bench.seconds(['run', path, text, few])
        line.rate = rate_text(10 * bench.sizes[-1] / max(passed, 1e-9))
    yield line
    yield pieces(bench)


def segment(bench, path, text):
    """`Table::next` over one long segment, against the bare loop."""
    line = Line('words.rules, letters in memory: `Table::next` over one long segment, alone',
                target='0.5 of the bare loop')
    line.verdict = bench.lacking_part(['scan', path, '0', text])
    if line.verdict:
        return line
    few, many = ([bench.parts, 'scan', path, count, text] for count in ('1', '11'))
    passed = bench.best(many).seconds - bench.best(few).seconds
    rate = 10 * bench.sizes[-1] / max(passed, 1e-9)
    line.rate = rate_text(rate)
    bare = bare_rate(bench, os.path.join(bench.folder, 'words.table'), text)
    if bare:
        line.what += f' (the bare loop over the same table: {rate_text(bare)})'
        line.verdict = 'met' if rate >= bare / 2 else f'{rate / bare:.2f} of the bare loop'
    return line


def bare_rate(bench, table, text):
    """The characters a second of the bare loop, or None where it can't be had."""
    if bench.bare is None or not os.path.exists(table):
        return None
    run = subprocess.run([bench.bare, table, text, '5'], stdout=subprocess.PIPE, check=False)
    return bench.sizes[-1] / float(run.stdout.split()[1]) if run.returncode == 0 else None


def pieces(bench):
    """`Table::next` over one long segment of a text by pieces, against the same text in one list."""
    text = inputs.make_text(bench.folder, 'letters', bench.sizes[-1])
    line = Line('words.rules, letters by pieces: `Table::next` over one long segment, alone',
                target='0.5 of one list')
    table = table_file(bench, 'words')
    line.verdict = bench.lacking_part(['nexts', table, '0', text])
    if not line.verdict:
        one, by_pieces = (least_round(bench, ['nexts', table], [text] + more)[0]
                          for more in ([], ['pieces']))
        line.rate = rate_text(bench.sizes[-1] / by_pieces)
        times = one / by_pieces
        line.verdict = 'met' if times >= 0.5 else f'{times:.2f} of one list'
    return line


def table_file(bench, name):
    """The path of the table of one of the repository's rule files, which is compiled anew."""
    path, props, _ = bench.rules(name)
    table = os.path.join(bench.folder, f'{name}.table')
    bench.lacking(['compile'] + props + [path, table])
    return table


def least_round(bench, words, behind, beside=None):
    """The seconds of one round of a call, by eleven rounds less one, and the least of another command's
    second number. Both are run five times, in turn."""
    few, many, other = [math.inf] * 3
    for _ in range(5):
        few = min(few, measure([bench.parts] + words + ['1'] + behind).seconds)
        many = min(many, measure([bench.parts] + words + ['11'] + behind).seconds)
        if beside:
            other = min(other, bench.icu_answer(beside)[1])
    return max((many - few) / 10, 1e-9), other


def sessions(bench):
    """What an edit costs, and an edit with a question behind it, by the length of the text."""
    path, _, _ = bench.rules('words')
    lacking = bench.lacking(['run', path, bench.tiny(), bench.file('one.script', 'next\n')])
    each = {}
    for asked, target in ((False, 20e-6), (True, 30e-6)):
        for size in (ONE_MILLION, TWELVE_MILLION):
            does = 'a replaced character and a question' if asked else 'a replaced character'
            line = Line(f'`run`, words.rules, prose, {size // 1_000_000} M: {does}', lacking,
                        target=time_text(target) if size == TWELVE_MILLION else '')
            if not lacking:
                text = inputs.make_text(bench.folder, 'prose', size)
                few, many = (bench.file(f'edits-{count}', inputs.edit_script(size, count, asked))
                             for count in (1000, 21000))
                passed = (bench.seconds(['run', path, text, many])
                          - bench.seconds(['run', path, text, few])) / 20000
                each[asked, size] = max(passed, 1e-9)
                line.time = time_text(passed)
                line.verdict = verdict(passed, target) if line.target else ''
            yield line
    line = Line('an edit and a question in 12 M over the same in 1 M', lacking, target='2 times')
    if not lacking:
        times = each[True, TWELVE_MILLION] / each[True, ONE_MILLION]
        line.time, line.verdict = f'{times:.1f} times', verdict(times, 2)
    yield line


def units(bench):
    """`breaks` by bytes of UTF-8 and by numbers of 16 bits over `breaks` by characters, and what a
    question costs by bytes, and one with an edit before it."""
    for name, kind in (('words', 'letters'), ('words', 'scripts'), ('word', 'scripts'),
                       ('grapheme', 'emoji')):
        path, props, _ = bench.rules(name)
        for unit in ('utf8', 'utf16'):
            line = Line(f'`breaks --units {unit}` over `breaks`, {name}.rules, {kind}, '
                        f'{bench.sizes[-1] // 1_000_000} M',
                        bench.lacking(['breaks', '--units', unit] + props + [path, bench.tiny()]),
                        target='1.1 times')
            if not line.time:
                behind = props + [path, inputs.make_text(bench.folder, kind, bench.sizes[-1])]
                counted = bench.seconds(['breaks', '--units', unit] + behind)
                alone = bench.seconds(['breaks'] + behind)
                line.time, line.verdict = f'{counted / alone:.2f} times', verdict(counted / alone, 1.1)
            yield line
    for edits in (False, True):
        yield from by_bytes(bench, edits)


def segment_units(bench):
    """`segment` by bytes of UTF-8 and by numbers of 16 bits over `segment` by characters."""
    program = os.path.join(bench.top, 'crates', 'segment', 'out', 'segment')
    # The launcher builds the program.
    launcher = [os.path.join(bench.top, 'bin', 'segment'), '--version']
    built = subprocess.run(launcher, stdout=subprocess.DEVNULL, check=False).returncode == 0
    for kind in ('prose', 'scripts'):
        for unit in ('utf8', 'utf16'):
            line = Line(f'`segment --units {unit}` over `segment`, {kind}, '
                        f'{bench.sizes[-1] // 1_000_000} M', '' if built else NOT_BUILT, target='1.3 times')
            if built:
                text = inputs.make_text(bench.folder, kind, bench.sizes[-1])
                counted = bench.best([program, '--units', unit, text]).seconds
                alone = bench.best([program, text]).seconds
                line.time, line.verdict = f'{counted / alone:.2f} times', verdict(counted / alone, 1.3)
            yield line


def by_bytes(bench, edits):
    """What a question costs by bytes of UTF-8 and by characters, with an edit before it where `edits`
    says so."""
    path, _, _ = bench.rules('words')
    does = 'a replaced character and a question' if edits else 'a question'
    lacking = bench.lacking(['run', '--units', 'utf8', path, bench.tiny(),
                             bench.file('one.script', 'next\n')])
    each = {}
    for size in (ONE_MILLION, TWELVE_MILLION):
        for unit in ('chars', 'utf8'):
            line = Line(f'`run --units {unit}`, words.rules, scripts, {size // 1_000_000} M: {does}',
                        lacking, target='1.5 times that by characters' if unit == 'utf8' else '')
            if not lacking:
                passed = each[size, unit] = unit_seconds(bench, ['run', '--units', unit, path], size,
                                                         unit, edits)
                line.time = time_text(passed)
                if unit == 'utf8':
                    times = passed / each[size, 'chars']
                    line.verdict = ('met' if times <= 1.5 else 'missed') + f': {times:.1f} times'
            yield line
    line = Line(f'`--units utf8`, {does}, in 12 M over the same in 1 M', lacking, target='2 times')
    if not lacking:
        times = each[TWELVE_MILLION, 'utf8'] / each[ONE_MILLION, 'utf8']
        line.time, line.verdict = f'{times:.1f} times', verdict(times, 2)
    yield line


def unit_seconds(bench, words, size, unit, edits):
    """The seconds of one question, by the difference of two scripts."""
    text = inputs.make_text(bench.folder, 'scripts', size)
    few, many = (bench.file(f'units-{count}', inputs.unit_script(text, count, edits, unit))
                 for count in (1000, UNIT_QUESTIONS[edits]))
    passed = bench.seconds(words + [text, many]) - bench.seconds(words + [text, few])
    return max(passed / (UNIT_QUESTIONS[edits] - 1000), 1e-9)


def filters(bench):
    """`breaks` through 200 abbreviations and through 200 pairs over `breaks`, and what a question costs
    through them, by the length of the text."""
    path, props, _ = bench.rules('sentence')
    files = {'--suppress': (bench.file('filter.abbreviations', inputs.abbreviations(200)), 1.2),
             '--tailor': (bench.file('filter.pairs', inputs.pairs(200)), 1.3)}
    for option, (file, target) in files.items():
        line = Line(f'`breaks {option}` over `breaks`, sentence.rules, prose, '
                    f'{bench.sizes[-1] // 1_000_000} M', target=f'{target} times')
        line.time = bench.lacking(['breaks', option, file] + props + [path, bench.tiny()])
        if not line.time:
            behind = props + [path, inputs.make_text(bench.folder, 'prose', bench.sizes[-1])]
            through = bench.seconds(['breaks', option, file] + behind)
            times = through / bench.seconds(['breaks'] + behind)
            line.time, line.verdict = f'{times:.2f} times', verdict(times, target)
        yield line
    for option, (file, _) in files.items():
        yield from filtered_questions(bench, option, ['run', option, file] + props + [path])
    yield from suppressed_in_a_row(bench, props + [path])


def filtered_questions(bench, option, words):
    """A question at a random place, through a filter."""
    each, lacking = {}, bench.lacking(words + [bench.tiny(), bench.file('one.script', 'next\n')])
    for size in (ONE_MILLION, TWELVE_MILLION):
        line = Line(f'`run {option}`, sentence.rules, prose, {size // 1_000_000} M: a question', lacking)
        if not lacking:
            text = inputs.make_text(bench.folder, 'prose', size)
            few, many = (bench.file(f'filter-{count}', inputs.question_script(size, count, 0))
                         for count in (1000, 21000))
            passed = (bench.seconds(words + [text, many]) - bench.seconds(words + [text, few])) / 20000
            each[size] = max(passed, 1e-9)
            line.time = time_text(passed)
        yield line
    line = Line(f'`run {option}`: a question in 12 M over one in 1 M', lacking, target='2 times')
    if not lacking:
        times = each[TWELVE_MILLION] / each[ONE_MILLION]
        line.time, line.verdict = f'{times:.1f} times', verdict(times, 2)
    yield line


def suppressed_in_a_row(bench, rules):
    """One `previous` that passes over suppressed boundaries alone, of which no safe pair lies between two."""
    words = ['run', '--suppress', bench.file('one.abbreviations', 'Mr.\n')] + rules
    scripts = [bench.file('last.script', 'last\n'), bench.file('back.script', 'last\nprevious\n')]
    each, lacking = {}, bench.lacking(words + [bench.tiny(), scripts[0]])
    for size in (200_000, 800_000):
        line = Line(f'`run --suppress`, sentence.rules, `Mr. ` for {size // 1000} KB: one `previous`', lacking)
        if not lacking:
            text = bench.file(f'titles-{size}', 'Mr. ' * (size // 4))
            last, back = (bench.seconds(words + [text, script]) for script in scripts)
            each[size] = max(back - last, 1e-9)
            line.time = time_text(each[size])
        yield line
    line = Line('such a `previous` over 800 KB over one over 200 KB', lacking, target='6 times')
    if not lacking:
        times = each[800_000] / each[200_000]
        line.time, line.verdict = f'{times:.1f} times', verdict(times, 6)
    yield line


def same(bench):
    """Two rule files told apart, or told to be the same. Both are compiled in it."""
    make, said = inputs.LIMITS['rows']
    path = inputs.make_rules(bench.folder, 'limit-rows', make)
    with open(path, encoding='utf-8') as file:
        text = file.read()
    last = '\u4E00' if text[-4] != '\u4E00' else '\u4E01'
    other = bench.file('other.rules', text[:-4] + last + text[-3:])
    for what, words in (('with itself', [path, path]), ('with its last letter changed', [path, other])):
        yield bench.below(f'`same`, {said}, {what}, compiling both', ['same'] + words, 3.0)


def tally(bench):
    """What keeping counts costs an edit, the block of its counts included, and what is held for each
    segment beside what `run` holds over the same text."""
    path, props, _ = bench.rules('word')
    one = bench.file('one.script', 'first\n')
    lacking = bench.lacking(['tally'] + props + [path, bench.tiny(), one])
    each = {}
    for size, target in ((ONE_MILLION, None), (TWELVE_MILLION, 60e-6)):
        line = Line(f'`tally`, word.rules, prose, {size // 1_000_000} M: a replaced character', lacking,
                    target=time_text(target) if target else '')
        if not lacking:
            text = inputs.make_text(bench.folder, 'prose', size)
            few, many = (bench.file(f'edits-{count}', inputs.edit_script(size, count, False))
                         for count in (1000, 21000))
            each[size] = max((bench.seconds(['tally'] + props + [path, text, many])
                              - bench.seconds(['tally'] + props + [path, text, few])) / 20000, 1e-9)
            line.time = time_text(each[size])
            line.verdict = verdict(each[size], target) if target else ''
        yield line
    line = Line('`tally`: an edit in 12 M over one in 1 M', lacking, target='2 times')
    if not lacking:
        times = each[TWELVE_MILLION] / each[ONE_MILLION]
        line.time, line.verdict = f'{times:.1f} times', verdict(times, 2)
    yield line
    line = Line('`tally`, word.rules, prose, 12 M: memory a segment, beside that of `run`', lacking,
                target='12 bytes')
    if not lacking:
        behind = props + [path, inputs.make_text(bench.folder, 'prose', TWELVE_MILLION), one]
        out = os.path.join(bench.folder, 'printed')
        peaks = [measure(bench.program + [command] + behind, out).peak for command in ('run', 'tally')]
        with open(out, encoding='utf-8') as file:
            segments = int(file.readline().split()[1])
        bytes_each = (peaks[1] - peaks[0]) / segments
        line.peak, line.verdict = f'{bytes_each:.1f} bytes', verdict(bytes_each, 12)
    yield line


def questions(bench):
    """100,000 questions at random places, beside ICU's, in two scripts, since one has at most 1 MiB. The
    text has characters of one UTF-16 unit alone, so that both ask at the same places. Reading the
    scripts and printing the replies are in our time."""
    path, props, theirs = bench.rules('word')
    size, count = bench.sizes[-1], 50_000
    one = bench.file('questions-one', inputs.question_script(size, 1, 0))
    scripts = [bench.file(f'questions-{number}', inputs.question_script(size, count, number))
               for number in (1, 2)]
    words = ['run'] + props + [path]
    line = Line(f'`run`, word.rules, prose, {size // 1_000_000} M: a question at a random place',
                bench.lacking(words + [bench.tiny(), bench.file('one.script', 'next\n')]),
                target="0.6 of ICU's")
    if not line.time:
        text = inputs.make_text(bench.folder, 'prose', size)
        start = bench.seconds(words + [text, one])
        passed = sum(bench.seconds(words + [text, script]) - start for script in scripts) / (2 * count)
        line.time = time_text(passed)
        if bench.icu:
            asked = sum(bench.icu_answer(['questions', theirs, text, script, '3'])[1]
                        for script in scripts) / (2 * count)
            line.icu, line.ratio = time_text(asked), f'{asked / passed:.2f}'
            line.verdict = 'met' if passed <= 0.6 * asked else f"{passed / asked:.2f} of ICU's"
    yield line
    yield from script_calls(bench, words)


def script_calls(bench, words):
    """Each call in a script, less what a script without one takes, beside ICU's."""
    lacking = bench.lacking(words + [bench.tiny(), bench.file('one.script', 'next\n')])
    for (call, (_, count)), size in itertools.product(inputs.CALL_LINES.items(), bench.sizes):
        line = Line(f'`run`, word.rules, prose, {size // 1_000_000} M: {CALLS[call][0]}', lacking)
        if not lacking:
            text = inputs.make_text(bench.folder, 'prose', size)
            none, many = (bench.program + words + [text, call_file(bench, size, call, made)] for made in (0, count))
            beside_call(bench, line, call, size, least_difference(none, many) / count)
        yield line


def call_file(bench, size, call, count):
    return bench.file(f'{call}-{count}', inputs.call_script(size, call, count))


def least_difference(few, many):
    """The seconds of one command less those of another, of each the least of nine runs, taken in turn."""
    runs = [(measure(few).seconds, measure(many).seconds) for _ in range(9)]
    return min(run[1] for run in runs) - min(run[0] for run in runs)


def beside_call(bench, line, call, size, seconds):
    """Gives a line the seconds of a call over the prose, and those of ICU's in a script."""
    seconds = max(seconds, 1e-9)
    line.time = time_text(seconds)
    if bench.icu:
        _, count = inputs.CALL_LINES[call]
        text, script = inputs.make_text(bench.folder, 'prose', size), call_file(bench, size, call, count)
        _, asked = bench.icu_answer(['questions', bench.rules('word')[2], text, script, '5'])
        line.icu, line.ratio = time_text(asked / count), f'{asked / count / seconds:.2f}'


def nexts(bench):
    """`Table::next` from boundary to boundary, beside ICU's `next`: the four rule files on each text, in
    memory."""
    ratios = []
    for name in ('grapheme', 'word', 'sentence', 'line'):
        _, _, theirs = bench.rules(name)
        table = table_file(bench, name)
        for kind in inputs.TEXTS:
            text = inputs.make_text(bench.folder, kind, ONE_MILLION)
            line = Line(f'`Table::next`, {name}.rules, {kind}, 1 M', target='3 times ICU')
            line.verdict = bench.lacking_part(['nexts', table, '0', text])
            if not line.verdict:
                beside = ['scan', theirs, text, '1'] if bench.icu else None
                ours, icu = least_round(bench, ['nexts', table], [text], beside)
                line.rate = rate_text(ONE_MILLION / ours)
                if bench.icu:
                    ratios.append(icu / ours)
                    line.icu, line.ratio = rate_text(ONE_MILLION / icu), f'{icu / ours:.2f}'
                    line.verdict = 'met' if icu / ours >= 3 else f'{icu / ours:.2f} times'
            yield line
    if ratios:
        yield mean_of(ratios, 4)
    yield from far(bench)


def kit(bench):
    """`Table::next` from boundary to boundary, beside the iterators of the kit's `unicode_segmentation`: the
    rule files of UAX #29 on each text, in memory. Both are proved. Ours are of 15.0, the kit's of 18.0."""
    ratios = []
    for name in ('grapheme', 'word', 'sentence'):
        table = table_file(bench, name)
        for kind in inputs.TEXTS:
            text = inputs.make_text(bench.folder, kind, ONE_MILLION)
            line = Line(f'`Table::next`, {name}.rules, {kind}, 1 M, beside `unicode_segmentation`',
                        target='3 times it')
            line.verdict = (bench.lacking_part(['nexts', table, '0', text])
                            or bench.lacking_part(['kit', text, '0', name]))
            if not line.verdict:
                ours, _ = least_round(bench, ['nexts', table], [text])
                theirs, _ = least_round(bench, ['kit', text], [name])
                ratios.append(theirs / ours)
                line.rate, line.ratio = rate_text(ONE_MILLION / ours), f'{theirs / ours:.2f}'
                line.verdict = 'met' if theirs / ours >= 3 else f'{theirs / ours:.2f} times'
            yield line
    if ratios:
        mean = math.exp(sum(map(math.log, ratios)) / len(ratios))
        yield Line('the geometric mean of these', ratio=f'{mean:.2f}')


def far(bench):
    """`next` through flags, of which no pair of categories is safe: the time grows as the count."""
    path, props, _ = bench.rules('grapheme')
    few, many = (bench.file(f'next-{count}', 'next\n' * count) for count in (100_000, 200_000))
    words = ['run'] + props + [path]
    line = Line('`run`, grapheme.rules, flags, 1 M: 200,000 times `next` over 100,000 times',
                bench.lacking(words + [bench.tiny(), few]), target='2.5 times')
    if not line.time:
        text = inputs.make_text(bench.folder, 'flags', ONE_MILLION)
        times = bench.seconds(words + [text, many]) / bench.seconds(words + [text, few])
        line.time, line.verdict = f'{times:.2f} times', verdict(times, 2.5)
    yield line


def tests(bench):
    path, props, _ = bench.rules('line')
    with open(os.path.join(bench.data, 'auxiliary/LineBreakTest.txt'), encoding='utf-8') as file:
        found = [line for line in file if line.startswith(('÷', '×'))]
    many = bench.file('many.tests', ''.join((found * 2)[:10_000]))
    one = bench.file('one.tests', found[0])
    words = ['conform'] + props + [path]
    line = Line('`conform`, line.rules, 10,000 tests over 1', bench.lacking(words + [one]),
                target='200.0 ms')
    if not line.time:
        seconds = bench.seconds(words + [many]) - bench.seconds(words + [one])
        line.time, line.verdict = time_text(seconds), verdict(seconds, 0.2)
    yield line


def demo(bench):
    yield bench.below('`demo 1000000`', ['demo', '1000000'], 5.0)


def parts(bench):
    """Single calls, by the program in crates/rbbi_bench: a call's time is that of some rounds less
    that of none, which start and read the same."""
    leaves = inputs.make_rules(bench.folder, 'limit-leaves', inputs.LIMITS['leaves'][0])
    text = inputs.make_text(bench.folder, 'prose', TWELVE_MILLION)
    yield part(bench, 'the categories of 8,192 leaves, sets of scripts and categories', 0.5,
               ['categories', leaves], 20)
    yield part(bench, 'the positions of a rule with 8,192 leaves', 0.5, ['positions', leaves], 20,
               memory=16 * MIB)
    for edits, said, target in (('1', 'edited once', 0.05), ('100', 'with 100 letters inserted', None)):
        yield part(bench, 'a million `char_at` at random places of 12 M characters by pieces, ' + said,
                   target, ['places', text], 10_000_000, 1_000_000, behind=[edits])
    yield scanning(bench)
    yield from session_calls(bench)


def session_calls(bench):
    """Each call of a session in Rattle, beside ICU's."""
    table = table_file(bench, 'word')
    for (call, (_, count)), size in itertools.product(inputs.CALL_LINES.items(), bench.sizes):
        text = inputs.make_text(bench.folder, 'prose', size)
        line = Line(f'a session in Rattle, word.rules, prose, {size // 1_000_000} M: {CALLS[call][0]}')
        line.verdict = bench.lacking_part(['session', table, '0', text, call])
        if not line.verdict:
            count *= size // ONE_MILLION
            none, many = ([bench.parts, 'session', table, str(rounds), text, call] for rounds in (0, count))
            beside_call(bench, line, call, size, least_difference(none, many) / count)
        yield line


def part(bench, what, target, words, rounds, counted=1, memory=None, behind=()):
    """A line for so many rounds of a call, and the memory beside what is held before it. `behind` are
    the words behind the number of rounds."""
    line = Line(what, target=(time_text(target) if target else '')
                + (f', {size_text(memory)}' if memory else ''))
    line.verdict = bench.lacking_part(words + ['0', *behind])
    if line.verdict:
        return line
    many, none = ([bench.parts] + words + [str(count), *behind] for count in (rounds, 0))
    seconds = (bench.best(many).seconds - bench.best(none).seconds) * counted / rounds
    line.time, line.verdict = time_text(seconds), verdict(seconds, target) if target else ''
    if memory:
        peak = held(many) - held(none)
        line.peak = size_text(peak)
        line.verdict = both_verdicts(Result(0, seconds, peak), target, memory)
    return line


def scanning(bench):
    """All boundaries of a text in memory, from one to the next, without reading and printing."""
    path, _, theirs = bench.rules('words')
    text = inputs.make_text(bench.folder, 'prose', ONE_MILLION)
    line = Line('words.rules, prose, 1 M in memory: `Table::next` from one boundary to the next, alone')
    line.verdict = bench.lacking_part(['scan', path, '0', text])
    if line.verdict:
        return line
    few, many = ([bench.parts, 'scan', path, count, text] for count in ('1', '21'))
    seconds = (bench.best(many).seconds - bench.best(few).seconds) / 20
    rate = ONE_MILLION / max(seconds, 1e-9)
    line.time, line.rate = time_text(seconds), rate_text(rate)
    if bench.icu:
        alone = ONE_MILLION / max(bench.icu_answer(['scan', theirs, text, '5'])[1], 1e-9)
        line.icu, line.ratio = rate_text(alone), f'{rate / alone:.2f}'
    return line


# The questions of c_calls.c, what each is, and how much of ICU's time it is to take at most.
CALLS = {
    'next': ('`next`', 0.6), 'previous': ('`previous`', 0.6), 'following': ('`following`', 0.8),
    'preceding': ('`preceding`', 0.8), 'is_boundary': ('`is_boundary`', 0.8),
    'change': ('a character replaced, `preceding` and `following`', 1.0),
    'type': ('a letter typed, `preceding` and `following`', 1.0),
    'open': ('opening, and the first screen', 1.5),
    'copy': ('the same, where ICU copies the text', 1.5),
    'list': ('`boundaries` of a million characters', None),
    'alone': ('the same beside `Table::next` alone', 1.3),
}


@dataclasses.dataclass
class Calls:
    """One line of the table of calls through the C library: a question and a kind of text."""

    what: str
    cells: list
    most: float

    HEAD = ('a call through C', 'UTF-16, 1 M', 'UTF-16, 12 M', 'UTF-8, 1 M', 'UTF-8, 12 M', 'target', 'verdict')

    def text(self):
        """A cell is a pair, of the seconds of a call and of what it is held against, or None."""
        told = [f'{time_text(cell[0])}, {cell[0] / cell[1]:.2f}' if cell else '' for cell in self.cells]
        most = max([cell[0] / cell[1] for cell in self.cells if cell], default=None)
        if most is None:
            said = 'not measured'
        elif self.most is None:
            said = ''
        else:
            said = 'met' if most <= self.most else f'up to {most:.2f}'
        return '| ' + ' | '.join([self.what, *told, str(self.most or ''), said]) + ' |'


def calls(bench):
    """Calls through the C library, beside the same of ICU, by word.rules."""
    table = table_file(bench, 'word')
    _, _, theirs = bench.rules('word')
    for kind in ('prose', 'code', 'scripts'):
        text = inputs.make_text(bench.folder, kind, ONE_MILLION)
        alone = None
        if not bench.lacking_part(['nexts', table, '0', text]):
            alone, _ = least_round(bench, ['nexts', table], [text])
        found = {name: [] for name in CALLS}
        for unit, size in itertools.product(('16', '8'), inputs.SIZES.values()):
            answers = {}
            if bench.c_calls and size in bench.sizes:
                text = inputs.make_text(bench.folder, kind, size)
                run = subprocess.run([bench.c_calls, table, theirs, text, unit], stdout=subprocess.PIPE,
                                     text=True, check=True)
                for line in run.stdout.splitlines():
                    name, ours, icu = line.split()
                    answers[name] = float(ours) / 1e9, float(icu) / 1e9
                if alone:
                    answers['alone'] = answers['list'][0], alone
            for name in CALLS:
                found[name].append(answers.get(name))
        for name, (what, most) in CALLS.items():
            yield Calls(f'{what}, {kind}', found[name], most)


def scan(bench):
    """`rbbi_breaks` of a text in memory, beside ICU's `next` with statuses, and of rows of 80 characters."""
    ratios = []
    cases = itertools.product(('grapheme', 'word', 'sentence', 'line'), inputs.TEXTS, bench.sizes, ('8', '16'))
    for name, kind, size, unit in cases if bench.c_calls else []:
        words = [bench.c_calls, table_file(bench, name), bench.rules(name)[2],
                 inputs.make_text(bench.folder, kind, size), unit, 'scan']
        is_row = (name, kind, size) == ('word', 'prose', ONE_MILLION)
        run = subprocess.run(words + ['row'] * is_row, stdout=subprocess.PIPE, text=True, check=True)
        found = {case: (float(ours) / 1e9, float(icu) / 1e9)
                 for case, ours, icu in map(str.split, run.stdout.splitlines())}
        ours, icu = found['scan']
        ratios.append(icu / ours)
        yield Line(f'`rbbi_breaks`, {name}.rules, {kind}, {size // ONE_MILLION} M, UTF-{unit}', target='2.5 times ICU',
                   rate=rate_text(size / ours), icu=rate_text(size / icu), ratio=f'{icu / ours:.2f}',
                   verdict='met' if icu / ours >= 2.5 else f'{icu / ours:.2f} times')
        if is_row:
            row, beside = found['row']
            most = 80 * ours / size + 1e-6
            yield Line(f'`rbbi_breaks`, {name}.rules, {kind}, a row of 80 characters, UTF-{unit}',
                       time=time_text(row), target='1 µs over the search', icu=time_text(beside),
                       ratio=f'{beside / row:.2f}', verdict=verdict(row, most))
    if ratios:
        yield mean_of(ratios, 4)


def python(bench):
    """All boundaries of a text through Python, which gets them as arrays."""
    line = Line('Python: `Session.boundaries`, word.rules, prose, 1 M', target='15.0 M/s')
    library = os.path.join(bench.top, 'out', 'librbbi.so')
    words = [sys.executable, os.path.join(bench.top, 'bench', 'python_list.py'), table_file(bench, 'word'),
             inputs.make_text(bench.folder, 'prose', ONE_MILLION)]
    run = subprocess.run(words, stdout=subprocess.PIPE, stderr=subprocess.DEVNULL, check=False,
                         env=dict(os.environ, RBBI_LIBRARY=library))
    if run.returncode != 0:
        line.verdict = 'not measured: out/librbbi.so is not built'
    else:
        rate = ONE_MILLION / float(run.stdout)
        line.time, line.rate = time_text(float(run.stdout)), rate_text(rate)
        line.verdict = 'met' if rate >= 15e6 else f'{rate / 15e6:.2f} of it'
    yield line


GROUPS = [start, texts, printing, compiling, front, limits, tables, loop, sessions, questions, units,
          segment_units, filters, same, tally, nexts, kit, tests, demo, parts, python, calls, scan]

# The group that doesn't run the program that is measured.
WITHOUT_PROGRAM = [segment_units]

# The groups that want the program of single calls, and the C library.
OF_PARTS = [loop, nexts, kit, parts, calls]
OF_LIBRARY = [python, calls, scan]
