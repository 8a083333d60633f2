"""What the lines of the table are made with: runs of the program and of ICU, and a line's cells."""
import dataclasses
import os
import subprocess

import icu_rules
import inputs
from files import options
from measure import measure

NOT_BUILT = 'not built yet'
MIB = 1 << 20

# How many seconds ICU may take to compile rules.
MOST_OF_ICU = 10


def time_text(seconds):
    if seconds < 1e-6:
        return f'{1e9 * seconds:.0f} ns'
    if seconds < 0.0001:
        return f'{1e6 * seconds:.1f} µs'
    return f'{seconds:.2f} s' if seconds >= 1 else f'{1000 * seconds:.1f} ms'


def rate_text(rate):
    return f'{rate / 1e6:.1f} M/s'


def size_text(size):
    return f'{size / MIB:.0f} MiB'


@dataclasses.dataclass
class Line:
    """One line of the table; a cell that has nothing to say is empty."""

    what: str
    time: str = ''
    rate: str = ''
    peak: str = ''
    icu: str = ''
    ratio: str = ''
    target: str = ''
    verdict: str = ''

    HEAD = ('what', 'time', 'characters a second', 'peak memory', 'ICU', 'ratio', 'target', 'verdict')

    def text(self):
        cells = [cell.replace('|', '\\|') for cell in dataclasses.astuple(self)]
        return '| ' + ' | '.join(cells) + ' |'


def verdict(measured, target):
    """Whether a figure that is to be small is so, or how many times too large it is."""
    return 'met' if measured <= target else f'{measured / target:.1f} times too much'


def both_verdicts(result, seconds, memory):
    """The same for a time and, where it has a target too, the memory."""
    time = verdict(result.seconds, seconds)
    if memory is None or result.peak <= memory:
        return time
    held = 'memory ' + verdict(result.peak, memory)
    return held if time == 'met' else f'{time}; {held}'


class Bench:
    """The program, and where they are there, that of single calls, ICU's, the bare loop's and that of
    calls through C; and the folder of the inputs."""

    def __init__(self, program, parts, top, folder, data, icu, bare, c_calls, quick, rounds):
        self.program, self.parts, self.top, self.folder, self.data = program, parts, top, folder, data
        self.icu, self.bare, self.c_calls, self.rounds = icu, bare, c_calls, rounds
        self.sizes = list(inputs.SIZES.values())[:1 if quick else 2]

    def best(self, words):
        """The fastest of some runs; a run of over two seconds is the last one."""
        best = measure(words)
        for _ in range(self.rounds - 1):
            if best.seconds > 2:
                break
            best = min(best, measure(words), key=lambda result: result.seconds)
        return best

    def run(self, words):
        return self.best(self.program + words)

    def seconds(self, words):
        return self.run(words).seconds

    def lacking(self, words):
        """What keeps the program from doing this, by one run of it, or nothing."""
        out = os.path.join(self.folder, 'probe')
        status = measure(self.program + words, out).status
        with open(out, 'rb') as file:
            if status == 2 or file.read(100).startswith(b'rules: Unbuilt'):
                return NOT_BUILT
        return '' if status in (0, 1, 3) else f'ended with status {status}'

    def lacking_part(self, words):
        """What keeps the program of single calls from doing this, or nothing."""
        if self.parts is None:
            return 'not measured: crates/rbbi_bench is not built'
        run = subprocess.run([self.parts] + words, stdout=subprocess.PIPE, check=False)
        return '' if run.stdout.strip().isdigit() else 'refused'

    def file(self, name, text):
        return inputs.write_file(self.folder, name, text)

    def tiny(self):
        """A text that is broken in no time."""
        return self.file('tiny.txt', 'ab 12')

    def rules(self, name):
        """The path of a rule file of the repository, its options, and the path of ICU's version."""
        older = name in ('grapheme', 'line')
        folder = 'examples' if name in ('letters', 'words') else 'rules/15.0' if older else 'rules'
        path = os.path.join(self.top, folder, f'{name}.rules')
        with open(path, encoding='utf-8') as file:
            theirs = self.file(f'{name}.icu', icu_rules.translate(file.read()))
        return path, options(path, self.data), theirs

    def rate(self, results):
        """Characters a second, by the difference of two sizes where there are two."""
        if len(results) == 1:
            return self.sizes[0] / results[0].seconds
        passed = results[1].seconds - results[0].seconds
        return (self.sizes[1] - self.sizes[0]) / max(passed, 1e-9)

    def icu_answer(self, words, most=None):
        """The numbers that ICU's program prints, or None where it refuses. It may take so many seconds."""
        run = subprocess.run([self.icu] + words, stdout=subprocess.PIPE, stderr=subprocess.DEVNULL,
                             check=False, timeout=most)
        return [float(word) for word in run.stdout.split()] if run.returncode == 0 else None

    def beside_icu(self, line, rules, rounds, seconds):
        """Puts into a line how long ICU compiles the same rules, where it takes them: in at most so long."""
        over, answer = '', None
        if self.icu:
            try:
                answer = self.icu_answer(['compile', rules, str(rounds)], MOST_OF_ICU)
            except subprocess.TimeoutExpired:
                over, answer = 'over ', [1000 * MOST_OF_ICU]
        if answer:
            line.icu = over + time_text(answer[0] / 1000)
            line.ratio = f'{over}{answer[0] / 1000 / seconds:.2f}' if seconds else ''
        return line

    def below(self, what, words, seconds, memory=None, theirs=None):
        """A line whose time, and perhaps memory, is to be below a target. `theirs` are rules that
        ICU compiles too."""
        line = Line(what, target=time_text(seconds) + (f', {size_text(memory)}' if memory else ''))
        line.time = self.lacking(words)
        passed = None
        if not line.time:
            result = self.run(words)
            passed = result.seconds
            line.time, line.peak = time_text(passed), size_text(result.peak)
            line.verdict = both_verdicts(result, seconds, memory)
        return self.beside_icu(line, theirs, 1, passed) if theirs else line
