"""The rule files, the data files that they want, and files that scripts make."""
import os
import re

HERE = os.path.dirname(os.path.abspath(__file__))
DATA = os.path.join(os.path.dirname(HERE), 'unicode')
NAMES = ['grapheme', 'word', 'sentence', 'line']
TAILORED = ['line-normal', 'line-loose', 'line-cj', 'line-normal-cj', 'line-loose-cj']


def find(folder, name):
    """The data file in a folder of files, or in one that has them where Unicode has them."""
    for inner in ('', 'auxiliary', 'emoji', 'extracted'):
        path = os.path.join(folder, inner, name)
        if os.path.exists(path):
            return path
    raise FileNotFoundError(f'{folder} has no {name}')


def rules_of(name, is_15=False):
    """The rule file for one kind of boundary. Words and sentences have the same one for 15.0."""
    older = os.path.join(HERE, '15.0', name + '.rules')
    return older if is_15 and os.path.exists(older) else os.path.join(HERE, name + '.rules')


def tests_of(name, folder):
    """Unicode's test file for one kind of boundary."""
    return find(folder, name.capitalize() + 'BreakTest.txt')


def options(rules, folder):
    """The options that the head of a rule file asks for."""
    words = []
    with open(rules, encoding='utf-8') as lines:
        for line in lines:
            if line.startswith('#   --prop '):
                name, _, file = line[len('#   --prop '):].strip().partition('=')
                words += ['--prop', f'{name}={find(folder, file)}']
    return words


def changed_tests(name):
    """The lines of Unicode's test file for 15.0 that README.md lists as changed by later versions."""
    lines = set()
    with open(os.path.join(HERE, 'README.md'), encoding='utf-8') as page:
        for row in page:
            if row.startswith(f'| {name} | '):
                lines |= {int(number) for number in re.findall(r'\d+', row.split('|')[2])}
    return lines


def settle(path, wanted, is_check):
    """Says whether a file is as it is made, and writes it where it differs and may be written."""
    shown = os.path.relpath(path, os.path.dirname(HERE))
    held = None
    if os.path.exists(path):
        with open(path, 'rb') as file:
            held = file.read()
    if held == wanted:
        print(f'{shown}: as it is made')
        return True
    print(f'{shown}: {"differs" if is_check else "made anew"}')
    if not is_check:
        with open(path, 'wb') as file:
            file.write(wanted)
    return False
