"""Prints the words of a text, edits it, and prints them again: words.py RULES TEXT."""
import sys

from rbbi import Fault, Table


def shown(session):
    return ' '.join(f'{s.start}-{s.end}:{s.status}' for s in session)


def main():
    with open(sys.argv[1], 'rb') as file:
        rules = file.read()
    with open(sys.argv[2], encoding='utf-8') as file:
        text = file.read()
    try:
        table = Table.compile(rules)
    except Fault as fault:
        sys.exit(f'words: {fault}')
    with table, table.session(text) as session:
        print(shown(session))
        session.replace(3, 1, 'no')  # can't -> cannot
        print(shown(session))


if __name__ == '__main__':
    main()
