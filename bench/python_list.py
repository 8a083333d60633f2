"""Prints the seconds in which Python lists the boundaries of a text: python_list.py TABLE TEXT.

It is the least of five rounds, by processor time. RBBI_LIBRARY names the C library.
"""
import os
import sys
import time

sys.dont_write_bytecode = True
sys.path.insert(0, os.path.join(os.path.dirname(os.path.abspath(__file__)), '..', 'python', 'src'))
from rbbi import Table  # noqa: E402


def seconds(table, text):
    with table.session(text) as session:
        start = time.process_time()
        session.boundaries()
        return time.process_time() - start


with open(sys.argv[1], 'rb') as file:
    table = Table.load(file.read())
with open(sys.argv[2], 'rb') as file:
    text = file.read()
print(min(seconds(table, text) for _ in range(5)))
