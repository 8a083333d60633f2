"""Compares tables of the benchmark: which lines got slower than they were in an earlier one."""
import re

# A line is slower where it takes more than this many times what it took.
SLOWER = 1.2
UNITS = {'s': 1, 'ms': 1e-3, 'µs': 1e-6, 'ns': 1e-9, 'times': 1}


def cost_of(cell):
    """What a cell tells, so that more is slower: seconds, seconds a character, or times; or None."""
    found = re.fullmatch(r'([\d.,]+) (s|ms|µs|ns|times|M/s)(, [\d.]+)?', cell)
    if not found:
        return None
    number = float(found[1].replace(',', ''))
    return 1 / max(number, 1e-9) if found[2] == 'M/s' else number * UNITS[found[2]]


def costs_of(text):
    """The cost of each line of the tables in a text that has one, by the line's name.

    What was measured and stands in the name, as the size of a table, is left out of it.
    """
    costs, head = {}, []
    for line in text.splitlines():
        cells = [cell.strip().replace('\\|', '|') for cell in re.split(r'(?<!\\)\|', line)[1:-1]]
        if 'verdict' in cells:
            head = cells
        if not cells or len(cells) != len(head):
            continue
        name = re.sub(r' \(the bare loop [^)]*\)|, a table of [\d,]+ bytes', '', cells[0])
        told = {column: cost_of(cell) for column, cell in zip(head, cells)}
        # A line of the second table has a cost for each text; one of the first has a time, or a rate.
        places = [column for column in told if column.startswith('UTF')]
        costs.update((f'{name}, {column}', told[column]) for column in places if told[column])
        cost = told.get('time') or told.get('characters a second')
        if cost:
            costs[name] = cost
    return costs


def slower(before, after):
    """How many times the cost before each line takes that got slower."""
    return {name: cost / before[name] for name, cost in after.items()
            if name in before and cost > SLOWER * before[name]}
