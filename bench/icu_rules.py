"""Turns one of our rule files into ICU's own rule syntax.

Both languages are the same but for properties: ours are looked up in handed-in files, and ICU's are
its own, under other names.
"""
import re
import sys

NAMES = {
    'GCB': 'Grapheme_Cluster_Break',
    'WB': 'Word_Break',
    'SB': 'Sentence_Break',
    'LB': 'Line_Break',
    'EA': 'East_Asian_Width',
    'GC': 'General_Category',
    'SC': 'Script',
}


def translate(text):
    """The same rules for ICU."""
    def one(found):
        name, value = found.groups()
        if name == 'Emoji':
            return f'[\\p{{{value}}}]'
        return f'[\\p{{{NAMES[name]}={value}}}]'
    return re.sub(r'\\p\{(\w+)=(\w+)\}', one, text)


if __name__ == '__main__':
    sys.stdout.write(translate(sys.stdin.read()))
