"""The rule files for lines as CSS and ICU tailor them, of line.rules and edits of its text.

    tailored.py NAME [RULES]

prints the rule file of a name, as line-loose, made of RULES: line.rules where none is given, or
15.0/line.rules. `tools/make/tables` writes those of line.rules beside this file.

A line of EDITS is what stands once in the rule file, and what takes its place. An edit of which no
side stands in 15.0/line.rules has a second one, for that file. What is free is in no class, so that
a line may be broken on both sides of it, but for what the rules for all characters say.
"""
import os
import re
import sys

HERE = os.path.dirname(os.path.abspath(__file__))

# U+201C and U+201D as opening and closing punctuation.
QUOTES = [
    [(r'$CL  = \p{LB=CL};', r'$CL  = [\p{LB=CL} \u201D];')],
    [(r'$OP  = \p{LB=OP};', r'$OP  = [\p{LB=OP} \u201C];')],
    [(r'$QU  = \p{LB=QU};', r'$QU  = [\p{LB=QU} - [\u201C \u201D]];')],
]

# Small kana and the like as ideographs.
IDEOGRAPHS = [(r'$ID  = \p{LB=ID};', r'$ID  = [\p{LB=ID} \p{LB=CJ}];')]
KANA = [IDEOGRAPHS, [(r'$NS  = [\p{LB=NS} \p{LB=CJ}];', r'$NS  = \p{LB=NS};')]]

# A break between two inseparable characters.
INSEPARABLE = [('$Joining $X $IN; ', '[$Joining - $IN] $X $IN; ')]


def free(*lines, more=''):
    """Small kana as ideographs, and some characters that are free, before which $Marks is set."""
    return [
        IDEOGRAPHS,
        [('$Marks = ', '\n'.join(lines) + '\n\n$Marks = ')],
        [(r'$NS  = [\p{LB=NS} \p{LB=CJ}];', r'$NS  = [\p{LB=NS} - $Free];')],
        [(' $ZW $ZWJ];', f' $ZW $ZWJ\n          $Free{more}];')],
    ]


ITERATION = r'\u3005 \u303B \u309D \u309E \u30FD \u30FE'

# What the free characters are, by name.
LOOSE = free('# Iteration marks are free.', rf'$Free = [{ITERATION}];') + [INSEPARABLE]
NORMAL_CJ = free('# The wave dash and the double hyphen of kana are free.', r'$Free = [\u301C \u30A0];')
LOOSE_CJ = free(
    '# Iteration marks, the hyphens of kana and centered punctuation are free. So are prefixes and',
    '# suffixes that are or may be wide, but that LB24 and LB25 join a suffix to what follows and a prefix',
    '# to a number before it, as ICU does. A line may be broken before a hyphen after an ideograph.',
    rf'$Free   = [{ITERATION} \u301C \u30A0 \u30FB \uFF1A \uFF1B \uFF65',
    r'           \u203C \u2047 \u2048 \u2049 \uFF01 \uFF1F];',
    r'$Wide   = [\p{EA=A} \p{EA=F} \p{EA=W}];',
    r'$Prefix = [[\p{LB=PR}] & $Wide];',
    r'$Suffix = [[\p{LB=PO}] & $Wide];',
    r'$Hyphen = [\u2010 \u2013];',
    more=' $Prefix $Suffix') + [
    INSEPARABLE,
    [(r'$EX  = \p{LB=EX};', r'$EX  = [\p{LB=EX} - $Free];')],
    [(r'$PO  = \p{LB=PO};', r'$PO  = [\p{LB=PO} - $Suffix];')],
    [(r'$PR  = \p{LB=PR};', r'$PR  = [\p{LB=PR} - $Prefix];')],
    [('$IN $NU $PR $PO $AL $HL $OP30]', '$IN $NU $PR $PO $Suffix $AL $HL $OP30]')],
    [('$Joining $X [$BA $HH $HY $NS];                          # LB21',
      '$Joining $X [$BA $HH $HY $NS - $Hyphen];                # LB21\n'
      '[$Joining - $ID] $X $Hyphen;                            # LB21'),
     ('$Joining $X [$BA $HY $NS];                              # LB21',
      '$Joining $X [$BA $HY $NS - $Hyphen];                    # LB21\n'
      '[$Joining - $ID] $X $Hyphen;                            # LB21')],
    [('[$PR $PO] $X [$AL $HL];  ', '[$PR $PO $Suffix] $X [$AL $HL]; ')],
    [('[$AL $HL] $X [$PR $PO];  ', '[$AL $HL] $X [$PR $PO $Suffix]; ')],
    [('([$CL $CP] $X)? [$PR $PO];  ', '([$CL $CP] $X)? [$PR $PO $Prefix];  ')],
    [('[$PR $PO] $X $OP $X ($IS $X)? $NU;  ', '[$PR $PO $Suffix] $X $OP $X ($IS $X)? $NU; '),
     ('[$PR $PO] $X ([$OP $HY] $X)? $NU;  ', '[$PR $PO $Suffix] $X ([$OP $HY] $X)? $NU; ')],
    [('[$PR $PO $HY $IS] $X $NU;  ', '[$PR $PO $Suffix $HY $IS] $X $NU; '), ('', '')],
]

EDITS = {
    'line-normal': KANA,
    'line-loose': LOOSE,
    'line-cj': QUOTES,
    'line-normal-cj': NORMAL_CJ + QUOTES,
    'line-loose-cj': LOOSE_CJ + QUOTES,
}

WHAT = {
    'line-normal': 'Small kana (class CJ) count as ideographs.',
    'line-loose': 'Small kana count as ideographs, iteration marks are free, and a line may be broken\n'
                  '# between inseparable characters.',
    'line-cj': 'The quotes U+201C and U+201D are opening and closing punctuation.',
    'line-normal-cj': 'As line-normal and line-cj; the wave dash and the double hyphen of kana are free.',
    'line-loose-cj': 'As line-loose and line-cj; so are hyphens of kana, centered punctuation, and prefixes\n'
                     '# and suffixes that may be wide, as the names below say.',
}


def edited(text, edits):
    """The text after the edits, in each of which the first pair applies whose old side stands once."""
    for pairs in edits:
        old, new = next((pair for pair in pairs if text.count(pair[0]) == 1), (None, None))
        if old is None:
            if ('', '') not in pairs:
                raise ValueError(f'{pairs[0][0]!r} stands {text.count(pairs[0][0])} times')
            continue
        text = text.replace(old, new)
    return re.sub('^(.*;) +(# LB)', lambda found: f'{found[1]:<55} {found[2]}', text, flags=re.M)


def tailored(name, rules=os.path.join(HERE, 'line.rules')):
    """The rule file of a name."""
    with open(rules, encoding='utf-8') as file:
        text = file.read()
    of = os.path.relpath(rules, HERE)
    head = f'# {name}: {of}, tailored by tailored.py as CSS Text 3 (section 5.3) and ICU tailor lines.\n# {WHAT[name]}\n#\n'
    return head + edited(text, EDITS[name])


if __name__ == '__main__':
    if not 2 <= len(sys.argv) <= 3 or sys.argv[1] not in EDITS:
        sys.exit(__doc__)
    print(tailored(*sys.argv[1:]), end='')
