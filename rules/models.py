"""Plain models of the boundary rules of UAX #29 and UAX #14, as of Unicode 15.0 and of 18.0.

Each annex is a list of rules as it is published: what stands before a place, whether there is a
boundary (÷) or none (×), and what stands behind. The first rule that fits decides. A text becomes a
string with one letter for each character, and a rule a regular expression over such letters. Nothing
here is fast, and nothing knows of rule files.
"""
import bisect
import re

from files import find

# A line `NAME = CLASS CLASS ..` names several classes by one word. A line `RULE X CLASSES* → X` says
# what counts with the character before it, and `RULE CLASSES → CLASS` what the rest of it counts as;
# the rules in front of these lines see the text as it is, and those behind them what is left of it.

# A class in brackets is `[^ A B]`, any other than these, `[A & B]`, both, or `[A - B]`, the first and
# not the second.

GRAPHEME = '''
GB3    CR × LF
GB4    (Control | CR | LF) ÷
GB5    ÷ (Control | CR | LF)
GB6    L × (L | V | LV | LVT)
GB7    (LV | V) × (V | T)
GB8    (LVT | T) × T
GB9    × (Extend | ZWJ)
GB9a   × SpacingMark
GB9b   Prepend ×
GB9c   InCB_Linker InCB_Extend* × InCB_Consonant
GB11   ExtPict Extend* ZWJ × ExtPict
GB12   sot (RI RI)* RI × RI
GB13   [^ RI] (RI RI)* RI × RI
GB999  ÷
'''

WORD = '''
AHLetter   = ALetter Hebrew_Letter
MidNumLetQ = MidNumLet Single_Quote
WB3    CR × LF
WB3a   (Newline | CR | LF) ÷
WB3b   ÷ (Newline | CR | LF)
WB3c   ZWJ × ExtPict
WB3d   WSegSpace × WSegSpace
WB4    [^ CR LF Newline] (Extend | Format | ZWJ)* → X
WB5    AHLetter × AHLetter
WB6    AHLetter × (MidLetter | MidNumLetQ) AHLetter
WB7    AHLetter (MidLetter | MidNumLetQ) × AHLetter
WB7a   Hebrew_Letter × Single_Quote
WB7b   Hebrew_Letter × Double_Quote Hebrew_Letter
WB7c   Hebrew_Letter Double_Quote × Hebrew_Letter
WB8    Numeric × Numeric
WB9    AHLetter × Numeric
WB10   Numeric × AHLetter
WB11   Numeric (MidNum | MidNumLetQ) × Numeric
WB12   Numeric × (MidNum | MidNumLetQ) Numeric
WB13   Katakana × Katakana
WB13a  (AHLetter | Numeric | Katakana | ExtendNumLet) × ExtendNumLet
WB13b  ExtendNumLet × (AHLetter | Numeric | Katakana)
WB15   sot (RI RI)* RI × RI
WB16   [^ RI] (RI RI)* RI × RI
WB999  ÷
'''

SENTENCE = '''
ParaSep = Sep CR LF
SATerm  = STerm ATerm
SB3    CR × LF
SB4    ParaSep ÷
SB5    [^ ParaSep] (Extend | Format)* → X
SB6    ATerm × Numeric
SB7    (Upper | Lower) ATerm × Upper
SB8    ATerm Close* Sp* × [^ OLetter Upper Lower ParaSep SATerm]* Lower
SB8a   SATerm Close* Sp* × (SContinue | SATerm)
SB9    SATerm Close* × (Close | Sp | ParaSep)
SB10   SATerm Close* Sp* × (Sp | ParaSep)
SB11   SATerm Close* Sp* ParaSep? ÷
SB998  ×
'''

LINE_15 = '''
LB4    BK ÷
LB5    CR × LF
LB5    (CR | LF | NL) ÷
LB6    × (BK | CR | LF | NL)
LB7    × (SP | ZW)
LB8    ZW SP* ÷
LB8a   ZWJ ×
LB9    [^ BK CR LF NL SP ZW] (CM | ZWJ)* → X
LB10   (CM | ZWJ) → AL
LB11   × WJ
LB11   WJ ×
LB12   GL ×
LB12a  [^ SP BA HY] × GL
LB13   × EX
LB13   [^ NU] × (CL | CP | IS | SY)
LB14   OP SP* ×
LB15   QU SP* × OP
LB16   (CL | CP) SP* × NS
LB17   B2 SP* × B2
LB18   SP ÷
LB19   × QU
LB19   QU ×
LB20   ÷ CB
LB20   CB ÷
LB21   × (BA | HY | NS)
LB21   BB ×
LB21a  HL (HY | BA) ×
LB21b  SY × HL
LB22   × IN
LB23   (AL | HL) × NU
LB23   NU × (AL | HL)
LB23a  PR × (ID | EB | EM)
LB23a  (ID | EB | EM) × PO
LB24   (PR | PO) × (AL | HL)
LB24   (AL | HL) × (PR | PO)
LB25   (PR | PO) × (OP | HY)? NU
LB25   (OP | HY) × NU
LB25   NU × (NU | SY | IS)
LB25   NU (NU | SY | IS)* × (NU | SY | IS | CL | CP)
LB25   NU (NU | SY | IS)* (CL | CP)? × (PO | PR)
LB26   JL × (JL | JV | H2 | H3)
LB26   (JV | H2) × (JV | JT)
LB26   (JT | H3) × JT
LB27   (JL | JV | JT | H2 | H3) × PO
LB27   PR × (JL | JV | JT | H2 | H3)
LB28   (AL | HL) × (AL | HL)
LB29   IS × (AL | HL)
LB30   (AL | HL | NU) × [OP - EastAsian]
LB30   [CP - EastAsian] × (AL | HL | NU)
LB30a  sot (RI RI)* RI × RI
LB30a  [^ RI] (RI RI)* RI × RI
LB30b  EB × EM
LB30b  [ExtPict & Cn] × EM
LB31   ÷
'''

# As they stand since Unicode 17.0. Circle is U+25CC.
LINE = '''
LB4    BK ÷
LB5    CR × LF
LB5    (CR | LF | NL) ÷
LB6    × (BK | CR | LF | NL)
LB7    × (SP | ZW)
LB8    ZW SP* ÷
LB8a   ZWJ ×
LB9    [^ BK CR LF NL SP ZW] (CM | ZWJ)* → X
LB10   (CM | ZWJ) → AL
LB11   × WJ
LB11   WJ ×
LB12   GL ×
LB12a  [^ SP BA HY HH] × GL
LB13   × (CL | CP | EX | SY)
LB14   OP SP* ×
LB15a  (sot | BK | CR | LF | NL | OP | QU | GL | SP | ZW) [QU & Pi] SP* ×
LB15b  × [QU & Pf] (SP | GL | WJ | CL | QU | CP | EX | IS | SY | BK | CR | LF | NL | ZW | eot)
LB15c  SP ÷ IS NU
LB15d  × IS
LB16   (CL | CP) SP* × NS
LB17   B2 SP* × B2
LB18   SP ÷
LB19   × [QU - Pi]
LB19   [QU - Pf] ×
LB19a  [^ EastAsian] × QU
LB19a  × QU ([^ EastAsian] | eot)
LB19a  QU × [^ EastAsian]
LB19a  (sot | [^ EastAsian]) QU ×
LB20   ÷ CB
LB20   CB ÷
LB20a  (sot | BK | CR | LF | NL | SP | ZW | CB | GL) (HY | HH) × (AL | HL)
LB21   × (BA | HH | HY | NS)
LB21   BB ×
LB21a  HL (HY | HH) × [^ HL]
LB21b  SY × HL
LB22   × IN
LB23   (AL | HL) × NU
LB23   NU × (AL | HL)
LB23a  PR × (ID | EB | EM)
LB23a  (ID | EB | EM) × PO
LB24   (PR | PO) × (AL | HL)
LB24   (AL | HL) × (PR | PO)
LB25   NU (SY | IS)* (CL | CP)? × (PO | PR)
LB25   (PO | PR) × OP IS? NU
LB25   (PO | PR | HY | IS) × NU
LB25   NU (SY | IS)* × NU
LB26   JL × (JL | JV | H2 | H3)
LB26   (JV | H2) × (JV | JT)
LB26   (JT | H3) × JT
LB27   (JL | JV | JT | H2 | H3) × PO
LB27   PR × (JL | JV | JT | H2 | H3)
LB28   (AL | HL) × (AL | HL)
LB28a  AP × (AK | Circle | AS)
LB28a  (AK | Circle | AS) × (VF | VI)
LB28a  (AK | Circle | AS) VI × (AK | Circle)
LB28a  (AK | Circle | AS) × (AK | Circle | AS) VF
LB29   IS × (AL | HL)
LB30   (AL | HL | NU) × [OP - EastAsian]
LB30   [CP - EastAsian] × (AL | HL | NU)
LB30a  sot (RI RI)* RI × RI
LB30a  [^ RI] (RI RI)* RI × RI
LB30b  EB × EM
LB30b  [ExtPict & Cn] × EM
LB31   ÷
'''


class Property:
    """The value that a property file gives to each code point, or `otherwise`."""

    def __init__(self, folder, name, otherwise='', only=None):
        self.rows = []
        with open(find(folder, name), encoding='utf-8') as lines:
            for line in lines:
                fields = [field.strip() for field in line.split('#')[0].split(';')]
                if len(fields) > 1 and only in (None, fields[-1]):
                    first, _, last = fields[0].partition('..')
                    self.rows.append((int(first, 16), int(last or first, 16), fields[-1]))
        self.rows.sort()
        self.firsts = [row[0] for row in self.rows]
        self.otherwise = otherwise

    def cuts(self):
        """The places at which the value may change."""
        return {row[0] for row in self.rows} | {row[1] + 1 for row in self.rows}

    def of(self, code):
        at = bisect.bisect_right(self.firsts, code) - 1
        if at >= 0 and code <= self.rows[at][1]:
            return self.rows[at][2]
        return self.otherwise


class Model:
    """One kind of boundary: its rules, and the classes of characters.

    A character's classes are a tuple of names. The first one is the value of the property that the
    annex is about, by which random texts are drawn; the rules speak of the others.
    """

    def __init__(self, name, text, properties, classes_of, statuses_of, more_cuts=()):
        self.name = name
        self.statuses_of = statuses_of
        cuts = set(more_cuts).union(*(known.cuts() for known in properties)) | {0, 0xD800, 0xE000}
        self.cuts = sorted(cut for cut in cuts if cut < 0x110000)
        self.kinds = [classes_of(cut) for cut in self.cuts]
        self.letters = {}               # the letter that stands for each tuple of classes
        self.samples = {}               # for each value of the property, its tuples and ranges
        for first, end, kinds in zip(self.cuts, self.cuts[1:] + [0x110000], self.kinds):
            if not 0xD800 <= first <= 0xDFFF:
                self.letters.setdefault(kinds, chr(0x100 + len(self.letters)))
                ranges = self.samples.setdefault(kinds[0], {}).setdefault(kinds, [])
                ranges.append((first, end - 1))
        self.read(text)

    def read(self, text):
        """Reads the lines of an annex."""
        self.text = text
        self.macros, self.first, self.rules = {}, [], []
        self.skipped = self.never = self.alone = None
        for line in text.strip().split('\n'):
            name, rest = line.split(None, 1)
            if rest.startswith('='):
                self.macros[name] = rest[1:].split()
            elif '→' in rest:
                words, becomes = rest.split('→')
                if ']' in words:
                    never, words = words.split(']')
                    self.never = self.members(*never.strip('[^').split())
                    self.skipped = self.members(*re.findall(r'\w+', words))
                else:
                    self.alone = self.letters[(becomes.strip(),) * 2]
            else:
                left, sign, right = re.fullmatch('(.*)([×÷])(.*)', rest).groups()
                fits = re.compile(f'(?:{self.pattern(left)})\\|(?:{self.pattern(right)})')
                (self.first if self.skipped is None else self.rules).append((fits, sign == '÷'))

    def members(self, *names):
        """The letters of all characters that have one of the classes."""
        found = set()
        for name in names:
            if name in self.macros:
                found |= set(self.members(*self.macros[name]))
            else:
                some = {letter for kinds, letter in self.letters.items() if name in kinds[1:]}
                if not some:
                    raise ValueError(f'{self.name}: no character is {name}')
                found |= some
        return ''.join(sorted(found))

    def pattern(self, side):
        """The regular expression of one side of a rule."""
        def one(found):
            word = found[0]
            if word in ('sot', 'eot'):
                return '^' if word == 'sot' else '$'
            if word.startswith('[^'):
                return '[^|' + self.members(*word[2:-1].split()) + ']'
            first, sign, second = re.fullmatch(r'\[?(\w+)(?: ([&-]) (\w+)\])?', word).groups()
            kept = self.members(first)
            if sign:
                other = self.members(second)
                kept = ''.join(it for it in kept if (it in other) == (sign == '&'))
            return '[' + kept + ']'
        return re.sub(r'\[[^]]*\]|\w+', one, side).replace(' ', '')

    def classes(self, code):
        return self.kinds[bisect.bisect_right(self.cuts, code) - 1]

    def skip(self, string):
        """What is left of a string, and for each letter its place there; None where it is skipped."""
        if self.skipped is None:
            return string, list(range(len(string)))
        kept, places, base = [], [], False
        for letter in string:
            if base and letter in self.skipped:
                places.append(None)
                continue
            places.append(len(kept))
            kept.append(self.alone if self.alone and letter in self.skipped else letter)
            base = letter not in self.never
        return ''.join(kept), places

    def boundaries(self, text):
        """The places of the boundaries of a text that isn't empty, given as code points."""
        string = ''.join(self.letters[self.classes(code)] for code in text)
        kept, places = self.skip(string)
        found = [0]
        for place in range(1, len(string)):
            broken = decide(self.first, string, place)
            if broken is None:
                at = places[place]
                broken = at is not None and decide(self.rules, kept, at)
            if broken:
                found.append(place)
        return found + [len(string)]

    def segments(self, text):
        """The boundaries of a text with the statuses of each, as `rbbi breaks` writes them."""
        places = self.boundaries(text)
        kinds = [self.classes(code)[1:] for code in text]
        out = [(0, [0])]
        for start, end in zip(places, places[1:]):
            out.append((end, self.statuses_of(kinds[start:end])))
        return out


def decide(rules, string, place):
    """What the first rule that fits says of a place between two letters, or None."""
    marked = string[:place] + '|' + string[place:]
    for fits, broken in rules:
        if fits.search(marked):
            return broken
    return None


def no_statuses(segment):
    return [0]


WORD_STATUSES = {'Numeric': 100, 'ALetter': 200, 'Hebrew_Letter': 200, 'Katakana': 300,
                 'Hiragana': 300, 'Han': 400}


def word_statuses(segment):
    """The kind of the character that ends the segment, but for what counts with one before it."""
    skipped = {'Extend', 'Format', 'ZWJ'}
    end = list(segment)
    while len(end) > 1 and end[-1][0] in skipped | {'ExtendNumLet', 'Single_Quote'}:
        end.pop()
    if end[-1][0] in skipped:
        return [0]
    return [WORD_STATUSES[name] for name in end[-1] if name in WORD_STATUSES][:1] or [0]


def sentence_statuses(segment):
    """0 for a sentence that ends by a terminator with what may stand behind it, else 100."""
    end = [kinds[0] for kinds in segment]
    while end and end[-1] in ('Sep', 'CR', 'LF'):
        end.pop()
    for tail in ('Sp', 'Close'):
        while end and end[-1] in (tail, 'Extend', 'Format'):
            end.pop()
    return [0] if end and end[-1] in ('ATerm', 'STerm') else [100]


def line_statuses(segment):
    return [100] if segment[-1][0] in ('BK', 'CR', 'LF', 'NL') else [0]


def grapheme(folder, is_15=False):
    breaks = Property(folder, 'GraphemeBreakProperty.txt', 'Other')
    emoji = Property(folder, 'emoji-data.txt', only='Extended_Pictographic')
    conjunct = None if is_15 else Property(folder, 'DerivedCoreProperties.txt')
    rules = '\n'.join(line for line in GRAPHEME.split('\n') if not (is_15 and 'InCB' in line))

    def classes_of(code):
        value = breaks.of(code)
        name = 'RI' if value == 'Regional_Indicator' else value
        kinds = (value, name) + (('ExtPict',) if emoji.of(code) else ())
        if is_15 or conjunct.of(code) not in ('Linker', 'Extend', 'Consonant'):
            return kinds
        return (f'{value} {conjunct.of(code)}', name, f'InCB_{conjunct.of(code)}') + kinds[2:]
    return Model('grapheme', rules, [breaks, emoji] + ([] if is_15 else [conjunct]), classes_of,
                 no_statuses)


def word(folder, is_15=False):
    breaks = Property(folder, 'WordBreakProperty.txt', 'Other')
    emoji = Property(folder, 'emoji-data.txt', only='Extended_Pictographic')
    scripts = Property(folder, 'Scripts.txt')

    def classes_of(code):
        value = breaks.of(code)
        name = 'RI' if value == 'Regional_Indicator' else value
        script = scripts.of(code)
        return ((value, name) + (('ExtPict',) if emoji.of(code) else ())
                + ((script,) if script in ('Han', 'Hiragana') else ()))
    return Model('word', WORD, [breaks, emoji, scripts], classes_of, word_statuses)


def sentence(folder, is_15=False):
    breaks = Property(folder, 'SentenceBreakProperty.txt', 'Other')

    def classes_of(code):
        return (breaks.of(code),) * 2
    return Model('sentence', SENTENCE, [breaks], classes_of, sentence_statuses)


ITERATION = {0x3005, 0x303B, 0x309D, 0x309E, 0x30FD, 0x30FE}
KANA_HYPHENS = {0x301C, 0x30A0}
CENTERED = {0x30FB, 0xFF1A, 0xFF1B, 0xFF65, 0x203C, 0x2047, 0x2048, 0x2049, 0xFF01, 0xFF1F}
HYPHENS = {0x2010, 0x2013}
QUOTES = {0x201C: 'OP', 0x201D: 'CL'}

# What CSS Text 3, section 5.3, lets begin a line by each tailoring, and prefixes let end one; ICU adds the
# quotes, and that a wide prefix may be joined to a number before it, a wide suffix to what follows.
FREE = {'loose': ITERATION, 'normal-cj': KANA_HYPHENS, 'loose-cj': ITERATION | KANA_HYPHENS | CENTERED}

# Where a line may be broken before a hyphen, letters after it are joined to it, as LB20a has it elsewhere.
# No line may be broken after ZWJ, so what LB9 leaves out counts here.
AFTER_BREAK = 'LB20a  ID ((CM | ZWJ)* CM)? [Hyphen - BA] (CM | ZWJ)* × (AL | HL)\n'

TAILORED_RULES = {
    '× IN': '[^ IN] × IN',
    '× (BA | HY | NS)': '× ([BA - Hyphen] | HY | NS)\nLB21   [^ ID] × Hyphen',
    '× (BA | HH | HY | NS)': '× ([BA - Hyphen] | [HH - Hyphen] | HY | NS)\nLB21   [^ ID] × Hyphen',
    '(PR | PO) × ': '(PR | PO | Suffix) × ',
    '(PO | PR) × OP': '(PO | PR | Suffix) × OP',
    '(PO | PR | HY | IS) × NU': '(PO | PR | Suffix | HY | IS) × NU',
    '× (PR | PO)': '× (PR | PO | Suffix)',
    '× (PO | PR)': '× (PO | PR | Prefix)',
}


def tailored_rules(text, tailoring):
    """The lines of the annex with those of a tailoring in the place of some."""
    for old, new in TAILORED_RULES.items():
        if tailoring == 'loose-cj' or tailoring == 'loose' and old == '× IN':
            text = text.replace(old + '\n', new + '\n') if old.startswith('×') else text.replace(old, new)
    if tailoring == 'loose-cj' and 'LB20a' in text:
        text = text.replace('LB9 ', AFTER_BREAK + 'LB9 ')
    return text


def tailored_class(tailoring, code, value, name, width):
    """The value and the class of a character by a tailoring."""
    if value == 'CJ' and tailoring not in ('', 'cj'):
        return value, 'ID'
    if code in FREE.get(tailoring, ()):
        return 'Free', 'Free'
    if code in QUOTES and tailoring.endswith('cj'):
        return 'Quote', QUOTES[code]
    if tailoring == 'loose-cj' and name in ('PR', 'PO') and width in ('A', 'F', 'W'):
        return (('Prefix',) if name == 'PR' else ('Suffix',)) * 2
    return value, name


def line(folder, is_15=False, tailoring=''):
    breaks = Property(folder, 'LineBreak.txt', 'XX')
    widths = Property(folder, 'EastAsianWidth.txt')
    general = Property(folder, 'DerivedGeneralCategory.txt')
    emoji = Property(folder, 'emoji-data.txt', only='Extended_Pictographic')

    def classes_of(code):
        value = name = breaks.of(code)
        category = general.of(code)
        if value in ('AI', 'SG', 'XX'):                         # LB1
            name = 'AL'
        elif value == 'SA':
            name = 'CM' if category in ('Mn', 'Mc') else 'AL'
        elif value == 'CJ':
            name = 'NS'
        value, name = tailored_class(tailoring, code, value, name, widths.of(code))
        kinds = (value, name)
        if widths.of(code) in ('F', 'W', 'H'):
            kinds += ('EastAsian',)
        if name == 'QU' and category in ('Pi', 'Pf'):
            kinds += (category,)
        if code == 0x25CC:
            kinds = ('Circle', name, 'Circle')
        if tailoring == 'loose-cj' and code in HYPHENS:
            kinds = ('Hyphen', name, 'Hyphen')
        if emoji.of(code) and category == 'Cn':
            kinds += ('ExtPict', 'Cn')
        return kinds
    special = FREE.get(tailoring, set()) | (HYPHENS | set(QUOTES) if tailoring else set()) | {0x25CC}
    rules = tailored_rules(LINE_15 if is_15 else LINE, tailoring)
    return Model(f'line-{tailoring}' if tailoring else 'line', rules, [breaks, widths, general, emoji],
                 classes_of, line_statuses, special | {code + 1 for code in special})


def lines_by(tailoring):
    """The model of lines by a tailoring."""
    def make(folder, is_15=False):
        return line(folder, is_15, tailoring)
    make.__name__ = f'line-{tailoring}'
    return make


TAILORINGS = ['normal', 'loose', 'cj', 'normal-cj', 'loose-cj']
MODELS = [grapheme, word, sentence, line] + [lines_by(tailoring) for tailoring in TAILORINGS]
