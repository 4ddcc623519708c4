#!/usr/bin/env python3
"""Brings the repository's own definitions and lemmas to snake case, once, after the kit's port.py.

Run at the top of the checkout. A name that an .antt file of ours declares, and that has a capital inside
or a dash, becomes snake case wherever it stands as a whole word: in .antt files, in what .rt files say in
`ghost` items and clauses, and nowhere in strings. Goal names, which the check makes, stay as they are.
"""
import re
import subprocess
import sys

DECLARES = re.compile(r'^\s*(?:(?:abbrev|unfoldable|pub|private|opaque|module)\s+)*([^\s:(){};,.]+)\s+:\s')
WORD = re.compile(r'[^\s(){};,.\[\]"`@|:«»]+')
GOAL = re.compile(r'^(loop|returns|invariant|decreases|overflow|bounds|carry)-')
# names that would fall together with another one, or with a function of src/ whose clause cites them
OWN = {
    'bit-or': 'bit_of_or',
    'bit-xor': 'bit_of_xor',
    'charactersWith': 'character_count',
    'codeOnRoll': 'roll_code',
    'hasPair': 'lists_pair',
    'hasQse': 'lists_qse',
    'inCell': 'cell_answer',
    'in-range': 'in_table',
    'isDigit': 'is_digit_byte',
    'isSign': 'is_sign_byte',
    'of-qse': 'with_qse',
    'offRoll': 'unlisted',
    'part-at': 'part_in_place',
    'put-cell': 'put_at_cell',
    'qse-loads': 'qse_loads_are',
    'quarterHours': 'quarters_of',
    'rowOfLetter': 'letter_row',
    'rowWeight': 'weight_of_row',
    'shares-answer': 'shares_answered',
    'text-of': 'text_stated',
    'tooLarge': 'above_limit',
    'untakenIn': 'untaken_at',
    'usedBefore': 'units_before',
    'withLosses': 'grossed_up',
}
# words of the old library inside our names
OLD = {'getD': 'slice_index_or', 'upTo': 'up_to', 'sumBy': 'sum_by'}


def files(ending):
    out = subprocess.check_output(['git', 'ls-files', '--cached', '--others', '--exclude-standard'], text=True)
    return sorted(f for f in out.split('\n') if f.endswith(ending))


def is_old(name):
    return re.match(r'^[^\W\d_]', name) is not None and (
        '-' in name or (name[0].islower() and re.search('[a-z0-9][A-Z]', name) is not None))


def is_goal(name):
    return GOAL.match(name) is not None or re.search(r'-requires(-|$)', name) is not None


def snake(name):
    if name in OWN:
        return OWN[name]
    for old, new in OLD.items():
        name = re.sub(r'(?<![A-Za-z])%s(?![a-z])' % old, new, name)
    name = re.sub(r'(?<=[a-z0-9])([A-Z])', lambda m: '_' + m.group(1).lower(), name)
    return name.replace('-', '_')


def main():
    table = {}
    for f in files('.antt'):
        for line in open(f, encoding='utf-8'):
            if line.strip().startswith('--'):
                continue
            m = DECLARES.match(line)
            if m and is_old(m.group(1)) and not is_goal(m.group(1)):
                table[m.group(1)] = snake(m.group(1))
    texts = {f: open(f, encoding='utf-8').read() for f in files('.antt') + files('.rt')}
    taken = {}
    for f, text in texts.items():
        for w in set(WORD.findall(text)):
            taken.setdefault(w, []).append(f)
    back = {}
    for old, new in sorted(table.items()):
        back.setdefault(new, []).append(old)
    for new, olds in sorted(back.items()):
        if len(olds) > 1:
            print('fall together:', new, olds)
        if new in taken and new not in table:
            shared = [f for f in taken[new] if any(f in taken.get(o, []) for o in olds)]
            print('taken:', new, olds, 'both in:', shared[:6], '' if shared else taken[new][:3])
    if '--dry' in sys.argv:
        print(len(table))
        return
    for f, text in texts.items():
        new = text
        if f.endswith('.antt'):
            # a string stays as it is
            parts = re.split(r'("(?:[^"\\]|\\.)*")', text)
            new = ''.join(p if i % 2 else WORD.sub(lambda m: table.get(m.group(0), m.group(0)), p)
                          for i, p in enumerate(parts))
        else:
            out, ghost = [], False
            for line in text.split('\n'):
                s = line.strip()
                if not ghost and re.match(r'(ghost\b|requires\b|ensures\b|invariant\b|also_|decreases\b)', s):
                    ghost = True
                if ghost or '#[tactic' in s:
                    line = WORD.sub(lambda m: table.get(m.group(0), m.group(0)), line)
                if ghost and (s.endswith('}') or s.endswith('};') or s.endswith('},') or s.endswith('}) {')):
                    ghost = False
                out.append(line)
            new = '\n'.join(out)
        if new != text:
            open(f, 'w', encoding='utf-8').write(new)


main()
