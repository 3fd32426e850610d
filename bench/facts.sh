#!/bin/bash
# Compares what is listed of functions of any width with files that say what it is.
#   bash bench/facts.sh FOLDER [PROGRAM]
# Each FILE.c of FOLDER is preprocessed C, and FILE.facts beside it says what is listed of its functions: of each a
# line `function NAME: N nodes, B input bits, weight W`, and then a line for each key, condition and candidate, in
# order, behind two blanks.
#   key KEY KIND                                    a key, as in the inputs of a record, with the name of its kind of
#                                                   integers, as `UChar`
#   key KEY KIND size BYTES                         the address of an object, and its size; `kept` follows where its
#                                                   numbers are kept
#   condition KIND at PLACE                         a condition; KIND is that of a record, as `signed overflow`
#   candidate WHAT at PLACE                         a candidate; WHAT is that of a record, as `never entered` or `same
#                                                   as x < 0`
# A PLACE is `FILE:LINE:COLUMN`; columns are compared, and lines aren't. Other lines say which units are skipped, and
# aren't compared: no function is to be listed but those that the file has. The program that lists the functions is
# built as bench/functions.sh says, which takes its time; it's left in the file PROGRAM, or the one that stands there
# is taken.
set -eu
. "$(dirname "$0")/functions.sh"
python3 - "$program" "$folder" <<'END'
import sys
from functions import *

CANDIDATES = {'never entered': 'enter', 'always true': 'true', 'always false': 'false'}

# a key, a condition and a candidate, as the program writes them
def key(text):
    return text.replace(' size ', ' ')

def condition(text):
    kind, _, place = text.rpartition(' at ')
    return f'{CONDITIONS.get(kind, kind)} {column(place)}'

def candidate(text):
    what, _, place = text.rpartition(' at ')
    if what.startswith('same as '):
        return f'same {column(place)} {what[len("same "):]}'
    return f'{CANDIDATES.get(what, what)} {column(place)}'

SPELLED = {'key': key, 'condition': condition, 'candidate': candidate}

# what the program writes of a function: its name, and the lines behind it
def facts(head, lines):
    name, _, sizes = head.partition(': ')
    listed = {'key': [], 'condition': [], 'candidate': []}
    for line in lines:
        what, _, text = line.partition(' ')
        listed.setdefault(what, []).append(SPELLED.get(what, str)(text))
    return name, [sizes.replace(' input bits, weight ', ' bits, '), *[', '.join(texts) for texts in listed.values()]]

program, folder = sys.argv[1:]
tally = Tally()
for file in sorted(glob.glob(folder + '/*.c')):
    wanted = dict(facts(head, lines) for head, *lines in blocks(file, '.facts', 'function '))
    lines = said(program, file).split('\n')[:-1]
    found = {lines[at]: lines[at + 1:at + 5] for at in range(0, len(lines), 5)}
    for name in [*wanted, *[name for name in found if name not in wanted]]:
        pair = [functions.get(name, ['no function']) for functions in (wanted, found)]
        tally.compare(f'{os.path.basename(file)}: function {name}', *pair)
tally.end()
END
