#!/bin/bash
# Compares path runs of functions of any width with files that say what they are.
#   bash bench/runs.sh FOLDER [PROGRAM]
# Each FILE.runs of FOLDER says runs of the functions of FILE.c beside it, which is preprocessed C. A run is a line `run
# NAME: KEY=NUMBER ..`, the function and a number for each of its keys in order, or `none` where it has no key, and
# then its trace: a line for each entry, behind two blanks.
#   ub KIND at PLACE (node N)                       a violated condition; KIND is that of a record, as `signed overflow`
#   enter PLACE (node N)                            the branch, body or operand at this node is entered
#   seen TRUTH at PLACE (node N)                    the comparison or test at this node was `true` or `false`; of a
#                                                   comparison that has a
#                                                   replacement, `, replacement TRUTH` follows
#   nothing                                         the only line of a trace that has no entry
# A PLACE is `FILE:LINE:COLUMN`, and N is the number of the node in its unit. Keys, numbers of nodes and columns are
# compared, and lines of places aren't. The program that runs the functions is built as bench/functions.sh says, which
# takes its time; it's left in the file PROGRAM, or the one that stands there is taken.
set -eu
. "$(dirname "$0")/functions.sh"
python3 - "$program" "$folder" <<'END'
import re, sys
from functions import *

ENTRY = re.compile(r'(?:(enter)|seen (true|false) at|ub (.+) at) (\S+) \(node (\d+)\)(?:, replacement (true|false))?')

# an entry of a trace, as the program writes it
def entry(line):
    found = ENTRY.fullmatch(line)
    if not found:
        return line
    enter, truth, kind, place, node, replaced = found.groups()
    word = enter or truth or CONDITIONS.get(kind, kind)
    return f'{word} {node} at {column(place)}' + (f' or {replaced}' if replaced else '')

# the keys and the trace of what the program writes of a run
def parts(text):
    keys, trace, *_ = text.split('\n') + ['', '']
    return [', '.join(key.split(' ')[0] for key in keys.split(', ')), trace]

program, folder = sys.argv[1:]
tally = Tally()
for said_of in sorted(glob.glob(folder + '/*.runs')):
    file = said_of.removesuffix('.runs') + '.c'
    for head, *lines in blocks(file, '.runs', 'run '):
        name, _, values = head.partition(': ')
        pairs = [pair.partition('=') for pair in values.split(' ') if values != 'none']
        keys = ', '.join(key for key, _, _ in pairs)
        trace = ', '.join(entry(line) for line in lines if line != 'nothing')
        found = said(program, file, name, *[number for _, _, number in pairs])
        tally.compare(f'{os.path.basename(file)}: run {head}', [keys, trace], parts(found))
tally.end()
END
