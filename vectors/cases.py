#!/usr/bin/env python3
"""Writes crates/cases/data/cases and crates/cases/stdout: the cases, and what the program must print for them.

C1 to C10 of document 01; the cases that it lists under 'Also run', at the limits of K7 and at the older ones, files of the most bytes that the
program reads, a pair with states that reach a move only by internal steps, refutations and blocks on either side of state 64, transitions
that are the same in other terms once they are merged, models that are not in lowest terms, models joined at the limits, sheets of blocks of 1, 16,
17, 33 and 128 states and of 112 blocks, three cost pairs, one with a model above 8,192 bytes, and what other calls say to the first, and every
truncation of model S, with their answers by
hand; and the lines of base.txt, k1.txt, k3.txt, k4.txt, k6.txt, k7.txt and k10.txt with the answers that stand there, but for refusals 10, 23, 26
and 28: the program lends buffers that are always long enough, and does not rewrite. Merged models of base.txt, which is older than K3, lose what K3
drops, and lines about the limits that K7 raised are left out. A line from before K10 whose models are not in lowest terms gets 34; and its own
answer once models and certificate are rewritten here.

With the name of a folder the two files are written there, and not into crates/cases.
"""
import os
import sys
from fractions import Fraction
from math import gcd

from files import FIRST, MEETS, S, S_CERTIFICATE, SECOND, STAYS, certificate, flow, model, refutation

HERE = os.path.dirname(os.path.abspath(__file__))
CRATE = sys.argv[1] if len(sys.argv) > 1 else os.path.join(HERE, '..', 'crates', 'cases')

MODEL, CERTIFICATE = 16384, 49152  # of longer files the program would read no more
STATES, ACTIONS, TRANSITIONS, ENTRIES, REFUTATIONS = 128, 32, 256, 2048, 8128
JUDGE, REDUCE, FETCH, JOIN, ALIKE, SHEET, JUDGE_COSTS = range(7)
ABSENT = 0xFFFFFFFF  # a state that no model has


def case(tag, numbers, m, c):
    assert len(m) <= MODEL and len(c) <= CERTIFICATE
    return bytes([tag]) + b''.join(x.to_bytes(4, 'big') for x in (*numbers, len(m), len(c))) + m + c


NONE = 0, 0, 0  # a case that needs no numbers


def result(answer):
    return 'result %d %d %d\n' % answer


def judge(m, c, answer, blocks=(), tag=JUDGE):
    """A case of judging and what is printed for it: number, file and place, and each state with its block."""
    return case(tag, NONE, m, c), result(answer) + ''.join('%d %d\n' % line for line in enumerate(blocks))


def judge_costs(m, c, answer, blocks=()):
    """The same of a cost pair."""
    return judge(m, c, answer, blocks, JUDGE_COSTS)


def reduce(m, c, answer, merged):
    """The same of reducing: the merged model's bytes come after number, file and place, on acceptance."""
    return case(REDUCE, NONE, m, c), result(answer) + (merged.hex() + '\n' if answer[0] == 0 else '')


def fetch(m, state, answer, part):
    """The same of a fetch: the run or the stretch comes after number, file and place, by its length and its bytes."""
    return case(FETCH, (state, 0, 0), m, b''), result(answer) + '%d:%s\n' % (len(part), part.hex())


def join(a, b, answer, joined=b''):
    """The same of joining: the joined model's bytes come after number, file and place, where it answers 0."""
    assert len(b) <= MODEL
    return case(JOIN, NONE, a, b), result(answer) + (joined.hex() + '\n' if answer[0] == 0 else '')


def alike(m, c, named, answer, yes):
    """The same of two states compared: yes or no comes after number, file and place."""
    return case(ALIKE, named, m, c), result(answer) + ('yes\n' if yes else 'no\n')


def sheet(m, c, answer, text=''):
    """The same of the block sheet: its lines come after number, file and place, on acceptance."""
    return case(SHEET, NONE, m, c), result(answer) + text


def accepted(m, c, blocks):
    return judge(m, c, (0, 0, 0), blocks)


def refused(m, c, number, file, place):
    return judge(m, c, (number, file, place))


def run_of(m, state, start, end):
    return fetch(m, state, (0, 0, 0), m[start:end])


def no_state(m, state):
    return fetch(m, state, (24, 0, 0), b'')


def unsound(m, number, place, state=0):
    return fetch(m, state, (number, 1, place), m[place:])


def proved_cases():
    yield accepted(S, S_CERTIFICATE, (0, 0, 1))
    yield refused(S, certificate([SECOND, FIRST], (0, 0, 1), [MEETS, STAYS]), 15, 2, 4)
    yield refused(S, certificate([refutation(0, 2, (1, 1, 1), (1, 1, 1), (1, 1, 1)), SECOND], (0, 0, 1), [MEETS, STAYS]), 16, 2, 4)
    yield refused(S, certificate([FIRST, SECOND], (1, 1, 0), [MEETS, STAYS]), 17, 2, 74)
    yield refused(S, certificate([FIRST, SECOND], (0, 1, 2), [MEETS, STAYS]), 18, 2, 74)
    yield refused(S, certificate([FIRST, SECOND], (0, 0, 1), [flow(2, [(0, 1, 1), (1, 0, 1)], [(2, 2, 1)]), STAYS]), 20, 2, 79)
    yield refused(S, certificate([FIRST, SECOND], (0, 0, 1), [MEETS, flow(1, [], [(0, 1, 1)])]), 21, 2, 109)
    yield refused(S, certificate([FIRST, SECOND], (0, 0, 1), [MEETS, flow(1, [], [(2, 0, 1)])]), 19, 2, 109)
    yield refused(S, S_CERTIFICATE + b'\0', 22, 2, 125)
    yield refused(S, S_CERTIFICATE[:-1], 11, 2, 109)


def still(n):
    """A model of states without transitions."""
    return model(n, 1, [0] * n, [])


ONE_ENTRY = [(0, 1)]


def full(count, n=64):
    """Transitions with an entry for each state."""
    return [(v, 0, n, [(u, 1) for u in range(n)]) for v in range(count)]


def pairs_also_run():
    one_block = certificate([], [0] * STATES, [])
    for n in 64, 65, STATES:
        yield accepted(still(n), certificate([], [0] * n, []), [0] * n)
    yield refused(still(STATES + 1), one_block, 3, 1, 0)
    yield refused(model(0, 1, [], []), one_block, 3, 1, 0)
    yield accepted(still(1), certificate([], [0], []), [0])
    yield refused(model(2, 1, [0, 0], [(0, 0, 3, [(0, 1), (1, 1)])]), one_block, 7, 1, 10)
    each = certificate([], range(64), [])
    for transitions in full(16), full(16) + [(16, 0, 1, ONE_ENTRY)], full(32):
        yield accepted(model(64, 1, range(64), transitions), each, range(64))
    yield refused(model(64, 1, range(64), full(32) + [(32, 0, 1, ONE_ENTRY)]), each, 8, 1, 72 + 32 * 199)
    yield refused(S.ljust(MODEL, b'\0'), S_CERTIFICATE, 9, 1, 31)
    yield refused(S, S_CERTIFICATE.ljust(CERTIFICATE, b'\0'), 22, 2, 125)
    for count in 2016, 2017, REFUTATIONS:
        yield refused(S, b'CT' + count.to_bytes(2, 'big'), 11, 2, 4)
    yield refused(S, b'CT' + (REFUTATIONS + 1).to_bytes(2, 'big'), 13, 2, 0)
    lowest = -2147483648
    low_a = refutation(0, 2, (1, 1, lowest), (1, 1, 1), (1, 1, 1))
    yield accepted(S, certificate([low_a, SECOND], (0, 0, 1), [MEETS, STAYS]), (0, 0, 1))
    low_g = refutation(0, 2, (1, 1, 0), (1, 1, 1), (1, 1, lowest))
    yield refused(S, certificate([low_g, SECOND], (0, 0, 1), [MEETS, STAYS]), 16, 2, 4)


def on_either_side_of_state_64():
    """States 63, 64 and 127 share a label, and only 63 moves: it is refuted against the other two, which are one block."""
    def of(first, second, third):
        return [{63: first, 64: second, 127: third}.get(v, 0) for v in range(STATES)]

    ones = [1] * STATES
    m = model(STATES, 2, of(1, 1, 1), [(63, 1, 1, [(64, 1)])])
    against_64, against_127 = (refutation(0, t, of(1, 0, 0), ones, ones) for t in (64, 127))
    size = len(against_64)
    apart = of(1, 2, 2)
    yield accepted(m, certificate([against_64, against_127], apart, []), apart)
    yield accepted(m, certificate([against_127, against_64], apart, []), apart)
    yield refused(m, certificate([against_64], apart, []), 18, 2, 4 + size)
    yield refused(m, certificate([against_127], apart, []), 18, 2, 4 + size)
    yield refused(m, certificate([against_127, against_127], apart, []), 14, 2, 4 + size)
    yield refused(m, certificate([against_64, against_127], of(1, 2, 3), []), 18, 2, 4 + 2 * size)
    yield refused(m, certificate([refutation(0, 128, of(1, 0, 0), ones, ones)], apart, []), 14, 2, 4)
    # 64 steps to itself, and 127 meets that by staying
    loop = model(STATES, 2, of(1, 1, 1), [(63, 1, 1, [(64, 1)]), (64, 0, 1, [(64, 1)])])
    for w, answer in ((127, 64), (0, 0, 0)), ((127, 127), (21, 2, 4 + 2 * size + 130)), ((127, 63), (19, 2, 4 + 2 * size + 130)):
        c = certificate([against_64, against_127], apart, [flow(1, [], [(*w, 1)])])
        yield judge(loop, c, answer, apart if answer[0] == 0 else ())


def internal_steps():
    """State 0 moves to 3, state 1 steps to 0, state 2 steps to 1: 0, 1 and 2 are one block."""
    chain = model(4, 2, [0] * 4, [(0, 1, 1, [(3, 1)]), (1, 0, 1, [(0, 1)]), (2, 0, 1, [(1, 1)])])
    refutations = [
        refutation(0, 3, (1, 1, 1, 0), (1, 1, 1, 1), (1, 1, 1, 1)),
        refutation(1, 3, (1, 1, 1, 0), (1, 0, 0, 0)),
        refutation(2, 3, (1, 1, 1, 0), (0, 1, 0, 0)),
    ]
    flows = [
        flow(1, [(0, 1, 1), (1, 0, 1)], [(3, 3, 1)]),
        flow(1, [(0, 1, 1), (0, 2, 1), (1, 0, 1)], [(3, 3, 1)]),
        flow(1, [], [(0, 0, 1)]),
        flow(1, [], [(2, 0, 1)]),
        flow(1, [], [(0, 1, 1)]),
        flow(1, [], [(1, 1, 1)]),
    ]
    yield accepted(chain, certificate(refutations, (0, 0, 0, 1), flows), (0, 0, 0, 1))
    # a class split by the move alone: state 1, which has no move of its own, against state 0
    split = [refutation(0, 1, (1, 0, 0, 0), (1, 1, 1, 1), (1, 1, 1, 1))]
    yield refused(chain, certificate(split, (0, 1, 1, 1), []), 15, 2, 4)


def halves_and_quarters():
    """Transitions of one block in other terms (K3), which are so once the targets 1 and 2 are merged, and are written in lowest terms (K10). But for
    these two and the last pair's first two no states are alike."""
    half, quarters = [(0, 1), (1, 1)], [(0, 2), (1, 1), (2, 1)]

    def merged(transitions, kept):
        original, small = model(4, 3, (0, 1, 1, 2), transitions), model(3, 3, (0, 1, 2), kept)
        return reduce(original, certificate([], (0, 1, 1, 2), []), (0, 0, 0), small)

    yield merged([(0, 1, 2, half), (0, 1, 4, quarters)], [(0, 1, 2, half)])
    yield merged([(0, 1, 4, quarters), (0, 1, 2, half)], [(0, 1, 2, half)])
    shares = [(0, 1, 2, half), (0, 1, 4, [(0, 1), (1, 3)]), (0, 1, 4, [(0, 3), (1, 1)]), (0, 1, 1, [(0, 1)]), (0, 1, 1, [(1, 1)])]
    kept = shares + [(0, 1, 2, [(0, 1), (2, 1)]), (0, 1, 4, [(0, 2), (1, 1), (2, 1)])]
    shares += [(0, 1, 2, [(0, 1), (3, 1)]), (0, 1, 4, [(0, 2), (1, 1), (3, 1)])]
    yield merged(shares, kept)
    yield merged(shares + [(0, 1, 6, [(0, 3), (1, 1), (2, 2)]), (0, 1, 2, [(1, 1), (2, 1)]), (0, 1, 65535, [(1, 1), (2, 65534)])], kept)
    yield merged([(0, 1, 6, [(0, 2), (1, 1), (2, 3)]), (0, 1, 9, [(0, 3), (1, 1), (2, 5)])], [(0, 1, 3, [(0, 1), (1, 2)])])
    # divided though no other is the same: 2/2, 65,535/65,535, and 6, 10 and 14, but not 6, 10 and 15
    yield merged([(0, 1, 2, [(1, 1), (2, 1)])], [(0, 1, 1, [(1, 1)])])
    yield merged([(0, 1, 65535, [(1, 32768), (2, 32767)])], [(0, 1, 1, [(1, 1)])])
    yield merged([(0, 1, 30, [(0, 6), (1, 3), (2, 7), (3, 14)])], [(0, 1, 15, [(0, 3), (1, 5), (2, 7)])])
    yield merged([(0, 1, 31, [(0, 6), (1, 3), (2, 7), (3, 15)])], [(0, 1, 31, [(0, 6), (1, 10), (2, 15)])])
    # products that are the same in two bytes, and fractions that hardly differ
    near = [(0, 1, 257, [(0, 241), (1, 16)]), (0, 1, 273, [(0, 1), (1, 272)])]
    near += [(0, 1, 65535, [(0, 32768), (1, 32767)]), (0, 1, 65533, [(0, 32767), (1, 32766)])]
    yield merged(near, near)
    yield merged([(0, 2, 4, quarters), (0, 1, 2, half)], [(0, 2, 2, half), (0, 1, 2, half)])
    both = model(3, 2, (0, 0, 1), [(0, 1, 2, [(0, 1), (2, 1)]), (1, 1, 4, [(0, 1), (1, 1), (2, 2)])])
    flows = [flow(4, [(1, 1, 1)], [(0, 0, 1), (1, 0, 1), (2, 2, 2)]), flow(4, [(1, 0, 2)], [(0, 0, 1), (0, 1, 1), (2, 2, 2)])]
    yield reduce(both, certificate([], (0, 0, 1), flows), (0, 0, 0), model(2, 2, (0, 1), [(0, 1, 2, half)]))


def lowest_terms():
    """34 in every call, after 7 and before the next record."""
    def of(*transitions):
        return model(3, 1, [0] * 3, [(0, 0, sum(p for _, p in entries), entries) for entries in transitions])

    sound, even = [(0, 6), (1, 10), (2, 15)], [(0, 6), (1, 10), (2, 14)]
    yield no_state(of(sound), 3)
    for m, place in (of(even), 11), (of(sound, even), 27), (of(sound, [(2, 65535)], even), 27), (of([(1, 2)]), 11):
        yield unsound(m, 34, place)
        yield refused(m, S_CERTIFICATE, 34, 1, place)
        yield judge_costs(m + b'CO' + bytes(m[5]), b'CC' + S_CERTIFICATE[2:], (34, 1, place))
        yield reduce(m, S_CERTIFICATE, (34, 1, place), b'')
        yield sheet(m, S_CERTIFICATE, (34, 1, place))
        yield alike(m, S_CERTIFICATE, (1, 0, 1), (34, 1, place), False)
        yield join(m, S, (34, 1, place))
        yield join(S, m, (34, 3, place))
    both = of(even, even)
    yield unsound(both[:16] + b'\x1f' + both[17:], 7, 11)
    yield unsound(both[:26], 1, 11)
    yield unsound(both[:27], 34, 11)
    yield unsound(both[:32] + b'\x1f' + both[33:], 34, 11)
    yield unsound(both + b'\0', 34, 11)


def truncations():
    for size in range(len(S)):
        yield unsound(S[:size], 1, 0 if size < 6 else 6 if size < 11 else 11 if size < 21 else 21)


def models_also_run():
    yield run_of(S, 0, 11, 21)
    yield run_of(S, 1, 21, 31)
    yield run_of(S, 2, 0, 0)
    yield no_state(S, 3)
    yield no_state(S, 256)
    yield unsound(S + b'\0', 9, 31)
    for n in 64, 65, STATES:
        yield run_of(still(n), n - 1, 0, 0)
        yield no_state(still(n), n)
    yield unsound(still(STATES + 1), 3, 0)
    yield unsound(model(0, 1, [], []), 3, 0)
    yield run_of(still(1), 0, 0, 0)
    yield unsound(model(2, 1, [0, 0], [(0, 0, 3, [(0, 1), (1, 1)])]), 7, 10)
    for n, count in (64, 16), (64, 32), (STATES, 16):
        end = 8 + n + count * (7 + 3 * n)
        yield run_of(model(n, 1, [0] * n, full(count, n)), count - 1, end - 7 - 3 * n, end)
        over = model(n, 1, [0] * n, full(count, n) + [(count, 0, 1, ONE_ENTRY)])
        yield run_of(over, count, end, len(over)) if n * count < ENTRIES else unsound(over, 8, end, count)
    # 5 before 8, 5 in a cut file, 8 before the entries must be there, 6 before 7, a mark before the file's end
    yield unsound(over[:-5] + b'\0' + over[-4:], 5, end)
    yield unsound(model(1, 1, [0], [(0, 0, 0, [(0, 1)])])[:-3], 5, 9)
    yield unsound(over[:-3], 8, end)
    yield unsound(model(2, 1, [0, 0], [(0, 0, 3, [(0, 1), (0, 1)])]), 6, 10)
    yield unsound(b'PB', 2, 0)
    yield unsound(b'P', 1, 0)


def joined_at_the_limits():
    def loops(count):
        return model(1, 1, [0], [(0, 0, 1, ONE_ENTRY)] * count)

    def wide(transitions, n=64):
        return model(n, 1, [0] * n, transitions)

    def raised(transitions, by=64):
        return [(v + by, action, d, [(u + by, p) for u, p in entries]) for v, action, d, entries in transitions]

    for n in 63, 64, 127:
        yield join(still(n), still(1), (0, 0, 0), still(n + 1))
    yield join(still(64), still(64), (0, 0, 0), still(STATES))
    yield join(still(STATES), still(1), (25, 0, 0))
    yield join(still(1), still(STATES), (25, 0, 0))
    both = model(2, 1, [0, 0], [(0, 0, 1, ONE_ENTRY)] * 128 + [(1, 0, 1, [(1, 1)])] * 128)
    yield join(loops(128), loops(128), (0, 0, 0), both)
    yield join(loops(128), loops(129), (25, 0, 0))
    # 16 transitions with 64 entries each are 1,024 entries
    yield join(wide(full(16)), wide(full(16)), (0, 0, 0), wide(full(16) + raised(full(16)), STATES))
    yield join(wide(full(16)), wide(full(16) + [(16, 0, 1, ONE_ENTRY)]), (25, 0, 0))
    yield join(wide(full(16)), wide([(0, 0, 1, ONE_ENTRY)]), (0, 0, 0), wide(full(16) + [(64, 0, 1, [(64, 1)])], STATES))


def sheets():
    """Models without transitions, in which the labels are the blocks: of 16, 17 and 1 states, of 33, of 128 and of 64; and 112 blocks."""
    def labelled(blocks):
        return model(len(blocks), 1, blocks, []), certificate([], blocks, [])

    def lines(*rows):
        return ''.join(row.ljust(72) + '\n' for row in rows)

    def numbers(*states):
        return ''.join('%4d' % v for v in states)

    yield sheet(*labelled([0] * 16 + [1] * 17 + [2]), (0, 0, 0), lines(
        '   0  16' + numbers(*range(16)), '   1  17' + numbers(*range(16, 32)), '        ' + numbers(32), '   2   1' + numbers(33)))
    yield sheet(*labelled([0, 1] * 31 + [1, 1]), (0, 0, 0), lines(
        '   0  31' + numbers(*range(0, 32, 2)), '        ' + numbers(*range(32, 62, 2)),
        '   1  33' + numbers(*range(1, 33, 2)), '        ' + numbers(*range(33, 62, 2), 62), '        ' + numbers(63)))
    yield sheet(*labelled([0] * STATES), (0, 0, 0), lines(
        '   0 128' + numbers(*range(16)), *('        ' + numbers(*range(v, v + 16)) for v in range(16, STATES, 16))))
    yield sheet(*labelled([0, 1] * 64), (0, 0, 0), lines(*(
        (' ' * 8 if v > 31 else '   %d  64' % (v % 2)) + numbers(*range(v, v + 32, 2)) for first in (0, 1) for v in range(first, STATES, 32))))
    # Of states 0 to 47 each steps to 63, and those from 64 on, which have their labels, do not.
    stepping = model(112, 1, [v % 64 for v in range(112)], [(v, 0, 1, [(63, 1)]) for v in range(48)])
    reach = [int(v < 48 or v == 63) for v in range(112)]
    only_63 = [int(v == 63) for v in range(112)]
    apart = certificate([refutation(v, v + 64, reach, only_63) for v in range(48)], range(112), [])
    yield sheet(stepping, apart, (0, 0, 0), lines(*('%4d   1%4d' % (v, v) for v in range(112))))
    yield sheet(S, S_CERTIFICATE, (0, 0, 0), lines('   0   2   0   1', '   1   1   2'))
    yield sheet(S, S_CERTIFICATE[:-1], (11, 2, 109))


def costs():
    """The cost pair of examples/; a pair whose certificate pays after the move; and the first given to the other calls."""
    folder = os.path.join(HERE, '..', 'examples')
    m, c = (open(os.path.join(folder, name), 'rb').read() for name in ('costs.model', 'costs.certificate'))
    yield judge_costs(m, c, (0, 0, 0), (0, 1, 0))
    yield judge_costs(m[:44] + b'\x40\xff', c, (29, 1, 44))
    yield judge_costs(m[:45], c, (1, 1, 41))
    yield judge_costs(m + b'\0', c, (9, 1, 46))
    yield judge_costs(m[:45] + b'\2', c, (30, 2, 99))
    yield judge_costs(m[:41], c, (1, 1, 41))
    yield judge_costs(m, b'CT' + c[2:], (12, 2, 0))
    later = model(4, 2, [0, 0, 1, 2], [(0, 1, 1, [(3, 1)]), (0, 1, 1, [(2, 1)]), (1, 1, 1, [(2, 1)]), (2, 0, 1, [(3, 1)])])
    flows = [flow(1, [(1, 2, 1), (2, 3, 1)], [(3, 3, 1)]), flow(1, [(1, 2, 1)], [(2, 2, 1)]), flow(1, [(1, 1, 1)], [(2, 2, 1)])]
    pays = b'CC' + certificate([], [0, 0, 1, 2], flows)[2:]
    yield judge_costs(later + b'CO\x09\0\0\x09', pays, (0, 0, 0), (0, 0, 1, 2))
    yield judge_costs(later + b'CO\x09\0\0\x08', pays, (30, 2, 10))
    long = model(64, 1, range(64), [(r // 4, 0, 8, [(8 * (r % 8) + i, 1) for i in range(8)]) for r in range(256)]) + b'CO' + bytes(r % 64 for r in range(256))
    assert len(long) == 8266
    yield judge_costs(long, b'CC' + certificate([], range(64), [])[2:], (0, 0, 0), range(64))
    yield judge(m, c, (9, 1, 41))
    yield reduce(m, c, (9, 1, 41), b'')
    yield sheet(m, c, (9, 1, 41))
    yield fetch(m, 0, (9, 1, 41), m[41:])
    yield alike(m, c, (1, 0, 1), (9, 1, 41), False)
    yield join(m, S, (9, 1, 41))
    yield join(S, m, (9, 3, 41))


def two(file, at):
    return int.from_bytes(file[at:at + 2], 'big')


def entries_before(m, end):
    """How many entries the transitions have that begin before a place."""
    at, count = 8 + m[2], 0
    while at < end:
        count, at = count + m[at + 6], at + 7 + 3 * m[at + 6]
    return count


def about_the_limits(first, second, answer):
    """Whether a line from before K7 is about the limits that K7 raised: 3, 8, 13 or 25 refuses it, and what that number counts keeps today's."""
    number, file, place = answer
    m = second if file == 3 else first
    if number == 3:
        return 1 <= m[2] <= STATES and 1 <= m[3] <= ACTIONS and two(m, 4) <= TRANSITIONS
    if number == 8:
        return entries_before(m, place + 1) <= ENTRIES
    if number == 13:
        return two(second, 2) <= REFUTATIONS
    if number == 25:
        sizes = [(m[2], two(m, 4), entries_before(m, len(m))) for m in (first, second)]
        return all(one + other <= most for one, other, most in zip(*sizes, (STATES, TRANSITIONS, ENTRIES)))
    return False


def transitions_before(m, end):
    """The places of the transitions of a model that begin before a place, and where each ends; those before it are whole."""
    at = 8 + m[2] if len(m) > 2 else end
    for _ in range(two(m, 4) if len(m) > 5 else 0):
        if at >= end:
            return
        yield at, at + 7 + 3 * m[at + 6]
        at += 7 + 3 * m[at + 6]


def weights(m, at, end):
    return [two(m, e + 1) for e in range(at + 7, end, 3)]


def in_lowest_terms(m, end):
    """The model with its transitions before a place divided, and by what each is."""
    out, divisors = bytearray(m), []
    for at, past in transitions_before(m, end):
        divisors.append(gcd(*weights(m, at, past)))
        for e in (at + 4, *range(at + 8, past, 3)):
            out[e:e + 2] = (two(m, e) // divisors[-1]).to_bytes(2, 'big')
    return bytes(out), divisors


def with_k(m, c, divisors):
    """A certificate for the model in lowest terms, as far as its records are whole: each k times its transition's divisor. None where one does not
    fit."""
    n, actions, out = m[2], [m[at + 3] for at, _ in transitions_before(m, len(m))][:len(divisors)], bytearray(c)
    at = 4
    while c[at:at + 2] == b'PX' and len(c) >= at + 4 and two(c, at + 2) < len(actions):
        at += 5 + 4 * n * (2 if actions[two(c, at + 2)] == 0 else 3) + (4 if c[:2] == b'CC' else 0)
    at += 2 + n
    while c[at:at + 2] == b'FL' and len(c) >= at + 8:
        past = at + 8 + 7 * two(c, at + 6)
        for e in range(at + 8, min(past, len(c) - 6), 7):
            if two(c, e + 1) < len(divisors):
                k = int.from_bytes(c[e + 3:e + 7], 'big') * divisors[two(c, e + 1)]
                if k >= 1 << 32:
                    return None
                out[e + 3:e + 7] = k.to_bytes(4, 'big')
        if len(c) < past + 2:
            break
        at = past + 2 + 6 * two(c, past)
    return bytes(out)


def stored(call, arguments, first, second, answer, where, yes, out):
    """The cases of a line from before K10: its own, or where a model is not in lowest terms 34, and its own once it is rewritten."""
    file = answer[1]
    lowest, divisors, told = [first, second], [], []
    models = [(0, 1), (1, 3)] if call == 'join' else [(0, 1)]
    for i, number in models[:1] if file == 1 else models:
        m = (first, second)[i]
        end = answer[2] if file == number and answer[0] not in (9, 29) else len(m)
        lowest[i], divided = in_lowest_terms(m, end)
        divisors += divided
        told += [(34, number, at) for (at, _), g in zip(transitions_before(m, end), divided) if g > 1][:1]
    out = in_lowest_terms(out, len(out))[0] if call in ('reduce', 'join') else out
    if told:
        rest = (second if told[0][1] == 3 else first)[told[0][2]:]
        yield case_of(call, arguments, first, second, told[0], (told[0][2], len(rest)), False, b'')
    if call not in ('join', 'fetch') and file != 1:
        lowest[1] = with_k(first, second, divisors)
    if lowest[1] is not None:
        yield case_of(call, arguments, *lowest, answer, where, yes, out)


def lines(name):
    """The call, arguments, files, answer, place and length of the run or stretch, yes and bytes written of each line that the program can answer."""
    about = 0
    for line in open(os.path.join(HERE, name)):
        call, arguments, *rest = line.split()
        if call in ('rewrite', 'rewrite_costs'):
            continue
        files, numbers, outs = (rest[:2], rest[2:7], rest[7:]) if name == 'base.txt' else (rest[0].split(','), rest[1:9], rest[9:])
        first, second, out = (b'' if x == '-' else bytes.fromhex(x) for x in [*files, '-'][:2] + outs)
        number, file, place, stretch, run, *told = map(int, numbers)
        if name not in ('k7.txt', 'k10.txt') and about_the_limits(first, second, (number, file, place)):
            about += 1
        elif number not in (10, 23, 26, 28):
            where = run if number == 0 else place, stretch
            yield call, tuple(map(int, arguments.split(','))), first, second, (number, file, place), where, told[-1:] == [1], out
    # as many as tests/vectors.rs of hosts/rust finds
    assert about == {'base.txt': 46, 'k1.txt': 10, 'k3.txt': 9, 'k6.txt': 18}.get(name, 0)


def case_of(call, arguments, first, second, answer, where, yes, out):
    if call == 'fetch':
        start, stretch = where
        part = first[start:start + stretch]
        assert len(part) == stretch
        return fetch(first, *arguments, answer, part)
    if call == 'alike':
        return alike(first, second, arguments, answer, yes)
    if call == 'sheet':
        return sheet(first, second, answer, out.decode('ascii'))
    return {'judge': judge, 'judge_costs': judge_costs, 'reduce': reduce, 'join': join}[call](first, second, answer, out)


def from_requests():
    for name in 'k1.txt', 'k3.txt', 'k4.txt', 'k6.txt', 'k7.txt':
        for line in lines(name):
            yield from stored(*line)
    for line in lines('k10.txt'):
        yield case_of(*line)


def as_fractions(merged):
    """A merged model from before K3 without the transitions that are the same as an earlier one of their block as fractions."""
    n = merged[2]
    at, kept = 8 + n, {}
    while at < len(merged):
        d, end = int.from_bytes(merged[at + 4:at + 6], 'big'), at + 7 + 3 * merged[at + 6]
        shares = tuple((merged[e], Fraction(int.from_bytes(merged[e + 1:e + 3], 'big'), d)) for e in range(at + 7, end, 3))
        kept.setdefault((merged[at + 2:at + 4], shares), merged[at:end])
        at = end
    return merged[:4] + len(kept).to_bytes(2, 'big') + merged[6:8 + n] + b''.join(kept.values())


def from_vectors():
    for call, arguments, m, c, answer, where, yes, out in lines('base.txt'):
        merged = as_fractions(out) if call == 'reduce' and answer[0] == 0 else out
        yield from stored(call, arguments, m, c, answer, where, yes, merged)
        if call != 'fetch':
            # and its model by itself
            number, file, place = answer
            told = (answer, (place, len(m) - place)) if file == 1 else ((24, 0, 0), (0, 0))
            yield from stored('fetch', (0 if file == 1 else ABSENT,), m, b'', *told, False, b'')


def all_cases():
    """Each case once: where two sources have one case, they must agree."""
    found = {}
    by_hand = (
        proved_cases(), pairs_also_run(), internal_steps(), on_either_side_of_state_64(), halves_and_quarters(), models_also_run(), truncations(),
        joined_at_the_limits(), sheets(), costs(), lowest_terms())
    for source in (*by_hand, from_vectors(), from_requests()):
        for data, text in source:
            assert found.setdefault(data, text) == text
    return found


with open(os.path.join(CRATE, 'data', 'cases'), 'wb') as cases, open(os.path.join(CRATE, 'stdout'), 'w') as stdout:
    for data, text in all_cases().items():
        cases.write(data)
        stdout.write(text)
