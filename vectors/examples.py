#!/usr/bin/env python3
"""Writes the pairs small and repeats of examples/, with their merged models by hand: the small pair S, and a pair whose merged model drops
repeated transitions, one of them in other terms once its targets are joined, keeps an equal one of another block, joins two targets, and changes
the order. The pair stored: the pair repeats from before lowest terms were asked for, with 2/4 for 1/2 in one transition. A certificate for S that
is refused: 2 for D in its first flow. A strong certificate for S. The text relay, with its model and a certificate for it by hand. And the models
sender and channel, with the two side by side and that model with two actions hidden, both by hand.
"""
import os

from files import FIRST, S, S_CERTIFICATE, SECOND, STAYS, certificate, flow, model, refutation

HERE = os.path.dirname(os.path.abspath(__file__))


def one_step(d, transition, k, *ws):
    return flow(d, [(1, transition, k)], ws)


def repeats(g):
    """The model with one of its transitions times g, and a certificate for it."""
    return model(5, 3, (5, 7, 5, 7, 9), [
        (0, 1, 4, [(1, 1), (3, 1), (4, 2)]),
        (0, 2, 1, [(4, 1)]),
        (1, 2, 1, [(4, 1)]),
        (2, 0, 1, [(0, 1)]),
        (2, 1, 2 * g, [(1, g), (4, g)]),
        (2, 1, 2, [(3, 1), (4, 1)]),
        (2, 2, 1, [(4, 1)]),
        (3, 2, 1, [(4, 1)]),
    ]), certificate([], (0, 1, 0, 1, 2), [
        one_step(4, 4, 2 // g, (1, 1, 1), (1, 3, 1), (4, 4, 2)),
        one_step(1, 6, 1, (4, 4, 1)),
        one_step(1, 7, 1, (4, 4, 1)),
        flow(1, [], [(0, 0, 1)]),
        one_step(4, 0, 1, (1, 1, 1), (3, 1, 1), (4, 4, 2)),
        one_step(4, 0, 1, (1, 3, 1), (3, 3, 1), (4, 4, 2)),
        one_step(1, 1, 1, (4, 4, 1)),
        one_step(1, 2, 1, (4, 4, 1)),
    ])


REPEATS, MEETS_REPEATS = repeats(1)
STORED, MEETS_STORED = repeats(2)

MERGED = model(3, 3, (5, 7, 9), [
    (0, 1, 2, [(1, 1), (2, 1)]),
    (0, 2, 1, [(2, 1)]),
    (0, 0, 1, [(0, 1)]),
    (1, 2, 1, [(2, 1)]),
])

MERGED_S = model(2, 2, (0, 0), [(0, 1, 1, [(1, 1)]), (0, 0, 1, [(0, 1)])])


STRONG = certificate([refutation(q, t, (0,), (1, 1, 1), (1, 1, 1)) for q, t in [(0, 1), (0, 2), (1, 2)]], (0, 1, 2), [], mark=b'CS')

BROKEN = certificate([FIRST, SECOND], (0, 0, 1), [flow(2, [(0, 1, 1), (1, 0, 1)], [(2, 2, 1)]), STAYS])

RELAY_TEXT = b"""5 6 9
0 0 1 0.5 send
0 0 2 0.5 send
0 1 0 1
1 0 1 0.05
1 0 3 0.95
2 0 2 0.2
2 0 3 0.8
3 0 4 1 deliver
4 0 0 1
"""

RELAY = model(5, 3, (0, 0, 0, 0, 0), [
    (0, 1, 2, [(1, 1), (2, 1)]),
    (0, 0, 1, [(0, 1)]),
    (1, 0, 20, [(1, 1), (3, 19)]),
    (2, 0, 5, [(2, 1), (3, 4)]),
    (3, 2, 1, [(4, 1)]),
    (4, 0, 1, [(0, 1)]),
])

AWAY, ALWAYS, AT_RELAY = (0, 1, 1, 1, 0), (1, 1, 1, 1, 1), (0, 0, 0, 1, 0)
DELIVERS, COMES = [[refutation(q, t, *prices) for q, t in asked] for asked, prices in [
    ([(4, 0), (4, 4)], (AWAY, ALWAYS, ALWAYS)),
    ([(2, 0), (2, 4), (3, 0), (3, 4)], (AWAY, AT_RELAY)),
]]
MEETS_RELAY = certificate(DELIVERS + COMES, (0, 1, 1, 1, 0), [
    flow(2, [(0, 5, 2), (1, 0, 1)], [(1, 1, 1), (2, 2, 1)]),
    flow(1, [], [(4, 0, 1)]),
    flow(20, [], [(2, 1, 1), (2, 3, 19)]),
    flow(20, [], [(3, 1, 1), (3, 3, 19)]),
    flow(5, [], [(1, 2, 1), (1, 3, 4)]),
    flow(5, [], [(3, 2, 1), (3, 3, 4)]),
    flow(19, [(0, 2, 1), (1, 4, 19)], [(4, 4, 19)]),
    flow(4, [(0, 3, 1), (1, 4, 4)], [(4, 4, 4)]),
    flow(1, [], [(0, 0, 1)]),
])

SENDER = model(3, 4, (1, 0, 0), [(0, 3, 1, [(1, 1)]), (1, 1, 1, [(2, 1)]), (2, 2, 1, [(0, 1)])])
CHANNEL = model(3, 3, (0, 0, 1), [(0, 1, 10, [(1, 9), (2, 1)]), (1, 2, 1, [(0, 1)]), (2, 0, 10, [(1, 9), (2, 1)])])


def side_by_side(send, receive):
    """The two side by side, with these actions for the two that they share."""
    return model(9, 4, (2, 2, 3, 0, 0, 1, 0, 0, 1), [
        (0, 3, 1, [(3, 1)]),
        (1, 3, 1, [(4, 1)]),
        (2, 3, 1, [(5, 1)]),
        (2, 0, 10, [(1, 9), (2, 1)]),
        (3, send, 10, [(7, 9), (8, 1)]),
        (5, 0, 10, [(4, 9), (5, 1)]),
        (7, receive, 1, [(0, 1)]),
        (8, 0, 10, [(7, 9), (8, 1)]),
    ])


for name, data in [
        ('small.model', S), ('small.certificate', S_CERTIFICATE), ('small.merged', MERGED_S), ('broken.certificate', BROKEN),
        ('strong.certificate', STRONG),
        ('repeats.model', REPEATS), ('repeats.certificate', MEETS_REPEATS), ('repeats.merged', MERGED),
        ('stored.model', STORED), ('stored.certificate', MEETS_STORED),
        ('relay.tra', RELAY_TEXT), ('relay.model', RELAY), ('relay.certificate', MEETS_RELAY),
        ('sender.model', SENDER), ('channel.model', CHANNEL), ('composed.model', side_by_side(1, 2)), ('hidden.model', side_by_side(0, 0))]:
    with open(os.path.join(HERE, '..', 'examples', name), 'wb') as f:
        f.write(data)
