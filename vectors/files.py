"""The small pair S, and the bytes of a model and of a certificate."""
import struct

S = bytes.fromhex('5041030200024c420000005452000100010102000154520100000101000001')


def model(n, m, labels, transitions):
    """The bytes of a model; a transition is (source, action, d, entries), an entry (state, weight)."""
    out = b'PA' + bytes([n, m]) + len(transitions).to_bytes(2, 'big') + b'LB' + bytes(labels)
    for source, action, d, entries in transitions:
        out += b'TR' + bytes([source, action]) + d.to_bytes(2, 'big') + bytes([len(entries)])
        for state, weight in entries:
            out += bytes([state]) + weight.to_bytes(2, 'big')
    return out


def refutation(challenger, defender, *prices):
    return b'PX' + challenger.to_bytes(2, 'big') + bytes([defender]) + b''.join(struct.pack('>i', p) for x in prices for p in x)


def flow(d, ks, ws):
    out = b'FL' + d.to_bytes(4, 'big') + len(ks).to_bytes(2, 'big')
    for layer, transition, k in ks:
        out += bytes([layer]) + transition.to_bytes(2, 'big') + k.to_bytes(4, 'big')
    out += len(ws).to_bytes(2, 'big')
    for v, u, w in ws:
        out += bytes([v, u]) + w.to_bytes(4, 'big')
    return out


def certificate(refutations, blocks, flows, count=None, mark=b'CT'):
    count = len(refutations) if count is None else count
    return mark + count.to_bytes(2, 'big') + b''.join(refutations) + b'BK' + bytes(blocks) + b''.join(flows)


FIRST = refutation(0, 2, (1, 1, 0), (1, 1, 1), (1, 1, 1))
SECOND = refutation(1, 2, (1, 1, 0), (1, 0, 0))
MEETS = flow(1, [(0, 1, 1), (1, 0, 1)], [(2, 2, 1)])
STAYS = flow(1, [], [(0, 0, 1)])
S_CERTIFICATE = certificate([FIRST, SECOND], (0, 0, 1), [MEETS, STAYS])
