"""Clause lists that solve.sh and proofs.sh share: how many variables there are, and the clauses."""
import random


def random3(n, seed):
    """Random clauses of three literals, 4.26 for each of n variables."""
    r = random.Random(seed)
    return n, [[v if r.random() < .5 else -v for v in r.sample(range(1, n + 1), 3)] for _ in range(int(4.26 * n))]


def pigeons(holes):
    """Each of one pigeon more than there are holes is in a hole, and no two are in one."""
    v = lambda p, h: p * holes + h + 1
    some = [[v(p, h) for h in range(holes)] for p in range(holes + 1)]
    apart = [[-v(p, h), -v(q, h)] for h in range(holes) for p in range(holes + 1) for q in range(p)]
    return (holes + 1) * holes, some + apart
