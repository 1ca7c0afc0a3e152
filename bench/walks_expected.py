#!/usr/bin/env python3
"""What `bench walks --size COMMITS` has to print, by the bits of what each commit reaches: the last lines of
crates/bench/stdout, for 1,000 commits. Usage: bench/walks_expected.py [COMMITS]"""
import bisect
import sys


def step(x):
    return (x * 6364136223846793005 + 1442695040888963407) % 2**64


def history(merges, branches, count):
    """The parents of each commit."""
    x, rows = 0, []
    for i in range(count):
        if i < 2:
            rows.append([0] if i else [])
            continue
        x = step(x)
        drawn = x >> 33
        earlier = i - 2 - (drawn // 16) % (min(i, 65) - 1)
        kind = drawn % 16
        rows.append([i - 1, earlier] if kind < merges else [earlier] if kind < merges + branches else [i - 1])
    return rows


class Draws:
    def __init__(self):
        self.x = 7

    def below(self, bound):
        self.x = step(self.x)
        return (self.x >> 33) % max(bound, 1)

    def pair(self, count, apart):
        if apart == 'near':
            later = self.below(count)
            return later, max(later - self.below(200), 0)
        if apart == 'far':
            later = count - 1 - self.below(count // 10)
            return later, self.below(count // 10)
        one, other = self.below(count), self.below(count)
        return max(one, other), min(one, other)


def places(bits):
    while bits:
        yield bits.bit_length() - 1
        bits ^= 1 << (bits.bit_length() - 1)


def report(name, merges, branches, count):
    rows = history(merges, branches, count)
    reach = []
    for i, parents in enumerate(rows):
        bits = 1 << i
        for parent in parents:
            bits |= reach[parent]
        reach.append(bits)
    size = lambda bits: bin(bits).count('1')
    parents_of = lambda bits: sum(1 << p for p in {p for c in places(bits) for p in rows[c]})
    begun = [i for i in range(count) if rows[i] != [i - 1]]
    head = count - 1
    print(f'{name}:')
    print(f'commits drawn and put into a table: {count}')
    print(f'flat_at, all segments: {len(begun)}')
    print('flat_at, all parents of segments:', sum(len(rows[i]) for i in begun))
    draws = Draws()
    print('flat, a random id for each commit:', sum(draws.below(count) in set(begun) for _ in range(count)))
    print('ancestors of the head:', size(reach[head]))
    at = head
    for _ in range(count // 10):
        at = rows[at][0]
    print('first_ancestor of the head, a tenth down:', at)
    draws, pairs = Draws(), 0
    for _ in range(100):
        later, earlier = draws.pair(count, 'anywhere')
        pairs += reach[later] >> earlier & 1
    print('is_ancestor, 100 random pairs:', pairs)
    print('inter(X,ancestors(Y)), 100 random pairs:', pairs)
    print('parents(all):', size(parents_of(2**count - 1)))
    print('heads(all):', count - size(parents_of(2**count - 1)))
    print('roots(all):', sum(not parents for parents in rows))
    print('merges(all):', sum(len(parents) > 1 for parents in rows))
    for whose, place in (('a low id', 10), ('a middle id', count // 2)):
        above = begun[bisect.bisect_right(begun, place) - 1:]
        print(f'of {whose}:')
        print('flat_at, the segments above:', len(above))
        print('flat_at, the parents of these:', sum(len(rows[i]) for i in above))
        print('children:', sum(place in parents for parents in rows))
        above = [i for i in range(count) if reach[i] >> place & 1]
        print('descendants:', len(above))
        print('range to the head:', sum(reach[head] >> i & 1 for i in above))
    for apart, times in (('near', 1000), ('far', 20)):
        draws, only, last = Draws(), 0, 0
        for _ in range(times):
            later, earlier = draws.pair(count, apart)
            only += size(reach[later] & ~reach[earlier])
            common = reach[later] & reach[earlier]
            last += size(common & ~parents_of(common))
        print(f'{times} {apart} pairs:\nsets alone: {2 * times}\nonly: {only}\ngca: {last}')
    draws = Draws()
    ten = {draws.below(count) for _ in range(10)}
    common = -1
    for x in ten:
        common &= reach[x]
    print('common of ten random ids:', size(common))
    print('tips of ten random ids:', sum(all(m == x or not reach[m] >> x & 1 for m in ten) for x in ten))


commits = int(sys.argv[1]) if len(sys.argv) > 1 else 1000
report('plain history', 1, 1, commits)
report('history of merges', 6, 1, commits)
