"""A small history: two commits on top of one, stored, and asked: example.py LOG, of a new log. PYTHONPATH has bindings/python."""
import sys

import segdag

first, second, third = (bytes([byte] * 20) for byte in (1, 2, 3))


def main(path: str) -> None:
    with segdag.open(path, create=True) as store:
        store.add(first)
        store.add(second, [first])
        store.add(third, [first])
        print(store.flush(second))
        print("the first is an ancestor of the third:", store.is_ancestor(first, third))
        print("merge bases:", [id.hex() for id in store.merge_bases(second, third)])
        print("ahead and behind:", store.ahead_behind([(second, third), (first, third)]))
        print("numbers:", [store.number(id) for id in store.query("all")])
        with segdag.follow(path) as reader:
            store.add(bytes([4] * 20), [third])
            store.flush()
            print("taken by a follower:", reader.refresh(), "of", reader.sizes(), "and", reader.reload(), "pending, now", reader.sizes())
        try:
            store.add(bytes(20), [bytes(19) + b"x"])
        except segdag.Unknown as refusal:
            print("refused:", refusal)


if __name__ == "__main__":
    main(sys.argv[1] if len(sys.argv) > 1 else "example.log")
