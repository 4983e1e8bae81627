"""Polkadot's state trie of a finite map, state version 0, after the Polkadot Host specification: a plain model with which
the other tools compare. `nodes(state)` lists the spellings that are hashed, root last, and `root(state)` is the root.
`stored(state)` has the same by rising path. Of changes, pairs of a key and a value or None, `applied(state, changes)` is the
state after them, `fetched(state, changes)` lists the stored nodes that a change of it fetches, in their order, and
`delta(state, changes)` has those that it puts and those that it drops, each made from whole states.
"""
import hashlib


def blake2b_256(message):
    return hashlib.blake2b(message, digest_size=32).digest()


def nibbles(key):
    return [half for byte in key for half in (byte >> 4, byte & 15)]


def compact(number):
    """A SCALE compact number below 2^30."""
    if number < 1 << 6:
        return bytes([number << 2])
    if number < 1 << 14:
        return (number << 2 | 1).to_bytes(2, "little")
    return (number << 2 | 2).to_bytes(4, "little")


def string(text):
    return compact(len(text)) + text


def header(kind, count):
    if count < 63:
        return bytes([kind << 6 | count])
    rest = count - 63
    return bytes([kind << 6 | 63]) + b"\xff" * (rest // 255) + bytes([rest % 255])


def packed(partial):
    partial = [0] + partial if len(partial) % 2 else partial
    return bytes(high << 4 | low for high, low in zip(partial[::2], partial[1::2]))


def shared(first, last):
    count = 0
    while count < min(len(first), len(last)) and first[count] == last[count]:
        count += 1
    return count


def spelled(suffixes, hashed):
    """The spelling of the node over sorted suffixes and their values; what is hashed below it goes to the list."""
    front = shared(suffixes[0][0], suffixes[-1][0])
    partial = suffixes[0][0][:front]
    value = next((value for suffix, value in suffixes if len(suffix) == front), None)
    children = {}
    for suffix, each in suffixes:
        if len(suffix) > front:
            children.setdefault(suffix[front], []).append((suffix[front + 1:], each))
    if not children:
        return header(1, len(partial)) + packed(partial) + string(value)
    kind = 2 if value is None else 3
    node = header(kind, len(partial)) + packed(partial)
    node += sum(1 << nibble for nibble in children).to_bytes(2, "little")
    if value is not None:
        node += string(value)
    for nibble in sorted(children):
        child = spelled(children[nibble], hashed)
        if len(child) >= 32:
            hashed.append(child)
            child = blake2b_256(child)
        node += string(child)
    return node


def nodes(state):
    """The spellings that are hashed for the root of a map from bytes to bytes; the root node's is the last."""
    hashed = []
    suffixes = [(nibbles(key), value) for key, value in sorted(state.items())]
    hashed.append(spelled(suffixes, hashed) if suffixes else b"\0")
    return hashed


def root(state):
    return blake2b_256(nodes(state)[-1])


def by_path(state):
    """Each node's path and spelling, inline ones too, by rising path."""
    found = []

    def add(path, suffixes):
        front = shared(suffixes[0][0], suffixes[-1][0])
        found.append((tuple(path), spelled(suffixes, [])))
        children = {}
        for suffix, value in suffixes:
            if len(suffix) > front:
                children.setdefault(suffix[front], []).append((suffix[front + 1:], value))
        for nibble in sorted(children):
            add(path + suffixes[0][0][:front] + [nibble], children[nibble])

    if state:
        add([], [(nibbles(key), value) for key, value in sorted(state.items())])
    else:
        found.append(((), b"\0"))
    return found


def stored(state):
    return [(path, node) for path, node in by_path(state) if not path or len(node) >= 32]


def applied(state, changes):
    after = dict(state)
    for key, value in changes:
        if value is None:
            after.pop(key, None)
        else:
            after[key] = value
    return after


def fetched(state, changes):
    after = {path for path, _ in by_path(applied(state, changes))}

    def leads(path):
        return any(tuple(nibbles(key)[:len(path)]) == path for key, _ in changes)

    on_the_way = [entry for entry in stored(state) if leads(entry[0])]
    return on_the_way + [entry for entry in stored(state) if not leads(entry[0]) and entry[0] not in after]


def delta(state, changes):
    before, after = stored(state), stored(applied(state, changes))
    return [entry for entry in after if entry not in before], [entry for entry in before if entry not in after]


if __name__ == "__main__":
    print(__doc__)
