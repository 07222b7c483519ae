# Writes what bits_edges must print: the definitions of crates/bits/specs once more, over Python's lists of bits.


def bits(bs):
    return [b >> (7 - i) & 1 for b in bs for i in range(8)]


def pack_to(k, x):
    x = x + [0] * (8 * k)
    return [sum(x[8 * j + i] << (7 - i) for i in range(8)) for j in range(k)]


def put_bits(bs, at, x):
    k = (at + len(x) + 7) // 8
    return pack_to(k, bits(bs)[:at] + x) + bs[k:]


def increment(bs, m):
    """SP 800-38A, appendix B.1: the lowest m bits, and all 128 where m is more than that."""
    x = int.from_bytes(bytes(bs), "big")
    low = 2 ** min(m, 128) - 1
    return list((x & ~low | (x + 1) & low).to_bytes(16, "big"))


def show(bs):
    print(bytes(bs).hex())


first = list(bytes.fromhex("2b7e151628aed2a6abf7158809cf4f3c"))
second = list(bytes.fromhex("6bc1bee22e409f96e93d7e117393172a"))
short = [0xA5, 0x0F]

for n in [0, 1, 3, 7, 8, 9, 127, 128, 200]:
    for s in (first, short):
        for offset in [*range(10), 2**64 - 1]:
            show(pack_to(16, bits(s)[offset:][:n]))
    show(pack_to(16, bits(first)[n:] + bits(second)[:n]))
    if n <= 128:
        for at in range(10):
            show(put_bits([255] * 19, at, bits(second)[:n]))
show([a ^ b for a, b in zip(first, second)])
for m in [0, 1, 3, 7, 8, 9, 16, 64, 119, 120, 121, 127, 128, 200]:
    show(increment([255] * 16, m))
    show(increment([7] + [255] * 15, m))
    show(increment([7] + [255] * 14 + [7], m))
