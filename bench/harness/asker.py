"""Asks a helper with a store, as one does who has a sketch, and keeps what it replies.

usage: asker.py TO FROM SAID HEARD

TO and FROM are FIFOs to the helper and from it. SAID has what is said, a part in each line, in
hexadecimal; a part is said when the reply to the one before has come. HEARD gets all replies.
"""

import sys

# The kinds of frames that end a reply: Siblings, Poly, LevelEnd, a refusal, Found, Power, Held.
LAST = bytes([0x14, 0x12, 0x17, 0x18, 0x22, 0x25, 0x26])


def reply(link):
    """The bytes of a reply, or of a part of it, where the other end leaves before its last frame."""
    heard = b""
    while True:
        head = link.read(3)
        heard += head + link.read(int.from_bytes(head[1:], "big"))
        if len(head) < 3 or head[0] in LAST:
            return heard


def main(to, from_, said, heard):
    with open(said) as lines:
        parts = [bytes.fromhex(line) for line in lines]
    with open(to, "wb", buffering=0) as link, open(from_, "rb") as back, open(heard, "wb") as kept:
        for part in parts[:-1]:
            link.write(part)
            kept.write(reply(back))
        link.write(parts[-1])
        kept.write(back.read())


if __name__ == "__main__":
    main(*sys.argv[1:])
