"""Fossil's deltas: how an artifact is made of another one.

A delta is the size of the artifact and a newline, then commands, then a checksum and `;`. A command is a count with `@`, a place and `,`,
which copies so many bytes of the base from that place on, or a count with `:` and so many bytes. Numbers have the digits of `DIGITS`, the
greatest first. The checksum isn't looked at: whoever applies a delta holds what comes out against its name.
"""
from collections.abc import Callable

DIGITS = b'0123456789ABCDEFGHIJKLMNOPQRSTUVWXYZ_abcdefghijklmnopqrstuvwxyz~'
VALUES = {digit: value for value, digit in enumerate(DIGITS)}
LONGEST = 6
# after so many commands it is looked whether to go on
LOOKED_AT = 4096


class DeltaFault(Exception):
    """A delta doesn't read, or doesn't fit its base. Its text says how."""


class TooLong(DeltaFault):
    """A delta announces more bytes than are taken; `size` is how many."""

    def __init__(self, size: int):
        super().__init__(f'it announces {size} bytes')
        self.size = size


def number_at(delta: bytes, at: int) -> tuple[int, int]:
    """The number that begins at a place, and the place behind its digits, of which there are 1 to 6."""
    value, end = 0, at
    while end < len(delta) and delta[end] in VALUES:
        value = value * 64 + VALUES[delta[end]]
        end += 1
        if end - at > LONGEST:
            raise DeltaFault('a number is too long')
    if end == at:
        raise DeltaFault('a number is missing')
    return value, end


def sign_at(delta: bytes, at: int) -> bytes:
    """The one byte at a place, or none at the end."""
    return delta[at:at + 1]


def size_of(delta: bytes, limit: int) -> tuple[int, int]:
    """The size that a delta announces, which is at most the limit, and the place of its first command."""
    size, at = number_at(delta, 0)
    if sign_at(delta, at) != b'\n':
        raise DeltaFault('its size has no newline')
    if size > limit:
        raise TooLong(size)
    return size, at + 1


def copied(base: bytes, delta: bytes, count: int, at: int) -> tuple[bytes, int]:
    """The bytes of the base that a copy names, whose place stands at `at`, and the place behind the command."""
    place, at = number_at(delta, at)
    if sign_at(delta, at) != b',':
        raise DeltaFault('a copy has no comma')
    if place + count > len(base):
        raise DeltaFault('a copy runs past the base')
    return base[place:place + count], at + 1


def inserted(delta: bytes, count: int, at: int) -> tuple[bytes, int]:
    """The bytes of the delta itself, which stand at `at`, and the place behind them."""
    if at + count > len(delta):
        raise DeltaFault('it ends early')
    return delta[at:at + count], at + count


def apply(base: bytes, delta: bytes, limit: int, look: Callable[[], None] = lambda: None) -> bytes:
    """What a delta makes of a base: exactly as many bytes as it announces, at most the limit. Raises DeltaFault for every other delta.

    A delta may have many commands that make nothing: after each few thousand of them `look` is called, which may stop it."""
    size, at = size_of(delta, limit)
    out = bytearray()
    commands = 0
    while True:
        commands += 1
        if commands % LOOKED_AT == 0:
            look()
        count, at = number_at(delta, at)
        sign, at = sign_at(delta, at), at + 1
        if sign == b';':
            break
        if count > size - len(out):
            raise DeltaFault('it makes more than it announces')
        if sign == b'@':
            piece, at = copied(base, delta, count, at)
        elif sign == b':':
            piece, at = inserted(delta, count, at)
        else:
            raise DeltaFault('a command is unknown')
        out += piece
    if len(out) != size or at != len(delta):
        raise DeltaFault('it ends at another place than it announces')
    return bytes(out)
