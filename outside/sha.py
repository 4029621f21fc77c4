"""SHA-256 from a saved hash state, after FIPS 180-4.

The standard library hashes whole messages alone; marks are hash states in the middle of one. A
state is its eight words as 32 bytes. Where the system has OpenSSL's library, its blocks are taken,
since it is some hundred times faster; `after_slowly` is always the code of this file.
"""

import ctypes
import struct
from functools import lru_cache

BLOCK = 64  # bytes
PAGE = 4096
WORD = 0xFFFFFFFF

START = bytes.fromhex("6a09e667bb67ae853c6ef372a54ff53a510e527f9b05688c1f83d9ab5be0cd19")

K = struct.unpack(">64I", bytes.fromhex(
    "428a2f9871374491b5c0fbcfe9b5dba53956c25b59f111f1923f82a4ab1c5ed5"
    "d807aa9812835b01243185be550c7dc372be5d7480deb1fe9bdc06a7c19bf174"
    "e49b69c1efbe47860fc19dc6240ca1cc2de92c6f4a7484aa5cb0a9dc76f988da"
    "983e5152a831c66db00327c8bf597fc7c6e00bf3d5a7914706ca635114292967"
    "27b70a852e1b21384d2c6dfc53380d13650a7354766a0abb81c2c92e92722c85"
    "a2bfe8a1a81a664bc24b8b70c76c51a3d192e819d6990624f40e3585106aa070"
    "19a4c1161e376c082748774c34b0bcb5391c0cb34ed8aa4a5b9cca4f682e6ff3"
    "748f82ee78a5636f84c878148cc7020890befffaa4506cebbef9a3f7c67178f2"
))


def schedule(block: bytes) -> list:
    """The 64 words of a block. Bits past the 32 of a word are cut off at the end of each sum."""
    w = list(struct.unpack(">16I", block))
    for t in range(16, 64):
        x = w[t - 15] | w[t - 15] << 32  # so that a shift turns the lower word round
        y = w[t - 2] | w[t - 2] << 32
        s0 = x >> 7 ^ x >> 18 ^ w[t - 15] >> 3
        s1 = y >> 17 ^ y >> 19 ^ w[t - 2] >> 10
        w.append(w[t - 16] + s0 + w[t - 7] + s1 & WORD)
    return w


def after_block(words: tuple, block: bytes) -> tuple:
    """The eight words after one more block."""
    a, b, c, d, e, f, g, h = words
    for k, w in zip(K, schedule(block)):
        x = e | e << 32
        y = a | a << 32
        t1 = h + ((x >> 6 ^ x >> 11 ^ x >> 25) & WORD) + (e & f ^ (WORD ^ e) & g) + k + w
        t2 = ((y >> 2 ^ y >> 13 ^ y >> 22) & WORD) + (a & b ^ a & c ^ b & c)
        a, b, c, d, e, f, g, h = t1 + t2 & WORD, a, b, c, d + t1 & WORD, e, f, g
    return tuple(old + new & WORD for old, new in zip(words, (a, b, c, d, e, f, g, h)))


def after_slowly(state: bytes, blocks: bytes) -> bytes:
    """The hash state after whole blocks more."""
    words = struct.unpack(">8I", state)
    for at in range(0, len(blocks), BLOCK):
        words = after_block(words, blocks[at : at + BLOCK])
    return struct.pack(">8I", *words)


class Context(ctypes.Structure):
    """OpenSSL's hash in the middle of a message: its state, and what is kept of a block."""

    _fields_ = [("state", ctypes.c_uint32 * 8), ("rest", ctypes.c_uint32 * 20)]


def find_library():
    """OpenSSL's function that takes more bytes, or None where the system has none."""
    for name in ("libcrypto.so.3", "libcrypto.so.1.1", "libcrypto.so"):
        try:
            function = ctypes.CDLL(name).SHA256_Update
        except (OSError, AttributeError):
            continue
        function.argtypes = [ctypes.POINTER(Context), ctypes.c_char_p, ctypes.c_size_t]
        return function
    return None


LIBRARY = find_library()


def after(state: bytes, blocks: bytes) -> bytes:
    """The same, fast where it can be."""
    if LIBRARY is None:
        return after_slowly(state, blocks)
    context = Context()
    context.state[:] = struct.unpack(">8I", state)
    LIBRARY(ctypes.byref(context), blocks, len(blocks))
    return struct.pack(">8I", *context.state)


@lru_cache(maxsize=8192)
def after_page(state: bytes, page: bytes) -> bytes:
    """The hash state after one more page."""
    return after(state, page)


@lru_cache(maxsize=8192)
def close(state: bytes, pages: int, rest: bytes) -> bytes:
    """The digest of a message of so many pages, which lead to this state, and the rest behind
    them: a one bit, zeros up to 8 bytes before a block's end, and the message's length in bits."""
    length = PAGE * pages + len(rest)
    zeros = bytes((BLOCK - 9 - len(rest)) % BLOCK)
    return after(state, rest + b"\x80" + zeros + struct.pack(">Q", 8 * length))
