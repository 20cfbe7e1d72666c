"""The heap of a running program: blocks by size, the demand, and a log of what is taken and given back.

The demand is the sum over the sizes of blocks of the size times the greatest number of blocks of it that were live at one
time. A program wants memory exactly where the demand would exceed the heap, or where no block is large enough.
"""
from __future__ import annotations

from collections import Counter
from typing import List, Optional, Tuple, Union

from evaluate import Trap

HEADER_BYTES = 8
SMALLEST_BLOCK = 16
LARGEST_BLOCK = 16_777_216
LARGEST_HEAP = 16_777_216

Event = Tuple[Union[str, int, bytes], ...]
"""('take', number, size), ('give', number, size) or ('write', stream, bytes). Blocks are numbered from 1 as they are taken."""


class Block:
    def __init__(self, number: int, size: int):
        self.number = number
        self.size = size
        self.is_live = True

    def room(self) -> int:
        return self.size - HEADER_BYTES


def block_size(payload: int) -> Optional[int]:
    """That of the smallest block that holds so many bytes; None where there is none."""
    size = SMALLEST_BLOCK
    while size - HEADER_BYTES < payload:
        size *= 2
    return size if size <= LARGEST_BLOCK else None


class Heap:
    def __init__(self, limit: int):
        self.limit = limit
        self.live: Counter[int] = Counter()
        """How many blocks of each size."""
        self.most: Counter[int] = Counter()
        """The greatest of these numbers so far."""
        self.taken = 0
        self.events: List[Event] = []
        self.refused: Optional[int] = None
        """The size of the block that there was no room for: LARGEST_BLOCK doubled where none is large enough."""

    def demand(self) -> int:
        return sum(size * count for size, count in self.most.items())

    def take(self, payload: int) -> Optional[Block]:
        """A block for so many bytes; None for none."""
        if payload == 0:
            return None
        size = block_size(payload)
        if size is None:
            self.refused = 2 * LARGEST_BLOCK
            raise Trap('out of memory')
        if self.live[size] == self.most[size] and self.demand() + size > self.limit:
            self.refused = size
            raise Trap('out of memory')
        self.live[size] += 1
        self.most[size] = max(self.most[size], self.live[size])
        self.taken += 1
        block = Block(self.taken, size)
        self.events.append(('take', block.number, size))
        return block

    def give(self, block: Optional[Block]) -> None:
        if block is None:
            return
        if not block.is_live:
            raise AssertionError('a block is given back twice')
        block.is_live = False
        self.live[block.size] -= 1
        self.events.append(('give', block.number, block.size))

    def write(self, stream: int, text: bytes) -> None:
        self.events.append(('write', stream, text))

    def live_blocks(self) -> List[Tuple[int, int]]:
        """Sizes and how many blocks of each are live, the smallest first."""
        return sorted((size, count) for size, count in self.live.items() if count)
