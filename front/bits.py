"""Fields of bits, the most significant first."""
from __future__ import annotations


class Bits:
    """Fields put one behind the other."""

    def __init__(self) -> None:
        self.parts: list[str] = []
        self.length = 0

    def put(self, width: int, value: int) -> None:
        self.parts.append(format(value, f"0{width}b"))
        self.length += width

    def to_bytes(self) -> bytes:
        """The fields and zero bits to a whole byte."""
        size = -(-self.length // 8)
        return int("".join(self.parts).ljust(8 * size, "0") or "0", 2).to_bytes(size, "big")


class BitReader:
    """Fields taken one after the other; EOFError where the bytes end inside one."""

    def __init__(self, data: bytes) -> None:
        self.bits = format(int.from_bytes(data, "big"), f"0{8 * len(data)}b") if data else ""
        self.at = 0

    def take(self, width: int) -> int:
        end = self.at + width
        if end > len(self.bits):
            raise EOFError
        value = int(self.bits[self.at:end] or "0", 2)
        self.at = end
        return value

    def is_filling(self) -> bool:
        """Whether only zero bits are left, and not a whole byte of them."""
        rest = self.bits[self.at:]
        return len(rest) < 8 and "1" not in rest
