"""When blocks were committed here."""
import time

WIDTH = 8


class Times:
    """When each block was committed here first, in milliseconds since 1970, in a file of 8 bytes a block. No chain has times of its
    own: these are what this organisation's clock said."""

    def __init__(self, name: str):
        open(name, "ab").close()
        self.file = open(name, "r+b", buffering=0)

    def note(self, number: int) -> None:
        if self.of(number) is None:
            self.file.seek(WIDTH * (number - 1))
            self.file.write(int(1000 * time.time()).to_bytes(WIDTH, "big"))

    def of(self, number: int) -> float | None:
        """The time of a block, in seconds since 1970."""
        self.file.seek(WIDTH * (number - 1))
        return int.from_bytes(self.file.read(WIDTH), "big") / 1000 or None
