#!/usr/bin/env python3
"""A cable between machines that are all this one: hands bytes on, both ways. While the process is stopped, the cable is cut.

    cable.py FROM TO [FROM TO]..

Each FROM is a HOST:PORT at which it listens, and the TO behind it the one to which it leads.
"""
import asyncio
import sys


async def hand_on(reader: asyncio.StreamReader, writer: asyncio.StreamWriter) -> None:
    try:
        while data := await reader.read(1 << 16):
            writer.write(data)
            await writer.drain()
    except OSError:
        pass
    finally:
        writer.close()


async def lay(from_: str, to: str) -> None:
    """Listens for good."""
    async def lead(reader: asyncio.StreamReader, writer: asyncio.StreamWriter) -> None:
        try:
            there, back = await asyncio.open_connection(*to.split(":"))
        except OSError:
            writer.close()
            return
        await asyncio.gather(hand_on(reader, back), hand_on(there, writer))
    async with await asyncio.start_server(lead, *from_.split(":")) as server:
        await server.serve_forever()


async def main(words: list[str]) -> None:
    await asyncio.gather(*(lay(from_, to) for from_, to in zip(words[::2], words[1::2])))


if __name__ == "__main__":
    asyncio.run(main(sys.argv[1:]))
