"""Waiting for a limited time: what comes in the very moment in which it is up."""
import asyncio
import gc
import unittest

import support
from regtuma.waiting import within


class Within(unittest.IsolatedAsyncioTestCase):
    async def test_what_fails_as_its_time_is_up_is_no_matter(self):
        told: list[str] = []
        asyncio.get_running_loop().set_exception_handler(lambda _, it: told.append(it["message"]))

        async def fail() -> None:
            try:
                await asyncio.sleep(60)
            except asyncio.CancelledError:
                # As a request of aiohttp does whose own time is up in that moment.
                raise ConnectionError("it took too long") from None
        with self.assertRaises(asyncio.TimeoutError):
            await within(0.01, fail())
        await asyncio.sleep(0.01)
        gc.collect()
        self.assertEqual(told, [])

    async def test_what_fails_before_is_told(self):
        async def fail() -> None:
            raise ConnectionError("it is broken")
        with self.assertRaisesRegex(ConnectionError, "^it is broken$"):
            await within(60, fail())
