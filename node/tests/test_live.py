"""The live page in a browser: it begins with the chain, and blocks come to it."""
import asyncio
import json
import pathlib
import shutil
import sys
import tempfile
import threading
import unittest

import support
from aiohttp import web
from test_api import Case, Query

sys.path.insert(0, str(support.ROOT / "examples" / "page"))
from browser import Browser

EXAMPLE = support.ROOT / "examples" / "assets"
VERDICTS = "[...document.querySelectorAll('.verdict span:last-child')].map(it => it.textContent).join(' ')"


def shown() -> list[str]:
    """The lines of the example's chain: the setting, and blocks."""
    with tempfile.TemporaryDirectory() as room:
        store = pathlib.Path(room) / "chain.store"
        support.ledger("run", EXAMPLE / "genesis.json", EXAMPLE / "events.jsonl", "--keys", EXAMPLE / "example_keys/all.key", "--store", store)
        return support.ledger("show", EXAMPLE / "genesis.json", store).splitlines()[:-1]


class Shown(Query):
    """Answers by lines of `show`."""

    def __init__(self, lines: list[str]):
        super().__init__()
        self.lines = lines

    async def text_of(self, what, **question):
        return self.lines[question.get("number", 0)], 0


class Looking(threading.Thread):
    """A browser that looks at an address, in a thread of its own, and looks again once it is told to."""

    def __init__(self, url: str):
        super().__init__(daemon=True)
        self.url, self.opened, self.go = url, threading.Event(), threading.Event()
        self.found: list[tuple[str, str]] = []

    def run(self) -> None:
        with Browser() as browser:
            browser.call("Page.navigate", url=self.url)
            browser.wait(f"document.documentElement?.dataset.state === 'ready' && {VERDICTS}.startsWith('Live')", 60)
            self.found.append(browser.run(f"[document.title, {VERDICTS}]"))
            self.opened.set()
            self.go.wait()
            browser.wait("document.title === 'Chain of 6 blocks'", 60)
            self.found.append(browser.run(f"[document.title, {VERDICTS}]"))
            self.complaints, self.requests = browser.complaints, browser.requests


@unittest.skipUnless(shutil.which("chromium"), "no Chromium")
class Live(Case):
    async def test_blocks_come_to_the_page(self):
        lines = await asyncio.to_thread(shown)
        self.chain.peer = Shown(lines)
        runner = web.AppRunner(self.api.page_app())
        self.addAsyncCleanup(runner.cleanup)
        await runner.setup()
        site = web.TCPSite(runner, "127.0.0.1", 0, shutdown_timeout=1)
        await site.start()
        looking = Looking("http://127.0.0.1:%d/" % runner.addresses[0][1])
        looking.start()
        await asyncio.to_thread(looking.opened.wait, 90)
        for number in (5, 6):
            await self.chain.committed(number)
        looking.go.set()
        await asyncio.to_thread(looking.join, 90)
        words = "Live from the node of Maker; it is audited by ledger audit, not here. This page agrees: it worked out hashes, links, ids, flags"
        for (title, verdicts), blocks, txs in zip(looking.found, (4, 6), (sum(len(json.loads(it)["txs"]) for it in lines[1:5]), 12)):
            self.assertEqual(title, f"Chain of {blocks} blocks")
            self.assertTrue(verdicts.startswith(words) and verdicts.endswith(f" of {txs} transactions in {blocks} blocks."), verdicts)
        self.assertEqual((len(looking.found), looking.complaints), (2, []))
        self.assertEqual([it for it in looking.requests if not it.startswith(looking.url)], [])


if __name__ == "__main__":
    unittest.main()
