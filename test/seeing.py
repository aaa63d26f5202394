"""The page of a node in a headless Chromium: it begins with the chain, and a block comes to it by itself."""
import sys
import time
from collections.abc import Callable

from report import Report
from tree import ROOT

sys.path.insert(0, str(ROOT / "examples" / "page"))
from browser import Browser

# How long something may take to be seen, in seconds.
PATIENCE = 60
# The name of an asset, which has to stay text.
ASSET = "<b>live</b>"


def comes_to_be(is_so: Callable[[], bool], seconds: float = PATIENCE) -> bool:
    until = time.monotonic() + seconds
    while not (is_there := is_so()) and time.monotonic() < until:
        time.sleep(0.2)
    return is_there


def see_page(report: Report, url: str, submit: Callable[[str], object]) -> None:
    """Looks at the page before and behind a call that makes an asset."""
    with Browser() as browser:
        browser.call("Page.navigate", url=url)
        is_ready = comes_to_be(lambda: browser.run("document.documentElement?.dataset.state") == "ready")
        if not report.case("the page of a node", is_ready, str(browser.complaints)):
            return
        before = browser.run("page.chain.blocks.length")
        submit(ASSET)
        is_shown = comes_to_be(lambda: ASSET in browser.run("document.body.innerText"))
        after = browser.run("page.chain.blocks.length")
        report.case("a block comes to the page", is_shown and after > before, f"{before} and {after} blocks")
        others = [it for it in browser.requests if not it.startswith(url)]
        report.case("nothing else is asked for, and nothing fails", not others + browser.complaints, f"{others} {browser.complaints}")
