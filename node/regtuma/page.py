"""The page of the chain, fed from the node: the template with the newest blocks in it, and a script that adds later ones."""
import base64
import hashlib
import json
import pathlib
import re

LINES = '<script type="application/jsonl" id="lines">'
LIVE = (pathlib.Path(__file__).parent / "live.js").read_text(encoding="utf-8")
POLICY = re.compile(r'<meta http-equiv="Content-Security-Policy" content="([^"]*)">\n')


def live(template: str, organisation: str) -> tuple[str, str, str]:
    """What stands before the lines of the page and behind them, and its content security policy, which allows its two scripts and
    its own node."""
    found = POLICY.search(template)
    if found is None or LINES not in template:
        raise ValueError("the template of the page is none: [ledger] template names examples/page/template.html")
    script = LIVE.replace("ORGANISATION", json.dumps(organisation))
    digest = base64.b64encode(hashlib.sha256(script.encode()).digest()).decode()
    policy = found[1].replace("script-src ", f"connect-src 'self'; script-src 'sha256-{digest}' ")
    before, element, behind = POLICY.sub("", template).partition(LINES)
    return before + element + "\n", behind.replace("</body>", f"<script>{script}</script>\n</body>"), policy


def line(text: str) -> str:
    """A line of the page, which does not end the element that it stands in."""
    return text.replace("<", "\\u003c") + "\n"
