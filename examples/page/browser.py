"""A headless Chromium that is spoken to through a pipe, by its DevTools protocol."""
import base64
import json
import os
import pathlib
import shutil
import subprocess
import tempfile
from typing import Any


class Browser:
    """One page. What it complains of (exceptions, refusals of its content security policy) is kept in `complaints`, and the
    addresses that it asks for in `requests`."""

    def __init__(self, width: int = 1280, height: int = 900):
        program = shutil.which("chromium") or shutil.which("chromium-browser") or shutil.which("google-chrome")
        if program is None:
            raise SystemExit("no Chromium: Debian's package is chromium")
        self.room = tempfile.TemporaryDirectory(prefix="page-test-", ignore_cleanup_errors=True)
        to_child, self.out = os.pipe()
        self.answers, from_child = os.pipe()
        words = [program, "--headless=new", "--remote-debugging-pipe", f"--user-data-dir={self.room.name}", "--no-first-run",
                 "--disable-gpu", "--hide-scrollbars", "--disable-dev-shm-usage", "--disable-background-networking"]
        # As root Chromium runs without its sandbox or not at all.
        words += ["--no-sandbox"] if os.geteuid() == 0 else []

        def place() -> None:
            # Chromium reads at 3 and writes at 4.
            ends = [os.dup(to_child), os.dup(from_child)]
            for number, end in enumerate(ends, 3):
                os.dup2(end, number)

        self.process = subprocess.Popen(words, close_fds=False, preexec_fn=place, stdin=subprocess.DEVNULL,
                                        stdout=subprocess.DEVNULL, stderr=subprocess.DEVNULL)
        os.close(to_child)
        os.close(from_child)
        self.left, self.number, self.session = b"", 0, ""
        self.complaints: list[str] = []
        self.requests: list[str] = []
        target = self.call("Target.createTarget", url="about:blank")["targetId"]
        self.session = self.call("Target.attachToTarget", targetId=target, flatten=True)["sessionId"]
        for domain in ("Page", "Runtime", "Log", "DOM", "Network"):
            self.call(f"{domain}.enable")
        self.call("Performance.enable", timeDomain="threadTicks")
        self.resize(width, height)

    def __enter__(self) -> "Browser":
        return self

    def __exit__(self, *_: object) -> None:
        self.process.terminate()
        self.process.wait()
        os.close(self.out)
        os.close(self.answers)
        self.room.cleanup()

    def receive(self) -> dict:
        """The next message."""
        while b"\0" not in self.left:
            more = os.read(self.answers, 1 << 20)
            if not more:
                raise RuntimeError("Chromium has ended")
            self.left += more
        message, self.left = self.left.split(b"\0", 1)
        return json.loads(message)

    def note(self, message: dict) -> None:
        """Keeps a complaint or a request."""
        if message.get("method") == "Network.requestWillBeSent":
            self.requests.append(message["params"]["request"]["url"])
        if message.get("method") == "Runtime.exceptionThrown":
            details = message["params"]["exceptionDetails"]
            self.complaints.append(details.get("exception", {}).get("description", details["text"]))
        if message.get("method") == "Log.entryAdded" and message["params"]["entry"]["level"] == "error":
            self.complaints.append(message["params"]["entry"]["text"])

    def call(self, method: str, **parameters: object) -> dict:
        """What a command answers."""
        self.number += 1
        message = {"id": self.number, "method": method, "params": parameters}
        if self.session:
            message["sessionId"] = self.session
        os.write(self.out, json.dumps(message).encode() + b"\0")
        while (answer := self.receive()).get("id") != self.number:
            self.note(answer)
        if "error" in answer:
            raise RuntimeError(f"{method}: {answer['error']['message']}")
        return answer["result"]

    def run(self, script: str) -> Any:
        """The value of a script in the page; a promise is waited for."""
        answer = self.call("Runtime.evaluate", expression=script, returnByValue=True, awaitPromise=True)
        if "exceptionDetails" in answer:
            raise RuntimeError(f"{script}: {answer['exceptionDetails'].get('exception', {}).get('description')}")
        return answer["result"].get("value")

    def wait(self, script: str, seconds: float = 240) -> Any:
        """Waits until a script is true."""
        waited = f"""new Promise((resolve, reject) => {{
            const until = performance.now() + {1000 * seconds};
            const look = () => {{
                if ({script}) resolve(true);
                else if (performance.now() > until) reject(new Error("waited too long"));
                else setTimeout(look, 20);
            }};
            look();
        }})"""
        return self.run(waited)

    def open(self, path: pathlib.Path) -> None:
        """Opens a file, and waits until the page has shown or refused what is in it."""
        self.call("Page.navigate", url="about:blank")
        self.call("Page.navigate", url=f"file://{path}")
        loaded = "location.protocol === 'file:' && document.readyState === 'complete'"
        self.wait(f"{loaded} && document.documentElement.dataset.state !== 'busy'")

    def choose(self, selector: str, path: pathlib.Path) -> None:
        """Gives a file to an input."""
        root = self.call("DOM.getDocument")["root"]["nodeId"]
        node = self.call("DOM.querySelector", nodeId=root, selector=selector)["nodeId"]
        self.call("DOM.setFileInputFiles", nodeId=node, files=[str(path)])

    def spent(self) -> float:
        """The processor seconds that the page's process has taken, whatever else the machine does."""
        metrics = {it["name"]: it["value"] for it in self.call("Performance.getMetrics")["metrics"]}
        return metrics["ThreadTime"]

    def resize(self, width: int, height: int, dots: float = 1, phone: bool = False) -> None:
        """Sets the size of the screen, and how many dots each of its points has."""
        self.call("Emulation.setDeviceMetricsOverride", width=width, height=height, deviceScaleFactor=dots, mobile=phone)

    def prefer(self, scheme: str) -> None:
        """Light or dark, as the reader's system says."""
        self.call("Emulation.setEmulatedMedia", features=[{"name": "prefers-color-scheme", "value": scheme}])

    def picture(self, path: str) -> None:
        """Keeps a picture of what is in sight."""
        shot = self.call("Page.captureScreenshot", format="png")
        with open(path, "wb") as file:
            file.write(base64.b64decode(shot["data"]))
