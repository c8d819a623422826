"""A headless Chromium, spoken to over a pipe in the words of its debugging protocol."""
import base64
import json
import os
import shutil
import subprocess
import tempfile


class Browser:
    """One page in a Chromium of its own."""

    def __init__(self, program="chromium", words=()):
        if not shutil.which(program):
            raise SystemExit(f"there is no {program}: apt-get install chromium")
        self.profile = tempfile.mkdtemp(prefix="circ-page-")
        asked, self.asking = os.pipe()
        self.answers, answering = os.pipe()

        def place():
            os.dup2(asked, 13)
            os.dup2(answering, 14)
            os.dup2(13, 3)
            os.dup2(14, 4)

        always = ["--headless", "--no-sandbox", "--disable-gpu", "--remote-debugging-pipe", "--hide-scrollbars",
                  f"--user-data-dir={self.profile}"]
        self.process = subprocess.Popen([program, *always, *words, "about:blank"],
                                        close_fds=False, preexec_fn=place, stderr=subprocess.DEVNULL)
        os.close(asked)
        os.close(answering)
        self.number = 0
        self.rest = b""
        self.events = []
        target = self.call("Target.createTarget", {"url": "about:blank"}, None)["targetId"]
        self.session = self.call("Target.attachToTarget", {"targetId": target, "flatten": True}, None)["sessionId"]
        for domain in ("Page", "Runtime", "Network"):
            self.call(f"{domain}.enable")

    def close(self):
        """Ends the Chromium, and removes what it left."""
        try:
            self.call("Browser.close", {}, None)
            self.process.wait(10)
        finally:
            self.process.kill()
            shutil.rmtree(self.profile, ignore_errors=True)

    def message(self):
        """The next message."""
        while b"\0" not in self.rest:
            piece = os.read(self.answers, 1 << 16)
            if not piece:
                raise SystemExit("the browser has ended")
            self.rest += piece
        text, self.rest = self.rest.split(b"\0", 1)
        return json.loads(text)

    def call(self, method, params=None, session=""):
        """Calls a method, and gives its result. The events that come before it are kept."""
        self.number += 1
        question = {"id": self.number, "method": method, "params": params or {}}
        if session is not None:
            question["sessionId"] = self.session
        self.send(question)
        while True:
            message = self.message()
            if message.get("id") == self.number:
                if "error" in message:
                    raise SystemExit(f"{method}: {message['error']['message']}")
                return message["result"]
            self.events.append(message)

    def send(self, question):
        """Writes a message whole."""
        left = json.dumps(question).encode() + b"\0"
        while left:
            left = left[os.write(self.asking, left):]

    def open(self, address):
        """Opens an address, and waits until it is loaded."""
        self.events.clear()
        self.call("Page.navigate", {"url": address})
        while not any(event.get("method") == "Page.loadEventFired" for event in self.events):
            self.events.append(self.message())

    def run(self, expression):
        """The value of an expression of the page, which is waited for."""
        result = self.call("Runtime.evaluate", {"expression": expression, "awaitPromise": True, "returnByValue": True})
        if "exceptionDetails" in result:
            raise SystemExit(f"{expression[:200]}: {result['exceptionDetails']}")
        return result["result"].get("value")

    def wears(self, scheme, width, height):
        """Sets the scheme of colours and the size of the window."""
        self.call("Emulation.setEmulatedMedia", {"features": [{"name": "prefers-color-scheme", "value": scheme}]})
        self.call("Emulation.setDeviceMetricsOverride",
                  {"width": width, "height": height, "deviceScaleFactor": 1, "mobile": width < 600})

    def shot(self, file):
        """Takes a picture of the whole page."""
        data = self.call("Page.captureScreenshot", {"format": "png", "captureBeyondViewport": True})["data"]
        file.write_bytes(base64.b64decode(data))

    def requests(self):
        """The addresses that were asked for since the page was opened, but those within it."""
        asked = [event["params"]["request"]["url"] for event in self.events
                 if event.get("method") == "Network.requestWillBeSent"]
        return [address for address in asked if not address.startswith(("blob:", "data:"))]
