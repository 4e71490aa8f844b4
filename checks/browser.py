"""Headless Chromium over the DevTools protocol, by pipes: checks/page, bench/page and web/shot drive the page with it.

Every command waits for its answer and every wait for an event, never for a time."""
import json
import os
import shutil
import subprocess
import tempfile

NAMES = ("chromium", "chromium-browser", "google-chrome")
OPTIONS = ("--headless", "--no-sandbox", "--remote-debugging-pipe", "--disable-gpu", "--no-first-run",
           "--disable-background-networking", "--disable-component-update", "--hide-scrollbars", "--mute-audio",
           "--force-device-scale-factor=1", "--disable-dev-shm-usage")


def path_of_chromium():
    """The path of the browser, or None where none is installed."""
    return next((it for it in map(shutil.which, NAMES) if it), None)


class Wrong(Exception):
    """What the browser answers in place of a value."""


class Browser:
    def __init__(self):
        self.home = tempfile.TemporaryDirectory(ignore_cleanup_errors=True)
        words_in, self.words = os.pipe()
        self.answers, answers_out = os.pipe()
        place = f'exec "$0" "$@" 3<&{words_in} 4>&{answers_out}'
        command = [path_of_chromium(), *OPTIONS, f"--user-data-dir={self.home.name}", "about:blank"]
        self.process = subprocess.Popen(["bash", "-c", place, *command], pass_fds=(words_in, answers_out),
                                        stdin=subprocess.DEVNULL, stdout=subprocess.DEVNULL, stderr=subprocess.DEVNULL)
        os.close(words_in)
        os.close(answers_out)
        self.number = 0
        self.rest = b""
        self.messages = []

    def __enter__(self):
        return self

    def __exit__(self, *_):
        try:
            self.send("Browser.close")
            self.process.wait()
        except Wrong:
            self.process.kill()
        self.home.cleanup()

    def receive(self):
        """The next message of the browser."""
        while b"\0" not in self.rest:
            bytes_read = os.read(self.answers, 1 << 20)
            if not bytes_read:
                raise Wrong("the browser ended")
            self.rest += bytes_read
        text, self.rest = self.rest.split(b"\0", 1)
        return json.loads(text)

    def send(self, method, session=None, **params):
        """What the command answers. Events that come meanwhile are kept in `messages`."""
        self.number += 1
        message = {"id": self.number, "method": method, "params": params}
        if session:
            message["sessionId"] = session
        text = json.dumps(message).encode() + b"\0"
        while text:
            text = text[os.write(self.words, text):]
        while True:
            answer = self.receive()
            if answer.get("id") == self.number:
                break
            self.messages.append(answer)
        if "error" in answer:
            raise Wrong(f"{method}: {answer['error']['message']}")
        return answer["result"]

    def tab(self):
        return Tab(self)


class Tab:
    """A tab, which notes what it asks of any network, and what it says to the console."""

    def __init__(self, browser):
        self.browser = browser
        target = browser.send("Target.createTarget", url="about:blank")["targetId"]
        self.session = browser.send("Target.attachToTarget", targetId=target, flatten=True)["sessionId"]
        for domain in ("Page", "Runtime", "Log", "Network"):
            self.send(f"{domain}.enable")

    def send(self, method, **params):
        return self.browser.send(method, self.session, **params)

    def events(self, *methods):
        """The parameters of the tab's events of these methods, from the start on."""
        return [it["params"] for it in self.browser.messages
                if it.get("sessionId") == self.session and it.get("method") in methods]

    def wait(self, method, count):
        """Waits for so many events of the method, from the start on."""
        while len(self.events(method)) < count:
            self.browser.messages.append(self.browser.receive())

    def open(self, url):
        """Opens the page, and waits until it shows its state."""
        loads = len(self.events("Page.loadEventFired"))
        self.send("Page.navigate", url="about:blank")
        self.wait("Page.loadEventFired", loads + 1)
        self.send("Page.navigate", url=url)
        self.wait("Page.loadEventFired", loads + 2)
        self.ask("page?.opened")

    def ask(self, expression):
        """The value of an expression of JavaScript, of what it promises."""
        answer = self.send("Runtime.evaluate", expression=expression, awaitPromise=True, returnByValue=True)
        if "exceptionDetails" in answer:
            details = answer["exceptionDetails"]
            raise Wrong(details.get("exception", {}).get("description", details["text"]))
        return answer["result"].get("value")

    def call(self, function, *words):
        """The value of a function of JavaScript at these words."""
        return self.ask(f"({function})({', '.join(json.dumps(it) for it in words)})")

    def resize(self, width, height, dark=False):
        self.send("Emulation.setDeviceMetricsOverride", width=width, height=height, deviceScaleFactor=1, mobile=False)
        scheme = {"name": "prefers-color-scheme", "value": "dark" if dark else "light"}
        self.send("Emulation.setEmulatedMedia", features=[scheme])

    def press(self, key, code=0, **more):
        for kind in ("rawKeyDown", "keyUp"):
            self.send("Input.dispatchKeyEvent", type=kind, key=key, code=key, windowsVirtualKeyCode=code, **more)

    def requests(self):
        """The addresses that were asked for, but those whose bytes stand in them."""
        urls = (it["request"]["url"] for it in self.events("Network.requestWillBeSent"))
        return [it for it in urls if not it.startswith(("data:", "blob:", "about:"))]

    def complaints(self):
        """Errors and warnings in the console, and exceptions that nothing caught."""
        texts = [it["entry"]["text"] for it in self.events("Log.entryAdded") if it["entry"]["level"] != "verbose"]
        calls = self.events("Runtime.consoleAPICalled")
        texts += [str(it["args"]) for it in calls if it["type"] in ("error", "warning")]
        return texts + [str(it["exceptionDetails"]) for it in self.events("Runtime.exceptionThrown")]
