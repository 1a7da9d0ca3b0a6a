"""Debian's Chromium without a window, driven by its own driver: as much of WebDriver as the page's tests need. Nothing waits for ever."""

import base64
import json
import re
import subprocess
import tempfile
import urllib.error
import urllib.request

ELEMENT = "element-6066-11e4-a52e-4f735466cecf"  # WebDriver's name for a reference to an element
LONGEST_ANSWER = 60  # seconds
DIRECT = urllib.request.build_opener(urllib.request.ProxyHandler({}))  # to this machine, whatever proxy is set for others


class Browser:
    """One window; `with Browser() as browser` ends it and the driver."""

    def __enter__(self):
        self.profile = tempfile.TemporaryDirectory(prefix="page-", ignore_cleanup_errors=True)
        self.driver = subprocess.Popen(["chromedriver", "--port=0"], stdout=subprocess.PIPE, stderr=subprocess.STDOUT, text=True)
        try:
            self.start()
        except BaseException:
            self.__exit__()
            raise
        return self

    def start(self):
        said = ""
        for line in self.driver.stdout:
            said += line
            port = re.search(r"started successfully on port (\d+)", line)
            if port:
                break
        else:
            raise RuntimeError(f"chromedriver did not start:\n{said}")
        self.session = f"http://127.0.0.1:{port[1]}/session"
        # A root user has no sandbox, and a container little shared memory.
        flags = ["--headless=new", "--no-sandbox", "--disable-dev-shm-usage", "--disable-gpu", "--window-size=1600,1000"]
        flags.append(f"--user-data-dir={self.profile.name}")
        wanted = {"alwaysMatch": {"goog:chromeOptions": {"args": flags}, "timeouts": {"script": 1000 * LONGEST_ANSWER}}}
        self.session += "/" + self.ask("POST", "", {"capabilities": wanted})["sessionId"]

    def __exit__(self, *_):
        if self.session_is_open():
            try:
                self.ask("DELETE", "")
            except (OSError, RuntimeError):
                pass  # it is ended below
        self.driver.kill()
        self.driver.wait()
        self.profile.cleanup()

    def session_is_open(self):
        return getattr(self, "session", "").count("/") > 3

    def ask(self, method, path, given=None):
        body = None if method != "POST" else json.dumps(given or {}).encode()
        request = urllib.request.Request(self.session + path, body, {"Content-Type": "application/json"}, method=method)
        try:
            with DIRECT.open(request, timeout=LONGEST_ANSWER) as answer:
                return json.load(answer)["value"]
        except urllib.error.HTTPError as error:
            raise RuntimeError(f"{method} {path}: {json.load(error)['value']['message']}") from None

    def protocol(self, command, **given):
        """A command of Chromium's own protocol."""
        return self.ask("POST", "/goog/cdp/execute", {"cmd": command, "params": given})

    def open(self, address):
        self.ask("POST", "/url", {"url": address})

    def run(self, script, *given):
        """What a script in the page returns."""
        return self.ask("POST", "/execute/sync", {"script": script, "args": given})

    def wait_for(self, script, *given):
        """Runs a script in the page again at each frame until it returns something true, and answers that."""
        waiting = """
            const given = Array.from(arguments), done = given.pop(), until = performance.now() + 10000;
            (function again() {
                const found = (function () { %s }).apply(null, given);
                if (found || performance.now() > until) done(found); else requestAnimationFrame(again);
            })();
        """
        return self.ask("POST", "/execute/async", {"script": waiting % script, "args": given})

    def element(self, selector):
        return self.ask("POST", "/element", {"using": "css selector", "value": selector})[ELEMENT]

    def type_into(self, selector, text):
        """Also the way to choose a file: its path is typed into the input."""
        self.ask("POST", f"/element/{self.element(selector)}/value", {"text": text})

    def click(self, selector):
        self.ask("POST", f"/element/{self.element(selector)}/click")

    def press(self, *keys):
        """Keys, one after the other, for whatever has the focus."""
        actions = [{"type": kind, "value": key} for key in keys for kind in ("keyDown", "keyUp")]
        self.ask("POST", "/actions", {"actions": [{"type": "key", "id": "keyboard", "actions": actions}]})

    def drop(self, file, selector):
        """Drags a file from outside over the middle of an element and lets it fall."""
        x, y = self.run(
            """
            const element = document.querySelector(arguments[0]);
            element.scrollIntoView({block: 'center'});
            const {left, top, width, height} = element.getBoundingClientRect();
            return [left + width / 2, top + height / 2];
            """,
            selector,
        )
        dragged = {"items": [], "files": [str(file)], "dragOperationsMask": 1}
        for step in ("dragEnter", "dragOver", "drop"):
            self.protocol("Input.dispatchDragEvent", type=step, x=x, y=y, data=dragged)

    def size(self, width, height):
        self.protocol("Emulation.setDeviceMetricsOverride", width=width, height=height, deviceScaleFactor=1, mobile=False)

    def colours(self, scheme):
        self.protocol("Emulation.setEmulatedMedia", features=[{"name": "prefers-color-scheme", "value": scheme}])

    def screenshot(self):
        return base64.b64decode(self.protocol("Page.captureScreenshot", captureBeyondViewport=True)["data"])

    def pdf(self, **paper):
        return base64.b64decode(self.protocol("Page.printToPDF", preferCSSPageSize=False, **paper)["data"])
