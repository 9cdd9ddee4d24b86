"""A browser, driven by WebDriver: plain HTTP and JSON to a chromedriver of our own."""

import http.client
import json
import os
import re
import subprocess

ELEMENT = "element-6066-11e4-a52e-4f735466cecf"
KEYS = {"ArrowRight": "\ue014", "ArrowLeft": "\ue012", "Home": "\ue011", "End": "\ue010", "Shift": "\ue008"}
SECONDS = 60


class Browser:
    """One session of a headless browser; to be used by `with`, which ends it."""

    # Starts a chromedriver on a free port, and a browser by it.
    def __init__(self, browser, driver):
        self.process = subprocess.Popen([driver, "--port=0"], stdout=subprocess.PIPE, text=True)
        self.session = None
        try:
            self.link = http.client.HTTPConnection("127.0.0.1", self._port(), timeout=SECONDS)
            self.session = self._call("POST", "/session", {"capabilities": capabilities(browser)})["sessionId"]
        except BaseException:
            self.process.kill()
            raise

    # The port that the driver says it listens on.
    def _port(self):
        for line in self.process.stdout:
            found = re.search(r"started successfully on port (\d+)", line)
            if found:
                return int(found.group(1))
        raise RuntimeError("chromedriver ended before it listened")

    # One call, and its value; a WebDriver error is raised with its message.
    def _call(self, method, path, body=None):
        where = path if self.session is None else f"/session/{self.session}{path}"
        self.link.request(method, where, json.dumps(body) if body is not None else None)
        value = json.loads(self.link.getresponse().read())["value"]
        if isinstance(value, dict) and "error" in value:
            raise RuntimeError(f"{where}: {value['error']}: {value['message']}")
        return value

    # Itself.
    def __enter__(self):
        return self

    # Ends the browser and the driver.
    def __exit__(self, *_):
        try:
            self._call("DELETE", "")
        finally:
            self.process.terminate()
            self.process.wait(SECONDS)

    # Loads a page.
    def open(self, address):
        self._call("POST", "/url", {"url": address})

    # What a script returns.
    def run(self, script, *arguments):
        return self._call("POST", "/execute/sync", {"script": script, "args": list(arguments)})

    # Presses keys, one behind the other, wherever the focus is.
    def press(self, *names):
        actions = []
        for name in names:
            key = KEYS.get(name, name)
            actions += [{"type": "keyDown", "value": key}, {"type": "keyUp", "value": key}]
        self._call("POST", "/actions", {"actions": [{"type": "key", "id": "keys", "actions": actions}]})

    # Presses a key while another is held.
    def press_with(self, held, name):
        held, key = KEYS[held], KEYS.get(name, name)
        actions = [("keyDown", held), ("keyDown", key), ("keyUp", key), ("keyUp", held)]
        steps = [{"type": kind, "value": value} for kind, value in actions]
        self._call("POST", "/actions", {"actions": [{"type": "key", "id": "keys", "actions": steps}]})

    # The element of a selector.
    def _find(self, selector):
        return self._call("POST", "/element", {"using": "css selector", "value": selector})[ELEMENT]

    # Clicks on an element.
    def click(self, selector):
        self._call("POST", f"/element/{self._find(selector)}/click", {})

    # Types into an element.
    def type(self, selector, text):
        self._call("POST", f"/element/{self._find(selector)}/value", {"text": text})

    # Makes the window's inside so large.
    def size(self, width, height):
        self._call("POST", "/window/rect", {"width": width, "height": height})

    # What the browser's console has said since the last time.
    def console(self):
        return [entry["message"] for entry in self._call("POST", "/se/log", {"type": "browser"})]


# What is asked of the browser. As root it cannot have its sandbox.
def capabilities(browser):
    words = ["--headless=new", "--disable-gpu", "--disable-dev-shm-usage", "--window-size=1280,900"]
    if os.geteuid() == 0:
        words.append("--no-sandbox")
    options = {"binary": browser, "args": words}
    return {"alwaysMatch": {"goog:chromeOptions": options, "goog:loggingPrefs": {"browser": "ALL"}}}
