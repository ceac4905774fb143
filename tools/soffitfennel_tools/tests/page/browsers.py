"""Chromium by chromedriver's HTTP, and Firefox by its own protocol, Marionette, since Debian has no geckodriver.

Neither has a window, nor a way to any other machine. One that doesn't come up is started again."""
from __future__ import annotations

import base64
import json
import os
import re
import shutil
import socket
import subprocess
import tempfile
import time
import urllib.error
import urllib.request
from collections.abc import Callable
from pathlib import Path
from typing import Any, Protocol

from ..checks import dies_with_parent

SIZE = (1400, 1000)
# the window of Firefox that stands for a narrower one, by its zoom
WIDE = 1280
# what may have a role that needs a name
NAMED = "a, button, input, select, textarea, summary, h1, h2, h3, canvas, section, [role]"
SECONDS = 300
# how often a browser is started at most, where it doesn't come up
STARTS = 3
# (a proxy of the environment isn't asked for this machine)
OPENER = urllib.request.build_opener(urllib.request.ProxyHandler({}))
ELEMENT = "element-6066-11e4-a52e-4f735466cecf"
# of Firefox: nothing but this machine is reached, and nothing is asked of its makers
PREFERENCES = {
    "marionette.port": 0,
    "network.proxy.type": 1,
    "network.proxy.http": "127.0.0.1",
    "network.proxy.http_port": 9,
    "network.proxy.ssl": "127.0.0.1",
    "network.proxy.ssl_port": 9,
    "network.proxy.no_proxies_on": "127.0.0.1",
    "browser.shell.checkDefaultBrowser": False,
    "datareporting.policy.dataSubmissionEnabled": False,
    "app.update.enabled": False,
    "browser.startup.homepage": "about:blank",
    "toolkit.telemetry.enabled": False,
}


# in Firefox itself: keeps the address of each request of a page; the messages of the console that are of a page
WATCH = """
globalThis.asked = [];
const keep = (it) => it.loadInfo?.triggeringPrincipal?.isContentPrincipal && asked.push(it.URI.spec);
Services.obs.addObserver((it) => keep(it.QueryInterface(Ci.nsIHttpChannel)), "http-on-modify-request");
"""
MESSAGES = """
const all = Services.console.getMessageArray().filter((it) => it instanceof Ci.nsIScriptError);
Services.console.reset();
// (a page that is left while its script runs is no error)
const isLeft = (it) => it.errorMessage.startsWith("Script terminated by timeout");
const isOfPage = (it) => /^(http|file|data|blob)/.test(it.sourceName) && !isLeft(it);
return all.filter(isOfPage).map((it) => it.errorMessage + " " + it.sourceName);
"""


class Missing(Exception):
    """A browser that isn't installed."""


class Unstarted(Exception):
    """A browser that doesn't come up."""


def drop(room: tempfile.TemporaryDirectory[str]) -> None:
    """Drops a browser's folder, in which processes that it has started may write for a while behind its own end."""
    end = time.monotonic() + SECONDS
    while True:
        try:
            return room.cleanup()
        except OSError:
            if time.monotonic() > end:
                raise
            time.sleep(0.1)


class Browser(Protocol):
    """What the tests need of a browser."""

    name: str

    def get(self, url: str) -> None:
        ...

    def run(self, script: str, *given: object) -> Any:
        ...

    def wait_for(self, script: str, *given: object) -> Any:
        ...

    def keys(self, selector: str, text: str) -> None:
        ...

    def click(self, selector: str) -> None:
        ...

    def picture(self, path: Path) -> None:
        ...

    def messages(self) -> list[str]:
        ...

    def requests(self) -> list[str]:
        ...

    def size(self, width: int, height: int) -> None:
        ...

    def send(self, key: str) -> None:
        ...

    def things(self) -> list[tuple[str, str]]:
        ...

    def dark(self, is_dark: bool) -> None:
        ...

    def quit(self) -> None:
        ...


class Chromium:
    """Chromium, by the program chromedriver and its HTTP."""

    name = "Chromium"

    def __init__(self) -> None:
        program, driver = shutil.which("chromium"), shutil.which("chromedriver")
        if not program or not driver:
            raise Missing("chromium and chromium-driver")
        self.room = tempfile.TemporaryDirectory(prefix="page-test-")
        self.process = subprocess.Popen(
            [driver, "--port=0"],
            stdout=subprocess.PIPE,
            stderr=subprocess.DEVNULL,
            text=True,
            preexec_fn=dies_with_parent,
        )
        try:
            self.begin(program)
        except (Unstarted, RuntimeError, OSError) as why:
            self.end()
            raise Unstarted(f"{self.name}: {why}") from None

    def begin(self, program: str) -> None:
        """A session, once the driver has said its port."""
        assert self.process.stdout
        said = (re.search(r"successfully on port ([0-9]+)", line) for line in self.process.stdout)
        port = next((it[1] for it in said if it), None)
        if not port:
            raise Unstarted("chromedriver says no port")
        self.base = f"http://127.0.0.1:{port}/session"
        self.base += "/" + self.call("", {"capabilities": {"alwaysMatch": self.wanted(program)}})["sessionId"]
        self.call("/timeouts", {"script": 1000 * SECONDS})

    def wanted(self, program: str) -> dict[str, Any]:
        """What the browser is started with."""
        words = [
            "--headless=new",
            "--disable-gpu",
            f"--window-size={SIZE[0]},{SIZE[1]}",
            "--no-first-run",
            "--host-resolver-rules=MAP * ~NOTFOUND, EXCLUDE 127.0.0.1",
            "--disable-background-networking",
            f"--user-data-dir={self.room.name}/profile",
            "--force-color-profile=srgb",
            # (the browser ends with the driver, whose pipe closes)
            "--remote-debugging-pipe",
        ]
        # (its own sandbox needs a user that isn't root)
        words += ["--no-sandbox", "--disable-dev-shm-usage"] if os.geteuid() == 0 else []
        prefs = {"download.default_directory": self.room.name, "profile.default_content_setting_values.clipboard": 1}
        return {
            "goog:chromeOptions": {"binary": program, "args": words, "prefs": prefs},
            "goog:loggingPrefs": {"browser": "ALL", "performance": "ALL"},
        }

    def call(self, path: str, more: dict[str, Any] | None = None, method: str = "POST") -> Any:
        """A command of the protocol, and its value."""
        data = None if more is None else json.dumps(more).encode()
        asked = urllib.request.Request(self.base + path, data, {"Content-Type": "application/json"}, method=method)
        try:
            with OPENER.open(asked, timeout=2 * SECONDS) as answer:
                return json.load(answer)["value"]
        except urllib.error.HTTPError as error:
            raise RuntimeError(json.load(error)["value"]["message"].splitlines()[0]) from None

    def get(self, url: str) -> None:
        self.call("/url", {"url": url})

    def run(self, script: str, *given: object) -> Any:
        return self.call("/execute/sync", {"script": script, "args": given})

    def wait_for(self, script: str, *given: object) -> Any:
        return self.call("/execute/async", {"script": script, "args": given})

    def found(self, selector: str) -> str:
        """The name of an element."""
        return str(self.call("/element", {"using": "css selector", "value": selector})[ELEMENT])

    def keys(self, selector: str, text: str) -> None:
        self.call(f"/element/{self.found(selector)}/value", {"text": text})

    def click(self, selector: str) -> None:
        self.call(f"/element/{self.found(selector)}/click", {})

    def send(self, key: str) -> None:
        """A key, to whatever has the focus."""
        steps = [{"type": "keyDown", "value": key}, {"type": "keyUp", "value": key}]
        self.call("/actions", {"actions": [{"type": "key", "id": "keys", "actions": steps}]})

    def picture(self, path: Path) -> None:
        path.write_bytes(base64.b64decode(self.call("/screenshot", method="GET")))

    def messages(self) -> list[str]:
        return [f"{it['level']}: {it['message']}" for it in self.call("/se/log", {"type": "browser"})]

    def requests(self) -> list[str]:
        """The addresses that the page asked for since the last call."""
        told = [json.loads(it["message"])["message"] for it in self.call("/se/log", {"type": "performance"})]
        return [it["params"]["request"]["url"] for it in told if it["method"] == "Network.requestWillBeSent"]

    def devtools(self, command: str, **given: object) -> Any:
        """A command of the DevTools protocol."""
        return self.call("/goog/cdp/execute", {"cmd": command, "params": given})

    def size(self, width: int, height: int) -> None:
        self.devtools(
            "Emulation.setDeviceMetricsOverride", width=width, height=height, deviceScaleFactor=1, mobile=False
        )

    def things(self) -> list[tuple[str, str]]:
        """The role and the name of each thing that a screen reader comes to."""
        nodes = [it for it in self.devtools("Accessibility.getFullAXTree")["nodes"] if not it.get("ignored")]
        return [(it.get("role", {}).get("value", ""), it.get("name", {}).get("value", "")) for it in nodes]

    def dark(self, is_dark: bool) -> None:
        """Sets the visitor's colours."""
        features = [{"name": "prefers-color-scheme", "value": "dark" if is_dark else "light"}]
        self.devtools("Emulation.setEmulatedMedia", features=features)

    def quit(self) -> None:
        try:
            self.call("", method="DELETE")
        except (RuntimeError, OSError):
            pass
        self.end()

    def end(self) -> None:
        """Ends the driver, and the browser with it."""
        self.process.terminate()
        self.process.wait(SECONDS)
        drop(self.room)


class Firefox:
    """Firefox."""

    name = "Firefox"

    def __init__(self) -> None:
        program = shutil.which("firefox-esr") or shutil.which("firefox")
        if not program:
            raise Missing("firefox-esr")
        self.room, self.number = tempfile.TemporaryDirectory(prefix="page-test-"), 0
        profile = Path(self.room.name)
        lines = [f"user_pref({json.dumps(name)}, {json.dumps(it)});\n" for name, it in PREFERENCES.items()]
        (profile / "user.js").write_text("".join(lines), encoding="utf-8")
        words = [program, "--headless", "--no-remote", "--marionette", "--remote-allow-system-access"]
        words += ["--profile", self.room.name]
        words += ["--width", str(SIZE[0]), "--height", str(SIZE[1])]
        # (its sandbox wants namespaces that a container may not have)
        environment = {**os.environ, "HOME": self.room.name, "MOZ_DISABLE_CONTENT_SANDBOX": "1"}
        quiet = subprocess.DEVNULL
        self.process = subprocess.Popen(
            words, env=environment, stdin=quiet, stdout=quiet, stderr=quiet, preexec_fn=dies_with_parent
        )
        try:
            self.begin(profile / "MarionetteActivePort")
        except (Unstarted, RuntimeError, OSError) as why:
            self.end()
            raise Unstarted(f"{self.name}: {why}") from None

    def begin(self, port: Path) -> None:
        """A session."""
        self.line = self.connected(port)
        self.read()
        self.call("WebDriver:NewSession", {})
        self.call("WebDriver:SetTimeouts", {"script": 1000 * SECONDS})
        self.inside(WATCH)

    def inside(self, script: str) -> Any:
        """Runs a script in the browser itself, and not in the page."""
        self.call("Marionette:SetContext", {"value": "chrome"})
        try:
            return self.call("WebDriver:ExecuteScript", {"script": script, "args": [], "sandbox": "system"})
        finally:
            self.call("Marionette:SetContext", {"value": "content"})

    def connected(self, port: Path) -> socket.socket:
        """The connection, once Firefox has said its port."""
        end = time.monotonic() + SECONDS
        while time.monotonic() < end and self.process.poll() is None:
            if port.is_file() and (digits := port.read_text()).isdigit():
                return socket.create_connection(("127.0.0.1", int(digits)), 2 * SECONDS)
            time.sleep(0.1)
        raise Unstarted(f"it says no port, and has status {self.process.poll()}")

    def take(self, size: int) -> bytes:
        """At most so many bytes of the connection, which has not ended."""
        if not (part := self.line.recv(size)):
            raise ConnectionError("Firefox has ended")
        return part

    def read(self) -> Any:
        """One message: its length, a colon, JSON."""
        digits = b""
        while (it := self.take(1)) != b":":
            digits += it
        text = b""
        while len(text) < int(digits):
            text += self.take(int(digits) - len(text))
        return json.loads(text)

    def call(self, name: str, more: dict[str, Any]) -> Any:
        """A command and its result."""
        self.number += 1
        text = json.dumps([0, self.number, name, more]).encode()
        self.line.sendall(b"%d:%s" % (len(text), text))
        _, _, error, result = self.read()
        if error:
            raise RuntimeError(error["message"])
        return result.get("value") if isinstance(result, dict) and "value" in result else result

    def get(self, url: str) -> None:
        self.call("WebDriver:Navigate", {"url": url})

    def run(self, script: str, *given: object) -> Any:
        return self.call("WebDriver:ExecuteScript", {"script": script, "args": given, "sandbox": None})

    def wait_for(self, script: str, *given: object) -> Any:
        return self.call("WebDriver:ExecuteAsyncScript", {"script": script, "args": given, "sandbox": None})

    def found(self, selector: str) -> str:
        """The name of an element."""
        return str(self.call("WebDriver:FindElement", {"using": "css selector", "value": selector})[ELEMENT])

    def keys(self, selector: str, text: str) -> None:
        self.call("WebDriver:ElementSendKeys", {"id": self.found(selector), "text": text})

    def click(self, selector: str) -> None:
        self.call("WebDriver:ElementClick", {"id": self.found(selector)})

    def picture(self, path: Path) -> None:
        path.write_bytes(base64.b64decode(self.call("WebDriver:TakeScreenshot", {"full": False})))

    def messages(self) -> list[str]:
        """What the console has of pages since the last call."""
        messages: list[str] = self.inside(MESSAGES)
        return messages

    def requests(self) -> list[str]:
        """The addresses that any page asked for by HTTP since the last call."""
        asked: list[str] = self.inside("return globalThis.asked.splice(0);")
        return asked

    def size(self, width: int, height: int) -> None:
        """(A window of Firefox has some width at least, so a narrow one is a wide one that is zoomed.)"""
        zoom = max(1, WIDE / width)
        self.inside(f"Services.wm.getMostRecentWindow('navigator:browser').gBrowser.selectedBrowser.fullZoom = {zoom}")
        self.call("WebDriver:SetWindowRect", {"width": round(width * zoom), "height": height})

    def send(self, key: str) -> None:
        """A key, to whatever has the focus."""
        steps = [{"type": "keyDown", "value": key}, {"type": "keyUp", "value": key}]
        self.call("WebDriver:PerformActions", {"actions": [{"type": "key", "id": "keys", "actions": steps}]})

    def things(self) -> list[tuple[str, str]]:
        """The role and the name of each thing that a screen reader comes to."""
        asked = {"using": "css selector", "value": NAMED}
        found = [{"id": it[ELEMENT]} for it in self.call("WebDriver:FindElements", asked)]
        shown = [it for it in found if self.call("WebDriver:IsElementDisplayed", it)]
        ask = ("WebDriver:GetComputedRole", "WebDriver:GetComputedLabel")
        return [(self.call(ask[0], it), self.call(ask[1], it)) for it in shown]

    def dark(self, is_dark: bool) -> None:
        """Sets the visitor's colours."""
        setting = "layout.css.prefers-color-scheme.content-override"
        self.inside(f"Services.prefs.setIntPref('{setting}', {int(not is_dark)})")

    def quit(self) -> None:
        try:
            self.call("Marionette:Quit", {"flags": ["eForceQuit"]})
        except (RuntimeError, OSError, ValueError):
            self.process.terminate()
        self.line.close()
        self.process.wait(SECONDS)
        drop(self.room)

    def end(self) -> None:
        """Ends a browser that has no session."""
        self.process.kill()
        self.process.wait()
        drop(self.room)


def started(kind: Callable[[], Browser]) -> Browser:
    """A browser. One that doesn't come up is started again: that is no fault of the page, which is opened later."""
    for _ in range(STARTS - 1):
        try:
            return kind()
        except Unstarted as why:
            print(f"started again: {why}", flush=True)
    return kind()
