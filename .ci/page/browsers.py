"""Chromium by the DevTools protocol and Firefox by WebDriver BiDi, each without a window and with a profile of its own.

It needs Debian's python3-websocket, and is run by /usr/bin/python3. Both have the same methods."""

import base64
import glob
import json
import os
import shutil
import socket
import subprocess
import tempfile
import time
import urllib.request

import websocket

KEYS = {"Tab": ("\ue004", 9), "Enter": ("\ue006", 13), "Space": (" ", 32), "Escape": ("\ue00c", 27), "ArrowDown": ("\ue015", 40), "ArrowUp": ("\ue013", 38),
        "PageDown": ("\ue00f", 34), "Home": ("\ue011", 36), "End": ("\ue010", 35)}


class Browser:
    """What both have in common: a socket on which calls are answered and events come."""

    def __init__(self, name):
        self.folder = tempfile.mkdtemp(prefix=f"geolint-{name}-")
        self.downloads = f"{self.folder}/downloads"
        os.mkdir(self.downloads)
        self.number = 0
        self.events = []

    def call(self, method, **params):
        self.number += 1
        self.socket.send(json.dumps({"id": self.number, "method": method, "params": params}))
        while True:
            said = json.loads(self.socket.recv())
            if said.get("id") != self.number:
                self.events.append(said)
            elif "error" in said:
                raise RuntimeError(f"{method}: {said['error']} {said.get('message', '')}")
            else:
                return said["result"]

    def wait(self, text, seconds=60):
        """Waits until the expression is true."""
        end = time.monotonic() + seconds
        while not self.is_true(text):
            if time.monotonic() > end:
                raise TimeoutError(f"{text} was not true in {seconds} s")
            time.sleep(0.05)

    def is_true(self, text):
        """Whether the expression is true. While one page gives way to the next, it is not."""
        try:
            return self.value(text)
        except RuntimeError as fault:
            if "navigated or closed" in str(fault):
                return False
            raise

    def downloaded(self, name, seconds=20):
        """The text of a file that was saved, which is then gone."""
        path = f"{self.downloads}/{name}"
        end = time.monotonic() + seconds
        while not os.path.exists(path) or os.path.getsize(path) == 0 or os.path.exists(path + ".part"):
            if time.monotonic() > end:
                raise TimeoutError(f"{name} was not saved in {seconds} s: {os.listdir(self.downloads)}")
            time.sleep(0.05)
        time.sleep(0.2)
        with open(path, encoding="utf-8") as file:
            text = file.read()
        os.remove(path)
        return text

    def start(self, words, **env):
        self.process = subprocess.Popen(words, stdout=subprocess.DEVNULL, stderr=subprocess.DEVNULL, env={**os.environ, **env})

    def processes(self):
        """The numbers of its processes, by /proc."""
        children = {}
        for path in glob.glob("/proc/[0-9]*/stat"):
            try:
                with open(path) as file:
                    pid, rest = file.read().split(" ", 1)
                children.setdefault(int(rest.rsplit(")", 1)[1].split()[1]), []).append(int(pid))
            except OSError:
                pass
        found = [self.process.pid]
        for pid in found:
            found += children.get(pid, [])
        return found

    def end(self, method):
        try:
            self.call(method)
        except Exception:
            pass
        try:
            self.process.wait(20)
        except subprocess.TimeoutExpired:
            self.process.kill()
            self.process.wait()
        shutil.rmtree(self.folder, ignore_errors=True)


class Chromium(Browser):
    def __init__(self, has_wasm=True, scheme="light"):
        super().__init__("chromium")
        words = ["chromium", "--headless=new", "--no-sandbox", "--disable-gpu", "--no-first-run", "--disable-dev-shm-usage", "--remote-allow-origins=*",
                 "--remote-debugging-port=0", f"--user-data-dir={self.folder}", "--lang=en-US", "--window-size=1000,1200"]
        self.start([*words, *([] if has_wasm else ["--js-flags=--jitless"]), "about:blank"])
        path = f"{self.folder}/DevToolsActivePort"
        for _ in range(1200):
            if os.path.exists(path) and open(path).read().count("\n"):
                break
            time.sleep(0.05)
        port = open(path).readline().strip()
        pages = []
        while not pages:
            pages = [it for it in json.load(urllib.request.urlopen(f"http://127.0.0.1:{port}/json")) if it["type"] == "page"]
        self.version = json.load(urllib.request.urlopen(f"http://127.0.0.1:{port}/json/version"))["Browser"]
        self.socket = websocket.create_connection(pages[0]["webSocketDebuggerUrl"], timeout=300)
        for name in ("Page", "Runtime", "DOM", "Log", "Network"):
            self.call(f"{name}.enable")
        self.call("Browser.setDownloadBehavior", behavior="allow", downloadPath=self.downloads)
        self.call("Emulation.setFocusEmulationEnabled", enabled=True)
        self.scheme = scheme
        self.look()

    def navigate(self, url):
        self.call("Page.navigate", url=url)
        self.wait("document.readyState === 'complete'")

    def value(self, text):
        said = self.call("Runtime.evaluate", expression=text, awaitPromise=True, returnByValue=True, userGesture=True)
        if "exceptionDetails" in said:
            raise RuntimeError(f"{text}: {said['exceptionDetails']}")
        return said["result"].get("value")

    def choose(self, selector, paths):
        root = self.call("DOM.getDocument")["root"]["nodeId"]
        node = self.call("DOM.querySelector", nodeId=root, selector=selector)["nodeId"]
        self.call("DOM.setFileInputFiles", nodeId=node, files=paths)

    def drop(self, paths):
        """Drops files from outside on the page, as a hand does."""
        data = {"items": [], "files": paths, "dragOperationsMask": 1}
        for kind in ("dragEnter", "dragOver", "drop"):
            self.call("Input.dispatchDragEvent", type=kind, x=400, y=330, data=data)

    def press(self, key):
        text, code = KEYS[key]
        words = {"key": " " if key == "Space" else key, "code": key, "windowsVirtualKeyCode": code}
        self.call("Input.dispatchKeyEvent", type="keyDown", **words, **({"text": "\r" if key == "Enter" else text} if key in ("Enter", "Space") else {}))
        self.call("Input.dispatchKeyEvent", type="keyUp", **words)

    def write(self, text):
        self.call("Input.insertText", text=text)

    def look(self, width=1000, height=1200, motion="no-preference"):
        self.call("Emulation.setDeviceMetricsOverride", width=width, height=height, deviceScaleFactor=1, mobile=width < 600)
        features = {"prefers-color-scheme": self.scheme, "prefers-reduced-motion": motion}
        self.call("Emulation.setEmulatedMedia", features=[{"name": name, "value": value} for name, value in features.items()])

    def unnamed(self):
        """What a screen reader would meet without a name, as the browser itself computes it."""
        wanted = ("button", "link", "combobox", "listbox", "option", "textbox", "image", "progressbar", "heading", "region", "DisclosureTriangle")
        nodes = self.call("Accessibility.getFullAXTree")["nodes"]
        return [it["role"]["value"] for it in nodes if not it["ignored"] and it["role"]["value"] in wanted and not it.get("name", {}).get("value")]

    def asked_for_files(self, key):
        """Whether the key opens the choice of files, which is then left alone."""
        self.call("Page.setInterceptFileChooserDialog", enabled=True)
        self.press(key)
        for _ in range(100):
            self.value("1")
            if any(it.get("method") == "Page.fileChooserOpened" for it in self.events):
                break
            time.sleep(0.05)
        self.call("Page.setInterceptFileChooserDialog", enabled=False)
        return any(it.get("method") == "Page.fileChooserOpened" for it in self.events)

    def shot(self, path):
        with open(path, "wb") as file:
            file.write(base64.b64decode(self.call("Page.captureScreenshot", format="png", captureBeyondViewport=True)["data"]))

    def requests(self):
        return [it["params"]["request"]["url"] for it in self.events if it.get("method") == "Network.requestWillBeSent"]

    def console(self):
        kinds = ("Log.entryAdded", "Runtime.consoleAPICalled", "Runtime.exceptionThrown")
        return [it["params"] for it in self.events if it.get("method") in kinds]

    def close(self):
        self.end("Browser.close")


class Firefox(Browser):
    def __init__(self, has_wasm=True, scheme="light"):
        super().__init__("firefox")
        with socket.socket() as it:
            it.bind(("127.0.0.1", 0))
            port = it.getsockname()[1]
        off = ("app.update.enabled", "browser.shell.checkDefaultBrowser", "datareporting.policy.dataSubmissionEnabled", "toolkit.telemetry.enabled",
               "app.normandy.enabled", "network.captive-portal-service.enabled",
               # The panel of a download would take the focus from the page.
               "browser.download.alwaysOpenPanel", *([] if has_wasm else ["javascript.options.wasm"]))
        with open(f"{self.folder}/user.js", "w") as file:
            for name in off:
                file.write(f'user_pref("{name}", false);\n')
            file.write(f'user_pref("browser.download.folderList", 2);\nuser_pref("browser.download.dir", "{self.downloads}");\n')
            file.write('user_pref("browser.download.useDownloadDir", true);\nuser_pref("browser.download.always_ask_before_handling_new_types", false);\n')
            file.write(f'user_pref("layout.css.prefers-color-scheme.content-override", {["dark", "light"].index(scheme)});\n')
            file.write('user_pref("intl.accept_languages", "en-US");\nuser_pref("accessibility.tabfocus", 7);\n')
        self.start(["firefox-esr", "--headless", "--no-remote", "--remote-debugging-port", str(port), "--profile", self.folder,
                    "--width", "1000", "--height", "1200", "about:blank"], MOZ_HEADLESS="1", HOME=self.folder)
        for _ in range(1200):
            try:
                self.socket = websocket.create_connection(f"ws://127.0.0.1:{port}/session", timeout=300, suppress_origin=True)
                break
            except OSError:
                time.sleep(0.05)
        said = self.call("session.new", capabilities={})
        self.version = "Firefox/" + said["capabilities"]["browserVersion"]
        self.call("session.subscribe", events=["log.entryAdded", "network.beforeRequestSent"])
        self.context = self.call("browsingContext.getTree")["contexts"][0]["context"]

    def navigate(self, url):
        # The first tab has no focus, and its buttons no keys; of a later one, Tab may have moved the focus to the browser itself.
        last, self.context = self.context, self.call("browsingContext.create", type="tab")["context"]
        self.call("browsingContext.close", context=last)
        self.call("browsingContext.navigate", context=self.context, url=url, wait="complete")

    def value(self, text):
        said = self.call("script.evaluate", expression=text, awaitPromise=True, target={"context": self.context}, userActivation=True)
        if said["type"] == "exception":
            raise RuntimeError(f"{text}: {said['exceptionDetails']['text']}")
        return plain(said["result"])

    def choose(self, selector, paths):
        found = self.call("browsingContext.locateNodes", context=self.context, locator={"type": "css", "value": selector})["nodes"][0]
        self.call("input.setFiles", context=self.context, element={"sharedId": found["sharedId"]}, files=paths)

    def drop(self, paths):
        """Drops files on the page by an event of the page's own: BiDi has no drag from outside."""
        self.value("(() => { const it = document.createElement('input'); it.type = 'file'; it.multiple = true; it.id = 'dropped'; it.hidden = true;"
                   "document.body.append(it); })()")
        self.choose("#dropped", paths)
        self.value("""(() => { const data = new DataTransfer(), input = document.getElementById('dropped');
            for (const file of input.files) data.items.add(file);
            input.remove();
            for (const kind of ['dragover', 'drop']) document.getElementById('drop').dispatchEvent(
                new DragEvent(kind, { dataTransfer: data, bubbles: true, cancelable: true })); })()""")

    def press(self, key):
        value = KEYS[key][0]
        actions = [{"type": "keyDown", "value": value}, {"type": "keyUp", "value": value}]
        self.call("input.performActions", context=self.context, actions=[{"type": "key", "id": "keys", "actions": actions}])

    def write(self, text):
        actions = [{"type": kind, "value": it} for it in text for kind in ("keyDown", "keyUp")]
        self.call("input.performActions", context=self.context, actions=[{"type": "key", "id": "keys", "actions": actions}])

    def look(self, width=1000, height=1200):
        self.call("browsingContext.setViewport", context=self.context, viewport={"width": width, "height": height})

    def shot(self, path):
        said = self.call("browsingContext.captureScreenshot", context=self.context, origin="document")
        with open(path, "wb") as file:
            file.write(base64.b64decode(said["data"]))

    def requests(self):
        return [it["params"]["request"]["url"] for it in self.events if it.get("method") == "network.beforeRequestSent"]

    def console(self):
        return [it["params"].get("text") for it in self.events if it.get("method") == "log.entryAdded"]

    def close(self):
        self.end("browser.close")


def plain(it):
    """A value of BiDi as one of Python."""
    kind, value = it["type"], it.get("value")
    if kind == "array":
        return [plain(inner) for inner in value]
    if kind == "object":
        return {name: plain(inner) for name, inner in value}
    return value
