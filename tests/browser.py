"""Browsers without a window: Chromium, by the DevTools protocol over two pipes, and Firefox, by
Marionette, which is how geckodriver speaks WebDriver to it."""
import base64
import bisect
import fcntl
import itertools
import json
import os
import select
import shutil
import socket
import subprocess
import tempfile
import threading
import time
from pathlib import Path

CHROMIUM = next(filter(None, map(shutil.which, ("chromium", "chromium-browser", "google-chrome"))),
                None)
FIREFOX = next(filter(None, map(shutil.which, ("firefox-esr", "firefox"))), None)
SECONDS = 300
QUIET = {"stdin": subprocess.DEVNULL, "stdout": subprocess.DEVNULL, "stderr": subprocess.DEVNULL}
# The tasks of a page of Firefox after files were chosen, by a profile: when each begins and ends,
# by the system's clock, and for how long it has the processor. Firefox marks tasks of 50 ms, and
# says at each sample how long the thread had the processor since the last one.
TASKS = """(whole) => {
  const all = (it) => [it, ...it.processes.flatMap(all)],
    { osPid } = gBrowser.selectedBrowser.frameLoader.remoteTab;
  const process = all(whole).find((it) => it.threads.some((thread) => thread.pid === osPid));
  const { markers, samples, stringTable } = process.threads.find((it) => it.pid === osPid);
  const { startTime, endTime, name, data } = markers.schema,
    { time, threadCPUDelta } = samples.schema;
  const zero = process.meta.startTimeAsClockMonotonicNanosecondsSinceBoot / 1e6;
  const begin = markers.data.findLast((it) => it[data]?.name === "chosen")[startTime];
  const tasks = markers.data.filter((it) => stringTable[it[name]] === "LongTask"
    && it[endTime] > begin);
  return tasks.map((it) => {
    const start = Math.max(begin, it[startTime]),
      last = samples.data.findIndex((each) => each[time] >= it[endTime]);
    const within = samples.data.slice(0,
      last < 0 ? undefined : last + 1).filter((each) => each[time] > start);
    const busy = within.reduce((sum, each) => sum + (each[threadCPUDelta] ?? 0) / 1e6, 0);
    return [zero + start, zero + it[endTime], busy];
  });
}"""
KEYS = {"Tab": 9, "Enter": 13, "End": 35, "Home": 36, "ArrowLeft": 37, "ArrowUp": 38,
        "ArrowRight": 39, "ArrowDown": 40, "Delete": 46, "/": 191}


class States(threading.Thread):
    """Looks each millisecond whether the first threads of some processes could run."""

    def __init__(self, processes):
        super().__init__(daemon=True)
        self.processes, self.seen, self.is_done = processes, [], False
        self.start()

    def run(self):
        while not self.is_done:
            states = {
                it: Path(f"/proc/{it}/task/{it}/stat").read_text().rpartition(")")[2].split()[0]
                for it in self.processes}
            self.seen.append((time.monotonic() * 1000, states))
            time.sleep(0.001)

    def end(self):
        self.is_done = True
        self.join()

    def block(self, process, start, end, busy):
        """For how long a task blocked the thread that had the processor for `busy`: by the clock,
        but without the time in which it could run and others had the processors. If it waited, a
        look that comes more than 2 late shows how long others had them. All are milliseconds."""
        first, last = (bisect.bisect(self.seen, (it,)) for it in (start, end))
        looks = itertools.pairwise((min(end, max(start, at)), states[process])
                                   for at, states in self.seen[max(0, first - 1):last + 1])
        others = sum(later - at if state == state_then == "R" else max(0, later - at - 2)
                     for (at, state), (later, state_then) in looks)
        return end - start - max(0, others - busy)


class Page:
    """A page of dyncollate in a browser, whichever that is."""

    def wait(self, condition):
        end = time.monotonic() + SECONDS
        while not self.evaluate(condition):
            if time.monotonic() > end or self.errors()[0]:
                shown = self.evaluate("document.body?.innerText.slice(0, 400)")
                raise AssertionError(f"it is not so that {condition}: {self.errors()} {shown}")
            time.sleep(0.05)

    def settle(self):
        """Waits until the page has done what it began."""
        self.wait("document.documentElement.dataset.busy === 'no'")


class Browser(Page):
    """Chromium with one page, which is 1280 by 860 in light colours at first."""

    def __init__(self):
        self.folder = tempfile.mkdtemp(prefix="dyncollate-")
        theirs_in, self.to = map(above, os.pipe())
        self.back, theirs_out = map(above, os.pipe())
        options = ["--headless", "--no-sandbox", "--disable-gpu", "--disable-dev-shm-usage",
                   "--no-first-run", "--remote-debugging-pipe"]

        def open_pipes():
            os.dup2(theirs_in, 3)
            os.dup2(theirs_out, 4)
        command = [CHROMIUM, *options, f"--user-data-dir={self.folder}", "about:blank"]
        self.process = subprocess.Popen(command, pass_fds=(3, 4), preexec_fn=open_pipes, **QUIET)
        os.close(theirs_in)
        os.close(theirs_out)
        self.numbers, self.text, self.session, self.events = itertools.count(1), b"", None, []
        target = self.call("Target.createTarget", url="about:blank")["targetId"]
        self.session = self.call("Target.attachToTarget", targetId=target,
                                 flatten=True)["sessionId"]
        for domain in "Page", "Runtime", "Log", "Network":
            self.call(f"{domain}.enable")
        self.resize(1280, 860)

    def close(self):
        for pipe in self.to, self.back:
            os.close(pipe)
        self.process.kill()
        self.process.wait()
        shutil.rmtree(self.folder, ignore_errors=True)

    def call(self, method, **params):
        """The result of a call. Events that come before it are kept."""
        number = next(self.numbers)
        message = ({"id": number, "method": method,
                    "params": params} | ({"sessionId": self.session} if self.session else {}))
        text = json.dumps(message).encode() + b"\0"
        while text:
            text = text[os.write(self.to, text):]
        while True:
            found = self.message()
            if found.get("id") == number:
                if "error" in found:
                    raise AssertionError(f"{method}: {found['error']}")
                return found["result"]
            self.events.append(found)

    def message(self):
        parts = [self.text]
        while b"\0" not in parts[-1]:
            part = (os.read(self.back, 1 << 20)
                    if select.select([self.back], [], [], SECONDS)[0] else b"")
            if not part:
                raise AssertionError(f"Chromium ended, or said nothing for {SECONDS} s")
            parts.append(part)
        text, _, self.text = b"".join(parts).partition(b"\0")
        return json.loads(text)

    def evaluate(self, expression):
        """The value of an expression in the page, after its promise."""
        found = self.call("Runtime.evaluate", expression=expression, awaitPromise=True,
                          returnByValue=True)
        if "exceptionDetails" in found:
            raise AssertionError(found["exceptionDetails"]["exception"].get(
                "description", found["exceptionDetails"]))
        return found["result"].get("value")

    def open(self, address):
        """Opens a page, and waits until its script says that it is ready."""
        self.events.clear()
        self.call("Page.navigate", url="about:blank")
        self.call("Page.navigate", url=address)
        self.wait("document.documentElement?.dataset.ready === 'yes'")

    def resize(self, width, height, scale=1, dark=False):
        self.call("Emulation.setDeviceMetricsOverride", width=width, height=height,
                  deviceScaleFactor=scale, mobile=width < 600)
        self.call("Emulation.setEmulatedMedia",
                  features=[{"name": "prefers-color-scheme", "value": "dark" if dark else "light"}])

    def press(self, *keys):
        for key in keys:
            for kind in "rawKeyDown", "keyUp":
                self.call("Input.dispatchKeyEvent", type=kind, key=key, code=key,
                          windowsVirtualKeyCode=KEYS[key])
            if key == "Enter":
                self.call("Input.dispatchKeyEvent", type="char", key=key, code=key, text="\r")

    def click(self, x, y, to=None):
        """Clicks at a point, or drags from there to another one."""
        for kind, at in ("mousePressed", (x, y)), ("mouseMoved",
                                                   to or (x, y)), ("mouseReleased", to or (x, y)):
            self.call("Input.dispatchMouseEvent", type=kind, x=at[0], y=at[1], button="left",
                      buttons=int(kind != "mouseReleased"), clickCount=1)

    def type(self, text):
        self.call("Input.insertText", text=text)

    def drop(self, *names):
        """Drops files or directories onto the page."""
        data = {"items": [], "files": list(names), "dragOperationsMask": 1}
        for kind in "dragEnter", "dragOver", "drop":
            self.call("Input.dispatchDragEvent", type=kind, x=300, y=300, data=data)
        self.settle()

    def longest_block(self, does):
        """For how many milliseconds a task of the page blocks it at most while `does` is called
        (see States)."""
        session, self.session = self.session, None
        renderers = [it["id"] for it in self.call("SystemInfo.getProcessInfo")["processInfo"]
                     if it["type"] == "renderer"]
        self.session = session
        kinds = {"includedCategories": ["disabled-by-default-devtools.timeline"],
                 "excludedCategories": ["*"]}
        self.call("Tracing.start", transferMode="ReportEvents", traceConfig=kinds)
        states = States(renderers)
        does()
        states.end()
        self.call("Tracing.end")
        while self.events[-1].get("method") != "Tracing.tracingComplete":
            self.events.append(self.message())
        found = [it for event in self.events if event.get("method") == "Tracing.dataCollected"
                 for it in event["params"]["value"]]
        names = {it["tid"]: it["args"]["name"] for it in found if it["name"] == "thread_name"}
        tasks = [it for it in found if names.get(it["tid"]) == "CrRendererMain"
                 and it["name"] == "RunTask"]
        return max(states.block(it["pid"], it["ts"] / 1000, (it["ts"] + it.get("dur", 0)) / 1000,
                                it.get("tdur", 0) / 1000) for it in tasks)

    def errors(self):
        """What the page wrote to the console as an error, and the addresses that it asked for."""
        asked = [it["params"]["request"]["url"] for it in self.events
                 if it.get("method") == "Network.requestWillBeSent"]
        thrown = [it["params"] for it in self.events
                  if it.get("method") == "Runtime.exceptionThrown"]
        logged = [it["params"]["entry"]["text"] for it in self.events
                  if it.get("method") == "Log.entryAdded"]
        return thrown + logged, [it for it in asked
                                 if not it.startswith(("file:", "about:", "data:", "blob:"))]

    def screenshot(self, name):
        with open(name, "wb") as file:
            file.write(base64.b64decode(self.call("Page.captureScreenshot", format="png")["data"]))


class Firefox(Page):
    """Firefox with one page."""

    KEYS = {"Tab": "\ue004", "Enter": "\ue007", "End": "\ue010", "Home": "\ue011",
            "ArrowLeft": "\ue012", "ArrowUp": "\ue013", "ArrowRight": "\ue014",
            "ArrowDown": "\ue015", "Delete": "\ue017", "/": "/"}

    def __init__(self):
        self.folder, self.numbers = tempfile.mkdtemp(prefix="dyncollate-"), itertools.count(1)
        Path(self.folder, "user.js").write_text(
            'user_pref("marionette.port", 0);\nuser_pref("app.normandy.enabled", false);\n')
        command = [FIREFOX, "--headless", "--marionette", "-remote-allow-system-access",
                   "--no-remote", "--profile", self.folder, "about:blank"]
        self.process = subprocess.Popen(command, **QUIET)
        port, end = Path(self.folder, "MarionetteActivePort"), time.monotonic() + SECONDS
        while not (port.exists() and port.read_text()):
            if time.monotonic() > end or self.process.poll() is not None:
                raise AssertionError("Firefox does not start")
            time.sleep(0.05)
        self.socket = socket.create_connection(("127.0.0.1", int(port.read_text())), SECONDS)
        self.file = self.socket.makefile("rb")
        self.message()
        self.call("WebDriver:NewSession")
        self.call("WebDriver:SetTimeouts", script=SECONDS * 1000, pageLoad=SECONDS * 1000)
        self.resize(1280, 860)

    def close(self):
        self.file.close()
        self.socket.close()
        self.process.kill()
        self.process.wait()
        shutil.rmtree(self.folder, ignore_errors=True)

    def message(self):
        size = b""
        while not size.endswith(b":"):
            part = self.file.read(1)
            if not part:
                raise AssertionError("Firefox ended")
            size += part
        return json.loads(self.file.read(int(size[:-1])))

    def call(self, command, **given):
        text = json.dumps([0, next(self.numbers), command, given]).encode()
        self.socket.sendall(b"%d:%s" % (len(text), text))
        _, _, error, result = self.message()
        if error:
            raise AssertionError(f"{command}: {error}")
        return result

    def evaluate(self, expression, **given):
        return self.call("WebDriver:ExecuteScript", script=f"return ({expression});", args=[],
                         **given)["value"]

    def open(self, address):
        self.of_browser("Services.console.reset()")
        self.call("WebDriver:Navigate", url="about:blank")
        self.call("WebDriver:Navigate", url=address)
        self.wait("document.documentElement.dataset.ready === 'yes'")

    def resize(self, width, height):
        """The window is larger than the page by its frame."""
        for _ in range(2):
            frame = self.evaluate("[outerWidth - innerWidth, outerHeight - innerHeight]")
            self.call("WebDriver:SetWindowRect", width=width + frame[0], height=height + frame[1])

    def press(self, *keys):
        actions = [{"type": kind, "value": self.KEYS[key]} for key in keys
                   for kind in ("keyDown", "keyUp")]
        self.act({"type": "key", "id": "keys", "actions": actions})

    def click(self, x, y, to=None):
        """Clicks at a point, or drags from there to another one."""
        moves = [{"type": "pointerMove", "x": round(it[0]), "y": round(it[1]), "duration": 0}
                 for it in ((x, y), to or (x, y))]
        actions = [moves[0], {"type": "pointerDown", "button": 0}, moves[1],
                   {"type": "pointerUp", "button": 0}]
        self.act({"type": "pointer", "id": "mouse", "actions": actions})

    def act(self, source):
        self.call("WebDriver:PerformActions", actions=[source])
        self.call("WebDriver:ReleaseActions")

    def drop(self, *names):
        """Chooses files or a directory as the dialog does,
        because only the system can drop them."""
        is_directory, text = os.path.isdir(names[0]), json.dumps(names)
        found = (f"new Directory({text}[0]).getFiles(true)" if is_directory
                 else f"Promise.all({text}.map((it) => File.createFromFileName(it)))")
        name, message = ("directorychooser" if is_directory else "chooser",
                         f"{self.folder} {next(self.numbers)}")
        script = (
            f"data:,addMessageListener('{message}', ({{ data }}) => {{ const input = "
            f"content.document.getElementById('{name}');"
            "input.mozSetFileArray(data); content.setTimeout(() => {"
            " content.performance.mark('chosen'); input.dispatchEvent(new content.Event('change', "
            "{ bubbles: true })); }, 300); })")
        self.evaluate("document.documentElement.dataset.busy = 'chosen'")
        self.of_browser(f"""(async () => {{
            const files = await {found}, {{ messageManager }} = gBrowser.selectedBrowser;
            messageManager.loadFrameScript({json.dumps(script)}, false);
            messageManager.sendAsyncMessage("{message}", files); }})()""")
        self.settle()

    def longest_block(self, does):
        """For how many milliseconds a task of the page blocks it at most after files were chosen,
        as `does` is called (see States). What is shorter than 50 counts as none."""
        process = self.of_browser("gBrowser.selectedBrowser.frameLoader.remoteTab.osPid")
        self.of_browser("Services.profiler.StartProfiler(1 << 23, 1, ['cpu', 'nostacksampling', "
                        "'nomarkerstacks'], ['GeckoMain'])")
        states = States([process])
        does()
        states.end()
        found = self.of_browser(f"Services.profiler.getProfileDataAsync().then({TASKS})")
        self.of_browser("Services.profiler.StopProfiler()")
        return max((states.block(process, *it) for it in found), default=0)

    def of_browser(self, expression):
        """The value of an expression of the browser itself."""
        self.call("Marionette:SetContext", value="chrome")
        try:
            return self.evaluate(expression)
        finally:
            self.call("Marionette:SetContext", value="content")

    def errors(self):
        """What the page wrote to the console as an error, and the addresses that it asked for."""
        thrown = self.of_browser(
            "Services.console.getMessageArray().filter((it) => it instanceof Ci.nsIScriptError && "
            "!(it.flags & 1) && /^(file|blob):/.test(it.sourceName)).map((it) => it.message)")
        asked = self.evaluate("performance.getEntriesByType('resource').map((it) => it.name)")
        return thrown, [it for it in asked
                        if not it.startswith(("file:", "about:", "data:", "blob:"))]

    def screenshot(self, name):
        Path(name).write_bytes(base64.b64decode(self.call("WebDriver:TakeScreenshot",
                                                          full=False)["value"]))


def above(number):
    """The same file under a number that no pipe of the protocol has."""
    found = fcntl.fcntl(number, fcntl.F_DUPFD_CLOEXEC, 10)
    os.close(number)
    return found
