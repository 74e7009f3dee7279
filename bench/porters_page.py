"""Looks at the page examples/browse.html, for bench/porters.sh: Chromium without a window, by chromedriver.

porters_page.py SERVER PORT FOLDER MANY: opens the page at SERVER by the keys of a keyboard alone, as the tenants
`alpha` and `many`, and saves a screenshot of each view in the folder, also 320 pixels wide. No view may be wider than
its window. It measures inside the page how long the list of the MANY ports of `many` takes from the reply to the frame
after it is drawn, and stops if that is 0.5 s or more. PORT is where chromedriver listens."""
import base64
import json
import os
import signal
import subprocess
import sys
import time
import urllib.request

ENTER, TAB = "\ue007", "\ue004"
WIDE, NARROW = (1000, 800), (320, 640)
LONGEST = 500
TIMES = 5


class Browser:
    """A browser, by the requests of WebDriver."""

    def __init__(self, port):
        self.url = f"http://127.0.0.1:{port}"
        words = ["--headless=new", "--no-sandbox", "--disable-gpu", "--disable-breakpad", "--hide-scrollbars"]
        wanted = {"browserName": "chrome", "acceptInsecureCerts": True, "goog:chromeOptions": {"args": words}}
        self.wait_until_ready()
        told = self.ask("POST", "/session", {"capabilities": {"alwaysMatch": wanted}})
        self.url += f"/session/{told['sessionId']}"

    def wait_until_ready(self):
        for _ in range(100):
            try:
                return self.ask("GET", "/status")
            except OSError:
                time.sleep(0.1)
        sys.exit("porters_page.py: chromedriver doesn't answer")

    def ask(self, method, path, data=None):
        body = None if data is None else json.dumps(data).encode()
        request = urllib.request.Request(self.url + path, body, {"Content-Type": "application/json"}, method=method)
        with urllib.request.urlopen(request, timeout=60) as reply:
            return json.load(reply)["value"]

    def run(self, script):
        """The value of a script in the page."""
        return self.ask("POST", "/execute/sync", {"script": script, "args": []})

    def wait(self, script):
        """Waits until a script gives something that holds, and gives it."""
        for _ in range(600):
            found = self.run(f"return {script}")
            if found:
                return found
            time.sleep(0.05)
        sys.exit(f"porters_page.py: this never holds: {script}")

    def press(self, keys):
        """Presses keys one after another, wherever the focus is."""
        actions = [{"type": kind, "value": key} for key in keys for kind in ("keyDown", "keyUp")]
        self.ask("POST", "/actions", {"actions": [{"type": "key", "id": "keyboard", "actions": actions}]})

    def reach(self, script):
        """Presses Tab until the focus is on the element that a script gives."""
        for _ in range(60):
            if self.run(f"return document.activeElement === {script}"):
                return
            self.press(TAB)
        sys.exit(f"porters_page.py: Tab doesn't come to {script}")

    def press_on(self, script):
        """Goes to the element that a script gives, and presses Enter."""
        self.reach(script)
        self.press(ENTER)

    def size(self, width, height):
        data = {"width": width, "height": height, "deviceScaleFactor": 1, "mobile": False}
        self.ask("POST", "/goog/cdp/execute", {"cmd": "Emulation.setDeviceMetricsOverride", "params": data})

    def save(self, file):
        with open(file, "wb") as picture:
            picture.write(base64.b64decode(self.ask("GET", "/screenshot")))

    def close(self):
        self.ask("DELETE", "")


def shoot(browser, folder, name, at="#title"):
    """Saves the view at both widths, from an element on. At neither may anything be outside of the window."""
    for (width, height), ending in ((WIDE, ""), (NARROW, "-320")):
        browser.size(width, height)
        browser.run(f"scroll(0, document.querySelector({json.dumps(at)}).offsetTop - 80)")
        time.sleep(0.2)
        browser.save(os.path.join(folder, f"{name}{ending}.png"))
        wide = browser.run("return document.documentElement.scrollWidth")
        if wide > width:
            sys.exit(f"porters_page.py: {name} is {wide} pixels wide in a window of {width}")
    browser.size(*WIDE)


def said(browser, text):
    browser.wait(f"document.getElementById('said').textContent === {json.dumps(text)}")


def look(browser, server, folder):
    """Goes through the views as the tenant alpha."""
    browser.ask("POST", "/url", {"url": f"{server}/"})
    browser.wait("document.activeElement.id === 'key'")
    shoot(browser, folder, "key")
    browser.press("alpha" + ENTER)
    said(browser, "300 packages")
    browser.reach("document.querySelector('#where')")
    browser.press("category=devel;version>=2" + ENTER)
    said(browser, "6 packages")
    shoot(browser, folder, "list")
    browser.press_on("document.querySelector('a[href=\"#port=devel%2Ffoo\"]')")
    browser.wait("document.querySelector('#rdeps')")
    shoot(browser, folder, "record")
    browser.press_on("document.querySelector('#rdeps summary')")
    browser.wait("document.querySelector('#rdeps details details summary')")
    browser.press_on("document.querySelector('#rdeps details details summary')")
    browser.wait("document.querySelectorAll('#rdeps details[open] li').length > 3")
    shoot(browser, folder, "tree", "#deps")
    browser.press_on("document.querySelector('a[href=\"#faults\"]')")
    said(browser, "2 faults")
    browser.press_on("document.querySelector('summary')")
    browser.wait("document.querySelector('pre .at')")
    shoot(browser, folder, "faults")


def refuse(browser, folder):
    """Asks for what is refused: a port at fault, a bad condition, an unknown key."""
    for name, target, wanted in (("fault", "#port=net%2Fbad", "details"), ("refused", "#list=category", "p.bad")):
        browser.run(f"location.hash = {json.dumps(target)}")
        browser.wait(f"document.querySelector('main {wanted}')")
        shoot(browser, folder, name)


def measure(browser, folder, server, many):
    """The milliseconds of drawing the list of many ports, some times."""
    browser.run("sessionStorage.setItem('key', 'many')")
    drawn = []
    for number in range(TIMES):
        browser.ask("POST", "/url", {"url": f"{server}/?{number}#list="})
        drawn.append(browser.wait("performance.getEntriesByName('list').map(entry => entry.duration)[0]"))
    rows = browser.run("return document.querySelectorAll('[role=listitem]').length")
    if rows != many:
        sys.exit(f"porters_page.py: {rows} packages in place of {many}")
    shoot(browser, folder, "many")
    told = ", ".join(f"{milliseconds:.0f}" for milliseconds in drawn)
    print(f"the page draws a list of {many:,} ports in {told} ms")
    if max(drawn) >= LONGEST:
        sys.exit(f"porters_page.py: that is {LONGEST} ms or more")


def main():
    server, port, folder, many = sys.argv[1], sys.argv[2], sys.argv[3], int(sys.argv[4])
    os.makedirs(folder, exist_ok=True)
    driver = subprocess.Popen(["chromedriver", f"--port={port}", "--log-level=OFF"], stdout=subprocess.DEVNULL,
                              stderr=subprocess.DEVNULL, start_new_session=True)
    browser = None
    try:
        browser = Browser(port)
        look(browser, server, folder)
        refuse(browser, folder)
        measure(browser, folder, server, many)
        print(f"the page was gone through by keys alone; its screenshots are in {folder}")
    finally:
        if browser:
            browser.close()
        os.killpg(driver.pid, signal.SIGTERM)
        driver.wait()


main()
