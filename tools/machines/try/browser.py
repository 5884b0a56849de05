"""Tries the playground in real browsers: it types texts and traces, reads the answers, and compares them with what the program says.

    python3 tools/machines/try/browser.py PAGE.html [PROGRAM]       at the root; PROGRAM is crates/onfiseq/out/onfiseq where none is named
    --texts N           how many programs and how many traces: 100 of each, if none is said
    --shots FOLDER      also takes pictures of the page, for docs

The browsers are Debian's: chromium with chromium-driver, and firefox-esr. One that isn't installed is skipped by name.
"""
import argparse
import base64
import json
import os
import random
import shutil
import socket
import subprocess
import sys
import tempfile
import time
import urllib.request

CHIP = "examples/small_chip/chip.page"


class Chromium:
    """Chromium, by its driver (WebDriver over HTTP)."""

    name, needs = "Chromium", ("chromium", "chromedriver")

    def __init__(self, room):
        self.port = free_port()
        self.driver = subprocess.Popen(["chromedriver", "--port=%d" % self.port], stdout=subprocess.DEVNULL, stderr=subprocess.DEVNULL)
        self.at = "http://127.0.0.1:%d/session" % self.port
        wait_for_port(self.port)
        options = {"args": ["--headless=new", "--no-sandbox", "--disable-gpu", "--user-data-dir=" + room]}
        answer = self.send("POST", "", {"capabilities": {"alwaysMatch": {"browserName": "chrome", "goog:chromeOptions": options}}})
        self.at += "/" + answer["sessionId"]

    def send(self, method, path, body=None):
        data = None if body is None else json.dumps(body).encode()
        request = urllib.request.Request(self.at + path, data, {"Content-Type": "application/json"}, method=method)
        with urllib.request.urlopen(request, timeout=120) as it:
            return json.loads(it.read())["value"]

    def open(self, url):
        self.send("POST", "/url", {"url": url})

    def run(self, script, *given):
        return self.send("POST", "/execute/sync", {"script": script, "args": list(given)})

    def size(self, width, height):
        self.send("POST", "/window/rect", {"width": width, "height": height})

    def shot(self):
        return base64.b64decode(self.send("GET", "/screenshot"))

    def element(self, css):
        return list(self.send("POST", "/element", {"using": "css selector", "value": css}).values())[0]

    def type(self, css, text):
        self.send("POST", "/element/%s/value" % self.element(css), {"text": text})

    def close(self):
        self.send("DELETE", "")
        self.driver.terminate()
        self.driver.wait()


class Firefox:
    """Firefox, by its own protocol (Marionette)."""

    name, needs = "Firefox", ("firefox-esr",)

    def __init__(self, room):
        self.port, self.count = free_port(), 0
        with open(room + "/user.js", "w") as it:
            it.write('user_pref("marionette.port", %d);\nuser_pref("datareporting.policy.dataSubmissionEnabled", false);\n' % self.port)
        words = ["firefox-esr", "--headless", "--marionette", "--no-remote", "--profile", room]
        self.process = subprocess.Popen(words, stdout=subprocess.DEVNULL, stderr=subprocess.DEVNULL)
        wait_for_port(self.port)
        self.line = socket.create_connection(("127.0.0.1", self.port))
        self.line.settimeout(120)
        self.read()
        self.send("WebDriver:NewSession", {})

    def read(self):
        length = b""
        while not length.endswith(b":"):
            length += self.line.recv(1)
        text = b""
        while len(text) < int(length[:-1]):
            text += self.line.recv(int(length[:-1]) - len(text))
        return json.loads(text)

    def send(self, name, given):
        self.count += 1
        text = json.dumps([0, self.count, name, given]).encode()
        self.line.sendall(b"%d:%s" % (len(text), text))
        _, _, fault, answer = self.read()
        if fault:
            raise RuntimeError("%s: %s" % (name, fault))
        return answer

    def open(self, url):
        self.send("WebDriver:Navigate", {"url": url})

    def run(self, script, *given):
        return self.send("WebDriver:ExecuteScript", {"script": script, "args": list(given)})["value"]

    def size(self, width, height):
        self.send("WebDriver:SetWindowRect", {"width": width, "height": height})

    def shot(self):
        return base64.b64decode(self.send("WebDriver:TakeScreenshot", {"full": False})["value"])

    def element(self, css):
        return list(self.send("WebDriver:FindElement", {"using": "css selector", "value": css})["value"].values())[0]

    def type(self, css, text):
        self.send("WebDriver:ElementSendKeys", {"id": self.element(css), "text": text})

    def close(self):
        self.send("Marionette:Quit", {"flags": ["eForceQuit"]})
        self.process.wait()


def free_port():
    """A port of this machine that nothing listens on."""
    with socket.socket() as it:
        it.bind(("127.0.0.1", 0))
        return it.getsockname()[1]


def wait_for_port(port):
    """Waits until something listens there."""
    for _ in range(600):
        try:
            socket.create_connection(("127.0.0.1", port)).close()
            return
        except OSError:
            time.sleep(0.1)
    raise RuntimeError("nothing listens on the port %d" % port)


# ---- what is typed

CHECKS = [["check", "chip.page", "1", "typed", *options] for options in ([], ["--recorded", "--all"], ["--readies-from-status"], ["--profile", "onfi"])]
VERIFIES = [["verify", "chip.page", "typed"], ["lint", "chip.page", "typed"], ["explain", "chip.page", "typed"]]

KINDS = ("C 60", "C d0", "C 70", "C 00", "C 30", "C 80", "C 10", "C ff", "C 31", "A 00", "A 04", "A 01", "I 5a", "O 80", "O e0", "R 0 0", "R 0 1", "Y 0", "C D0", "A 0", "Q 00", "C", "O e0 1")
ERASE = "0 C 60\n0 A 04\n0 A 00\n0 A 00\n0 C d0\n0 C 70\n0 O 80\n0 R 0 0\n0 C 70\n0 O e0\n"
PARTS = (
    "cmd 60\naddr 2 3\ncmd d0\nwait\n", "cmd 00\naddr 0 5\ncmd 30\nwait\ncmd 00\nget 16\nseek 0\n", "cmd 80\naddr 0 5\nput 16\ncmd 10\nwait\nseek 0\n", "wait\nbrs 01 a\n",
    "loop 2\ncmd 60\naddr 2 3\ncmd d0\nwait\nnext\n", "cmd 60\naddr 2 3\ncmd d0\n", "cmd ff\n", "stat\n", "bad\n", "get 900\n", "rowadd 1\n", "plane 3\n", "jmp a\n", "; a comment\n", "cmd 1ff\n",
)


def draw_trace(draw):
    """A trace: whole erases, and then any lines."""
    lines = ["%d %s\n" % (draw.choice((0, 0, 0, 1)), draw.choice(KINDS)) for _ in range(draw.randrange(6))]
    return ERASE * draw.randrange(3) + "".join(lines)


def draw_program(draw):
    """A program's text, right or wrong."""
    body = "".join(draw.choice(PARTS) for _ in range(1 + draw.randrange(5)))
    label = "a:\n" if " a\n" in body and draw.randrange(8) else ""
    return "rows %d\nbuffer %d\nbudget %d\n%s%send 0\n" % (1 + draw.randrange(3), 16 * draw.randrange(3), draw.choice((40, 400)), body, label)


def program_says(program, words, text, room):
    """What the program says of the text, on both streams."""
    for name, what in (("typed", text.encode()), ("chip.page", open(CHIP, "rb").read())):
        with open("%s/%s" % (room, name), "wb") as it:
            it.write(what)
    ran = subprocess.run([program, *words], cwd=room, stdout=subprocess.PIPE, stderr=subprocess.PIPE, text=True, check=False)
    return ran.stdout, ran.stderr


# ---- the page

PUT = """const before = document.getElementById('answers').dataset.turn || '0';
takeExample({ files: arguments[0], commands: arguments[1], open: arguments[0][arguments[0].length - 1].name }); return before;"""
READY = "document.body && document.body.dataset.ready && document.getElementById('answers').dataset.turn"
TURN = "return document.getElementById('answers').dataset.turn || '0';"
SAID = "return [...document.querySelectorAll('#answers .' + arguments[0])].map(it => it.textContent).join('');"
EXAMPLE = "[...document.querySelectorAll('#examples button')].find(it => it.textContent === arguments[0]).click();"


def wait_until(browser, condition):
    """Waits until a condition holds in the page."""
    for _ in range(3000):
        if browser.run("return !!(%s);" % condition):
            return
        time.sleep(0.01)
    raise RuntimeError("the page never came to: " + condition)


def file_of(name, text):
    return {"name": name, "base64": base64.b64encode(text if isinstance(text, bytes) else text.encode()).decode()}


def put(browser, files, commands):
    """Puts files and commands into the page, and waits for the answer."""
    before = browser.run(PUT, files, commands)
    wait_until(browser, "document.getElementById('answers').dataset.turn > %s" % before)


def click_example(browser, name):
    """Clicks an example, and waits for its answer."""
    before = browser.run(TURN)
    browser.run(EXAMPLE, name)
    wait_until(browser, "document.getElementById('answers').dataset.turn > %s" % before)


def differing_texts(browser, typed):
    """The texts to which the page says something else than the program, on either stream."""
    with open(CHIP, "rb") as it:
        chip = file_of("chip.page", it.read())
    found = []
    for words, text, wanted in typed:
        put(browser, [chip, file_of("typed", text)], [" ".join(words)])
        told = browser.run(SAID, "output"), browser.run(SAID, "errors")
        if told != wanted:
            found.append("%r: the page says %r, the program %r" % (text, told, wanted))
    return found


def wrong_by_hand(browser):
    """What goes wrong where a person types and clicks."""
    found = []

    def want(what, condition):
        if not browser.run("return !!(%s);" % condition):
            found.append(what)

    click_example(browser, "A trace: too soon")
    want("the first example is refused", "document.querySelector('#answers .output').textContent.startsWith('refused F9 at 5')")
    want("the faulty line is marked", "document.querySelector('#lines b').textContent === '6'")
    want("the picture is drawn", "document.querySelector('.picture img').src.startsWith('blob:')")
    browser.run("document.querySelector('#answers .errors a').click();")
    want("the line can be gone to", "document.activeElement.id === 'text' && document.getElementById('text').selectionStart === 35")
    browser.run("[...document.querySelectorAll('#options button')].find(it => it.title === '--all').click();")
    want("an option is taken out", "!document.getElementById('commands').value.includes('--all')")
    browser.run("document.getElementById('text').value = ''; document.getElementById('text').focus();")
    browser.type("#text", "0 C 60\n0 C 60\n")
    wait_until(browser, "document.getElementById('answers').textContent.includes('refused F3 at 1')")
    click_example(browser, "A refused program")
    want("the run of a refusal is drawn", "document.querySelector('#answers .output').textContent.startsWith('refused V7 at 3') && document.querySelector('.picture img')")
    click_example(browser, "A run on two dies")
    want("threads take turns", "typeof WebAssembly.Suspending !== 'function' || document.querySelector('#answers .output').textContent === 'job 1 end 0\\njob 2 end 0\\n'")
    browser.run("addFiles([new File(['$date today $end'], 'a b.VCD')]);")
    wait_until(browser, "document.getElementById('commands').value.startsWith('capture chip.page 1 a_b.VCD')")
    click_example(browser, "A program")
    browser.run("document.getElementById('link').click();")
    link = browser.run("return location.href;")
    browser.open("about:blank")
    browser.open(link)
    wait_until(browser, READY)
    want("the link holds the files", "document.getElementById('text').value.includes('cmd 60') && document.querySelector('#answers .output').textContent === 'accepted\\n'")
    want("each control has a name", "[...document.querySelectorAll('button, input, select, textarea')].every(it => it.textContent.trim() || it.getAttribute('aria-label') || it.closest('label'))")
    want("nothing was asked for", "performance.getEntriesByType('resource').filter(it => !it.name.startsWith('data:') && !it.name.startsWith('blob:')).length === 0")
    return found


def slow_answers(browser):
    """Whether 3,000 items are judged in 100 ms, each fault told and the readies taken from status: the least of five tries."""
    with open(CHIP, "rb") as it:
        files = [file_of("chip.page", it.read()), file_of("long.trace", ERASE.replace("0 R 0 0\n", "") * 333)]
    tries = []
    for _ in range(5):
        put(browser, files, ["check chip.page 1 long.trace --recorded --readies-from-status --all"])
        tries.append(float(browser.run("return document.getElementById('answers').dataset.milliseconds;")))
    print("browser: %s: 3,000 items in %.0f ms" % (browser.name, min(tries)))
    return ["3,000 items take %.0f ms" % min(tries)] if min(tries) > 100 else []


def wrong_on_a_phone(browser):
    """Whether the page is wider than a phone."""
    browser.size(400, 800)
    time.sleep(0.3)
    wide = browser.run("return document.documentElement.scrollWidth > document.documentElement.clientWidth;")
    browser.size(1100, 1500)
    return ["the page is wider than a phone"] if wide else []


def take_shots(browser, folder):
    """Pictures of the page, for docs."""
    os.makedirs(folder, exist_ok=True)
    browser.size(1000, 1250)
    for name, example in (("playground_trace", "A trace: too soon"), ("playground_program", "A refused program")):
        click_example(browser, example)
        browser.run("scrollTo(0, 0);")
        time.sleep(0.5)
        with open("%s/%s.png" % (folder, name), "wb") as it:
            it.write(browser.shot())


def try_browser(kind, page, typed, shots):
    """Tries one browser: what goes wrong."""
    room = tempfile.mkdtemp()
    browser = kind(room)
    try:
        browser.size(1100, 1500)
        browser.open("file://" + os.path.abspath(page))
        wait_until(browser, READY)
        wrong = differing_texts(browser, typed) + wrong_by_hand(browser) + slow_answers(browser) + wrong_on_a_phone(browser)
        if shots and kind is Chromium:
            take_shots(browser, shots)
        return wrong
    finally:
        browser.close()
        shutil.rmtree(room, ignore_errors=True)


def given_words():
    words = argparse.ArgumentParser(prog="browser")
    words.add_argument("page")
    words.add_argument("program", nargs="?", default="crates/onfiseq/out/onfiseq")
    words.add_argument("--texts", type=int, default=100)
    words.add_argument("--shots", default="")
    return words.parse_args()


def main():
    given, draw, is_right = given_words(), random.Random(55), True
    with tempfile.TemporaryDirectory() as room:
        drawn = [(draw.choice(CHECKS), draw_trace(draw)) for _ in range(given.texts)] + [(draw.choice(VERIFIES), draw_program(draw)) for _ in range(given.texts)]
        typed = [(words, text, program_says(os.path.abspath(given.program), words, text, room)) for words, text in drawn]
    for kind in (Chromium, Firefox):
        lacking = [it for it in kind.needs if shutil.which(it) is None]
        if lacking:
            print("browser: skipped: %s, as %s isn't installed" % (kind.name, lacking[0]))
            continue
        wrong = try_browser(kind, given.page, typed, given.shots)
        is_right &= not wrong
        print("browser: %s: %s" % (kind.name, "%d texts are judged as by the program, and all that was clicked works" % len(typed) if not wrong else "\n".join(wrong[:8])), flush=True)
    return 0 if is_right else 1


if __name__ == "__main__":
    sys.exit(main())
