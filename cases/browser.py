#!/usr/bin/env python3
"""Looks at pages of scid_page as people do, where the programs for that are there: by tidy, which has to find nothing to warn of, and in Chromium
without a window, at three widths, in light and in dark, and as they are printed. Nothing is cut off, texts have a contrast of 4.5 at least (3 where
they are large), links are underlined, all that scrolls is reached by the keyboard, a board that is turned stays so on the next page and does not
move the page, fields are copied from, and a game is played through.
"""
import base64
import json
import os
import shutil
import subprocess
import sys
import urllib.request

# The keys, as WebDriver names them.
END, HOME, LEFT, RIGHT = "\ue010", "\ue011", "\ue012", "\ue014"

# What is wrong with a page as it is shown: texts with too little contrast, links without a line under them, and what is cut off.
LOOK = """
const wrong = [];
const parse = (text) => { const n = text.match(/[\\d.]+/g).map(Number); return n.length < 4 ? [...n, 1] : n; };
const light = (c) => { const [r, g, b] = c.slice(0, 3).map((v) => { v /= 255; return v <= .03928 ? v / 12.92 : ((v + .055) / 1.055) ** 2.4; });
    return .2126 * r + .7152 * g + .0722 * b; };
const contrast = (a, b) => { const [x, y] = [light(a), light(b)].sort((p, q) => q - p); return (x + .05) / (y + .05); };
const ground = (element) => {
    for (let at = element; at; at = at.parentElement) {
        const colour = parse(getComputedStyle(at).backgroundColor);
        if (colour[3] === 1) return colour;
    }
    return [255, 255, 255, 1];
};
for (const element of document.querySelectorAll('body *')) {
    const own = [...element.childNodes].some((node) => node.nodeType === 3 && node.data.trim()) || element.matches('input');
    if (!own || element.matches('script') || !element.getClientRects().length) continue;
    const style = getComputedStyle(element);
    const colour = parse(element.closest('svg') ? style.fill : style.color);
    const size = parseFloat(style.fontSize);
    const least = size >= 24 || (size >= 18.66 && +style.fontWeight >= 700) ? 3 : 4.5;
    const found = contrast(colour, ground(element));
    if (found < least) wrong.push(`contrast ${found.toFixed(2)} of ${element.tagName} ${element.textContent.slice(0, 20)}`);
    if (element.matches('a') && !printed && !style.textDecorationLine.includes('underline')) wrong.push(`no line under ${element.textContent}`);
}
const page = document.documentElement;
if (page.scrollWidth > page.clientWidth) wrong.push(`the page is ${page.scrollWidth} wide`);
for (const box of document.querySelectorAll('.scroll, .pgn')) {
    if (box.scrollWidth > box.clientWidth) wrong.push(`a box of ${box.clientWidth} has ${box.scrollWidth}`);
    if (box.tabIndex !== 0) wrong.push('a box is not reached by the keyboard');
}
return wrong;
"""


def fail(words):
    sys.exit(f"cases/pages.py: {words}")


def look_by_tidy(folder):
    """Whether tidy was there, which finds nothing wrong with any page."""
    if not shutil.which("tidy"):
        return False
    pages = [os.path.join(folder, name) for name in sorted(os.listdir(folder)) if name.endswith(".html")]
    for place in range(0, len(pages), 500):
        done = subprocess.run(["tidy", "-q", "-e", *pages[place:place + 500]], stdout=subprocess.PIPE, stderr=subprocess.STDOUT)
        if done.returncode or done.stdout:
            fail(f"tidy says {done.stdout.decode(errors='replace')[:400]}")
    return True


class Browser:
    """Chromium without a window, which chromedriver steers (W3C WebDriver)."""

    def __init__(self):
        self.driver = subprocess.Popen(["chromedriver", "--port=0"], stdout=subprocess.PIPE, stderr=subprocess.DEVNULL, text=True)
        port = next(line.split("port ")[1].split(".")[0] for line in self.driver.stdout if "successfully on port" in line)
        self.root = f"http://127.0.0.1:{port}/session"
        words = ["--headless=new", "--no-sandbox", "--disable-gpu", "--disable-dev-shm-usage", "--hide-scrollbars"]
        options = {"binary": shutil.which("chromium"), "args": words}
        made = self.ask("", {"capabilities": {"alwaysMatch": {"browserName": "chrome", "goog:chromeOptions": options}}})
        self.root += "/" + made["sessionId"]

    def ask(self, path, told=None, method="POST"):
        data = None if told is None else json.dumps(told).encode()
        asked = urllib.request.Request(self.root + path, data, {"Content-Type": "application/json"}, method=method)
        with urllib.request.urlopen(asked, timeout=60) as answer:
            return json.load(answer)["value"]

    def get(self, address):
        self.ask("/url", {"url": address})

    def address(self):
        return self.ask("/url", method="GET")

    def run(self, script):
        return self.ask("/execute/sync", {"script": script, "args": []})

    def tell(self, command, **words):
        self.ask("/goog/cdp/execute", {"cmd": command, "params": words})

    def press(self, key):
        self.ask("/actions", {"actions": [{"type": "key", "id": "keys", "actions": [{"type": "keyDown", "value": key}, {"type": "keyUp", "value": key}]}]})

    def picture(self, name):
        with open(name, "wb") as file:
            file.write(base64.b64decode(self.ask("/screenshot", method="GET")))

    def quit(self):
        self.ask("", method="DELETE")
        self.driver.terminate()
        self.driver.wait()


def opened():
    """A browser, or nothing where there is none."""
    if not shutil.which("chromium") or not shutil.which("chromedriver"):
        return None
    return Browser()


def media(driver, kind, scheme):
    driver.tell("Emulation.setEmulatedMedia", media=kind, features=[{"name": "prefers-color-scheme", "value": scheme}])


def size(driver, width, height=900):
    driver.tell("Emulation.setDeviceMetricsOverride", width=width, height=height, deviceScaleFactor=1, mobile=False)


def look_at_page(driver, address):
    driver.get(address)
    for width in (360, 900, 1400):
        size(driver, width)
        for scheme in ("light", "dark"):
            media(driver, "screen", scheme)
            wrong = driver.run("const printed = false;" + LOOK)
            if wrong:
                fail(f"{address} at {width}, {scheme}: {wrong[:5]}")
    size(driver, 700)
    media(driver, "print", "dark")
    wrong = driver.run("const printed = true;" + LOOK)
    colours = driver.run("return [document.body, document.querySelector('a')].map((e) => [getComputedStyle(e).color, getComputedStyle(e).backgroundColor])")
    if wrong or colours[0] != ["rgb(0, 0, 0)", "rgb(255, 255, 255)"] or colours[1][0] != "rgb(0, 0, 0)":
        fail(f"{address} printed: {wrong[:5]} {colours}")
    media(driver, "screen", "light")


def below(driver):
    """The side that stands below on the board that is shown."""
    return driver.run("return [...document.querySelectorAll('.board svg')].find((svg) => svg.getClientRects().length).dataset.below")


def look_at_turning(driver, address):
    driver.get(address)
    size(driver, 360, 500)
    before = below(driver)
    driver.run("scrollTo(0, 60)")
    place = driver.run("return scrollY")
    driver.run("[...document.querySelectorAll('a.turn')].find((link) => link.getClientRects().length).click()")
    if below(driver) == before or driver.run("return scrollY") != place:
        fail("a board that is turned moves the page, or is not turned")
    driver.run("document.querySelector('.moves tbody a').click()")
    if below(driver) == before or not driver.address().endswith("#turned"):
        fail("the board is not turned on the next page")
    driver.get("about:blank")
    driver.tell("Emulation.setScriptExecutionDisabled", value=True)
    driver.get(address + "#turned")
    turned = below(driver)
    driver.tell("Emulation.setScriptExecutionDisabled", value=False)
    if turned == before:
        fail("the board is not turned without the script")


def look_at_playing(driver, address, last):
    """A game goes on by keys from where its page is begun, to its last position."""
    driver.get(address)
    label = "return document.querySelector('.board.facing svg').getAttribute('aria-label')"
    drawn = "return [...document.querySelectorAll('.board.facing use')].length"
    driver.press(END)
    men = driver.run(label)
    if men != last or driver.run(drawn) != sum(len(side.split()) - 1 for side in last.split(";")):
        fail(f"{address} ends with {men}, and not {last}")
    driver.press(HOME)
    first = driver.run(label)
    driver.press(RIGHT)
    second = driver.run(label)
    driver.press(LEFT)
    if driver.run(label) != first or first == second or driver.run(drawn) != 32:
        fail(f"{address} does not go on and back")
    if driver.run("return document.querySelectorAll('.controls button').length") != 4:
        fail(f"{address} has no buttons")


def pictures(driver, address, name):
    """Pictures of a page at three widths, in light and in dark."""
    driver.get(address)
    for width in (360, 900, 1400):
        for scheme in ("light", "dark"):
            size(driver, width, 1000)
            media(driver, "screen", scheme)
            driver.picture(f"{name}_{width}_{scheme}.png")
