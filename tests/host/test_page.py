"""Tests of the page that tools/picture makes, in a browser: headless Chromium, driven by its keys and clicks.

usage: test_page.py OSPREYSCREEN [--shots DIR]

OSPREYSCREEN makes the traces. Chromium and its driver are Debian's packages
chromium and chromium-driver; the driver is spoken to by HTTP, as W3C's WebDriver
has it. With --shots screenshots and printed pages are left in DIR.
"""

import argparse
import base64
import json
import pathlib
import re
import shutil
import subprocess
import sys
import tempfile
import unittest
import urllib.error
import urllib.request

import test_picture as pictures
from tool_modules import load_tool

NEEDED = "test-page needs chromium and chromium-driver: apt-get install chromium chromium-driver"
KEYS = {"tab": "\ue004", "enter": "\ue007", "page up": "\ue00e", "page down": "\ue00f", "end": "\ue010",
        "home": "\ue011", "left": "\ue012", "right": "\ue014", "down": "\ue015"}
ELEMENT = "element-6066-11e4-a52e-4f735466cecf"  # the key of an element in WebDriver's answers
NUMBERS = {0: "done", 8: "unheard", 10: "spent", 11: "short"}
REACHES = {0: "0 nothing", 1: "1 read", 3: "3 read and write"}
LEAST_CONTRAST = 4.5
SHOTS, BROWSER, FOLDER = None, None, None
DRAWING = load_tool("picture")
GUTTER, COLUMN = DRAWING.GUTTER, DRAWING.COLUMN

# What the page shows, as texts.
SHOWN = """
    const text = (one) => one.textContent, texts = (list) => Array.from(list, text);
    const cells = (row) => Array.from(row.cells, (cell) => texts(cell.children.length ? cell.children : [cell]));
    const part = document.getElementById(arguments[0]), all = (which) => part.querySelectorAll(which);
    const rows = part.querySelector(".wide").hidden ? [] : Array.from(all("tr"), cells);
    return {
        said: text(document.getElementById("said")), advice: text(document.getElementById("advice")),
        refused: document.getElementById("state").classList.contains("refused"),
        position: Number(document.getElementById("call").value), title: text(part.querySelector("h2")),
        facts: texts(all("dt")).map((word, at) => [word, text(all("dd")[at])]), rows: rows,
        marker: document.getElementById("marker").offsetLeft,
    };
"""

# The texts of the page whose contrast is the least: pairs of a contrast and the text. Text in the drawing may stand on
# white, or on the band of a round.
CONTRASTS = """
    const parsed = (colour) => (colour.match(/[0-9.]+/g) || [255, 255, 255]).map(Number);
    const light = (colour) => parsed(colour).slice(0, 3).map((one) => one / 255)
        .map((one) => one <= 0.04045 ? one / 12.92 : ((one + 0.055) / 1.055) ** 2.4)
        .reduce((sum, one, at) => sum + one * [0.2126, 0.7152, 0.0722][at], 0);
    const contrast = (one, two) => {
        const [low, high] = [light(one), light(two)].sort((a, b) => a - b);
        return (high + 0.05) / (low + 0.05);
    };
    const style = (one) => getComputedStyle(one), white = "rgb(255,255,255)";
    const bands = Array.from(document.querySelectorAll(".band"), (band) => {
        const part = Number(style(band).fillOpacity);
        return "rgb(" + parsed(style(band).fill).map((one) => 255 - part * (255 - one)).join(",") + ")";
    });
    const grounds = (one) => {
        if (one.closest(".bar")) return [style(one.closest(".bar").querySelector("rect")).fill];
        if (one.closest("svg")) return one.matches(".halo") ? [white] : [white, ...new Set(bands)];
        for (let up = one; up; up = up.parentElement) {
            const image = style(up).backgroundImage.match(/rgb\\([^)]*\\)/g);
            if (image) return image;
            if (parsed(style(up).backgroundColor)[3] !== 0) return [style(up).backgroundColor];
        }
        return [white];
    };
    const found = new Map();
    for (const one of document.querySelectorAll("body *:not(script):not(title):not(noscript)")) {
        const own = Array.from(one.childNodes).some((node) => node.nodeType === 3 && node.textContent.trim());
        if (!own) continue;
        const colour = one.closest("svg") ? style(one).fill : style(one).color;
        for (const ground of grounds(one)) {
            const told = one.textContent.slice(0, 40);
            found.set(colour + " on " + ground, [contrast(colour, ground), told, colour, ground]);
        }
    }
    return Array.from(found.values()).sort((a, b) => a[0] - b[0]);
"""


class Browser:
    """Chromium, by its driver's HTTP."""

    def __init__(self):
        self.driver = subprocess.Popen(["chromedriver", "--port=0"], stdout=subprocess.PIPE, stderr=subprocess.DEVNULL,
                                       text=True)
        begun = (re.search(r"successfully on port (\d+)", line) for line in self.driver.stdout)
        self.address = f"http://127.0.0.1:{next(found[1] for found in begun if found)}/session"
        options = {"binary": shutil.which("chromium"),
                   "args": ["--headless", "--no-sandbox", "--disable-gpu", "--window-size=1360,1000"]}
        session = self.ask("", {"capabilities": {"alwaysMatch": {
            "goog:chromeOptions": options, "goog:loggingPrefs": {"browser": "ALL", "performance": "ALL"}}}})
        self.address += f"/{session['sessionId']}"

    def ask(self, path, body=None, method="POST"):
        data = json.dumps(body or {}).encode() if method == "POST" else None
        request = urllib.request.Request(self.address + path, data, {"Content-Type": "application/json"}, method=method)
        try:
            with urllib.request.urlopen(request, timeout=300) as answer:
                return json.load(answer)["value"]
        except urllib.error.HTTPError as error:
            raise AssertionError(error.read().decode()) from None

    def open(self, path):
        self.ask("/url", {"url": pathlib.Path(path).as_uri()})

    def run(self, script, *arguments):
        return self.ask("/execute/sync", {"script": script, "args": list(arguments)})

    def command(self, name, **parameters):
        """A command of the Chrome DevTools Protocol."""
        return self.ask("/goog/cdp/execute", {"cmd": name, "params": parameters})

    def press(self, *keys):
        """Real key events, to whatever has the focus."""
        strokes = [{"type": kind, "value": KEYS.get(key, key)} for key in keys for kind in ("keyDown", "keyUp")]
        self.ask("/actions", {"actions": [{"type": "key", "id": "keyboard", "actions": strokes}]})

    def click(self, selector, number=0):
        found = self.ask("/elements", {"using": "css selector", "value": selector})
        self.ask(f"/element/{found[number][ELEMENT]}/click")

    def click_at(self, x, y):
        steps = [{"type": "pointerMove", "x": int(x), "y": int(y)}, {"type": "pointerDown", "button": 0},
                 {"type": "pointerUp", "button": 0}]
        self.ask("/actions", {"actions": [{"type": "pointer", "id": "mouse", "actions": steps}]})

    def resize(self, width, height):
        self.ask("/window/rect", {"width": width, "height": height})

    def log(self, kind):
        return self.ask("/se/log", {"type": kind})

    def requests(self):
        """The addresses asked for; the browser's own filters for shots_as_seen are data."""
        messages = [json.loads(entry["message"])["message"] for entry in self.log("performance")]
        urls = {one["params"]["request"]["url"] for one in messages if one["method"] == "Network.requestWillBeSent"}
        return {url for url in urls if not url.startswith("data:")}

    def shot(self, name, whole=False):
        """A screenshot, if they are wanted: of the window, or of the whole page."""
        if SHOTS:
            data = self.command("Page.captureScreenshot", format="png", captureBeyondViewport=whole)["data"]
            (SHOTS / f"{name}.png").write_bytes(base64.b64decode(data))

    def shots_as_seen(self, name):
        """Screenshots as colour-blind people see the page, and in grey."""
        for deficiency in ("deuteranopia", "protanopia", "tritanopia", "achromatopsia") if SHOTS else ():
            self.command("Emulation.setEmulatedVisionDeficiency", type=deficiency)
            self.shot(f"{name}-{deficiency}")
        self.command("Emulation.setEmulatedVisionDeficiency", type="none")

    def printed(self, name):
        data = base64.b64decode(self.command("Page.printToPDF", preferCSSPageSize=True)["data"])
        if SHOTS:
            (SHOTS / f"{name}.pdf").write_bytes(data)
        return data

    def close(self):
        try:
            self.ask("", method="DELETE")
        finally:
            self.driver.terminate()
            self.driver.wait()
            self.driver.stdout.close()


def setUpModule():
    global BROWSER, FOLDER
    folder = tempfile.TemporaryDirectory()
    unittest.addModuleCleanup(folder.cleanup)
    FOLDER = pathlib.Path(folder.name)
    BROWSER = Browser()
    unittest.addModuleCleanup(BROWSER.close)


def stations(numbers):
    return f"{', '.join(map(str, numbers))} ({sum(1 << one for one in numbers):04X})" if numbers else "none"


def sets(configuration):
    return " ".join(["read", *configuration["read"], "write", *configuration["write"]])


def counted(number, word):
    return f"{number} {word}" if number == 1 else f"{number} {word}s"


def expected_facts(table):
    """The facts that the page has to show of a table."""
    now = table["round"]
    facts = [["on the bus", stations(table["on"])], ["off the bus", stations(table["off"])]]
    if now is None:
        return facts + [["round", "no round is open"]]
    aims = {"read": "read item {item}", "write": "write {value} to item {item}", "change": "change of item {item}"}
    facts.append(["round", aims[now["kind"]].format(**now)])
    if now["kind"] == "change":
        facts.append(["target", sets(now["target"])])
    facts.append(["polled", stations(now["polled"])])
    if now["kind"] != "read":
        facts.append(["data puts", stations(now["data_puts"])])
    if now["kind"] == "change":
        facts.append(["configuration puts", stations(now["configuration_puts"])])
    found, place = now["found"], now["read_place"]
    facts.append(["found", "nothing yet" if found is None else
                  "version {version}, value {value}, from station {version_station}; generation {generation}, "
                  "from station {generation_station}: ".format(**found) + sets(found["configuration"])])
    facts.append(["heard", "not heard" if place is None else
                  f"by read place {place}, the set {found['configuration']['read'][place]}"])
    return facts + [["commit would get", f"{now['commit']} {NUMBERS[now['commit']]}"]]


def expected_row(table, number):
    item = table["items"][number]
    plan, copies = item["plan"], item["copies"]
    told = "out of hearing" if plan is None else f"heard after {counted(plan['polls'], 'poll')}, " + (
        f"write set held by {counted(plan['puts'], 'put')}" if plan["puts"] else "no write set on the bus")
    having = [", ".join(str(station) for station, copy in enumerate(copies) if copy["configuration"] == one)
              for one in range(len(item["configurations"]))]
    cells = [[f"item {number}"], [REACHES[item["reach"]]], [told],
             [f"at {at}: {sets(one)}" for at, one in zip(having, item["configurations"])]]
    for copy in copies:
        stale = " and ".join(word for word in ("data", "configuration") if copy[f"stale_{word}"])
        cells.append([copy["value"], f"v{copy['version']} g{copy['generation']}", *[f"stale {stale}"] * bool(stale)])
    return cells


def expected(told, position, title=None):
    """What the page has to show at a position, from the trace alone."""
    line = told[position - 1]
    table = line["table"]
    rows = []
    if table:
        links = [f"station {one}, {'on' if one in table['on'] else 'off'}" for one in range(table["n"])]
        rows = [[[word] for word in ("item", "reach", "plan of a new round", "configurations", *links)],
                *(expected_row(table, number) for number in range(table["m"]))]
    return {
        "said": f"Call {line['at']} of {told[-1]['at']}: {line['words']}: {line['reply']['text']}",
        "advice": f"What to do: {line['advice']}" if line["advice"] else "",
        "refused": line["reply"]["number"] != 0, "position": position,
        "title": title or f"The table after call {line['at']}",
        "facts": expected_facts(table) if table else [], "rows": rows,
        "marker": GUTTER + COLUMN * (position - 1),
    }


class PageCase(unittest.TestCase):
    """A page is opened; at the end it has made no error and no request."""

    maxDiff = None

    def open(self, name, words, lines=None):
        """Opens the page of a session. The objects of its trace are kept."""
        lines = lines or pictures.trace(words)
        self.told = pictures.objects(lines)
        self.path = FOLDER / f"{name}.html"
        result = pictures.run(told=lines)
        self.assertEqual((result.returncode, result.stderr), (0, b""))
        self.path.write_bytes(result.stdout)
        BROWSER.resize(1360, 1000)
        BROWSER.command("Emulation.setEmulatedMedia", media="")
        BROWSER.requests()
        BROWSER.log("browser")
        BROWSER.open(self.path)
        self.assert_at(len(self.told))
        BROWSER.run("document.getElementById('first').click()")

    def tearDown(self):
        self.assertEqual(BROWSER.log("browser"), [])
        self.assertEqual(BROWSER.requests(), {self.path.as_uri()})

    def shown(self, part="table"):
        return BROWSER.run(SHOWN, part)

    def assert_at(self, position):
        self.assertEqual(self.shown(), expected(self.told, position))

    def focus(self, selector):
        BROWSER.run("document.querySelector(arguments[0]).focus()", selector)

    def count(self, selector):
        return BROWSER.run("return document.querySelectorAll(arguments[0]).length", selector)

    def display(self, selector):
        return BROWSER.run("return getComputedStyle(document.querySelector(arguments[0])).display", selector)


class Small(PageCase):
    def setUp(self):
        self.open("small", pictures.SMALL)

    def test_parts(self):
        self.assertEqual(BROWSER.run("return document.title"),
                         "Ospreyscreen session: 27 calls, 3 stations, 1 item, 3 rounds, 1 refusal")
        for selector, count in (("#drawing .lane", 3), ("#drawing .round", 3), ("#drawing .poll", 6),
                                ("#drawing .put", 8), ("#drawing .refusal", 1), ("#refusals .jump", 1),
                                ("#rounds .jump", 3), ("#item", 0), ("#legend li", 15)):
            self.assertEqual(self.count(selector), count, selector)
        self.assert_at(1)
        BROWSER.shot("small", True)

    def test_every_call_by_keys(self):
        self.focus("#call")
        for position in range(1, len(self.told) + 1):
            self.assert_at(position)
            BROWSER.press("right")
        self.assert_at(len(self.told))
        for position in range(len(self.told) - 1, 0, -1):
            BROWSER.press("left")
            self.assert_at(position)
        for key, position in (("end", 27), ("home", 1), ("page up", 4), ("page down", 1)):
            BROWSER.press(key)
            self.assert_at(position)

    def test_buttons(self):
        for button, position in (("#next", 2), ("#next", 3), ("#back", 2), ("#next-refusal", 11), ("#next-refusal", 11),
                                 ("#last", 27), ("#next", 27), ("#previous-refusal", 11), ("#first", 1), ("#back", 1)):
            BROWSER.click(button)
            self.assert_at(position)

    def test_lists(self):
        BROWSER.click("#refusals .jump")
        self.assert_at(11)
        self.assertEqual(self.count("#refusals .jump[aria-current=true]"), 1)
        BROWSER.shot("small-refusal")
        BROWSER.shots_as_seen("small-refusal")
        BROWSER.click("#rounds .jump", 1)
        self.assert_at(18)
        self.assertEqual(self.count("[aria-current]"), 1)

    def test_click_on_the_drawing(self):
        left, top = BROWSER.run("const box = document.getElementById('sheet').getBoundingClientRect();"
                                "return [box.left, box.top]")
        for position in (11, 20, 1, 27):
            BROWSER.click_at(left + GUTTER + COLUMN * (position - 0.5), top + 60)
            self.assert_at(position)
        BROWSER.click_at(left + GUTTER / 2, top + 150)  # the names of the lanes
        self.assert_at(27)

    def test_keys_on_the_drawing(self):
        self.focus("#drawing")
        for key, position in (("right", 2), ("right", 3), ("left", 2), ("end", 27), ("home", 1)):
            BROWSER.press(key)
            self.assert_at(position)

    def test_tab_order(self):
        """All controls, in their order, each with a visible focus; enter on a refusal moves there."""
        names = []
        for _ in range(13):
            BROWSER.press("tab")
            name, *outline = BROWSER.run("const one = document.activeElement, style = getComputedStyle(one);"
                                         "return [one.id || one.className, style.outlineStyle, style.outlineWidth]")
            names.append(name)
            self.assertEqual(outline, ["solid", "3px"], name)
            if name == "jump" and names.count("jump") == 1:
                BROWSER.press("enter")
                self.assert_at(11)
        self.assertEqual(names, ["first", "back", "next", "last", "previous-refusal", "next-refusal", "call", "drawing",
                                 "wide", "jump", "jump", "jump", "jump"])

    def test_names_for_those_who_do_not_see(self):
        """The accessibility tree: the slider with its value, the buttons, the live region, the strips' names."""
        BROWSER.click("#next-refusal")
        nodes = [node for node in BROWSER.command("Accessibility.getFullAXTree")["nodes"] if not node["ignored"]]
        named = {(node["role"]["value"], node.get("name", {}).get("value", "")) for node in nodes}
        self.assertLessEqual({("slider", "call"), ("button", "first"), ("button", "next refusal"),
                              ("image", "calls 1 to 27"), ("heading", "Refusals")}, named)
        self.assertEqual(BROWSER.run("const state = document.getElementById('state');"
                                     "return [state.getAttribute('role'), state.getAttribute('aria-live')]"),
                         ["status", "polite"])
        self.assertEqual(BROWSER.run("return document.getElementById('call').getAttribute('aria-valuetext')"),
                         "call 11 of 27")

    def test_narrow(self):
        BROWSER.resize(400, 800)
        self.assertEqual(BROWSER.run("return innerWidth"), 400)
        self.assertLessEqual(BROWSER.run("return document.documentElement.scrollWidth"), 400)
        sides = BROWSER.run("return Array.from(document.querySelectorAll('button, input, select'),"
                            "(one) => one.getBoundingClientRect()).map((box) => [box.left, box.right])")
        self.assertGreaterEqual(min(left for left, _ in sides), 0)
        self.assertLessEqual(max(right for _, right in sides), 400)
        # The drawing scrolls, the names of the lanes stay, and the marker is in view.
        BROWSER.click("#last")
        scroll, gutter, marker = BROWSER.run(
            "const one = (id) => document.querySelector(id), left = (id) => one(id).getBoundingClientRect().left;"
            "return [one('#drawing').scrollLeft, left('.gutter') - left('#drawing'), left('#marker')]")
        self.assertGreater(scroll, 300)
        self.assertLess(abs(gutter), 2)
        self.assertTrue(GUTTER < marker < 400 - COLUMN, marker)
        self.assert_at(27)
        BROWSER.shot("small-narrow", True)

    def test_print(self):
        BROWSER.click("#next-refusal")
        BROWSER.command("Emulation.setEmulatedMedia", media="print")
        for selector in (".controls", "#table", "#rounds", "#marker", ".gutter"):
            self.assertEqual(self.display(selector), "none", selector)
        for selector in ("#end", "#refusals", "#legend", ".strip"):
            self.assertEqual(self.display(selector), "block", selector)
        self.assertNotEqual(self.display(".strip .names"), "none")
        shadow = "return getComputedStyle(document.querySelector('.jump[aria-current]')).boxShadow"
        self.assertEqual(BROWSER.run(shadow), "none")
        shown = self.shown("end")
        end = expected(self.told, 27, "The table at the end")
        for key in ("title", "facts", "rows"):
            self.assertEqual(shown[key], end[key])
        self.assertGreater(len(re.findall(rb"/Type\s*/Page\b", BROWSER.printed("small"))), 0)

    def test_contrast(self):
        BROWSER.click("#next-refusal")
        for media in ("", "print"):
            BROWSER.command("Emulation.setEmulatedMedia", media=media)
            worst = BROWSER.run(CONTRASTS)
            self.assertGreater(len(worst), 8)
            self.assertGreaterEqual(worst[0][0], LEAST_CONTRAST, worst[0])


class Odd(PageCase):
    """Several lays, several items, lines that are no frames."""

    def setUp(self):
        self.open("odd", pictures.ODD)

    def bars(self):
        """The versions that the lanes show, strip by strip."""
        return BROWSER.run("return Array.from(document.querySelectorAll('use.copies'), (use) => Array.from("
                           "document.querySelector(use.getAttribute('href')).querySelectorAll('.data title'),"
                           "(title) => title.textContent))")

    def test_every_call(self):
        self.focus("#call")
        for position in range(1, len(self.told) + 1):
            self.assert_at(position)
            BROWSER.press("right")

    def test_items(self):
        self.assertEqual(BROWSER.run("return document.getElementById('item').value"), "1")
        first = self.bars()
        self.assertIn(["v0 \u00b7 500", f"v1 \u00b7 {pictures.LAST}", "v0 \u00b7 700"], first)
        self.assertEqual(self.count("#drawing .round:not(.other)"), 1)
        BROWSER.shot("odd", True)
        self.focus("#item")
        BROWSER.press("down")
        self.assertEqual(BROWSER.run("return document.getElementById('item').value"), "2")
        self.assertEqual({title for bar in self.bars() for title in bar}, {"v0 \u00b7 700"})
        self.assertEqual(BROWSER.run("return document.querySelector('#drawing .round:not(.other)').dataset.item"), "2")
        self.assertEqual(self.count("#drawing .round.other"), 4)
        self.focus("#item")
        BROWSER.press("home")
        self.assertEqual(BROWSER.run("return document.getElementById('item').value"), "0")
        self.assertEqual(self.count("#drawing .round:not(.other)"), 3)
        BROWSER.press("down")
        self.assertEqual(self.bars(), first)

    def test_chosen_row(self):
        BROWSER.click("#next")
        chosen = "return Array.from(document.querySelectorAll('#table tr.chosen th'), (one) => one.textContent)"
        self.assertEqual(BROWSER.run(chosen), ["item 1"])
        BROWSER.click("#last")
        self.assertEqual(BROWSER.run(chosen), [])

    def test_contrast(self):
        worst = BROWSER.run(CONTRASTS)
        self.assertGreaterEqual(worst[0][0], LEAST_CONTRAST, worst[0])


class Hostile(PageCase):
    def test_texts_stay_texts(self):
        told = pictures.objects(pictures.trace(pictures.SMALL))
        for line in told:
            text = pictures.HOSTILE[line["at"] % len(pictures.HOSTILE)]
            line["words"] = line["advice"] = line["reply"]["text"] = text
        self.open("hostile", [], pictures.as_trace(told))
        self.assertEqual(self.count("img, iframe, [onclick], [onerror]"), 0)
        self.assertEqual(self.count("script"), 2)
        self.focus("#call")
        for line in told:
            shown = self.shown()
            self.assertEqual(shown["said"], f"Call {line['at']} of 27: {line['words']}: {line['words']}")
            self.assertEqual(shown["advice"], f"What to do: {line['words']}")
            BROWSER.press("right")


class Big(PageCase):
    """2000 calls on 16 stations and 32 items: the page reacts at once."""

    def test_big_session(self):
        self.open("big", pictures.house(2000))
        self.assertEqual(self.count("#drawing .lane"), 16 * self.count("#drawing .strip"))
        self.assertEqual(self.count("#drawing .round"), self.count("#rounds .jump"))
        BROWSER.run("""
            const slider = document.getElementById("call"), item = document.getElementById("item");
            const set = (one, value, kind) => {
                one.value = value;
                one.dispatchEvent(new Event(kind));
            };
            for (let at = 1; at <= 40; at++) set(slider, 50 * at, "input");
            set(item, "7", "change");
        """)
        self.assert_at(2000)
        BROWSER.click("#previous-refusal")
        self.assert_at(max(line["at"] for line in self.told[:-1] if line["reply"]["number"]))
        BROWSER.shot("big")
        self.assertTrue(BROWSER.run("return document.documentElement.scrollWidth <= innerWidth"))


def main():
    global SHOTS
    parser = argparse.ArgumentParser(description=__doc__, formatter_class=argparse.RawDescriptionHelpFormatter)
    parser.add_argument("ospreyscreen", type=pathlib.Path)
    parser.add_argument("--shots", type=pathlib.Path)
    given = parser.parse_args()
    if not shutil.which("chromium") or not shutil.which("chromedriver"):
        sys.exit(NEEDED)
    pictures.OSPREYSCREEN = str(given.ospreyscreen.resolve())
    SHOTS = given.shots
    if SHOTS:
        SHOTS.mkdir(parents=True, exist_ok=True)
    unittest.main(argv=sys.argv[:1])


if __name__ == "__main__":
    sys.dont_write_bytecode = True
    main()
