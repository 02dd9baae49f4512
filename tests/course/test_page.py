"""The page in headless Chromium: every control, case A turn by turn, motion, the map, the list of turns, what will happen next, turns
that are picked, cards, links, faults, large cases, the keyboard, paper, the server's bounds, and what is seen at four sizes, measured and
as pictures."""

import base64
import json
import os
import re
import signal
import socket
import subprocess
import sys
import tempfile
import time
import unittest
import urllib.error
import urllib.request
from pathlib import Path

from selenium import webdriver
from selenium.common.exceptions import StaleElementReferenceException
from selenium.webdriver import ActionChains
from selenium.webdriver.chrome.options import Options
from selenium.webdriver.chrome.service import Service
from selenium.webdriver.common.by import By
from selenium.webdriver.common.keys import Keys
from selenium.webdriver.support.ui import Select, WebDriverWait

import course_boxes
import course_map
import course_run as play
import course_serve
import course_sheet
import course_svg
import pictures
from course_words import words
from test_course import CASE_A, ENGLISH, FOUR_BOXES, RING, large_case, played, tangle

TOP = play.TOP
SIZES = ((1024, 768), (1366, 768), (1920, 1080), (390, 844))
PHONE_PICTURE = 1900  # so far down the page is pictured where it is narrow: the boxes and the map stand below each other
# Pictures do not depend on the machine: no hints for one grid of pixels, no colours of one kind of screen.
SAME_EVERYWHERE = ("--force-device-scale-factor=1", "--disable-lcd-text", "--font-render-hinting=none", "--force-color-profile=srgb")
# What is seen of the page: all letters with their sizes and places, the boxes, objects and what stands on arrows.
LOOK = """
const seen = (one) => { const at = one.getBoundingClientRect(); return [at.left, at.top + scrollY, at.right, at.bottom + scrollY]; };
const letters = [], walk = document.createTreeWalker(document.body, NodeFilter.SHOW_TEXT);
while (walk.nextNode()) {
  const one = walk.currentNode.parentElement;
  if (!walk.currentNode.textContent.trim() || one.closest('script, option, #map, [hidden], #definitions') || !one.checkVisibility()) continue;
  const drawn = one.closest('svg'), scale = drawn ? drawn.getBoundingClientRect().width / drawn.viewBox.baseVal.width : 1;
  letters.push([parseFloat(getComputedStyle(one).fontSize) * scale, walk.currentNode.textContent.trim(), ...seen(one)]);
}
return { letters, boxes: [...document.querySelectorAll('#boxes .box > rect:first-child')].map(seen), wide: document.documentElement.scrollWidth,
         loads: [...document.querySelectorAll('#boxes .load')].map(seen), drawing: seen(document.getElementById('drawing')),
         map: seen(document.getElementById('map')), scale: Course.map.scale(), editor: document.getElementById('text').checkVisibility() };
"""
# Until so many turns are drawn; whether they were in time.
# How long a page may take to look as it is stored, in seconds.
SETTLED = 15

TURN = """
const drawing = document.getElementById('drawing'), wanted = String(arguments[0]);
return new Promise((done) => {
  const look = () => { if (drawing.dataset.turn !== wanted) return; watch.disconnect(); done(true); };
  const watch = new MutationObserver(look);
  watch.observe(drawing, { attributes: true });
  setTimeout(() => { watch.disconnect(); done(false); }, 20000);
  look();
});
"""


def start_server():
    server = subprocess.Popen([sys.executable, str(TOP / "tools" / "course.py"), "serve", "--port", "0", "--no-browser"], stdout=subprocess.PIPE,
                              stderr=subprocess.PIPE, text=True)
    return server, server.stdout.readline().strip()


def stop_server(server):
    """What the server wrote meanwhile; a traceback is a fault of its own."""
    server.kill()
    _, wrote = server.communicate()
    return wrote


class Page(unittest.TestCase):
    @classmethod
    def setUpClass(cls):
        cls.server, cls.where = start_server()
        # A request that is never finished; what becomes of it is looked at when its time is over.
        host, port = cls.where.split("/")[2].split(":")
        cls.slow = socket.create_connection((host, int(port)))
        cls.slow.sendall(f"POST /run HTTP/1.1\r\nHost: {host}:{port}\r\nContent-Type: application/json\r\nContent-Length: 1000\r\n\r\n{{".encode())
        cls.profile = tempfile.TemporaryDirectory(ignore_cleanup_errors=True)
        options = Options()
        for word in ("--headless=new", "--no-sandbox", "--disable-gpu", "--disable-dev-shm-usage", "--hide-scrollbars", "--window-size=1400,1000",
                     "--lang=en", f"--user-data-dir={cls.profile.name}", *SAME_EVERYWHERE):
            options.add_argument(word)
        options.set_capability("goog:loggingPrefs", {"browser": "ALL"})
        options.binary_location = "/usr/bin/chromium"
        cls.browser = webdriver.Chrome(service=Service("/usr/bin/chromedriver"), options=options)

    @classmethod
    def tearDownClass(cls):
        cls.browser.quit()
        cls.slow.close()
        wrote = stop_server(cls.server)
        cls.profile.cleanup()
        assert "Traceback" not in wrote, wrote

    def setUp(self):
        self.allowed = None
        self.size(1400, 1000)
        self.move_less(True)  # things that move take time, and have their own test
        self.browser.get("about:blank")
        self.browser.get(self.where)
        self.turn(0)
        self.whole()

    def tearDown(self):
        """No error in the console, but what a test is about. What the page keeps over a reload does not reach the next test."""
        self.js("Storage.prototype.setItem = () => {}; sessionStorage.clear()")
        told = [one["message"] for one in self.browser.get_log("browser") if one["level"] in ("SEVERE", "WARNING")]
        self.assertEqual([one for one in told if not (self.allowed and re.search(self.allowed, one))], [])

    def size(self, wide, high):
        self.browser.execute_cdp_cmd("Emulation.setDeviceMetricsOverride", {"width": wide, "height": high, "deviceScaleFactor": 1, "mobile": False})

    def at(self, name):
        return self.browser.find_element(By.ID, name)

    def js(self, script, *values):
        return self.browser.execute_script(script, *values)

    def wait(self, holds, seconds=20):
        WebDriverWait(self.browser, seconds, 0.05, (StaleElementReferenceException,)).until(lambda _: holds())

    def shown(self):
        number = self.js("return document.getElementById('drawing').dataset.turn ?? null")
        return None if number is None else int(number)

    def turn(self, number):
        """Waits until so many turns are drawn."""
        if not self.js(TURN, number):
            self.fail(f"turn {number} is not drawn, but {self.shown()}")

    def whole(self):
        """Waits until all turns of the case are known: before that, a later one cannot be shown."""
        self.wait(lambda: self.js("return Boolean(Course.run && Course.run.done)"))

    def write(self, text, turn=0):
        """Puts a case into the editor and runs it."""
        self.js("document.getElementById('writing').open = true; document.getElementById('text').value = arguments[0];"
                "delete document.getElementById('drawing').dataset.turn; Course.runCase({ turn: arguments[1] });", text, turn)

    def speak(self, language):
        """Changes the language, and waits for the case to be run again for it."""
        run = self.js("return Course.run.run")
        if self.js("return Course.language") != language:
            Select(self.at("language")).select_by_value(language)
            self.wait(lambda: self.js("return Course.run.run") != run)
            self.js("return Course.show(Course.turn, false)")

    def open(self, name):
        self.js("document.getElementById(arguments[0]).open = true", name)

    def press(self, key):
        self.browser.find_element(By.TAG_NAME, "body").send_keys(key)

    def said(self, name):
        """What a drawing says, one word a text element."""
        return self.js("return [...document.querySelectorAll(arguments[0] + ' svg text')].map(one => one.textContent)", f"#{name}")

    # ---- turns

    def test_case_a_turn_by_turn(self):
        run, before = played(CASE_A), None
        for number in range(len(run) + 1):
            self.turn(number)
            self.assertEqual(self.at("sentence").text, run.sentence(number))
            # Of the drawing only what changed is replaced, and it is the same as if all of it were.
            drawing = course_boxes.boxes_svg(run, ENGLISH, number, self.js("return Course.across"))
            parts = re.split(r'(?=<g class="(?:box|arrows|loads)")', drawing)[1:]
            if before:
                self.assertEqual(self.js("return Course.replaced"), sum(one != other for one, other in zip(before, parts)), number)
            whole = self.js("const other = document.createElement('div'); other.innerHTML = arguments[0];"
                            "return other.innerHTML === document.getElementById('boxes').innerHTML", drawing)
            self.assertTrue(whole, number)
            before = parts
            state, shown = run.state(number), self.said("boxes")
            self.assertEqual(shown.count("at work"), state.counts["carrying"])
            for box in state.boxes:
                self.assertIn(f"since {box.since} · batch {box.batch} · carries {box.carried}", shown)
            self.assertEqual(self.at("told-followed").text, f"{state.counts['followed']} of {run.reached}")
            self.assertEqual(self.at("told-moved").text, f"{state.counts['moved']} of {7 * run.reached + run.workers}")
            self.at("forward").click()
        self.assertEqual(self.said("map").count("dead"), 2)
        self.assertEqual(self.at("end").text, "2 dead, 1100 bytes freed.")

    def test_controls(self):
        self.at("last").click()
        last = int(self.at("slider").get_attribute("max"))
        self.turn(last)
        self.at("back").click()
        self.turn(last - 1)
        self.at("first").click()
        self.turn(0)
        kinds = played(CASE_A).kinds
        self.at("next-handed").click()
        self.turn(kinds.index("handed") + 1)
        self.at("next-lost").click()
        self.turn(kinds.index("lost") + 1)
        self.js("arguments[0].value = 7; arguments[0].dispatchEvent(new Event('input'))", self.at("slider"))
        self.turn(7)
        Select(self.at("speed")).select_by_value("150")
        self.at("play").click()
        self.assertEqual(self.at("play").get_attribute("aria-pressed"), "true")
        self.turn(9)
        self.at("play").click()
        self.assertEqual(self.at("play").get_attribute("aria-pressed"), "false")

    def test_keyboard(self):
        kinds = played(CASE_A).kinds
        for key, number in ((Keys.ARROW_RIGHT, 1), (Keys.ARROW_RIGHT, 2), (Keys.ARROW_LEFT, 1), ("h", kinds.index("handed") + 1),
                            ("l", kinds.index("lost") + 1), (Keys.END, len(kinds)), (Keys.HOME, 0)):
            self.press(key)
            self.turn(number)
        self.press(" ")
        self.turn(1)
        self.press(" ")
        self.at("turns").send_keys(Keys.ARROW_DOWN)
        self.wait(lambda: self.shown() in (2, 3))
        before = self.js("return Course.map.scale()")
        self.press("+")
        self.assertGreater(self.js("return Course.map.scale()"), before)
        self.press("0")
        self.assertEqual(self.js("return Course.map.scale()"), before)
        self.press("q")
        self.assertTrue(self.at("quiz").is_selected())
        # In the editor the keys write.
        self.open("writing")
        self.at("text").send_keys(Keys.CONTROL, Keys.HOME)
        self.at("text").send_keys("h")
        self.assertTrue(self.at("text").get_attribute("value").startswith("h"))

    def test_all_is_reached_by_tab(self):
        """Every control that is seen has a place in the order of the tab key."""
        self.open("writing")
        wanted = set(self.js("return [...document.querySelectorAll('button, input, select, textarea, summary, [tabindex=\"0\"]')]"
                             ".filter(one => one.checkVisibility() && !one.disabled).map(one => one.id || one.dataset.word || one.textContent)"))
        self.js("document.activeElement.blur(); window.scrollTo(0, 0); window.met = []; document.addEventListener('focusin',"
                "({ target }) => window.met.push(target.id || target.dataset.word || target.textContent))")
        ActionChains(self.browser).send_keys(Keys.TAB * (2 * len(wanted))).perform()
        self.assertEqual(wanted - set(self.js("return window.met")), set())

    # ---- the path

    def test_hand_over_is_an_arrow(self):
        self.side_by_side()
        self.js("Course.show(5, false)")
        self.turn(5)
        arrow = self.js("""
            const at = (one) => one.getBoundingClientRect(), line = document.querySelector('#boxes .arrow.hand.fresh path');
            const [from, to] = [...document.querySelectorAll('#boxes .box > rect:first-child')].map(at);
            const seen = at(line), load = at(document.querySelector('#boxes .load')), said = line.parentElement.getAttribute('aria-label');
            return [seen.left - from.right, to.left - seen.right, load.left > from.right, load.right < to.left, said];""")
        self.assertLess(abs(arrow[0]), 6)
        self.assertLess(abs(arrow[1]), 12)
        self.assertEqual(arrow[2:], [True, True, "Box 0 hands 1 reference to box 1."])
        looks = self.map_looks()
        self.assertEqual((looks[1][0], looks[2][0]), (course_svg.INKS[0], course_svg.INKS[1]))
        self.assertGreater(looks[1][1], looks[0][1])
        self.assertEqual(sorted(self.js("return [...document.querySelectorAll('#map .badge')].map(one => one.textContent)")), ["0", "1"])
        self.js("Course.show(4, false)")
        self.turn(4)
        looks = self.map_looks()
        self.assertEqual(max(looks, key=lambda e: looks[e][1]), 0)

    def map_looks(self):
        """The ink and the thickness of each reference on the map."""
        looks = self.js("return [...document.querySelectorAll('#map path[data-e]')]"
                        ".map(one => [one.dataset.e, one.getAttribute('stroke'), one.getAttribute('stroke-width')])")
        return {int(e): (ink, float(thick)) for e, ink, thick in looks}

    def side_by_side(self):
        self.size(1366, 700)
        self.wait(lambda: self.js("return Course.across") == 2)

    def test_things_move(self):
        self.move_less(False)
        self.side_by_side()
        Select(self.at("speed")).select_by_value("1200")
        self.js("Course.show(4, false)")
        self.turn(4)
        self.at("forward").click()
        self.turn(5)
        places = self.js("return new Promise(done => { const seen = []; const look = () => { const bead = document.querySelector('#boxes .bead');"
                         "if (!bead) return done(seen); seen.push(bead.getBoundingClientRect().left); requestAnimationFrame(look); }; look(); })")
        self.assertGreater(len(set(places)), 5)
        self.assertEqual(places, sorted(places))
        self.assertGreater(places[-1] - places[0], 40)
        self.assertEqual(self.js("return document.querySelector('#boxes .load').style.visibility"), "")

    def test_less_motion(self):
        for less in (True, False):
            self.move_less(less)
            self.js("return Course.show(4, false)")
            self.at("forward").click()
            self.turn(5)
            self.assertEqual(self.js("return document.querySelectorAll('.bead').length") == 0, less)

    def move_less(self, less):
        """As somebody has the browser who asks for less motion, or does not."""
        wish = {"name": "prefers-reduced-motion", "value": "reduce" if less else "no-preference"}
        self.browser.execute_cdp_cmd("Emulation.setEmulatedMedia", {"features": [wish]})

    # ---- the map

    def test_large_map(self):
        self.write(tangle(100, 300))
        self.turn(0)
        self.wait(lambda: len(self.said("map")) > 200)
        self.assertGreaterEqual(self.js("return Course.map.scale()"), 1, "letters have their size")
        whole = self.js("Course.map.whole(); return Course.map.scale()")
        self.assertLess(whole, 1)
        self.js("Course.map.fit()")
        for number in (60, 61, 62):
            self.js("Course.show(arguments[0], false)", number)
            self.turn(number)
            now = self.js("const map = document.getElementById('map').getBoundingClientRect(), path = [...document.querySelectorAll('#map path[data-e]')]"
                          ".find(one => Number(one.getAttribute('stroke-width')) === 8); if (!path) return true; const at = path.getBoundingClientRect();"
                          "return at.right > map.left && at.left < map.right && at.bottom > map.top && at.top < map.bottom")
            self.assertTrue(now, "what happens is in sight")
        view = self.js("return document.querySelector('#map svg').getAttribute('viewBox')")
        self.at("map").send_keys(Keys.ARROW_DOWN)
        self.assertNotEqual(self.js("return document.querySelector('#map svg').getAttribute('viewBox')"), view)
        self.assertNotEqual(self.shown(), 63)

    def test_map_of_four_hundred(self):
        """400 objects: drawn at all, moved and enlarged, and only what is carried or was followed is strong."""
        text = tangle(400, 800)
        run, began = played(text), time.monotonic()
        self.write(text, 200)
        self.turn(200)
        self.wait(lambda: len(self.said("map")) >= 800)
        self.assertLess(time.monotonic() - began, 12)
        looks = self.map_looks()
        self.assertEqual(len(looks), 800)
        strong = {e for e, look in looks.items() if look != course_map.looks(run)["other"][:2]}
        self.assertEqual(strong, set(dict(course_serve.step(run, 200, 2, "en")["edges"])))
        self.assertTrue(0 < len(strong) < 800)
        places = lambda which: self.js("return [...document.querySelectorAll(arguments[0])].map((one) => one.getBoundingClientRect())"
                                       ".map((at) => [at.left, at.top, at.right, at.bottom])", which)
        (left, top, right, bottom), = places("#map")
        seen = lambda: sum(a >= left - 1 and b >= top - 1 and c <= right + 1 and d <= bottom + 1 for a, b, c, d in places("#map g[data-v]"))
        # At first letters have their size, and what happens is in sight; the whole map comes at a click.
        self.assertGreaterEqual(self.js("return Course.map.scale()"), 1)
        self.assertLess(seen(), 400)
        # The overview has all objects, and a frame round those in sight; a click moves there.
        overview = self.browser.find_element(By.CSS_SELECTOR, "#map .overview")
        self.assertTrue(overview.is_displayed())
        self.assertEqual(len(overview.find_elements(By.CSS_SELECTOR, "rect:not(.frame)")), 400)
        frame = lambda: self.js("return ['x', 'y', 'width', 'height'].map(side => document.querySelector('#map .frame').getAttribute(side)).join(' ')")
        window = lambda: self.js("return document.querySelector('#map svg').getAttribute('viewBox')")
        self.assertEqual(frame(), window())
        (a, b, c, d), = places("#map .overview")
        windows = []
        for x, y in ((a + 5, b + 5), (c - 5, d - 5)):
            self.js("document.querySelector('#map .overview').dispatchEvent(new PointerEvent('pointerdown',"
                    "{ clientX: arguments[0], clientY: arguments[1] }))", x, y)
            self.assertEqual(frame(), window())
            windows.append(window())
        self.assertNotEqual(*windows)
        self.at("map-whole").click()
        self.assertEqual(seen(), 400)
        self.assertFalse(overview.is_displayed())
        # Enlarged until letters can be read, by the wheel, about the pointer.
        for _ in range(20):
            self.js("document.getElementById('map').dispatchEvent(new WheelEvent('wheel', { deltaY: -1, clientX: arguments[0], clientY: arguments[1],"
                    "cancelable: true }))", (left + right) / 2, (top + bottom) / 2)
        letters = self.js("return document.querySelector('#map g[data-v] text').getBoundingClientRect().height")
        self.assertGreaterEqual(letters, 14)
        # Moved by the pointer.
        view = window()
        self.js("const map = document.getElementById('map'); map.setPointerCapture = () => {};"
                "for (const [name, x] of [['pointerdown', 300], ['pointermove', 250], ['pointerup', 250]])"
                "map.dispatchEvent(new PointerEvent(name, { pointerId: 1, clientX: x, clientY: 300 }))")
        self.assertNotEqual(window(), view)

    def test_too_large_for_a_map(self):
        self.js("window.signs = []; new MutationObserver(() => window.signs.push(document.getElementById('progress').textContent))"
                ".observe(document.getElementById('progress'), { childList: true })")
        taken = []
        for _ in range(3):  # the quickest, since others work on the machine too
            began = time.monotonic()
            self.write(large_case())
            self.turn(0)
            taken.append(time.monotonic() - began)
            if taken[-1] < 2:
                break
        self.assertLess(min(taken), 2)
        self.wait(lambda: any(self.js("return window.signs")))  # of work that takes longer
        self.assertIn("1000 objects, too many to draw", self.at("map").text)
        self.wait(lambda: int(self.at("slider").get_attribute("max")) >= 13_000)
        self.wait(lambda: self.at("progress").text == "")
        # From the click until all of it is laid out: steps forward, steps back, and jumps. Each is the quickest of three such steps.
        times = self.js("""return (async () => {
            const took = async (turn) => {
                await new Promise((done) => requestIdleCallback(done, { timeout: 200 }));
                const begun = performance.now();
                await Course.show(turn, false);
                document.body.getBoundingClientRect();
                return performance.now() - begun;
            };
            const times = {};
            for (const pass of [0, 1, 2])
                for (const [name, first, by, count] of [["forward", 5000, 1, 20], ["back", 9000, -1, 20], ["jump", 137, 1229, 10]]) {
                    await Course.show(first + 300 * pass, false);
                    for (let k = 1; k <= count; k++) (times[`${name} ${k}`] ??= []).push(await took(first + 300 * pass + k * by));
                }
            return times; })()""")
        quickest = {name: min(three) for name, three in times.items()}
        self.assertLess(max(quickest.values()), 50, times)
        if os.environ.get("TIMES"):
            every = sorted(time for three in times.values() for time in three)
            print(f"steps: median {every[len(every) // 2]:.0f} ms, 95 of 100 within {every[len(every) * 95 // 100]:.0f}, worst {every[-1]:.0f}")
        self.js("document.getElementById('turns').scrollTop = 28 * 9000")
        self.wait(lambda: "Turn 9001:" in self.at("turns").text)
        self.assertLess(self.js("return document.querySelectorAll('#rows div').length"), 120)

    # ---- teaching

    def test_list_of_turns(self):
        run = played(CASE_A)
        self.wait(lambda: len(self.browser.find_elements(By.CSS_SELECTOR, "#rows div")) == 21)
        rows = self.browser.find_elements(By.CSS_SELECTOR, "#rows div")
        self.assertEqual([row.get_attribute("textContent") for row in rows], [run.sentence(number) for number in range(21)])
        rows[5].click()
        self.turn(5)
        self.assertEqual(self.js("return document.querySelector('#rows [aria-selected=true]').textContent"), run.sentence(5))

    def test_what_will_happen_next(self):
        run = played(CASE_A)
        self.at("quiz").click()
        self.at("forward").click()
        self.wait(lambda: self.browser.find_elements(By.CSS_SELECTOR, "#guesses button"))
        self.assertEqual(self.shown(), 0)
        self.assertEqual(self.js("return document.getElementById('turn-1').textContent"), "Turn 1: ?", "the list does not tell it before")
        self.assertIn("turn 1, of box 0", self.at("question").text)
        guesses = {one.text: one for one in self.browser.find_elements(By.CSS_SELECTOR, "#guesses button")}
        self.assertEqual(len(guesses), len(play.KINDS) + 1)
        guesses["begins a batch"].click()
        self.turn(1)
        self.wait(lambda: self.at("question").text == f"Yes: {run.sentence(1)}")
        self.assertEqual(self.js("return [1, 2].map(number => document.getElementById(`turn-${number}`).textContent)"), [run.sentence(1), "Turn 2: ?"])
        self.at("forward").click()
        self.wait(lambda: self.browser.find_elements(By.CSS_SELECTOR, "#guesses button"))
        next(one for one in self.browser.find_elements(By.CSS_SELECTOR, "#guesses button") if one.text == "ends").click()
        self.turn(2)
        self.wait(lambda: self.at("question").text == f"No. {run.sentence(2)}")

    def test_picked_turns(self):
        self.write(CASE_A.replace(CASE_A.splitlines()[-1], "turns 0: 0"), 1)
        self.turn(1)
        self.at("pick").click()
        boxes = self.browser.find_elements(By.CSS_SELECTOR, "#boxes [data-box]")
        boxes[1].click()
        self.wait(lambda: "box 1's turn" in self.at("picked").text)
        self.browser.find_elements(By.CSS_SELECTOR, "#boxes [data-box]")[0].click()
        self.turn(2)
        self.assertTrue(self.at("text").get_attribute("value").endswith("turns 0: 0\nturn 1 0\n"))
        self.assertEqual(self.at("sentence").text, "Turn 2: Box 1 asks box 0.")
        # By buttons too; behind an earlier turn, the later ones go.
        self.js("Course.show(1, false)")
        self.turn(1)
        self.assertIn("1 behind it go", self.at("picked").text)
        for place in (0, 0):
            self.browser.find_elements(By.CSS_SELECTOR, "#choices button")[place].click()
        self.turn(2)
        self.assertTrue(self.at("text").get_attribute("value").endswith("turns 0: 0\nturn 0 0\n"))
        self.at("pick-undo").click()
        self.turn(1)
        self.assertTrue(self.at("text").get_attribute("value").endswith("turns 0: 0\nturn 1 0\n"))

    def test_cards(self):
        self.open("writing")
        self.js("delete document.getElementById('drawing').dataset.turn")
        self.at("deal-cards").click()
        self.turn(0)
        text = self.at("text").get_attribute("value")
        self.assertTrue(text.endswith("cards 0 719 120 599\n"))
        run = play.play(text)
        faces = self.browser.find_elements(By.CSS_SELECTOR, "#hand button")
        self.assertEqual([face.text.replace("\n", " ") for face in faces],
                         [f"Card {card} {' '.join(str(box) for box in run.turn_boxes[2 * at:2 * at + 2])}" for at, card in enumerate((0, 719, 120, 599))])
        faces[1].click()
        self.turn(3)
        self.assertEqual([face.get_attribute("aria-current") for face in faces], ["false", "true", "false", "false"])
        self.js("delete document.getElementById('drawing').dataset.turn")
        self.at("draw-card").click()
        self.wait(lambda: len(self.browser.find_elements(By.CSS_SELECTOR, "#hand button")) == 5)
        self.turn(0)
        self.js("delete document.getElementById('drawing').dataset.turn")
        self.at("deal-seed").click()
        self.turn(0)
        text = self.at("text").get_attribute("value")
        self.assertTrue(text.endswith("seed 1 0 rounds 12\n") and "cards" not in text)
        self.wait(lambda: self.browser.find_elements(By.CSS_SELECTOR, "#hand button")[0].text.startswith("Round 1"))
        self.assertIn(f"0 of {play.play(text).bound}: at most {play.play(text).bound} more", self.at("told-rounds").text)

    def test_samples(self):
        groups = self.js("return [...document.querySelectorAll('#sample optgroup')].map(one => [one.label, [...one.children].map(two => two.value)])")
        self.assertEqual(dict(groups)["Drawings of the specification"], [f"drawings/{name}" for name in [*"abcdefghij", "ring"]])
        Select(self.at("sample")).select_by_value("drawings/ring")
        self.wait(lambda: self.at("slider").get_attribute("max") == "22")
        self.at("last").click()
        self.turn(22)
        self.assertEqual(self.js("return Course.run.finished"), True)

    def test_link_holds_the_case(self):
        text = CASE_A.replace("object 600", "object 601 # größer")
        self.write(text, 7)
        self.turn(7)
        self.at("link").click()
        self.wait(lambda: "#case=" in self.browser.current_url)
        link = self.browser.current_url
        self.browser.get("about:blank")
        self.js("window.open('about:blank')")
        self.browser.switch_to.window(self.browser.window_handles[1])
        try:
            self.browser.get(link)
            self.turn(7)
            self.assertEqual(self.at("text").get_attribute("value"), text)
        finally:
            self.browser.close()
            self.browser.switch_to.window(self.browser.window_handles[0])
        self.browser.get(self.where + "#case=broken")
        self.browser.refresh()
        self.wait(lambda: self.shown() is not None)

    def test_german(self):
        self.speak("de")
        self.assertEqual(self.at("sentence").text, played(CASE_A).sentence(0, words("de")))
        self.js("return Course.show(5, false)")
        self.assertEqual(self.at("sentence").text, played(CASE_A).sentence(5, words("de")))
        self.assertEqual(self.js("return document.querySelector('#sample option').textContent"), "eigener")
        self.assertEqual(self.at("next-handed").text, "nächste Übergabe")
        self.assertIn("Fragezelle", self.said("boxes"))
        self.assertEqual(self.js("return document.documentElement.lang"), "de")
        self.write(CASE_A.replace("boxes 2", "boxes 0"))
        self.wait(lambda: "Ablehnung 8" in self.at("fault").text)
        self.write(CASE_A + "object x")
        line = len(CASE_A.splitlines()) + 1
        self.wait(lambda: self.at("fault").text == f"Zeile {line}: „x“ ist keine Dezimalzahl")

    def test_legend(self):
        self.open("legend-part")
        signs = self.browser.find_elements(By.CSS_SELECTOR, "#legend li")
        wanted = [text for key, text in words().parts["page"].items() if key.startswith("legend-")]
        self.assertEqual([one.find_element(By.TAG_NAME, "span").text for one in signs], wanted)
        self.assertTrue(all(one.find_elements(By.TAG_NAME, "svg") for one in signs))

    # ---- quick and honest

    def test_refused_case(self):
        self.js("Course.show(3, false)")
        self.turn(3)
        bad = CASE_A.replace("reference 2 3", "reference 2 9")
        self.open("writing")
        self.js("document.getElementById('text').value = arguments[0]; Course.runCase()", bad)
        self.wait(lambda: "refusal 5" in self.at("fault").text)
        line = CASE_A.splitlines().index("reference 2 3") + 1
        self.assertTrue(self.at("fault").text.startswith(f"line {line}: refusal 5: "))
        self.assertEqual(self.at("text").get_attribute("aria-invalid"), "true")
        self.assertEqual(self.js("return [...document.querySelectorAll('#gutter mark')].map(one => one.textContent)"), [str(line)])
        self.assertIn("linear-gradient", self.js("return document.getElementById('text').style.backgroundImage"))
        self.assertLess(float(self.js("return getComputedStyle(document.getElementById('drawing')).opacity")), 0.5)
        self.assertIn("the case before", self.at("notice").text)
        self.js("document.getElementById('text').value = arguments[0]; Course.runCase()", CASE_A)
        self.wait(lambda: self.at("fault").text == "")
        self.wait(lambda: not self.at("notice").is_displayed())
        self.assertEqual(self.at("text").get_attribute("aria-invalid"), "false")
        self.assertEqual(self.js("return getComputedStyle(document.getElementById('drawing')).opacity"), "1")
        self.assertEqual(self.shown(), 3)

    def test_a_fault_names_its_line_once(self):
        self.write(CASE_A + "what 1\n")
        self.wait(lambda: self.at("fault").text != "")
        line = len(CASE_A.splitlines()) + 1
        self.assertTrue(self.at("fault").text.startswith(f"line {line}: 'what' begins no line of a case; these do: index, object, "))
        self.assertEqual(self.at("fault").text.count(f"line {line}"), 1)

    def test_typing_keeps_the_turn(self):
        self.js("Course.show(6, false)")
        self.turn(6)
        self.open("writing")
        run = self.js("return Course.run.run")
        self.at("text").send_keys(Keys.CONTROL, Keys.END)
        self.at("text").send_keys("# a comment\n")
        self.wait(lambda: self.js("return Course.run.run") != run)
        self.turn(6)
        self.at("text").send_keys("lease 99\n")
        self.wait(lambda: "refusal 5" in self.at("fault").text)

    def test_reload_keeps_the_case(self):
        text = CASE_A.replace("object 600", "object 601")
        self.write(text, 4)
        self.turn(4)
        self.browser.refresh()
        self.turn(4)
        self.assertEqual(self.at("text").get_attribute("value"), text)

    def test_run_that_was_forgotten(self):
        for _ in range(7):
            self.post("/run", json.dumps({"text": RING}).encode())
        self.allowed = "404"
        self.js("Course.show(9)")
        self.turn(9)
        self.wait(lambda: "forgotten" in self.at("notice").text)
        self.assertEqual(self.at("sentence").text, played(CASE_A).sentence(9))

    def test_server_that_is_gone(self):
        server, where = start_server()
        try:
            self.browser.get(where)
            self.turn(0)
            server.send_signal(signal.SIGSTOP)
            server.kill()
            server.communicate()
            self.allowed = "net::ERR_"
            self.js("Course.show(9)")
            self.wait(lambda: "does not answer" in self.at("notice").text)
            self.assertEqual(self.at("sentence").text, played(CASE_A).sentence(0), "the sentence is that of what is drawn")
            self.assertLess(float(self.js("return getComputedStyle(document.getElementById('drawing')).opacity")), 0.5)
        finally:
            server.kill()
            server.communicate()

    def test_no_layout(self):
        self.open("writing")
        self.at("layout").send_keys("/nowhere")
        self.at("open-layout").click()
        self.wait(lambda: self.at("fault").text != "")

    # ---- what is seen

    def test_four_sizes(self):
        """Four boxes at four sizes: letters, what is cut off, what lies over what; and boxes two by two in a room. Where there is least
        room, with the longer words of German too. And the picture of a hand-over, beside the stored one."""
        run = played(FOUR_BOXES)
        handed = max(range(len(run) + 1), key=lambda number: (run.kind(number) == "handed", len(run.arrows(number)), -number))
        for wide, high in SIZES:
            for language in ("en", "de") if wide in (1024, 390) else ("en",):
                with self.subTest(size=(wide, high), language=language):
                    self.size(wide, high)
                    self.speak(language)
                    self.write(FOUR_BOXES, 50)
                    self.turn(50)
                    self.whole()
                    self.wait(lambda: self.js("return document.querySelectorAll('#map g[data-v]').length") == 40)
                    self.js("document.getElementById('writing').open = false; Course.redraw()")
                    for number in (50, 51, 9, handed):
                        self.js("return Course.show(arguments[0], false)", number)
                        self.turn(number)
                        self.check_look(self.js(LOOK), wide, high)
                    if language == "en":
                        self.js("return Course.show(arguments[0], false)", handed)
                        self.turn(handed)
                        self.check_picture(f"{wide}x{high}", wide, PHONE_PICTURE if wide < 800 else high)

    def picture(self, wide, high):
        """The page from its top, so many pixels down."""
        self.js("window.scrollTo(0, 0); document.activeElement.blur(); Course.map.fit()")
        part = {"x": 0, "y": 0, "width": wide, "height": high, "scale": 1}
        taken = self.browser.execute_cdp_cmd("Page.captureScreenshot", {"format": "png", "clip": part, "captureBeyondViewport": True})
        return base64.b64decode(taken["data"])

    def check_picture(self, name, wide, high):
        """The page as it is stored. Without its arrow, its box or the reference that is followed it would be another."""
        png = self.picture(wide, high)
        if os.environ.get("SCREENSHOTS"):
            (Path(os.environ["SCREENSHOTS"]) / f"{name}.png").write_bytes(png)
        if os.environ.get("PICTURES") == "store":
            pictures.store(name, png)
        until = time.monotonic() + SETTLED
        while pictures.fault(name, png) and time.monotonic() < until:  # what a busy machine sets or paints late
            time.sleep(0.1)
            png = self.picture(wide, high)
        self.assertEqual(pictures.fault(name, png), "")
        for hidden in ("#boxes .arrow.fresh", "#boxes .load.fresh", "#boxes [data-box='2']"):
            self.js("document.querySelector(arguments[0]).style.visibility = 'hidden'", hidden)
            self.assertIn(f"{name}: blocks are off by ", pictures.fault(name, self.picture(wide, high)), hidden)
            self.js("document.querySelector(arguments[0]).style.visibility = ''", hidden)

    def check_look(self, seen, wide, high):
        self.assertLessEqual(seen["wide"], wide, "nothing is cut off")
        small = [letter for letter in seen["letters"] if letter[0] < 13.99]
        self.assertEqual(small, [], "letters below 14 px")
        for size, word, left, _, right, _ in seen["letters"]:
            self.assertTrue(left >= -1 and right <= wide + 1, (word, left, right))
        boxes = seen["boxes"]
        self.assertEqual(len(boxes), 4)
        for one, (left, top, right, bottom) in enumerate(boxes):
            for other in boxes[one + 1:]:
                self.assertFalse(left < other[2] and other[0] < right and top < other[3] and other[1] < bottom, "boxes overlap")
            for load in seen["loads"]:
                self.assertTrue(load[0] >= 0 and load[2] <= wide, "what is on an arrow is cut off")
                middle = (load[0] + load[2]) / 2, (load[1] + load[3]) / 2
                self.assertFalse(left < middle[0] < right and top < middle[1] < bottom, "what is on an arrow lies over a box")
        columns = len({round(box[0]) for box in boxes})
        self.assertEqual(columns, 1 if wide < 800 else 2)
        self.assertFalse(seen["editor"], "the editor is folded away")
        if wide >= 1024:
            self.assertLessEqual(max(box[3] for box in boxes), high, "all boxes are in sight")
            self.assertLessEqual(seen["map"][3], high + 1)
            self.assertGreaterEqual(seen["map"][2] - seen["map"][0], 240)
            # The drawing has most of the screen.
            self.assertGreater((seen["drawing"][2] - seen["drawing"][0]) * (high - seen["drawing"][1]), 0.6 * wide * high)
        self.assertGreaterEqual(seen["scale"], 0.99, "letters of the map")

    def test_screen_reader(self):
        """What stands in a box is text in the accessibility tree, under the box's name."""
        self.js("return Course.show(5, false)")
        nodes = self.browser.execute_cdp_cmd("Accessibility.getFullAXTree", {})["nodes"]
        by_id = {node["nodeId"]: node for node in nodes}
        named = lambda name: [node for node in nodes if node.get("name", {}).get("value") == name]

        def below(node):
            out = [node.get("name", {}).get("value", "")]
            for child in node.get("childIds", ()):
                out += below(by_id[child]) if child in by_id else []
            return out

        of_box = {0: ("busy, at a look", "0 → 2", "black", "query cell", "holds the white token"), 1: ("asking, given work", "1 handed", "1 → 3")}
        for b, wanted in of_box.items():
            group = next(node for node in named(f"Box {b}") if len(node.get("childIds", ())) > 5)
            text = below(group)
            for word in wanted:
                self.assertIn(word, text)
        self.assertTrue(named("Box 0 hands 1 reference to box 1."))

    def test_names_of_controls(self):
        self.open("writing")
        for one in self.browser.find_elements(By.CSS_SELECTOR, "button, input, textarea, select, progress"):
            if one.is_displayed():
                self.assertTrue(one.accessible_name, one.get_attribute("outerHTML"))
        for one in self.browser.find_elements(By.CSS_SELECTOR, "#drawing svg"):
            self.assertEqual(one.get_attribute("role"), "group")
            self.assertTrue(one.get_attribute("aria-label"))

    def test_contrast(self):
        """Letters on the boxes' colours, and on the page's, are at least 7 : 1."""
        def light(colour):
            parts = [int(colour[at:at + 2], 16) / 255 for at in (1, 3, 5)]
            r, g, b = [part / 12.92 if part <= 0.03928 else ((part + 0.055) / 1.055) ** 2.4 for part in parts]
            return 0.2126 * r + 0.7152 * g + 0.0722 * b

        for fill in course_svg.FILLS + ("#ffffff", "#f3f4f6"):
            self.assertGreaterEqual((light(fill) + 0.05) / (light(course_svg.INK) + 0.05), 7, fill)
        for ink in (course_svg.PALE, "#991b1b"):
            self.assertGreaterEqual(1.05 / (light(ink) + 0.05), 7, ink)
        for ink in course_svg.INKS:
            self.assertGreaterEqual(1.05 / (light(ink) + 0.05), 4.5, ink)

    # ---- paper

    def printed(self):
        """The pages of the PDF that the browser prints: their sizes."""
        data = base64.b64decode(self.browser.execute_cdp_cmd("Page.printToPDF", {"preferCSSPageSize": True, "printBackground": True})["data"])
        return [tuple(round(float(number)) for number in found) for found in re.findall(rb"/MediaBox \[0 0 ([\d.]+) ([\d.]+)\]", data)]

    def test_printed_page_fills_the_sheet(self):
        self.js("return Course.show(5, false)")
        self.assertEqual(self.printed(), [(1191, 842)])
        self.browser.execute_cdp_cmd("Emulation.setEmulatedMedia", {"media": "print"})
        try:
            self.size(1527, 1062)  # A3 within its margins
            self.js("window.dispatchEvent(new Event('beforeprint'))")
            seen = self.js(LOOK)
            self.assertGreater(max(box[2] for box in seen["boxes"]), 0.55 * 1527)
            self.assertGreater(seen["map"][2], 0.95 * 1527)
            self.assertFalse(self.at("controls").is_displayed())
            rows = self.js("return [...document.querySelectorAll('#rows div')].map(one => one.checkVisibility())")
            self.assertEqual(rows, [True] * 21, "every turn is on paper")
            # Every kind of arrow is, too.
            for number in (2, 5, 17):
                self.js("return Course.show(arguments[0], false)", number)
                self.assertTrue(self.js("return document.querySelector('#boxes .arrow.fresh').checkVisibility()"), number)
        finally:
            self.js("window.dispatchEvent(new Event('afterprint'))")
            self.browser.execute_cdp_cmd("Emulation.setEmulatedMedia", {"media": ""})

    def test_sheets_are_a3(self):
        with tempfile.TemporaryDirectory() as folder:
            path = Path(folder) / "a.html"
            stored = [(TOP / "docs" / "course" / name).read_text() for name in ("a-1.svg", "a-2.svg")]
            path.write_text(course_sheet.html(stored, ENGLISH, "A"))
            self.browser.get(path.as_uri())
            self.assertEqual(self.printed(), [(1191, 842)] * 2)

    def test_finished_file(self):
        """docs/course/a.html shows the run without a server."""
        run = played(CASE_A)
        self.browser.get((TOP / "docs" / "course" / "a.html").as_uri())
        for number in (0, 1, 2):
            self.turn(number)
            self.assertEqual(self.at("sentence").text, run.sentence(number))
            self.at("forward").click()
        self.at("next-handed").click()
        self.turn(5)
        self.assertIn("1 handed", self.said("boxes"))
        self.assertEqual(len(self.said("map")) > 10, True)
        self.assertFalse(self.at("writing").is_displayed())
        for wide, high in SIZES:
            self.size(wide, high)
            self.wait(lambda: self.js("return document.documentElement.scrollWidth") <= wide)

    # ---- the server

    def test_nothing_from_elsewhere(self):
        asked = self.js("return performance.getEntriesByType('resource').map(one => one.name)")
        self.assertTrue(asked and all(name.startswith((self.where, "data:")) for name in asked), asked)

    def post(self, path, data=None, **headers):
        """The status and what was answered."""
        asked = urllib.request.Request(self.where.rstrip("/") + path, data=data, headers={"Content-Type": "application/json"} | headers)
        try:
            with urllib.request.urlopen(asked, timeout=30) as answer:
                return answer.status, answer.read()
        except urllib.error.HTTPError as fault:
            with fault:
                return fault.code, fault.read()

    def refused(self, answer, status):
        """Refused with a sentence."""
        self.assertEqual(answer[0], status, answer)
        self.assertTrue(json.loads(answer[1])["fault"]["text"])

    def test_server_is_local(self):
        case_a = json.dumps({"text": CASE_A}).encode()
        own = self.where.rstrip("/")
        self.assertEqual(self.post("/")[0], 200)
        self.assertEqual(self.post("/run", case_a)[0], 200)
        self.assertEqual(self.post("/run", case_a, Origin=own)[0], 200)
        for headers in ({"Host": "example.com"}, {"Host": "127.0.0.1"}, {"Origin": "http://example.com"}, {"Origin": "null"}, {"Origin": own + "0"},
                        {"Sec-Fetch-Site": "cross-site"}):
            self.refused(self.post("/run", case_a, **headers), 403)
            self.refused(self.post("/", **headers), 403)
        self.assertEqual(self.post("/", **{"Sec-Fetch-Site": "cross-site", "Sec-Fetch-Mode": "navigate"})[0], 200)
        self.refused(self.post("/samples", **{"Sec-Fetch-Site": "cross-site", "Sec-Fetch-Mode": "navigate"}), 403)
        self.refused(self.post("/run", case_a, **{"Content-Type": "text/plain"}), 400)

    def test_server_refuses_with_a_sentence(self):
        for path in ("/nothing", "/../case.py", "/step/999999/0", "/step/x/y", "/step/1", "/step/1/-1", "/run/999999", "/turns/x", "/map/999999",
                     "/words/../../case.py", "/step/1/" + "9" * 5000):
            self.refused(self.post(path), 404)
        deep = b'{"text": ' + b"[" * 100_000 + b"]" * 100_000 + b"}"
        for data in (b"", b"{}", b"[]", b'{"text": 1}', b'{"text": "", "language": 1}', b"\xff", b'{"text": "\xff"}', deep, b'{"text": ' + b"9" * 5000 + b"}"):
            self.refused(self.post("/run", data), 400)
        self.refused(self.post("/run", json.dumps({"text": "# " + "x" * (7 << 20)}).encode()), 413)
        for text in ("seed 1 1 rounds 4294967295", f"object {'9' * 5000}", "\ud800"):
            self.refused(self.post("/run", json.dumps({"text": CASE_A + text}).encode()), 200)

    def test_memory_is_bounded(self):
        """One more of the largest runs than are kept, and a case that would deal turns without end."""
        self.refused(self.post("/run", json.dumps({"text": CASE_A + "seed 1 1 rounds 4294967295\n"}).encode()), 200)
        large, begun = large_case(), []
        for at in range(course_serve.KEPT_RUNS + 1):
            told = self.post("/run", json.dumps({"text": large.replace("batch 1", f"batch {at + 1}")}).encode())[1]
            begun.append(json.loads(told)["run"])
        for number in begun[1:]:
            self.wait(lambda: json.loads(self.post(f"/run/{number}?from=99999")[1])["done"], 90)
        self.refused(self.post(f"/run/{begun[0]}"), 404)
        status = Path(f"/proc/{self.server.pid}/status").read_text()
        self.assertLess(int(re.search(r"VmHWM:\s+(\d+) kB", status)[1]), 600_000)

    def test_slow_request(self):
        """Who does not finish a request is not waited for: the one that was begun before all tests."""
        self.assertEqual(self.post("/")[0], 200)
        self.slow.settimeout(20)
        self.assertIn(b"400", self.slow.recv(1000).split(b"\r\n")[0])
        self.assertEqual(self.post("/")[0], 200)


if __name__ == "__main__":
    unittest.main()
