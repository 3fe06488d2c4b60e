"""The map's page in chromium: a road and its culvert, two pages, what is cancelled, links, the keyboard, a telephone."""

from __future__ import annotations

import functools
import http.server
import math
import pathlib
import tempfile
import threading
import unittest
import unittest.mock
from typing import Any

from .browser import Browser, needs_browser
from .test_view import SIDE, WithMap, edit, np, serving

if np is not None:
    from mosaic_store.session import memory_table
    from mosaic_store.view import pictures
    from mosaic_store.view.workbench import Cancelled, Workbench

AT = "#at=20,40,0.1"
LINK = f"{AT}&ask=25,10&watershed&wall=190;10,40;30,40"
LEVELS = "1. Road: level, m\t160\t190\t+30"


class Pages(WithMap):
    @needs_browser
    def test_the_map_and_a_trial_of_a_link(self) -> None:
        with Browser(self.server.url + LINK) as browser:
            for shown in ("valley: 2 tiles of 41", "215 m", "Watershed\n16 points", LEVELS):
                browser.wait_for_text(shown)
            browser.press("standing")
            browser.wait_for("!byId('depths').hidden && byId('finding').hidden")  # all of the water is drawn
        self.assertEqual(self.session.count(), 2)

    @needs_browser
    def test_a_road_and_its_culvert_in_four_steps(self) -> None:
        """The road is drawn; the culvert is drawn; Try is pressed; the difference, and the watershed asked before, are there."""
        with Browser(self.server.url + f"{AT}&ask=20,80&watershed") as browser:
            browser.wait_for("watershed !== null && !jobs")
            self.draw(browser, "wall", [(10, 40), (30, 40)], 190)
            self.draw(browser, "burn", [(20, 39), (20, 41)], 31)
            browser.press("try")
            browser.wait_for_text("2. Culvert: level, m\t160\t159\t−1")
            told = browser.value("byId('difference').textContent")
            self.assertIn("under water", told)
            self.assertIn("By the trial", browser.value("byId('point').innerText"))
            self.assertEqual(browser.value("byId('lines').innerText.split('\\n').length"), 2)
            browser.press("keep")
            browser.wait_for_text("Kept in the store; the store counts 4 commands")
            self.assertEqual(browser.value("drafts.length + byId('kept').children.length"), 1)
        self.assertEqual((self.session.elevation(20, 40), self.session.elevation(25, 40)), (159, 190))

    def draw(self, browser: Browser, kind: str, corners: list[tuple[int, int]], amount: int) -> None:
        browser.value(f"document.querySelector('input[value={kind}]').click()")
        for y, x in corners:
            browser.click(*browser.value(f"pixelOf({{ y: {y}, x: {x} }})"))
        browser.wait_for(f"line.length === {len(corners)} && !jobs")
        browser.value(f"byId('amount').value = {amount}; showLines()")

    @needs_browser
    def test_two_pages_agree(self) -> None:
        """What one keeps, the other shows; what the other pressed before it looked is refused."""
        with Browser(self.server.url + AT) as one, Browser(self.server.url + AT) as other:
            one.wait_for("region && !jobs")
            other.wait_for("region && !jobs")
            other.value("clearInterval(looking)")
            one.value("location.hash = '#wall=190;10,40;30,40'")
            one.wait_for_text(LEVELS)
            other.value("working('', () => ask({ y: 20, x: 39 }))")
            other.wait_for_text(LEVELS)
            other.press("keep")
            other.wait_for_text("Kept in the store")
            one.wait_for("trial === null && region.kept.length === 1")  # by its own looks
            self.assertEqual(one.value("drafts.length"), 0)
            one.press("undo")
            one.wait_for_text("The last edit was undone")
            other.press("undo")
            other.wait_for_text("another page has changed the store")
            self.assertTrue(other.value("byId('edits').hidden"))
        self.assertEqual(self.session.elevation(20, 40), 160)

    @needs_browser
    def test_a_question_and_streams_are_cancelled(self) -> None:
        """The page goes on at once, and the program asks on no more."""
        for path, button in (("watershed", "watershed"), ("streams", "streams")):
            begun, ended = threading.Event(), threading.Event()
            with Browser(self.server.url + f"{AT}&ask=20,39") as browser, unittest.mock.patch.object(
                self.bench, "acts", functools.partial(self.slow_acts, path, begun, ended)
            ):
                browser.wait_for_text("Height 161 m")
                browser.press(button)
                begun.wait()
                browser.press("cancel")
                browser.wait_for_text("Cancelled")
                ended.wait()
                self.assertTrue(browser.value("byId('cancel').hidden && jobs === 0"))

    def slow_acts(self, path: str, begun: threading.Event, ended: threading.Event, left: Any = lambda: False) -> dict[str, Any]:
        """The acts; one of them waits until nobody waits for it."""

        def wait(words: Any) -> None:
            begun.set()
            while not left():
                pass
            ended.set()
            raise Cancelled

        return {**Workbench.acts(self.bench, left), path: wait}

    @needs_browser
    def test_the_copy_is_given_up(self) -> None:
        """Cancel is pressed between two tiles; nothing is left of the copy, and the line can be tried again."""
        pressed, copy = threading.Event(), self.bench.copy

        def copy_once_pressed() -> dict[str, Any]:
            if self.bench._copy.session is not None:
                pressed.wait()
            return copy()

        self.bench.copy = copy_once_pressed  # type: ignore[method-assign]
        with unittest.mock.patch("mosaic_store.view.copies.SECONDS_AT_ONCE", 1e-9), Browser(self.server.url + LINK) as browser:
            browser.wait_for_text("Copied 1 of 2 tiles")
            browser.press("cancel")
            pressed.set()
            browser.wait_for_text("Cancelled")
            self.assertEqual(self.region()["copy"]["done"], 0)
            browser.press("try")
            browser.wait_for_text(LEVELS)

    @needs_browser
    def test_another_point_is_asked_meanwhile(self) -> None:
        """A watershed that is answered late isn't shown as that of the point that was asked since."""
        searched, go, watershed = threading.Event(), threading.Event(), self.bench.watershed
        self.bench.watershed = lambda *given: searched.set() or go.wait() and watershed(*given)  # type: ignore
        with Browser(self.server.url + f"{AT}&ask=25,10") as browser:
            browser.wait_for_text("Height 215 m")
            browser.value("byId('snap').value = 0")
            browser.press("watershed")
            searched.wait()
            browser.value("ask({ y: 20, x: 39 }) && null")
            browser.wait_for_text("y 20, x 39")
            go.set()
            browser.wait_for_text("Another point was asked meanwhile")
            self.assertTrue(browser.value("byId('save-watershed').disabled && watershed === null"))

    @needs_browser
    def test_undo_is_pressed_twice(self) -> None:
        """Pressed again before it is answered, the button takes back no second edit."""
        self.copy()
        for height in (180, 190):
            self.post("try", {"edits": [edit("wall", height, [[20, 39]])]})
            self.post("keep", {})
        begun, go, undo = threading.Event(), threading.Event(), self.bench.undo
        self.bench.undo = lambda: begun.set() or go.wait() and undo()  # type: ignore
        with Browser(self.server.url) as browser:
            browser.press("undo")
            begun.wait()
            browser.value("byId('undo').click()")
            go.set()
            browser.wait_for_text("The last edit was undone")
            browser.wait_for("!byId('undo').disabled")
        self.assertEqual(self.session.elevation(20, 39), 180)

    @needs_browser
    def test_places_links_and_keys(self) -> None:
        """Places as people write them; a link that is pasted into the open page; the map by its keys alone."""
        with Browser(self.server.url) as browser:
            browser.wait_for("region && !jobs")
            for text, point in (("0,5 0,975", "y 20, x 39"), ("0°37'30\"N 0°15'E", "y 25, x 10"), ("nowhere", "no place")):
                browser.value(f"byId('place').value = {text!r}; byId('go').requestSubmit()")
                browser.wait_for_text(point)
            browser.value("location.hash = '#at=20,60,0.5&ask=20,60&wall=190;10,40;30,40&burn=31;20,39;20,41'")
            browser.wait_for_text("2. Culvert: level, m")
            self.assertEqual(browser.value("[view.y, view.x, view.pointsPerPixel].join()"), "20,60,0.5")
            browser.value("canvas.focus()")
            for key in ("+", "ArrowLeft", "Enter"):
                browser.key(key)
            browser.wait_for("!jobs && asked.x < 60 && view.pointsPerPixel === 0.25")

    @needs_browser
    def test_lines_of_a_file_and_a_sink(self) -> None:
        """A file's road is tried with a sink that is clicked."""
        with tempfile.TemporaryDirectory() as folder, Browser(self.server.url + AT) as browser:
            path = pathlib.Path(folder, "road.geojson")
            path.write_text('{"type": "LineString", "coordinates": [[1.0, 0.25], [1.0, 0.75]]}')
            browser.wait_for("region && !jobs")
            browser.value("document.querySelector('input[value=sink]').click()")
            browser.click(*browser.value("pixelOf({ y: 20, x: 39 })"))
            browser.value("document.querySelector('input[value=wall]').click(); byId('amount').value = 190")
            browser.upload("file", str(path))
            browser.wait_for_text("1 line of road.geojson: press Try")
            self.assertEqual(browser.value("byId('lines').innerText.includes('Road to 190 m')"), True)
            browser.press("try")
            browser.wait_for_text("Tried")
            self.assertEqual(browser.value("[trial.change.points, region.sinks].flat(2).join()"), "0,20,39")
            browser.press("clear")
            self.draw(browser, "patch", [(1, 1)], 250)
            browser.click(*browser.value("pixelOf({ y: 3, x: 3 })"))  # the other corner: the void lies 32 m deep among its neighbours
            browser.wait_for("drafts.length === 1 && !jobs")
            browser.press("try")
            browser.wait_for_text("1. Voids: level, m\tvoid\t282")

    @needs_browser
    def test_a_base_map_of_a_source(self) -> None:
        """None is asked for by itself; that of a template is, at the tiles that are shown."""
        asked: list[str] = []

        class Source(http.server.BaseHTTPRequestHandler):
            def do_GET(self) -> None:
                asked.append(self.path)
                body = pictures.png(np.full((256, 256, 4), 255, np.uint8))
                self.send_response(200)
                self.send_header("Content-Length", str(len(body)))
                self.end_headers()
                self.wfile.write(body)

            def log_message(self, *_: object) -> None:
                pass

        with http.server.ThreadingHTTPServer(("127.0.0.1", 0), Source) as source:
            threading.Thread(target=source.serve_forever, daemon=True).start()
            template = f"http://127.0.0.1:{source.server_port}/{{z}}/{{x}}/{{y}}.png"
            for base, has_any in ((None, False), (template, True)):
                with serving(Workbench("valley", self.session, lambda: memory_table(SIDE, 4), base)) as server, Browser(server.url + AT) as browser:
                    browser.wait_for("region && !jobs && [...pictures.values()].every(isThere)")
                    self.assertEqual((bool(asked), browser.value("byId('base-label').hidden")), (has_any, not has_any))
            source.shutdown()
        zoom = int(asked[0].split("/")[1])
        row = int((0.5 - math.asinh(math.tan(math.radians(0.5))) / (2 * math.pi)) * 2**zoom)
        self.assertIn(f"/{zoom}/{int(181 / 360 * 2**zoom)}/{row}.png", asked)  # the middle of the map: 0.5 N 1 E

    @needs_browser
    def test_a_telephone(self) -> None:
        """Nothing is wider than a narrow screen, and what is pressed is large enough."""
        with Browser(self.server.url + LINK, width=390, height=844) as browser:
            browser.wait_for_text(LEVELS)
            self.assertLessEqual(browser.value("document.documentElement.scrollWidth - innerWidth"), 0)
            small = "[...document.querySelectorAll('button, input[type=number], select')].filter((each) => each.offsetParent && each.offsetHeight < 36).map((each) => each.id)"
            self.assertEqual(browser.value(small), [])

    @needs_browser
    def test_each_control_has_a_name(self) -> None:
        with Browser(self.server.url + LINK) as browser:
            browser.wait_for_text(LEVELS)
            nameless = "[...document.querySelectorAll('button, input, select, progress, canvas')].filter((each) => !(each.labels && each.labels.length) && !each.textContent.trim() && !each.getAttribute('aria-label')).map((each) => each.id)"
            self.assertEqual(browser.value(nameless), [])


if __name__ == "__main__":
    unittest.main()
