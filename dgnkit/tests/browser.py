"""A browser without a window, driven by Chromium's own driver, for the tests of the page."""

from __future__ import annotations

import base64
import contextlib
import json
import os
import re
import shutil
import subprocess
import tempfile
import time
import urllib.error
import urllib.request
from pathlib import Path
from typing import Any, Dict, Iterator, List, Optional, Sequence, Tuple

ELEMENT = 'element-6066-11e4-a52e-4f735466cecf'  # the key under which the driver names an element
CHROMIUM = shutil.which('chromium') or shutil.which('chromium-browser')
DRIVER = shutil.which('chromedriver')
MISSING = None if CHROMIUM and DRIVER else 'no browser: chromium and chromedriver (chromium-driver) are not installed'
CONTROL = '\ue009'
SHIFT = '\ue008'
FLAGS = ['--headless=new', '--hide-scrollbars', '--disable-background-networking', '--force-device-scale-factor=1']
KEYS = {'Tab': '\ue004', 'Enter': '\ue007', 'Escape': '\ue00c', 'Backspace': '\ue003', 'Delete': '\ue017'}
KEYS.update(ArrowLeft='\ue012', ArrowUp='\ue013', ArrowRight='\ue014', ArrowDown='\ue015', F1='\ue031')


class DriverError(Exception):
    """What the driver answers where something can't be done."""


class Browser:
    """A session of the driver. Places are pixels of the page, from its upper left."""

    def __init__(self, port: int, width: int, height: int, downloads: str) -> None:
        self.port = port
        flags = FLAGS + (['--no-sandbox'] if os.geteuid() == 0 else [])
        options = {'binary': CHROMIUM, 'args': flags, 'prefs': {'download.default_directory': downloads}}
        wanted = {'goog:chromeOptions': options, 'goog:loggingPrefs': {'browser': 'ALL'}}
        made = self._call('POST', '/session', {'capabilities': {'alwaysMatch': wanted}})
        self.session = '/session/%s' % made['sessionId']
        # No window asks where a file is to be saved: it is loaded down.
        self.command('Page.addScriptToEvaluateOnNewDocument', source='delete window.showSaveFilePicker')
        self._size(width, height)

    def _call(self, method: str, path: str, body: Optional[Any] = None) -> Any:
        data = None if body is None else json.dumps(body).encode('utf-8')
        asked = urllib.request.Request('http://127.0.0.1:%d%s' % (self.port, path), data, method=method)
        try:
            with urllib.request.urlopen(asked, timeout=120) as answer:
                return json.load(answer)['value']
        except urllib.error.HTTPError as why:
            raise DriverError(json.load(why)['value']['message'].split('\n')[0])

    def _ask(self, path: str, body: Optional[Any] = None) -> Any:
        return self._call('POST', self.session + path, {} if body is None else body)

    def _size(self, width: int, height: int) -> None:
        """Makes what is seen of a page this large; a window has an edge, whose size is found so."""
        for _ in range(2):
            inner = self.run('return [innerWidth, innerHeight, outerWidth, outerHeight]')
            self._ask('/window/rect', {'width': width + inner[2] - inner[0], 'height': height + inner[3] - inner[1]})

    def close(self) -> None:
        self._call('DELETE', self.session)

    def open(self, path: str, ready: str = 'document.documentElement.dataset.started') -> None:
        """Opens a page from disk, and waits until it has begun, or until something else is true."""
        self._ask('/url', {'url': Path(path).resolve().as_uri()})
        self.wait(ready)

    def reload(self) -> None:
        """Loads the page anew, whatever it asks about."""
        self._ask('/refresh')
        self.wait('document.documentElement.dataset.started')

    def choose_file(self, css: str, path: str) -> None:
        """Chooses a file from disk in a field for it."""
        self._ask('/element/%s/value' % self.find(css), {'text': str(Path(path).resolve())})

    def wait(self, condition: str, seconds: float = 20) -> Any:
        """Waits until an expression is true, and gives its value."""
        end = time.monotonic() + seconds
        while True:
            value = self.run('return ' + condition)
            if value:
                return value
            if time.monotonic() > end:
                raise AssertionError('%s is not so within %s seconds' % (condition, seconds))
            time.sleep(0.02)

    def run(self, script: str, *arguments: Any) -> Any:
        """Runs a script in the page, and gives what it returns."""
        return self._ask('/execute/sync', {'script': script, 'args': list(arguments)})

    def run_slowly(self, script: str, *arguments: Any) -> Any:
        """The same of a script that calls its last argument with what it gives."""
        return self._ask('/execute/async', {'script': script, 'args': list(arguments)})

    def settle(self) -> None:
        """Waits until the page has drawn what has changed."""
        self.run_slowly('requestAnimationFrame(() => requestAnimationFrame(arguments[0]))')
        self.wait("!page.stage.isWaiting && document.documentElement.dataset.busy !== 'true'")

    @property
    def title(self) -> str:
        return str(self._call('GET', self.session + '/title'))

    def find(self, css: str) -> str:
        return str(self._ask('/element', {'using': 'css selector', 'value': css})[ELEMENT])

    def text(self, css: str) -> str:
        """What is read in an element of the page."""
        return str(self._call('GET', '%s/element/%s/text' % (self.session, self.find(css))))

    def click(self, css: str) -> None:
        self._ask('/element/%s/click' % self.find(css))

    def type(self, css: str, text: str) -> None:
        """Types in a field what is to stand in it alone."""
        field = self.find(css)
        self._ask('/element/%s/clear' % field)
        self._ask('/element/%s/value' % field, {'text': text})

    def key(self, *names: str) -> None:
        """Presses keys, one after another, where the focus is."""
        pressed: List[Any] = []
        for name in names:
            value = KEYS.get(name, name)
            pressed += [{'type': 'keyDown', 'value': value}, {'type': 'keyUp', 'value': value}]
        self._ask('/actions', {'actions': [{'type': 'key', 'id': 'keys', 'actions': pressed}]})

    def paste(self) -> None:
        """Pastes what was copied where the focus is."""
        held = [{'type': kind, 'value': key} for kind, key in (('keyDown', CONTROL), ('keyDown', 'v'), ('keyUp', 'v'))]
        held.append({'type': 'keyUp', 'value': CONTROL})
        self._ask('/actions', {'actions': [{'type': 'key', 'id': 'keys', 'actions': held}]})

    def drag(self, *places: Sequence[float], shift: bool = False, key: str = '') -> None:
        """Presses the mouse at the first place, and lets go at the last one; at one place it is a click. With Shift
        this is held meanwhile, and a key is pressed before the mouse goes to the last place."""
        moves = [{'type': 'pointerMove', 'x': round(x), 'y': round(y), 'duration': 20} for x, y in places]
        down, up = {'type': 'pointerDown', 'button': 0}, {'type': 'pointerUp', 'button': 0}
        if key != '':
            self._pointer([moves[0], down, *moves[1:-1]])
            self.key(key)
            self._pointer([moves[-1], up])
        elif shift:
            pause: Dict[str, object] = {'type': 'pause'}
            acts = [pause, moves[0], down, *moves[1:], up]
            held = [{'type': 'keyDown', 'value': SHIFT}, *[pause] * (len(acts) - 2), {'type': 'keyUp', 'value': SHIFT}]
            self._pointer(acts, {'type': 'key', 'id': 'keys', 'actions': held})
        else:
            self._pointer([moves[0], down, *moves[1:], up])

    def double_click(self, place: Sequence[float]) -> None:
        down, up = {'type': 'pointerDown', 'button': 0}, {'type': 'pointerUp', 'button': 0}
        self._pointer([{'type': 'pointerMove', 'x': round(place[0]), 'y': round(place[1])}, down, up, down, up])

    def pinch(self, *fingers: Tuple[Sequence[float], Sequence[float]]) -> None:
        """Puts fingers down at their first places at once, and moves each to its second one."""
        acts: List[Dict[str, object]] = []
        for number, (start, end) in enumerate(fingers):
            moves = [{'type': 'pointerMove', 'x': round(x), 'y': round(y), 'duration': 50} for x, y in (start, end)]
            down, up = {'type': 'pointerDown', 'button': 0}, {'type': 'pointerUp', 'button': 0}
            finger: Dict[str, object] = {'type': 'pointer', 'id': 'finger%d' % number}
            finger['parameters'], finger['actions'] = {'pointerType': 'touch'}, [moves[0], down, moves[1], up]
            acts.append(finger)
        self._ask('/actions', {'actions': acts})

    def hover(self, place: Sequence[float]) -> None:
        self._pointer([{'type': 'pointerMove', 'x': round(place[0]), 'y': round(place[1]), 'duration': 0}])

    def _pointer(self, acts: List[Any], *others: Dict[str, Any]) -> None:
        mouse = {'type': 'pointer', 'id': 'mouse', 'parameters': {'pointerType': 'mouse'}, 'actions': acts}
        self._ask('/actions', {'actions': [mouse, *others]})

    def wheel(self, place: Sequence[float], amount: int) -> None:
        """Turns the wheel at a place; a negative amount is away from the user."""
        turn = {'type': 'scroll', 'x': round(place[0]), 'y': round(place[1]), 'deltaX': 0, 'deltaY': amount}
        self._ask('/actions', {'actions': [{'type': 'wheel', 'id': 'wheel', 'actions': [turn]}]})

    def windows(self) -> List[str]:
        """The windows that are open, by the names that the driver gives them."""
        return list(self._call('GET', self.session + '/window/handles'))

    def go_to(self, window: str) -> None:
        self._ask('/window', {'handle': window})

    def screenshot(self) -> bytes:
        """What is seen, as a PNG file."""
        return base64.b64decode(self._call('GET', self.session + '/screenshot'))

    def command(self, name: str, **words: Any) -> Any:
        """What the browser answers to a command of its debugging protocol."""
        return self._ask('/goog/cdp/execute', {'cmd': name, 'params': words})

    def complaints(self) -> List[str]:
        """The faults and the forbidden doings that the browser has told since it was asked last."""
        return [it['message'] for it in self._ask('/se/log', {'type': 'browser'}) if it['level'] == 'SEVERE']


@contextlib.contextmanager
def browser(downloads: str, width: int = 1280, height: int = 800) -> Iterator[Browser]:
    """A browser of this size, which puts what is saved into a folder. It ends with its driver, and what the two keep
    for themselves goes with them."""
    own = tempfile.mkdtemp(prefix='dgnkit-browser-')
    places = {name: own for name in ('TMPDIR', 'XDG_CONFIG_HOME', 'XDG_CACHE_HOME')}
    driver = subprocess.Popen(
        [str(DRIVER), '--port=0'],
        stdout=subprocess.PIPE,
        stderr=subprocess.DEVNULL,
        text=True,
        env={**os.environ, **places},
    )
    try:
        made = Browser(port_of(driver), width, height, downloads)
        try:
            yield made
        finally:
            made.close()
    finally:
        driver.terminate()
        driver.wait()
        if driver.stdout:
            driver.stdout.close()
        shutil.rmtree(own, ignore_errors=True)


def port_of(driver: subprocess.Popen[str]) -> int:
    """The port that the driver says that it has."""
    for line in driver.stdout or ():
        found = re.search(r'started successfully on port (\d+)', line)
        if found:
            return int(found[1])
    raise DriverError('chromedriver did not start')
