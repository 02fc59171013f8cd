"""Drives Firefox without a window, where it is installed, by its own protocol: messages of JSON with their length in
front."""

from __future__ import annotations

import json
import os
import shutil
import socket
import subprocess
import tempfile
import time
from contextlib import contextmanager
from typing import Any, Iterator

COMMAND = shutil.which('firefox-esr') or shutil.which('firefox')
PATIENCE = 60.0
SETTINGS = (
    ('marionette.port', '0'),
    ('browser.shell.checkDefaultBrowser', 'false'),
    ('app.update.auto', 'false'),
    ('browser.download.folderList', '2'),
    ('browser.download.start_downloads_in_tmp_dir', 'false'),
    ('browser.download.alwaysOpenPanel', 'false'),
)
# Tells whether an expression comes true in time.
WAIT = '''
const [condition, done] = arguments, until = performance.now() + 1000 * 50, holds = new Function('return ' + condition);
const look = () => {
    if (holds()) done(true);
    else if (performance.now() > until) done(false);
    else setTimeout(look, 30);
};
look();
'''


class Firefox:
    """A browser that is driven."""

    def __init__(self, stream: socket.socket) -> None:
        self.stream, self.file, self.number = stream, stream.makefile('rb'), 0
        self._take()
        self.ask('WebDriver:NewSession', {})
        self.ask('WebDriver:SetTimeouts', {'script': int(PATIENCE * 1000)})

    def _take(self) -> Any:
        length = b''
        while not length.endswith(b':'):
            sign = self.file.read(1)
            if not sign:
                raise AssertionError('Firefox has ended')
            length += sign
        return json.loads(self.file.read(int(length[:-1])))

    def ask(self, name: str, words: Any) -> Any:
        """Has the browser do something, and gives its answer."""
        self.number += 1
        asked = json.dumps([0, self.number, name, words]).encode()
        self.stream.sendall(b'%d:%s' % (len(asked), asked))
        _, _, fault, answer = self._take()
        if fault:
            raise AssertionError(fault['message'])
        return answer

    def open(self, path: str) -> None:
        self.ask('WebDriver:Navigate', {'url': 'file://' + path})

    def run(self, script: str, *words: Any) -> Any:
        """What a script gives by its last argument, a function."""
        return self.ask('WebDriver:ExecuteAsyncScript', {'script': script, 'args': list(words), 'sandbox': None})[
            'value'
        ]

    def find(self, css: str) -> str:
        found = self.ask('WebDriver:FindElement', {'using': 'css selector', 'value': css})['value']
        return str(next(iter(found.values())))

    def click(self, css: str) -> None:
        self.ask('WebDriver:ElementClick', {'id': self.find(css)})

    def type(self, css: str, text: str) -> None:
        """Types in a field, or chooses a file in one."""
        self.ask('WebDriver:ElementSendKeys', {'id': self.find(css), 'text': text})

    def wait(self, condition: str) -> None:
        """Waits until an expression is true."""
        if not self.run(WAIT, condition):
            raise AssertionError('%s is not so within %s seconds' % (condition, PATIENCE))


@contextmanager
def firefox(downloads: str = '/dev/null') -> Iterator[Firefox]:
    """Begins a browser with a profile of its own, which saves into a folder, and ends it."""
    assert COMMAND is not None
    profile = tempfile.mkdtemp(prefix='dgnkit-firefox-')
    with open(os.path.join(profile, 'user.js'), 'w', encoding='ascii') as file:
        for name, value in (*SETTINGS, ('browser.download.dir', json.dumps(downloads))):
            file.write('user_pref("%s", %s);\n' % (name, value))
    words = [COMMAND, '--headless', '--marionette', '--no-remote', '--profile', profile]
    browser = subprocess.Popen(words, stdout=subprocess.DEVNULL, stderr=subprocess.DEVNULL)
    try:
        with socket.create_connection(('127.0.0.1', _port(profile)), PATIENCE) as stream:
            yield Firefox(stream)
    finally:
        browser.terminate()
        browser.wait()
        shutil.rmtree(profile, ignore_errors=True)


def _port(profile: str) -> int:
    """The port on which the browser listens, which it writes down."""
    path, until = os.path.join(profile, 'MarionetteActivePort'), time.monotonic() + PATIENCE
    while time.monotonic() < until:
        if os.path.exists(path):
            with open(path, encoding='ascii') as file:
                text = file.read().strip()
            if text:
                return int(text)
        time.sleep(0.1)
    raise AssertionError('Firefox does not listen')
