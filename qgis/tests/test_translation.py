"""The plugin in another language: each of its texts is collected for the translator, and said as this has it."""

import json
import os
import re
import shutil
import subprocess
import sys
import tempfile
import unittest
import xml.etree.ElementTree as ElementTree
from pathlib import Path
from typing import Any, Dict

import plugin

TOOL = plugin.TOP / 'tools' / 'qgis_texts'
LRELEASE = shutil.which('lrelease') or shutil.which('lrelease-qt5')
TEXTS = Path(__file__).resolve().parent / 'texts.py'
LEFT = r'UTF-8|Latin-1|<b>[A-Z_]+</b>|</?b>'  # what is called so in each language


def rest_of(text: str) -> str:
    """What of a text isn't translated."""
    before = ''
    while before != text:
        before, text = text, re.sub('«[^«»]*»', '', text)
    return re.sub(LEFT, '', text)


@unittest.skipUnless(LRELEASE, 'lrelease of Qt is not installed')
class Translated(unittest.TestCase):
    """Each text between two signs stands for another language."""

    folder: Path

    @classmethod
    def setUpClass(cls) -> None:
        cls.folder = Path(tempfile.mkdtemp(dir=plugin.HOME))
        shutil.copytree(plugin.TOP / 'qgis' / 'dgnedit', cls.folder / 'dgnedit')
        shutil.copytree(plugin.TOP / 'dgnkit' / 'src' / 'dgnkit', cls.folder / 'dgnedit' / 'lib' / 'dgnkit')
        texts = cls.folder / 'dgnedit' / 'i18n' / 'dgnedit_de.ts'
        texts.parent.mkdir(exist_ok=True)
        subprocess.run([str(TOOL), str(texts)], check=True, stdout=subprocess.DEVNULL)
        tree = ElementTree.parse(texts)
        for message in tree.iter('message'):
            translation = message.find('translation')
            assert translation is not None
            translation.text = '«%s»' % message.findtext('source')
            translation.attrib.clear()
        tree.write(texts, encoding='utf-8')
        subprocess.run([str(LRELEASE), '-silent', str(texts)], check=True)

    def said(self, locale: str) -> Dict[str, Any]:
        """What the plugin says in a QGIS of this language, and what is left once it is taken out."""
        words = [sys.executable, str(TEXTS), str(self.folder), locale]
        ran = subprocess.run(words, stdout=subprocess.PIPE, stderr=subprocess.PIPE, env={**os.environ})
        self.assertEqual(ran.returncode, 0, ran.stderr.decode())
        made: Dict[str, Any] = json.loads(ran.stdout)
        return made

    def test_everything_is_said_in_the_language_of_qgis(self) -> None:
        found = self.said('de_AT')
        self.assertGreater(len(found['texts']), 400)
        self.assertEqual([it for it in found['texts'] if re.search('[A-Za-z]', rest_of(it))], [])
        self.assertEqual(found['after'], 'Move')

    def test_in_another_language_nothing_is_translated(self) -> None:
        self.assertEqual([it for it in self.said('fr_FR')['texts'] if '«' in it], [])

    def test_what_is_translated_stays(self) -> None:
        texts = self.folder / 'mine_de.ts'
        shutil.copyfile(self.folder / 'dgnedit' / 'i18n' / 'dgnedit_de.ts', texts)
        kept = texts.read_text(encoding='utf-8').replace('<source>Copy</source>', '<source>Copied</source>')
        texts.write_text(kept, encoding='utf-8')
        subprocess.run([str(TOOL), str(texts)], check=True, stdout=subprocess.DEVNULL)
        found = {it.findtext('source'): it.findtext('translation') for it in ElementTree.parse(texts).iter('message')}
        self.assertEqual((found['Move'], found['Copy'], 'Copied' in found), ('«Move»', '', False))


if __name__ == '__main__':
    unittest.main()
