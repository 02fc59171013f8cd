"""Files, words and programs that mean no good: each is one line and the status 2, in bounded time."""

import contextlib
import json
import os
import time
import unittest
from functools import partial
from typing import Callable, Iterator, List, Tuple, Union
from unittest import mock

import samples
from dgnkit.drawing.damage import zero_runs
from dgnkit.explain.comparing import differences
from dgnkit.explain.matching import matched
from dgnkit.format.element import Element
from samples import drawings, plan

DEPTH = 3200  # a total of one word holds 3,276 headers, one in the other


def nest(is_orphan: bool) -> bytes:
    """Chains one in the other, and in the innermost a line."""
    body = plan.line(1, (0, 0), (100, 50), True)
    for depth in range(DEPTH - 1, -1, -1):
        header = drawings.element(12, 12, 40, member=depth > 0 or is_orphan)
        body = drawings.with_total(header, (40 + len(body) - 38) // 2) + body
    return drawings.drawing(body)


@contextlib.contextmanager
def slow(*names: str) -> Iterator[None]:
    """Lets what these properties of an element are take its time."""
    with contextlib.ExitStack() as stack:
        for name in names:
            getter = vars(Element)[name].fget
            stack.enter_context(mock.patch.object(Element, name, property(partial(slowly, getter))))
        yield


def slowly(getter: Callable[[Element], object], element: Element) -> object:
    time.sleep(0.005)
    return getter(element)


class Hostile(samples.WithProgram):
    def one_line(self, words: List[object], word: str) -> None:
        status, out, err = self.kit(*words)
        self.assertEqual((status, err.count('\n')), (2, 1), err)
        self.assertIn(word, err)
        self.assertLess(len(err), 800)

    def took(self, start: float, most: float) -> None:
        self.assertLess(time.monotonic() - start, most)

    def test_numbers_of_thousands_of_digits(self) -> None:
        plan_file, many = self.example('plan.dgn'), '9' * 5000
        self.one_line(['find', plan_file, '--number', many], "isn't a valid element number")
        self.one_line(['find', plan_file, '--near', many + ',1', '--within', 1], "isn't a number")
        self.one_line(['find', plan_file, '--size', many], "isn't a size")
        self.one_line(['place', plan_file, 'VLV', self.put('p.csv', many + ',1\n'), '--number', 6], "isn't a number")
        self.one_line(['place', plan_file, 'VLV', self.path('p.csv'), '--number', many], "isn't a valid element number")
        self.one_line(['each', self.put('s', ''), plan_file, '--into', self.path('o'), '--jobs', many], 'jobs')
        status, out, _ = self.kit('why', plan_file, self.put('s', 'move 1 %s 0\n' % many))
        self.assertEqual((status, 'is out of range' in out), (1, True))

    def test_names_that_no_file_can_have(self) -> None:
        plan_file, long = self.example('plan.dgn'), self.path('a' * 300)
        script = self.put('s', 'color 5 3\n')
        self.one_line(['info', long], 'file name too long')
        self.one_line(['geojson', plan_file, '-o', long], 'file name too long')
        self.one_line(['run', plan_file, script, long], 'file name too long')
        self.one_line(['each', script, plan_file, '--into', long], 'file name too long')
        self.one_line(['each', script, plan_file, '--into', script], 'file exists')
        self.one_line(
            ['find', plan_file, '--number', 5, '--script', 'fit {n}', '-o', self.path('none/s')], 'no such file'
        )
        for word in ('info', 'health', 'geojson'):
            self.one_line([word, 'a\0b'], 'null')

    def test_patterns_that_do_not_compile(self) -> None:
        plan_file = self.example('plan.dgn')
        for pattern in ('a{1,99999999999}', '(' * 5000, '(?P<n', '[z-a]'):
            self.one_line(['find', plan_file, '--pattern', pattern], "isn't a regular expression")

    def test_a_pattern_that_never_ends_is_stopped(self) -> None:
        path = self.put('in.dgn', drawings.drawing(plan.text(3, (0, 0), b'a' * 40 + b'!')))
        with mock.patch('dgnkit.waiting.PATIENCE', 0.5):
            start = time.monotonic()
            self.one_line(['find', path, '--pattern', '(a+)+$'], 'was stopped')
            self.one_line(['retext', path, self.path('p'), '(a+)+$', 'b', '--regex'], 'was stopped')
            self.took(start, 30)

    def test_a_search_of_many_texts_is_not_stopped(self) -> None:
        # each text is searched within the time that it may take, and all of them take much longer
        texts = [plan.text(3, (it, 0), b'a' * 18 + b'!') for it in range(40)]
        path = self.put('in.dgn', drawings.drawing(*texts))
        with mock.patch('dgnkit.waiting.PATIENCE', 0.3):
            start = time.monotonic()
            self.said('find', path, '--pattern', '(a+)+$')
            self.said('retext', path, self.path('p'), '(a+)+$', 'b', '--regex')
            self.assertGreater(time.monotonic() - start, 0.6)

    def test_only_an_expression_has_a_limit(self) -> None:
        path = self.put('in.dgn', drawings.drawing(*[plan.text(3, (it, 0), b'ab') for it in range(40)]))
        with mock.patch('dgnkit.waiting.PATIENCE', 0.05), slow('text', 'colour', 'height_multiplier'):
            for words in (['--size', '>1'], ['--color', '0'], ['--text', 'ab'], ['--pattern', 'a', '--size', '>1']):
                self.assertIn('ab', self.said('find', path, *words))
            self.said('retext', path, self.path('p'), 'ab', 'cd')

    def test_a_span_of_all_numbers_there_may_be_is_no_list_of_them(self) -> None:
        said = self.said('find', self.example('plan.dgn'), '--number', '5-16777215', '--numbers')
        self.assertEqual(said.split(), ['5', '6', '7', '8', '9', '10', '11'])

    def test_tables_and_geojson(self) -> None:
        plan_file = self.example('plan.dgn')
        feature = '{"features": [{"properties": {"number": %s}}]}'
        wrong: List[Tuple[Union[str, bytes], str]] = [
            (feature % 'NaN', "isn't a GeoJSON"),
            (feature % '1e400', "isn't an element number"),
            (feature % '1e30', "isn't an element number"),
            (feature % '4.5', "isn't an element number"),
            ('[' * 100000, "isn't a GeoJSON"),
            ('{"a":' * 100000, "isn't a GeoJSON"),
            ('number\n\u00b2\n', "isn't an element number"),
            ('number\n5,7\n', 'row 2: it has 2 fields'),
            (b'number\n\xff\n', "isn't UTF-8"),
        ]
        for content, word in wrong:
            self.one_line(['find', plan_file, '--numbers', self.put('n', content), '--csv'], word)
        for text in (feature % 5, 'number\n5\n', '5\n', '\r\n5\r\n'):
            self.said('find', plan_file, '--numbers', self.put('n', b'\xef\xbb\xbf' + text.encode('ascii')))

    def test_no_command_writes_over_what_it_reads(self) -> None:
        plan_file, numbers = self.example('plan.dgn'), self.put('n', '5\n')
        places, script, word = (
            self.put('p.csv', '1,2\n'),
            self.put('s', 'color 5 3\n'),
            "is an input, and isn't overwritten",
        )
        os.link(numbers, self.path('other-name'))
        before = {it.name: it.read_bytes() for it in self.folder.iterdir()}
        self.one_line(['find', plan_file, '--numbers', numbers, '--script', 'delete {n}', '-o', numbers], word)
        self.one_line(
            ['find', plan_file, '--numbers', numbers, '--script', 'delete {n}', '-o', self.path('other-name')], word
        )
        self.one_line(['place', plan_file, 'VLV', places, '-o', places, '--number', 6], word)
        self.one_line(['draw', plan_file, places, '--as', 'shape', '-o', places], 'at least 3')
        self.one_line(['lock', plan_file, numbers, '--numbers', numbers], word)
        self.one_line(['script', '--numbers', numbers, 'color {n} 3', '-o', numbers], word)
        self.one_line(['geojson', plan_file, '-o', plan_file], word)
        self.one_line(['page', plan_file, '--script', script, '-o', script], 'is an input')
        self.one_line(['run', plan_file, script, script], word)
        self.one_line(['run', plan_file, script, plan_file], word)
        self.assertEqual({it.name: it.read_bytes() for it in self.folder.iterdir()}, before)

    def test_a_drawing_that_is_too_long_is_not_read(self) -> None:
        path = self.put('long.dgn', (samples.EXAMPLES / 'valve.dgn').read_bytes())
        os.truncate(path, 1 << 40)
        start = time.monotonic()
        for words in (['info', path], ['health', path], ['find', path], ['page', path, '-o', self.path('o.html')]):
            self.one_line(list(words), 'has more than 67108864 bytes')
        self.took(start, 20)

    def test_headers_one_in_the_other_down_to_the_greatest_depth(self) -> None:
        start = time.monotonic()
        for is_orphan in (False, True):
            path, script = self.put('in.dgn', nest(is_orphan)), self.put('s', 'color 2 5\n')
            self.assertEqual(self.kit('health', path)[0], int(is_orphan))
            self.assertEqual(self.kit('why', path, script)[0], int(is_orphan))
            self.assertIn('%d broken tree' % is_orphan, self.said('mend', path, '--dry-run'))
            near = self.said('find', path, '--near', '0,0', '--within', '5', '--numbers')
            self.assertEqual(len(near.split()), DEPTH + 1)
            self.said('geojson', path)
        self.took(start, 60)

    def test_runs_of_zeros_are_found_in_one_go(self) -> None:
        data = (bytes(200) + b'\1' * 10) * 40000
        start = time.monotonic()
        self.assertEqual(len(list(zero_runs(data, len(data)))), 40000)
        self.took(start, 10)
        self.assertEqual(list(zero_runs(b'\1' + bytes(300), 301)), [(1, 301)])
        self.assertEqual(list(zero_runs(bytes(127) + b'\1' + bytes(200), 260)), [(128, 260)])

    def test_signs_that_steer_a_terminal(self) -> None:
        steering = '\x1b[2J'
        units = samples.with_units((samples.EXAMPLES / 'valve.dgn').read_bytes(), 10, 10, ('\x1b', 'c'), (0, 0, 0))
        path = self.put('a' + steering + '.dgn', units)
        script = self.put('s', 'color 1 3\ncolor 9 9\n')
        commands: List[List[object]] = [
            ['info', path],
            ['health', '-v', path],
            ['find', path, '--csv'],
            ['diff', path, path],
        ]
        commands += [['why', path, script], ['run', path, script, self.path('o')], ['info', path + 'none']]
        commands += [
            ['find', path, '--level', 10, '--script', 'color {n} 3', '-o', self.path('t')],
            ['mend', path, '--dry-run'],
        ]
        commands += [['each', script, path, '--into', self.path('into')], ['merge', path, path, '--dry-run']]
        for words in commands:
            _, out, err = self.kit(*words)
            self.assertNotIn('\x1b', out + err, words)


class Comparing(samples.WithProgram):
    def test_two_texts_among_thousands_of_changed_elements(self) -> None:
        before = [plan.line(1, (it, 0), (it, 9)) for it in range(1200)]
        after = [plan.line(1, (it, 5000), (it, 5009)) for it in range(1200)]
        after.insert(700, plan.text(3, (1, 1), b'new'))
        after.insert(300, plan.text(3, (1, 1), b'another'))
        first = samples.Drawing(self.put('a.dgn', drawings.drawing(*before)), self.program)
        second = samples.Drawing(self.put('b.dgn', drawings.drawing(*after)), self.program)
        found = differences(first, second)
        self.assertEqual([(it.before, it.after) for it in found if it.before is None], [(None, 301), (None, 702)])
        self.assertEqual(len(found), 1200 + 2)

    def test_a_shortest_way(self) -> None:
        found = matched('abcabba', 'cbabac') or []
        self.assertEqual(len(found), 4)  # as many as the longest common row has
        self.assertTrue(all('abcabba'[a] == 'cbabac'[b] for a, b in found))
        self.assertTrue(all(a < c and b < d for (a, b), (c, d) in zip(found, found[1:])))
        self.assertEqual(matched('', 'ab'), [])
        self.assertEqual(matched('ab', 'ab'), [(0, 0), (1, 1)])
        self.assertIsNone(matched('a' * 50, 'b' * 50, most=20))


class Liars(samples.WithProgram):
    """Programs that say what can't be."""

    def stub(self, text: str) -> str:
        path = self.put('stub', '#!/bin/sh\ncat > /dev/null\n' + text)
        os.chmod(path, 0o755)
        return path

    def commands(self) -> Iterator[Tuple[object, ...]]:
        valve = self.example('valve.dgn')
        yield 'info', valve
        yield 'health', valve
        yield 'find', valve, '--level', 10
        yield 'mend', valve, '--dry-run'
        yield 'geojson', valve
        yield 'diff', valve, self.put('other.dgn', drawings.drawing(drawings.line()))

    def test_one_that_refuses_all(self) -> None:
        stub = self.stub('echo refused few; exit 1\n')
        with mock.patch.dict(os.environ, {'DGNEDIT': stub}):
            for words in self.commands():
                status, out, err = self.kit(*words)
                self.assertEqual((status, out, err.count('\n')), (2, '', 1), words)

    def test_one_that_counts_what_is_not_there(self) -> None:
        with mock.patch.dict(os.environ, {'DGNEDIT': self.stub('echo elements 2\n')}):
            status, out, err = self.kit('info', self.example('valve.dgn'))
            self.assertEqual((status, out, err.count('\n')), (2, '', 1))
            self.assertIn('dgnedit found 2 elements', err)
            self.assertIn('where there are 5', err)

    def test_one_that_writes_nothing(self) -> None:
        valve, script = self.example('valve.dgn'), self.put('s', 'color 1 3\n')
        with mock.patch.dict(os.environ, {'DGNEDIT': self.stub('echo ok\n')}):
            for words in (['run', valve, script, self.path('o.dgn')], ['why', valve, script, self.path('o.dgn')]):
                status, _, err = self.kit(*words)
                self.assertEqual((status, 'there is no' in err), (2, True))
            status, out, _ = self.kit('each', script, valve, '--into', self.path('into'), '--json')
            self.assertEqual((status, json.loads(out)[0]['out']), (1, ''))
            self.assertEqual([it.name for it in (self.folder / 'into').iterdir()], ['.dgnkit-journal.jsonl'])

    def test_a_drawing_that_is_saved_meanwhile(self) -> None:
        valve = self.example('valve.dgn')
        longer = self.put('longer.dgn', drawings.drawing(*[drawings.line()] * 9))
        # the first listing is that of the drawing as it was, and then another one stands there
        stub = self.stub('')
        text = '#!/bin/sh\n%s "$@"\nstatus=$?\ncp %s %s\nexit $status\n' % (samples.PROGRAM, longer, valve)
        (self.folder / 'stub').write_text(text)
        with mock.patch.dict(os.environ, {'DGNEDIT': stub}):
            for word in ('info', 'health', 'find', 'geojson'):
                self.example('valve.dgn')
                status, _, err = self.kit(word, valve)
                self.assertEqual((status, err.count('\n')), (2, 1), err)
                self.assertIn('changed while it was being read', err)


if __name__ == '__main__':
    unittest.main()
