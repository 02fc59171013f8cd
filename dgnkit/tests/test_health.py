"""`health`: each thing that can be wrong with a drawing, by itself."""

import json
import struct
import unittest

import samples
from samples import drawings, plan

VALVE = (samples.EXAMPLES / 'valve.dgn').read_bytes()


class Health(samples.WithProgram):
    def facts(self, file: bytes, status: int = 1) -> samples.Json:
        said = self.said('health', '--json', self.put('in.dgn', file), status=status)
        facts: samples.Json = json.loads(said)[0]
        return facts

    def line(self, file: bytes, status: int = 1) -> str:
        return self.said('health', self.put('in.dgn', file), status=status)

    def test_a_sound_drawing_is_ok(self) -> None:
        self.assertEqual(self.line(VALVE, 0).split('in.dgn')[1], ': ok (5 elements, 0 deleted, 0 locked)\n')

    def test_deleted_and_locked_are_counted_and_are_no_findings(self) -> None:
        file = drawings.drawing(drawings.deleted(drawings.line()), drawings.locked(drawings.line()))
        self.assertIn('ok (3 elements, 1 deleted, 1 locked)', self.line(file, 0))

    def test_a_fault_has_its_byte(self) -> None:
        facts = self.facts(VALVE[:1600])
        self.assertEqual((facts['opens'], facts['fault'], facts['byte']), (False, 'cut', 1588))
        self.assertIn('version 8', self.line(b'\xd0\xcf\x11\xe0' + bytes(600)))
        self.assertIn('cell library', self.line(b'\x08\x05\x17\x00' + bytes(600)))
        self.assertIn('empty', self.line(b''))

    def test_a_file_that_is_cut_between_two_elements_has_no_end_mark(self) -> None:
        self.assertIn('no end mark', self.line(VALVE[:1680]))

    def test_bytes_behind_the_end_mark_count_where_they_are_no_zeros(self) -> None:
        self.assertEqual(self.facts(VALVE + bytes(300), 0)['behind'], 0)
        self.assertEqual(self.facts(VALVE + bytes(10) + b'abc' + bytes(5))['behind'], 13)

    def test_512_zeroed_bytes(self) -> None:
        lines = b''.join(plan.line(5, (1, 2), (300, 26)) for _ in range(60))
        file = bytearray(drawings.drawing(lines))
        # from within element 10 to within a later one, whose last bytes then read as an element of 26 words
        start = 1536 + 9 * 52 + 6
        file[start : start + 512] = bytes(512)
        facts = self.facts(bytes(file))
        self.assertEqual([(it['byte'], it['bytes']) for it in facts['zeros']], [(start, 512)])
        self.assertEqual(facts['type_0'][0]['first'], 11)
        said = self.said('health', '-v', self.put('in.dgn', bytes(file)), status=1)
        self.assertIn('512 bytes at byte %d' % start, said)

    def test_zeros_within_a_long_string(self) -> None:
        points = [(it + 1, 70000 + it) for it in range(90)]
        file = bytearray(drawings.drawing(plan.path(4, 5, points)))
        self.assertEqual(self.facts(bytes(file), 0)['zeros'], [])
        file[1600:1800] = bytes(200)
        zeros = self.facts(bytes(file))['zeros']
        self.assertEqual([(it['first'], it['last']) for it in zeros], [(1, 1)])
        self.assertGreaterEqual(zeros[0]['bytes'], 200)

    def test_a_wrong_range_is_a_finding(self) -> None:
        facts = self.facts(drawings.DRAWINGS['a cell of a line whose range is too small'])
        self.assertEqual(facts['audit'], [{'element': 2, 'stored': [[0, 0], [10, 10]], 'hull': [[0, 0], [100, 50]]}])

    def test_an_orphan_and_why(self) -> None:
        facts = self.facts(drawings.DRAWINGS['a complex chain of the line 2, with bit C'])
        self.assertEqual((facts['broken_trees'], [it['element'] for it in facts['broken']]), (1, [1]))
        self.assertIn('orphan: marked as part of a group (bit C)', facts['broken'][0]['why'])
        self.assertIn('its own total is right: 1 member', facts['broken'][0]['why'])

    def test_a_loose_header_its_total_and_what_would_fit(self) -> None:
        facts = self.facts(drawings.DRAWINGS['a cell header whose total counts more than what is behind it'])
        self.assertEqual([it['element'] for it in facts['broken']], [1, 2])
        why = facts['broken'][0]['why']
        # 38 + 2 * 54 bytes are asked for; the cell has 92 bytes and its line 52
        self.assertIn(
            'its total of 54 means 146 bytes, but with the 1 element marked as members after it, it has 144', why
        )
        self.assertIn('53 (1 member) would match', why)

    def test_a_total_without_the_header_s_attribute_data(self) -> None:
        facts = self.facts(drawings.drawing(linked_cell(8, 53)))
        self.assertIn('57 would match, counting its own 8 bytes of attribute data', facts['broken'][0]['why'])

    def test_many_drawings_and_one_that_is_missing(self) -> None:
        status, out, err = self.kit('health', self.example('valve.dgn'), self.put('cut.dgn', VALVE[:1600]))
        self.assertEqual((status, out.count('\n'), err), (1, 2, ''))
        status, out, err = self.kit('health', self.path('none.dgn'), self.example('valve.dgn'))
        self.assertEqual((status, out.count('\n'), err.count('\n')), (2, 1, 1))

    def test_signs_that_steer_a_terminal_are_not_said(self) -> None:
        text = drawings.with_bit_c(plan.text(3, (1, 1), b'a\x1b[2Jb'))
        self.assertNotIn('\x1b', self.said('health', '-v', self.put('in.dgn', drawings.drawing(text)), status=1))


def linked_cell(own: int, total: int, *members: bytes) -> bytes:
    """A cell with so many bytes of attribute data of its own, this total, and members, or one line."""
    header = bytearray(plan.cell(20, 'ABC', (0, 0), (0, 0), (100, 50), b''))
    header += bytes([own // 2 - 1, 0x10]) + bytes(range(1, own - 1))
    struct.pack_into('<H', header, 2, (len(header) - 4) // 2)
    struct.pack_into('<H', header, 30, 30)
    struct.pack_into('<H', header, 32, drawings.LINKED)
    struct.pack_into('<H', header, 36, total)
    return bytes(header) + b''.join(members or [drawings.line(True)])


if __name__ == '__main__':
    unittest.main()
