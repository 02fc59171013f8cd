"""Numbers and names of the format: values of docs/FORMAT.md, and doubles worked out by hand."""

import unittest
from fractions import Fraction

import samples  # noqa: F401
from dgnkit.format.numbers import long_at, long_bytes, longs_at, points_of, range_numbers_at, vax_double_at, word_at
from dgnkit.format.radix50 import name_of
from dgnkit.format.units import METRES, rounded, shortest

TABLE = {
    0: ('00000000', '00800000'),
    100: ('00006400', '00806400'),
    -5: ('FFFFFBFF', 'FF7FFBFF'),
    65536: ('01000000', '01800000'),
    2147483647: ('FF7FFFFF', 'FFFFFFFF'),
    -2147483648: ('00800000', '00000000'),
}


class Numbers(unittest.TestCase):
    def test_the_table_of_longs_and_range_numbers(self) -> None:
        for value, (as_long, as_range) in TABLE.items():
            self.assertEqual(long_at(bytes.fromhex('00' + as_long), 1), value)
            self.assertEqual(long_bytes(value), bytes.fromhex(as_long))
            self.assertEqual(range_numbers_at(bytes.fromhex(as_range), 0, 1), [value])

    def test_longs_in_a_row_are_points(self) -> None:
        row = b''.join(long_bytes(it) for it in (1, -2, 3, -4, 5, -6))
        self.assertEqual(longs_at(row, 4, 2), [-2, 3])
        self.assertEqual(points_of(longs_at(row, 0, 6), 2), [(1, -2), (3, -4), (5, -6)])
        self.assertEqual(points_of(longs_at(row, 0, 6), 3), [(1, -2, 3), (-4, 5, -6)])

    def test_a_word_has_its_low_byte_first(self) -> None:
        self.assertEqual(word_at(bytes([9, 0x34, 0x12]), 1), 0x1234)

    def test_vax_doubles(self) -> None:
        # one: a half with the exponent 1; its first word is 0 10000001 0000000
        cases = {
            '8040000000000000': Fraction(1),
            '80C0000000000000': Fraction(-1),
            '0040000000000000': Fraction(1, 2),
            'C448000000000000': Fraction(100352),
            '0000000000000000': Fraction(0),
            '0080000000000000': Fraction(0),
            # 2**55 + 1 has all 56 bits of the fraction
            '005C000000000100': Fraction(2**55 + 1),
        }
        for spelled, value in cases.items():
            self.assertEqual(vax_double_at(bytes.fromhex(spelled), 0), value, spelled)

    def test_the_origin_of_a_seed_drawing(self) -> None:
        self.assertEqual(vax_double_at(samples.vax_double(-2147483600), 0), -2147483600)

    def test_names_of_cells(self) -> None:
        self.assertEqual(name_of(1683, 0), 'ABC')
        self.assertEqual(name_of(11414, 1 * 1600 + 30 * 40 + 39), 'GENA09')
        self.assertEqual(name_of(64000, 27 * 1600 + 28 * 40 + 29), '\\fa00$.%')

    def test_halves_are_rounded_up(self) -> None:
        self.assertEqual([rounded(Fraction(it, 2)) for it in (-3, -1, 1, 3, 4)], [-1, 0, 1, 2, 2])

    def test_numbers_are_said_without_needless_places(self) -> None:
        self.assertEqual([shortest(it) for it in (2.5, 3.0, -0.125, 100.0)], ['2.5', '3', '-0.125', '100'])

    def test_units_in_metres(self) -> None:
        self.assertEqual(METRES['ft'] * 10000, 3048)


if __name__ == '__main__':
    unittest.main()
