# SPDX-License-Identifier: Apache-2.0
"""Tests of the parts of bench/measure that start no process."""

import csv
import hashlib
import pathlib
import tempfile
import unittest
from collections import Counter

import shapes
from measuring import processors, resolvers, results, rounds, workloads
from measuring.programs import Program
from measuring.rounds import Different, Rounds, Run
from measuring.summary import Spread, percentile, ratios, spread

# The first 16 digits of the SHA-256 of each shape with seed 0 and scale 0.001.
DIGESTS = {
    'zipfian': '10e886043a6c2571',
    'wide': '52ceb6fc9e88649c',
    'longkeys': 'debcd7987e79965b',
    'growth-1000': '464f38d71aedb281',
    'growth-10000': '38915837ef2343c0',
    'growth-100000': '215468c37d7c1562',
    'growth-1000000': '6d6160d3115de132',
}


def file_of(shape: str, seed: int = 0, scale: float = 0.001) -> bytes:
    """Returns the bytes of a small file."""
    return b''.join(shapes.frames(shape, seed, scale))


class Shapes(unittest.TestCase):
    def test_bytes_depend_on_shape_seed_and_scale_alone(self) -> None:
        for shape, digest in DIGESTS.items():
            self.assertEqual(hashlib.sha256(file_of(shape)).hexdigest()[:16], digest, shape)
            self.assertNotEqual(file_of(shape), file_of(shape, seed=1), shape)

    def test_every_shape_has_a_digest(self) -> None:
        self.assertEqual(set(shapes.SHAPES), set(DIGESTS))

    def test_a_batch_is_encoded_as_its_frame(self) -> None:
        transaction = shapes.encode_transaction(
            7, [shapes.encode_single(b'a')], [shapes.encode_range(b'b', b'c')]
        )
        self.assertEqual(
            shapes.encode_batch(-1, 9, -1, [transaction]).hex(' '),
            ' '.join(
                (
                    '00 00 00 35', '01', 'ff ff ff ff ff ff ff ff', '00 00 00 00 00 00 00 09',
                    'ff ff ff ff ff ff ff ff', '00 01', '00 00 00 00 00 00 00 07', '00', '00 01',
                    '00 01', '00 01 61', '00 02 61 00', '00 01 62', '00 01 63',
                )
            ),
        )

    def test_a_batch_beyond_the_limits_is_refused(self) -> None:
        for transactions in ([bytes(shapes.MAX_FRAME)], [b''] * (shapes.MAX_TRANSACTIONS + 1)):
            with self.assertRaises(ValueError):
                shapes.encode_batch(-1, 0, -1, transactions)

    def test_a_chain_has_received_the_replies_of_eight_batches_before(self) -> None:
        frames = list(shapes.encode_chain((version, []) for version in range(10, 20)))
        numbers = [shapes.HEADER.unpack(frame)[2:5] for frame in frames]
        self.assertEqual(numbers[:2], [(-1, 10, -1), (10, 11, -1)])
        self.assertEqual(numbers[8:], [(17, 18, 10), (18, 19, 11)])


class Workloads(unittest.TestCase):
    def test_batches_and_transactions_are_counted(self) -> None:
        with tempfile.TemporaryDirectory() as folder:
            file = pathlib.Path(folder) / 'frames'
            file.write_bytes(
                b''.join(shapes.encode_chain(iter([(1, [b'']), (2, []), (3, [b'', b''])])))
            )
            self.assertEqual(workloads.count(file), (3, 3))

    def test_names_differ_by_size_seed_and_scale(self) -> None:
        names = {
            workloads.file_name(workload, seed, scale)
            for workload in (*workloads.FULL, *workloads.QUICK)
            for seed in (0, 1)
            for scale in (1, 0.1)
        }
        self.assertEqual(len(names), 4 * (len(workloads.FULL) + len(workloads.QUICK)))

    def test_every_shape_is_measured(self) -> None:
        self.assertEqual(
            {workload.shape for workload in workloads.FULL if workload.size is None},
            set(shapes.SHAPES),
        )


class Summary(unittest.TestCase):
    def test_percentiles(self) -> None:
        for values, percent, expected in (
            ([5], 50, 5), ([5], 99, 5), ([2, 1], 50, 1), ([3, 1, 2], 50, 2),
            (range(1, 101), 99, 99), (range(1, 102), 99, 100), (range(1, 11), 99, 10),
            (range(1, 11), 50, 5),
        ):
            self.assertEqual(percentile(values, percent), expected, (values, percent))

    def test_spread(self) -> None:
        self.assertEqual(spread([4, 1, 2]), Spread(2, 1, 4))
        self.assertEqual(Spread(2, 1, 4).inverted(8), Spread(4, 2, 8))

    def test_ratios_are_those_of_each_round(self) -> None:
        self.assertEqual(ratios([1, 4, 9], [2, 2, 3]), Spread(2, 0.5, 3))


class RoundsOfPrograms(unittest.TestCase):
    def test_the_order_changes_by_round_and_repeats_by_run(self) -> None:
        names = ['replay', 'art', 'btree', 'bplus']
        orders = [rounds.order_of(names, number) for number in range(10)]
        self.assertEqual(orders, [rounds.order_of(names, number) for number in range(10)])
        self.assertGreater(len({tuple(order) for order in orders}), 5)
        self.assertTrue(all(sorted(order) == sorted(names) for order in orders))

    def test_a_difference_names_workload_program_and_line(self) -> None:
        for right, line in (('0 1 committed\n0 2 conflict\n', 2), ('0 1 committed\n', 2), ('', 1)):
            with tempfile.TemporaryDirectory() as name:
                folder = pathlib.Path(name)
                (folder / 'replay.txt').write_text('0 1 committed\n0 2 committed\n')
                (folder / 'art.txt').write_text(right)
                with self.assertRaisesRegex(
                    Different,
                    f'wide: art and replay print different verdicts, first in line {line} ',
                ):
                    rounds.compare('wide', 'replay', 'art', folder)

    def test_equal_outputs_pass(self) -> None:
        with tempfile.TemporaryDirectory() as name:
            folder = pathlib.Path(name)
            for program in ('replay', 'art'):
                (folder / f'{program}.txt').write_text('0 1 committed\n')
            rounds.compare('wide', 'replay', 'art', folder)

    def test_only_replay_has_a_limit(self) -> None:
        file = pathlib.Path('frames')
        for name, command in (
            ('replay', ['p', '--limit', '5', 'frames']), ('art', ['p', 'frames'])
        ):
            self.assertEqual(Program(name, pathlib.Path('p'), ()).command(5, file), command)


class Results(unittest.TestCase):
    def test_a_file_has_a_line_per_program(self) -> None:
        measured = Rounds(
            {
                'replay': [Run(1.0, 4.0, 10.0, 20.0), Run(3.0, 6.0, 30.0, 40.0)],
                'art': [Run(2.0, 8.0), Run(2.0, 8.0)],
            },
            77,
        )
        rows = results.rows_of('wide', 80, (2, 600), measured)
        with tempfile.TemporaryDirectory() as folder:
            file = pathlib.Path(folder) / 'new' / 'results.csv'
            results.write(file, ['machine: none', 'date: none'], rows)
            lines = file.read_text().splitlines()
        self.assertEqual(lines[:2], ['# machine: none', '# date: none'])
        replay, art = csv.DictReader(lines[2:])
        self.assertEqual(
            [
                replay[name]
                for name in (
                    'workload', 'batches', 'transactions', 'ranges', 'boundaries', 'rounds'
                )
            ],
            ['wide', '2', '600', '80', '77', '2'],
        )
        self.assertEqual(
            [replay[f'transactions_per_second_{part}'] for part in ('median', 'least', 'greatest')],
            ['300', '200', '600'],
        )
        self.assertEqual(
            [replay[f'p99_us_{part}'] for part in ('median', 'least', 'greatest')],
            ['30.0', '20.0', '40.0'],
        )
        self.assertEqual(
            [art[f'ratio_{part}'] for part in ('median', 'least', 'greatest')],
            ['1.00', '0.50', '1.50'],
        )
        self.assertEqual(art['p50_us_median'], '')

    def test_a_table_has_a_column_per_measure(self) -> None:
        rows = results.rows_of(
            'wide', 80, (2, 600), Rounds({'replay': [Run(1.0, 4.0), Run(3.0, 6.0)]})
        )
        self.assertEqual(
            results.table(rows).splitlines(),
            [
                (
                    '        seconds              ratio             transactions_per_second  '
                    'p50_us  p99_us  peak_mib'
                ),
                (
                    'replay  2.000 (1.000-3.000)  1.00 (1.00-1.00)  300 '
                    '(200-600)                            5.0 (4.0-6.0)'
                ),
            ],
        )

    def test_the_machine_is_read(self) -> None:
        self.assertEqual(
            results.processor(
                'processor : 0\nmodel name\t: Some CPU @ 2.5GHz\nmodel name\t: Other\n'
            ),
            'Some CPU @ 2.5GHz',
        )
        self.assertEqual(results.memory_gib('MemTotal:       25165824 kB\nMemFree: 1 kB\n'), 24)


class SeveralResolvers(unittest.TestCase):
    def test_the_least_verdict_counts(self) -> None:
        for lines, expected in (
            (('0 1 committed tooold', '0 1 conflict committed'), '0 1 conflict tooold'),
            (('0 1 tooold', '0 1 conflict', '0 1 committed'), '0 1 conflict'),
            (('2 7 empty', '2 7 empty'), '2 7 empty'),
        ):
            self.assertEqual(resolvers.combined(lines), expected)

    def test_lines_of_other_batches_differ(self) -> None:
        for other in ('0 2 committed', '1 1 committed', '0 1 committed committed'):
            with self.assertRaises(Different):
                resolvers.combined(('0 1 committed', other))

    def test_verdicts_are_counted(self) -> None:
        self.assertEqual(
            resolvers.verdicts(['0 1 committed conflict', '0 2 empty', '0 3 conflict']),
            Counter({'conflict': 2, 'committed': 1, 'empty': 1}),
        )

    def test_a_file_has_a_line_per_number_of_resolvers(self) -> None:
        art = Program('art', pathlib.Path('art'), ())
        several = resolvers.runs_of(pathlib.Path('replay'), 2)
        self.assertEqual(
            several[1].command(5, pathlib.Path('f')),
            ['replay', '--resolvers', '2', '--limit', '5', 'f'],
        )
        runs = {
            'art': [Run(1.0, 4.0), Run(2.0, 4.0)],
            'replay-1': [Run(2.0, 4.0), Run(2.0, 4.0)],
            'replay-2': [Run(1.0, 5.0), Run(1.0, 6.0)],
        }
        found = {
            'art': Counter(conflict=3, committed=7),
            'replay-1': Counter(conflict=3, committed=7),
            'replay-2': Counter(conflict=5, committed=5),
        }
        rows = resolvers.rows_of(
            workloads.FULL[1],
            (2, 10),
            {'art': art, **{each.name: each for each in several}},
            runs,
            found,
        )
        with tempfile.TemporaryDirectory() as folder:
            file = pathlib.Path(folder) / 'results.csv'
            resolvers.write(file, ['machine: none'], rows)
            lines = file.read_text().splitlines()
        cells = list(csv.DictReader(line for line in lines if not line.startswith('#')))
        self.assertEqual(
            [
                (
                    row['resolvers'],
                    row['ratio_to_art_median'],
                    row['extra_conflicts'],
                    row['peak_mib'],
                )
                for row in cells
            ],
            [('', '1.00', '0', '4.0'), ('1', '1.50', '0', '4.0'), ('2', '0.75', '2', '6.0')],
        )
        self.assertEqual([row['ratio_to_one_median'] for row in cells], ['0.75', '1.00', '0.50'])
        self.assertEqual(
            resolvers.table(rows).splitlines()[-1],
            'replay-2  1.000 (1.000-1.000)  0.75 (0.50-1.00)  5          2',
        )


class Processors(unittest.TestCase):
    def test_each_core_is_used_once_before_any_is_used_twice(self) -> None:
        beside = {0: '0-1', 1: '0-1', 2: '2-3', 3: '2-3'}
        apart = {0: '0,2', 1: '1,3', 2: '0,2', 3: '1,3'}
        for cores, count, expected in (
            (beside, 1, [0]), (beside, 2, [0, 2]), (beside, 3, [0, 1, 2]),
            (beside, 4, [0, 1, 2, 3]), (apart, 2, [0, 1]), (apart, 3, [0, 1, 2]),
            ({4: '4', 7: '7'}, 2, [4, 7]), ({3: '3', 1: '1'}, 1, [1]),
        ):
            self.assertEqual(processors.chosen(cores, count), expected, (cores, count))


if __name__ == '__main__':
    unittest.main()
