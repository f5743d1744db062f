# SPDX-License-Identifier: Apache-2.0
"""The processors on which the programs run."""

import os
import pathlib
from collections.abc import Mapping


def chosen(cores: Mapping[int, str], count: int) -> list[int]:
    """Returns that many of the processors.

    These are the first of each core, and further ones only if there are too few cores.
    """
    order: list[tuple[int, int]] = []
    seen: dict[str, int] = {}
    for processor, core in sorted(cores.items()):
        order.append((seen.get(core, 0), processor))
        seen[core] = seen.get(core, 0) + 1
    return sorted(processor for _, processor in sorted(order)[:count])


def cores() -> dict[int, str]:
    """Returns the core of each processor that this process may use.

    A core is named by the processors that share it.
    """
    folder = pathlib.Path('/sys/devices/system/cpu')
    return {
        number: (folder / f'cpu{number}' / 'topology' / 'thread_siblings_list').read_text().strip()
        for number in os.sched_getaffinity(0)
    }


def restrict(count: int) -> list[int]:
    """Restricts this process, and all that it starts from now on, to that many processors.

    Returns them.
    """
    found = chosen(cores(), count)
    os.sched_setaffinity(0, found)
    return found
