"""Draws cases by a seed: the case of a number is the same whatever was drawn before it."""

from collections.abc import Callable
from dataclasses import replace
from random import Random

from .case import Case
from .commands import draw_commands, draw_files, draw_workload
from .frames_drawn import draw_decoded
from .json_drawn import draw_encoded, draw_mistaken
from .replays import (
    draw_check,
    draw_fault,
    draw_full_gate,
    draw_full_shares,
    draw_history,
    draw_many,
    draw_one,
    draw_stop,
)
from .shards_drawn import draw_shards

Draw = Callable[[Random], Case]

# How often each feature is drawn.
FEATURES: tuple[tuple[Draw, int], ...] = (
    (draw_one, 20),
    (draw_many, 20),
    (draw_history, 8),
    (draw_stop, 8),
    (draw_full_gate, 1),
    (draw_full_shares, 1),
    (draw_fault, 12),
    (draw_check, 12),
    (draw_files, 3),
    (draw_commands, 6),
    (draw_workload, 2),
    (draw_encoded, 6),
    (draw_mistaken, 10),
    (draw_decoded, 8),
    (draw_shards, 6),
)


def drawn_case(seed: int, number: int) -> Case:
    """Returns the case of this number. It is named by it."""
    chance = Random(f"{seed} {number}")
    draw = chance.choices([draw for draw, _ in FEATURES], [weight for _, weight in FEATURES])[0]
    return replace(draw(chance), name=str(number))
