# SPDX-License-Identifier: Apache-2.0
"""Builds `replay` and the baselines, runs them on the same files, and summarizes the rounds."""

import pathlib

TOP = pathlib.Path(__file__).resolve().parents[2]
OUT = TOP / 'out' / 'bench'
