"""Turns proved Rattle sources into plain Rust.

Clauses, ghosts and models are removed, and the rest stays as it is written.
"""
