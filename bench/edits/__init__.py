"""Edits of real texts, as a visual editor's user makes them, and what becomes of each."""
