#!/usr/bin/env python3
"""Runs the program rows on the texts in tests/rows/texts, and as tests/programs.py says. Prints each failure, and at the end 'N passed, 0 failed'."""
import pathlib
import sys

sys.path.insert(0, str(pathlib.Path(__file__).parent.parent))
import programs

rows = programs.Program("rows", "document-01")
rows.texts(programs.texts("rows"))
rows.streams()
programs.finish()
