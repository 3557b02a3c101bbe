"""Compares the definitions with their worked examples, and runs no program: `python3 -m trying` in
this folder's own."""

from . import ask_examples, examples, sketch_examples, sketch_run_examples, store_examples

for of in (examples, sketch_examples, sketch_run_examples, store_examples, ask_examples):
    of.hold()
