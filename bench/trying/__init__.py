"""Tries the program on cases that are made from numbers, and compares each run with what it has to
be."""
