"""Tests of the tools, run by `python3 -m unittest` in the folder above."""
