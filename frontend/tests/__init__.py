"""Tests of the front end's parts: python3 -I -B frontend/tests/run.py."""
