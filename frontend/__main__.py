"""Starts the front end, as ./cardgrade does: python3 -I -S frontend/__main__.py ARGUMENTS.

Any Python 3 can read this file, so that one that is too old for the others ends with a status of its own.
"""
import os
import sys

if sys.version_info < (3, 9):
    os._exit(13)
sys.path.insert(0, os.path.dirname(os.path.dirname(os.path.abspath(__file__))))

from frontend.main import start  # noqa: E402

start(sys.argv[1:])
