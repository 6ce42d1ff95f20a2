#!/usr/bin/env python3
"""blocks.py SIZE FILE: the file to standard output, SIZE bytes at each write."""
import os
import sys

size = int(sys.argv[1])
with open(sys.argv[2], "rb") as file:
    while block := file.read(size):
        os.write(1, block)
