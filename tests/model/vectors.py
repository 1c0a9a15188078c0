#!/usr/bin/env python3
"""Holds the model to the listings of another one: for each NAME.log of a folder its listing must be NAME.txt.

usage: vectors.py FOLDER"""
import pathlib
import sys

from node import listing

logs = sorted(pathlib.Path(sys.argv[1]).glob("*.log"))
wrong = [log.name for log in logs if listing(log.read_bytes()) != log.with_suffix(".txt").read_text()]
print(f"{len(logs)} listings, {len(wrong)} differ", *wrong)
sys.exit(1 if wrong or not logs else 0)
