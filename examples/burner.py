"""Writes the model of docs/MANUAL.md, "A cabinet, from paper to page": python3 examples/burner.py OUT"""
import sys
from pathlib import Path

from solver import ALL, ANY, GREATEST, LEAST, VOTE, Model, write

SIGNS = [LEAST, GREATEST]  # of level 1 and of level 2
LINES = [  # kind, threshold, operands as (level, line)
    (ALL, 0, [(2, 0), (2, 1), (2, 12)]),  # 0: off
    (ALL, 0, [(1, 2), (1, 3)]),  # 1: lighting
    (ALL, 0, [(2, 2), (2, 0), (1, 4)]),  # 2: burning
    (ANY, 0, [(1, 1), (1, 0)]),  # 3: no flame
    (VOTE, 2, [(1, 5), (1, 6), (1, 7)]),  # 4: too hot
    (ANY, 0, [(1, 8)]),  # 5: first pyrometer
    (ALL, 0, [(1, 6), (1, 8)]),  # 6: second pyrometer
    (ANY, 0, [(1, 8)]),  # 7: third pyrometer
    (ANY, 0, [(1, 9), (1, 10)]),  # 8: trip
    (ALL, 0, [(1, 0), (1, 11)]),  # 9: main valve
    (ALL, 0, [(1, 0)]),  # 10: spare valve
    (ANY, 0, []),  # 11: nothing left to do
    (ALL, 0, []),  # 12: out of service
]

kinds, thresholds, operands = zip(*LINES)
words = [sum(1 << line for at, line in of_line if at == level) for of_line in operands for level in (1, 2)]
Path(sys.argv[1]).write_bytes(write(Model(SIGNS, kinds, thresholds, words)))
