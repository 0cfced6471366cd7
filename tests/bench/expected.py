"""What crates/record_speed must write for its case 'f', worked out by the rules of records apart from it:

    python3 tests/bench/expected.py > crates/record_speed/stdout

The live table is zeros but for bytes 1 and 700, which hold i mod 256 at record i. The record is the stamp and the floats' 244 bytes,
from byte 656 of the table on, so byte 700 stands at 6 + 44. The program adds up byte i mod 250 of record i.
"""

STAMP = [8, 29, 7, 11, 36, 52]
SIZE = 6 + 61 * 4
CHANGING = 6 + (700 - 656)

total = 0
for i in range(2_000_000):
    at = i % SIZE
    if at < len(STAMP):
        total += STAMP[at]
    elif at == CHANGING:
        total += i % 256
print(total % 2**32)
