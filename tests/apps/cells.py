"""Cells of a CSV, as csv.h has them."""
import math
import struct


def text_cell(text):
    """What a text's cell is for a reader of CSV; the zeros that fill it up are left out before."""
    return "".join("\\x%02X" % byte if byte < 0x20 or byte > 0x7E or byte == 0x5C else chr(byte) for byte in text)


def is_float(cell, pattern, text=None):
    """A cell is this text, if any is given, or gives the pattern back; NaNs are alike."""
    if text is not None:
        return cell == text
    if math.isnan(struct.unpack(">f", struct.pack(">I", pattern))[0]):
        return cell == "nan"
    return struct.pack(">f", float(cell)) == struct.pack(">I", pattern)
