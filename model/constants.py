"""The documents' numbers, each named once."""

# Points, and entries of a list

COORDINATES = "x", "y", "width"     # of a point, in their order
POINT_NUMBERS = len(COORDINATES)
ENTRY_NUMBERS = 1 + POINT_NUMBERS   # the position, and then the point
LOWEST, HIGHEST = -16_384, 16_383   # a coordinate, the width too

# Curves

QUADRATIC, CUBIC = DEGREES = 2, 3   # points from a join to the next one
FARTHEST = {QUADRATIC: 1_023, CUBIC: 682}   # between neighbours, at any F

# Drawings

LEAST_FINEST, MOST_FINEST = 6, 12   # the finest level F of a drawing
SHEET_FINEST = 11                   # F of every path on a sheet
LEAST, MOST = -2**31, 2**31 - 1     # a register: a signed 32-bit number
ONE_UNIT = 65_536                   # registers and limits are in these parts
STANDARD_LIMITS = 45_875, 22_937    # upper and lower, where none are named

# Paths and sheets

MOST_SEGMENTS = 64
MOST_PATHS = 1_024
MOST_BYTES = 32_768
QUADRATIC_MARK = 256                # added to the level of a quadratic record
