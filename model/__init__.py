"""A model of the library, to compare its answers with.

Written from documents 01 and 02 (orders 8 to 10) alone: it knows nothing of
the library's code, and it follows the documents' words in their order. Numbers
are Python's whole numbers, which have no end, so nothing here can wrap round
or be cut.

    constants the document's numbers, each named once
    points    points, and the numbers that they are written as
    rules     refusals, and the rules that several parts share
    drawing   the exact curve, the registers and their operations
    path      the point list of a path, and its length
    sheet     the binary sheet and its number list, read and written
    listing   the text that the listing program prints

Every entry answers for any numbers; the refusal comes first in each answer,
and is 0 for none.
"""
