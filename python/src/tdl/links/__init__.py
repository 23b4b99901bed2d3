"""Tables of links: a linkset made of the rows of a spreadsheet, and a table of the links of a linkset.

Only the program decides whether a linkset is accepted, and it reads every anchor. This package finds the row and column of what is wrong.
"""
