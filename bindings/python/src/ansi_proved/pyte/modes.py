"""The modes that a screen knows by name, as in `Screen.mode` and for `set_mode`: private ones are shifted by five bits, as pyte has them."""

IRM = 4  # what is printed moves what stands there to the right
LNM = 20  # a line feed goes to the first column too
DECSCNM = 5 << 5  # the terminal swaps the colours of all cells
DECOM = 6 << 5  # lines are counted from the upper margin
DECAWM = 7 << 5  # text goes on in the next row
DECTCEM = 25 << 5  # the cursor is shown
