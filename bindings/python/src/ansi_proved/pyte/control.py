"""Controls, and what sequences begin and end with, by the names of ECMA-48."""

SP, NUL, BEL, BS, HT, LF, VT, FF, CR, SO, SI = list(" \x00\x07\x08\x09\n\x0b\x0c\r\x0e\x0f")
CAN, SUB, ESC, DEL = list("\x18\x1a\x1b\x7f")
CSI = CSI_C0 = ESC + "["
ST = ST_C0 = ESC + "\\"
OSC = OSC_C0 = ESC + "]"
