"""The final bytes of sequences, by their names: of escape sequences, and then of control sequences."""

RIS, IND, NEL, HTS, RI, DECSC, DECRC = list("cDEHM78")
ICH, CUU, CUD, CUF, CUB, CNL, CPL, CHA, CUP, ED, EL, IL, DL = list("@ABCDEFGHJKLM")
DCH, ECH, HPA, HPR, DA, VPA, VPR, HVP, TBC, SM, RM, SGR, DSR, DECSTBM = list("PX`acdefghlmnr")
