6Fh, 1Ah, 84h, 0Eh, 31h, 50h, 41h, 59h, 2Eh, 53h, 59h, 53h, 2Eh, 44h, 44h, 46h, 30h, 31h, A5h, 08h, 88h, 01h, 02h, 5Fh, 2Dh, 02h, 65h, 6Eh, 90h, 00h
