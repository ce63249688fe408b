"""A laboratory's bench for T=1: captures become traces, and a suite tries a device. The program `scard` decides what
the protocol permits; this package holds no rule of it."""
