"""The commands, addresses and data of an ONFI NAND bus (SDR), what they come to, and which cycle breaks a rule, with its cause.

The rules are those of onfiseq: its package for Python has to be on the path of Python, with its library.
"""
from .pd import Decoder
