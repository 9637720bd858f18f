"""Free memory at hand, for a measurement of a program that takes much.

A virtual machine gives memory that stays free for some seconds back to its host, and each page of it costs the program that
touches it next some microseconds in the kernel. So a small run, whose pages were in use a moment before, looks cheaper than it is
beside a large one.
"""
BYTES = 400_000_000
PAGE = 4_096


def have_memory_at_hand():
    """Touches so much memory, and lets it go."""
    memory = bytearray(BYTES)
    memory[::PAGE] = bytes([1]) * len(range(0, BYTES, PAGE))
