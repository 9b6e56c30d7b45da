"""The bytes of each body, which either end can tell by its number and size."""
import random


def body(number, size):
    return random.Random(number).randbytes(size)
