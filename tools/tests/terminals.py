"""What comes to a terminal that Python makes."""
import os


def read_all(terminal):
    """All of it, until the last program that has its other end is gone."""
    came = b""
    while True:
        try:
            piece = os.read(terminal, 65536)
        except OSError:
            return came
        if not piece:
            return came
        came += piece
