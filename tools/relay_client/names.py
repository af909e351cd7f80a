"""The names under which a game that was lost goes on: NAME, NAME_2, NAME_3 and so on, at most 32 letters long. The pages count alike."""
import re


def next_name(name):
    found = re.fullmatch(r"(.+)_(\d{1,3})", name)
    tail = f"_{int(found[2]) + 1}" if found else "_2"
    return (found[1] if found else name)[:32 - len(tail)] + tail


def next_names(name, count):
    names = []
    for _ in range(count):
        name = next_name(name)
        names.append(name)
    return names


def first_name(name):
    """The name of the first game, of one that goes on under this name; else the name itself."""
    found = re.fullmatch(r"(.+)_(\d{1,3})", name)
    return found[1] if found and int(found[2]) > 1 else name
