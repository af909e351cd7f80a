"""What the program writes to standard error when a device fails: the fault's line, and what failed with the system's reason."""

import os


def device_fault(line, device, number):
    """The lines of a fault, for a call on that device that failed with the system's error of this number."""
    return f"{line}\n{device}: {os.strerror(number)} (os error {number})\n".encode()


def read_fault(number):
    return device_fault("fault 31 Read", "standard input", number)


def write_fault(number):
    return device_fault("fault 32 Write", "standard output", number)


def port_fault(address, number):
    return device_fault("fault 41 Device", address, number)
