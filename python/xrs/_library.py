"""Loads the shared library and declares its calls."""

from __future__ import annotations

import ctypes
import os
import re
from pathlib import Path

# The calls as the library's sources have them, a slice as its pointer and its length.
CALLS = """
    xrs_bay_restore(u8, *mut u16, usize, *mut u8, usize) -> u32
    xrs_bay_restore_within(u8, *mut u16, usize, *mut u8, usize, u8) -> u32
    xrs_card_to_new(*const u8, usize, *mut u8, usize) -> u32
    xrs_card_to_old(*const u8, usize, *mut u8, usize) -> u32
    xrs_charge(*mut u16, usize) -> u32
    xrs_check_card(*const u8, usize) -> u64
    xrs_compare_part(*const u8, usize, u64, *const u8, usize, u64, *mut u64, *mut u64) -> u32
    xrs_compare_sheets(*const u8, usize, u64, *const u8, usize, u64, *mut u8, usize) -> u64
    xrs_encode(u8, *const u8, usize, *mut u8, usize) -> u32
    xrs_inverse(u8, u8) -> u32
    xrs_is_codeword(u8, *const u8, usize) -> u32
    xrs_look(*const u8, usize, u64, *mut u8, usize) -> u32
    xrs_power(u8, u8, u16) -> u32
    xrs_product(u8, u8, u8) -> u32
    xrs_read_data(u8, *const u8, usize, *mut u8, usize) -> u32
    xrs_read_sheet(u8, *const u8, usize, *mut u8, usize) -> u32
    xrs_restore_record(*mut u8, usize) -> u32
    xrs_restore_record_within(*mut u8, usize, u8) -> u32
    xrs_restore_word(u8, *mut u8, usize, *const u8, usize) -> u32
    xrs_restore_word_by_trials(u8, *mut u8, usize, *const u8, usize) -> u32
    xrs_restore_word_by_trials_within(u8, *mut u8, usize, *const u8, usize, u8) -> u32
    xrs_restore_word_within(u8, *mut u8, usize, *const u8, usize, u8) -> u32
    xrs_sum(u8, u8, u8) -> u32
    xrs_syndromes(u8, *const u8, usize, *const u8, usize) -> u64
    xrs_walk_step(u64, *mut u64, *mut u8, usize) -> u32
    xrs_window(*const u8, usize, u8, u8, *mut u64, usize) -> u32
    xrs_write_sheet(u8, *const u8, usize, *mut u8, usize) -> u32
"""

NUMBERS = {"u8": ctypes.c_uint8, "u16": ctypes.c_uint16, "u32": ctypes.c_uint32, "u64": ctypes.c_uint64, "usize": ctypes.c_size_t}
NAME = "libxrs.so.0"


def find() -> str:
    """What to load: the library in the folder that XRS_LIB_DIR names, or the one that was installed with this package, or the system's."""
    named = os.environ.get("XRS_LIB_DIR")
    if named:
        return os.path.join(named, NAME)
    beside = Path(__file__).with_name(NAME)
    return str(beside) if beside.exists() else NAME


def load() -> ctypes.PyDLL:
    """The library with its calls declared.

    A call keeps the interpreter's lock, so that no other thread of Python writes to what is lent until it returns.
    """
    path = find()
    try:
        library = ctypes.PyDLL(path)
    except OSError as error:
        raise ImportError(
            f"the shared library {NAME} cannot be loaded ({error}): install the package with ./package in the repository and "
            "then `pip install ./python`, or set XRS_LIB_DIR to the folder that has it"
        ) from error
    for name, parameters, result in re.findall(r"(\w+)\((.*)\) -> (\w+)", CALLS):
        call = getattr(library, name)
        call.argtypes = [NUMBERS.get(parameter, ctypes.c_void_p) for parameter in parameters.split(", ")]
        call.restype = NUMBERS[result]
    return library


library = load()
