"""Shapes of symbols, sections and relocations."""
import struct

from images.image_parts import (
    ET_REL, R_X86_64_64, RANGE, SHF_ALLOC, SHF_EXECINSTR, SHT_REL, SHT_STRTAB, SHT_SYMTAB, STB_GLOBAL_STT_FUNC, Section,
    abbreviations, entry, image, symbol, unit)
from attack.shapes.making import BASE, ROOT, Attack, root, shape


def symbols_image(symbols, names=b"\0f\0"):
    return image([Section(".text", b"", flags=SHF_ALLOC | SHF_EXECINSTR), Section(
        ".symtab", symbol(0, 0, 0, 0, 0) + symbols, SHT_SYMTAB, link=3, entry_size=24), Section(".strtab", names, SHT_STRTAB)])


def function_symbol(begin, size):
    return symbol(1, STB_GLOBAL_STT_FUNC, 1, begin, size)


@shape
def symbols_of_one_long_name(n):
    symbols = b"".join(function_symbol(BASE + 4 * k, 4) for k in range(n))
    return Attack(symbols_image(symbols, b"\0" + b"f" * 24 * n + b"\0"), [BASE + 4 * k for k in range(min(n, 10))])


@shape
def symbols_of_one_address(n):
    return Attack(symbols_image(function_symbol(BASE, 4) * n), [BASE + k % 4 for k in range(10_000)])


@shape
def small_symbols_within_one(n):
    symbols = function_symbol(BASE, 8 * n) + b"".join(function_symbol(BASE + 8 * k, 1) for k in range(n))
    return Attack(symbols_image(symbols), [BASE + 8 * (n - 1 - k % (n // 4 + 1)) + 4 for k in range(10_000)])


# ---- sections and relocations


def relocated(n):
    """The sections of an object file, the last of which is a table of relocations of `.debug_info`."""
    shapes = {ROOT: root(RANGE, 0)}
    entries = b"".join(struct.pack("<QQ", 0, R_X86_64_64) for _ in range(4 * n))
    return [Section(".debug_abbrev", abbreviations(shapes)), Section(".debug_info", unit(entry(shapes, ROOT, 0, 1))), Section(
        ".symtab", symbol(0, 0, 0, 0, 0), SHT_SYMTAB, link=4, entry_size=24), Section(".strtab", b"\0", SHT_STRTAB), Section(
        ".rel", entries, SHT_REL, link=3, info=2, entry_size=16)]


@shape
def relocations_of_tables_that_overlap(n):
    # n more tables for the same section, each of which begins one entry later within the first
    sections = relocated(n)
    body = image([*sections, *[Section(".text", b"") for _ in range(n)]], ET_REL)
    table = len(body) - 64 * (len(sections) + n + 2)
    first = table + 64 * (len(sections) + 1)
    rel = body[first - 64:first]
    at, size = struct.unpack("<QQ", rel[24:40])
    copies = [rel[:24] + struct.pack("<QQ", at + 16 * k, size - 16 * k) + rel[40:] for k in range(n)]
    return Attack(body[:first] + b"".join(copies) + body[first + 64 * n:], [0])
