"""Shapes of files in which some work could be done for each pair of two parts of a file, or of a file and what is asked of it.
`scripts/attack/attacks` writes them by name and size, and `bench/growth` measures what they take."""
from attack.shapes import entries, lines, names, packages, programs, ranges, references, symbols, units  # noqa: F401  they fill the list
from attack.shapes.making import SHAPES, Attack

__all__ = ["SHAPES", "Attack", "of_size"]


def of_size(make, size):
    """An Attack of a shape that is not above a size, and near it, but for the smallest."""
    count, best = 8, make(1)
    for _ in range(12):
        attack = make(count)
        if best.size() <= attack.size() <= size:
            best = attack
        if 0.95 * size <= attack.size() <= size:
            break
        count = max(1, count * int(0.98 * size) // attack.size())
    return best
