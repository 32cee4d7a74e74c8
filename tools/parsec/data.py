"""The data file of a converted job."""
from parsec.bodies import MODULUS, weight

MOST_TILES = 65536


def opening(name, indices):
    """The opening value of a tile, by its collection and its indices; other places have, in all likelihood, other values."""
    value = weight("collection " + name)
    for it in indices:
        value = (value * 65537 + it + 1) % MODULUS
    return value


def tiles_of(name, sizes):
    for first in range(sizes[0]):
        for second in range(sizes[1]) if len(sizes) == 2 else [None]:
            indices = [first] if second is None else [first, second]
            yield f"tile,{name},{','.join(map(str, indices))},{opening(name, indices)}\n"


def data_text(elements, types, numbers, collections, with_tiles):
    """`types` has the elements of each type, `numbers` the integers, and `collections` the sizes and the type (or None) of each collection."""
    lines = [f"elems,{elements}\n"]
    lines += [f"elems,{name},{count}\n" for name, count in types.items()]
    lines += [f"int,{name},{value}\n" for name, value in numbers.items()]
    for name, (sizes, of_type) in collections.items():
        begin = f"collof,{of_type}" if of_type else "coll"
        lines.append(f"{begin},{name},{','.join(map(str, sizes))}\n")
    for name, (sizes, _) in collections.items() if with_tiles else []:
        lines += tiles_of(name, sizes)
    return "".join(lines)
