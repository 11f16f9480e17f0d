"""Lists of tuples in antt, laid out as `rt fmt` lays them out."""

WIDTH = 160


def listing(rows):
    """Returns the text of a list after `NAME =`. Each row is a tuple of these parts."""
    listed = ""
    for parts in rows:
        row = f"({', '.join(parts)})"
        fits = len("    ∷ " + row) <= WIDTH
        indent = "    " if listed or fits else ""
        if not fits:
            row = "(" + "".join(f"\n{indent}  {part}," for part in parts) + f"\n{indent})"
        listed += f"\n{indent}∷ {row}" if listed else f"\n{indent}{row}" if fits else f" {row}"
    return listed + "\n    ∷ []" if listed else " []"
