"""What examples/README.md tells of the sessions of examples/."""

from support.repository import EXAMPLES
from support.running import in_lines


def told_in(column):
    """What examples/README.md gives in the columns of this name, by the name of the example."""
    lines, name, at = {}, None, None
    with open(f"{EXAMPLES}/README.md", encoding="utf-8") as document:
        for line in document:
            cells = [cell.strip() for cell in line.strip().strip("|").split("|")]
            if line.startswith("## "):
                name = line[3:].strip()
            if not line.startswith("|"):
                at = None
            elif column in cells:
                at = cells.index(column)
            elif at is not None and cells[at].startswith("`"):
                lines.setdefault(name, []).append(cells[at].strip("`"))
    return {name: in_lines(those) for name, those in lines.items()}


def told_replies():
    return told_in("Reply")
