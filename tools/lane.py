"""The lane of a path: a band along its entries, as wide as each of them says.

Around an entry the lane is a disk whose diameter is the entry's width, and
between two entries all that lies between their disks. Where a width is 0 or
below there is no lane. A disk is (centre, radius), its centre a complex number.
"""
from svg import number

PLACES = 3          # after the point: an arc is drawn by its radius and its ends, which have to agree


def disks_of(entries):
    """The disks of the entries; one that is like the one before is left out."""
    disks = []
    for entry in entries:
        disk = complex(entry.x, entry.y), max(entry.width, 0) / 2
        if disks[-1:] != [disk]:
            disks.append(disk)
    return disks


def goes_on(before, here, after):
    """Whether the middle one of three disks of one size lies on a straight way."""
    return here[1] == before[1] == after[1] and here[0] - before[0] == after[0] - here[0]


def corners_of(disks):
    """The disks without those that lie on a straight way from one to the next."""
    inner = [here for before, here, after in zip(disks, disks[1:], disks[2:]) if not goes_on(before, here, after)]
    return disks[:1] + inner + disks[1:][-1:]


def place(z):
    return f"{number(z.real, PLACES)} {number(z.imag, PLACES)}"


def arc(radius, large, end):
    size = number(radius, PLACES)
    return f"A{size} {size} 0 {int(large)} 1 {place(end)}"


def whole_disk(centre, radius):
    return f"M{place(centre - radius)}{arc(radius, True, centre + radius)}{arc(radius, True, centre - radius)}Z"


def piece(one, other):
    """All that lies between two disks: the two, and what their outer tangents hold."""
    (start, wide), (end, narrow) = sorted((one, other), key=lambda disk: -disk[1])
    far = abs(end - start)
    if wide == 0:
        return ""
    if far + narrow <= wide:
        return whole_disk(start, wide)
    way, lean = (end - start) / far, (wide - narrow) / far
    rise = (1 - lean * lean) ** 0.5
    left, right = way * complex(lean, -rise), way * complex(lean, rise)
    return (f"M{place(start + wide * left)}L{place(end + narrow * left)}"
            + (arc(narrow, False, end + narrow * right) if narrow else "")
            + f"L{place(start + wide * right)}{arc(wide, True, start + wide * left)}Z")


def lane(entries):
    """The lane as an SVG path, whose pieces all go round the same way; none where no width is above 0."""
    disks = corners_of(disks_of(entries))
    data = "".join(map(piece, disks, disks[1:] or disks))
    return f'<path d="{data}"/>' if data else ""
