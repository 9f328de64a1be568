"""What pictures are read with: the elements of an SVG, straight lines, and the round numbers of an axis. Made from 'racp show'
and 'racp curve' in docs/FORMATS.md."""

import re
import xml.etree.ElementTree

SVG = "{http://www.w3.org/2000/svg}"
MOST_MARKS = 12


def picture_of(run):
    """The picture that a run gives, or nothing if it gives no SVG."""
    try:
        picture = xml.etree.ElementTree.fromstring(run.output)
    except xml.etree.ElementTree.ParseError:
        return None
    return picture if run.status == 0 and not run.error and picture.tag == f"{SVG}svg" else None


def elements(picture, kind, **attributes):
    """The elements of a picture of this kind, in their order, of which each of these attributes has this value, or is missing
    if that is None."""
    return [it for it in picture.iter(SVG + kind)
            if all(it.get(name.replace("_", "-")) == value for name, value in attributes.items())]


def lines_drawn(paths, letter):
    """Those of the paths that are one straight line, level (H) or upright (V): for each where it begins, from the left and from
    above, and where it ends."""
    found = [re.fullmatch(f"M([0-9]+) ([0-9]+){letter}([0-9]+)", it.get("d")) for it in paths]
    return [tuple(map(int, it.groups())) for it in found if it]


def round_numbers(first, last):
    """The numbers of an axis from one number to another: the multiples of 1, 2 or 5 times a power of ten, the least with which
    there are no more than 13, however the axis begins."""
    steps = (factor * 10 ** power for power in range(20) for factor in [1, 2, 5])
    step = next(step for step in steps if last - first <= MOST_MARKS * step)
    return list(range(-(-first // step) * step, last + 1, step))
