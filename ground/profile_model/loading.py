"""Code that may be loaded, and the load faults of other code."""
from profile_model.instructions import BadSlot, instructions

MAX_SLOTS = 2048
EMPTY, RAGGED, TOO_LONG, BAD_CALL, BAD_TARGET, FALLS_OFF = 1, 2, 3, 9, 10, 11


class LoadFault(Exception):
    """A load fault: its number and its slot."""

    def __init__(self, fault, slot):
        self.fault, self.slot = fault, slot


def loaded(image, profile):
    """The instructions of an image that may be loaded, by the slots that they begin at."""
    if not image:
        raise LoadFault(EMPTY, 0)
    if len(image) % 8:
        raise LoadFault(RAGGED, 0)
    if len(image) > 8 * MAX_SLOTS:
        raise LoadFault(TOO_LONG, 0)
    code = {}
    try:
        for place, found in instructions(image):
            if found.kind == "call" and not 1 <= found.number <= (5 if profile == 1 else 6):
                raise LoadFault(BAD_CALL, place)
            code[place] = found
    except BadSlot as bad:
        fault, place = bad.args
        raise LoadFault(fault + 3, place) from None
    for place, found in code.items():
        if found.kind in ("ja", "jump", "local"):
            found.target = place + found.slots + found.reach
            if found.target not in code:
                raise LoadFault(BAD_TARGET, place)
    if found.kind not in ("exit", "ja"):
        raise LoadFault(FALLS_OFF, place)
    return code
