"""Requests: the data of each subtype of service 18."""
from profile_model.packets import LAYOUT, SERVICE, SUBTYPE, Failed, number

LOAD, UNLOAD, ACTIVATE, STOP, SUSPEND, RESUME, COMMUNICATE, REPORT_STATUS, STATUS_REPORT, ABORT = 1, 2, 3, 4, 5, 6, 7, 8, 9, 12
MAX_ARGUMENTS, MAX_WORDS = 256, 8


class Fields:
    """Numbers and octets taken from the front of a payload."""

    def __init__(self, octets):
        self.octets = octets

    def take(self, count):
        if len(self.octets) < count:
            raise Failed(LAYOUT)
        taken, self.octets = self.octets[:count], self.octets[count:]
        return taken

    def number(self, count):
        return number(self.take(count))

    def done(self, *request):
        if self.octets:
            raise Failed(LAYOUT)
        return request


def request_of(profile, service, subtype, payload):
    """The request of a telecommand: its name and its parameters."""
    if service != 18:
        raise Failed(SERVICE)
    fields = Fields(payload)
    if subtype == LOAD:
        name = fields.number(2)
        code = fields.take(fields.number(2))
        return fields.done("load", name, code)
    if subtype == ACTIVATE:
        name = fields.number(2)
        budget = fields.number(4) if profile == 2 else None
        count = fields.number(2)
        if count > MAX_ARGUMENTS:
            raise Failed(LAYOUT)
        arguments = fields.take(count)
        return fields.done("activate", name, budget, arguments)
    if subtype == COMMUNICATE:
        name, count = fields.number(2), fields.number(1)
        if not 1 <= count <= MAX_WORDS:
            raise Failed(LAYOUT)
        words = [fields.number(8) for _ in range(count)]
        return fields.done("communicate", name, words)
    if subtype == STOP:
        return fields.done("stop", fields.number(2), fields.number(2))
    if subtype == SUSPEND:
        return fields.done("suspend", fields.number(2), fields.number(2))
    if subtype == UNLOAD:
        return fields.done("unload", fields.number(2))
    if subtype == RESUME:
        return fields.done("resume", fields.number(2))
    if subtype == ABORT:
        return fields.done("abort", fields.number(2))
    if subtype == REPORT_STATUS:
        return fields.done("status", None)
    raise Failed(SUBTYPE)
