"""Journals for tests: files of both versions put together octet by octet, and what `replay` and `ground/journal` say of files that
are cut, damaged, in pieces or of another flight."""
import binascii
import itertools
import random
import zlib

ENGINE = (1, 291, 16, 10, 1000)  # profile, application process identifier, pool words, entries and octets
DRAIN = bytes([6]) + bytes(6)


# ---- version 1

def record_of(octets):
    """Octets and their error control."""
    return octets + binascii.crc_hqx(octets, 0xFFFF).to_bytes(2, "big")


def head_of(*engine):
    """The record that a file of version 1 begins with."""
    return record_of(b"".join(number.to_bytes(4, "big") for number in engine or ENGINE))


def entry_record(entry):
    return record_of(len(entry).to_bytes(4, "big") + entry)


def first_events(entries, count):
    """The entries of the first events of others."""
    for entry in entries:
        events = int.from_bytes(entry[5:9], "big") if entry[0] == 2 else 1
        if count == 0:
            return
        yield entry if events <= count else entry[:5] + count.to_bytes(4, "big")
        count -= min(events, count)


# ---- version 2

def number_of(value):
    """A number in a code."""
    octets = b""
    while value > 0x7f:
        octets, value = octets + bytes([0x80 | value & 0x7f]), value >> 7
    return octets + bytes([value])


def block_of(first, count, codes, flight=1, engine=ENGINE):
    """A block of `count` entries, in codes."""
    profile, apid, pool, entries, octets = engine
    fields = ((profile, 1), (apid, 2), (pool, 2), (entries, 4), (octets, 4), (flight, 8), (first, 8), (count, 4), (len(codes), 4))
    head = record_of(b"OCPJ\2" + b"".join(number.to_bytes(length, "big") for number, length in fields))
    return head + codes + zlib.crc32(head + codes).to_bytes(4, "big")


def plain_block(first, entries, **more):
    """A block of entries as they are."""
    return block_of(first, len(entries), b"".join(b"\x81" + number_of(len(entry)) + entry for entry in entries), **more)


def block_starts(octets):
    """Where each block of a whole journal begins, and its end."""
    starts = [0]
    while starts[-1] < len(octets):
        length = int.from_bytes(octets[starts[-1] + 38:starts[-1] + 42], "big")
        starts.append(starts[-1] + 44 + length + 4)
    return starts


# ---- tests: `tried` is what they need of embed/run: its tally, a room, and how programs run

class Tried:
    def __init__(self, tally, room, run, replay, script):
        self.tally, self.room, self.run, self.replay_words, self.script_words = tally, room, run, replay, script

    def replay(self, *parts):
        return self.run([*self.replay_words, *parts, "--view", 1])

    def script(self, *parts):
        return self.run([*self.script_words, *parts])

    def alike(self, name, *parts):
        """What both say of files: the same lines and the same status, and the state before the first missing entry."""
        one, other = self.replay(*parts), self.script(*parts)
        said, said_again = (done.stderr.decode().splitlines() for done in (one, other))
        self.tally.check(f"{name}: {said} and {said_again}", one.returncode == other.returncode and
                         [line.partition(": ")[2] for line in said] == [line.partition(": ")[2] for line in said_again])
        return one

    def written(self, octets, name="journal"):
        file = self.room / f"tried-{name}"
        file.write_bytes(octets)
        return file


def damages(tried, octets):
    """A journal that is cut at each octet, or has a bit flipped in each one: a line says in which block, another one which entries
    are missing, and those before them are used."""
    chance, starts = random.Random(42), block_starts(octets)
    tried.tally.check("the journal that is damaged", starts[-1] == len(octets) and len(starts) > 4 and len(octets) < 6000)
    used = {}
    for start in starts[1:]:
        done = tried.alike(f"a journal that ends at octet {start}", tried.written(octets[:start]))
        tried.tally.check(f"a journal that ends at octet {start}", done.returncode == 0)
        used[start] = done.stdout
    for at in range(len(octets)):
        start = max(one for one in starts if one <= at)
        flip = octets[:at] + bytes([octets[at] ^ 1 << chance.randrange(8)]) + octets[at + 1:]
        for name, broken in (("cut", octets[:at]), ("flipped", flip)):
            if at == start and name == "cut":
                continue
            file = tried.written(broken)
            done = tried.replay(file) if at % 8 else tried.alike(f"a journal {name} at octet {at}", file)
            is_last = start == starts[-2]
            missing = name == "flipped" and not is_last
            said = done.stderr.decode().splitlines()
            right = said[0].startswith(f"replay: {file}, octet {start}: ") and (len(said) == 2) == missing
            right = right and (not missing or " missing: " in said[1])
            if start == 0:
                right = done.returncode == (3 if name == "cut" or is_last else 4) and bool(said)
                right = right and (missing or done.stdout == b"")
            else:
                right = right and (done.returncode, done.stdout) == (4, used[start])
            tried.tally.check(f"a journal {name} at octet {at}\n{done.stderr.decode()}", right)


def pieces(tried, octets):
    """Four pieces in every order, each doubled, each left out: both tools say the same of them, and say it."""
    chance = random.Random(43)
    starts = block_starts(octets)
    for cuts in (starts[1:4], sorted(chance.sample(range(1, len(octets)), 3)), sorted(chance.sample(range(1, len(octets)), 3))):
        bounds = [0, *cuts, len(octets)]
        files = [tried.written(octets[bounds[at]:bounds[at + 1]], f"piece-{at}") for at in range(4)]
        whole = tried.alike("four pieces", *files)
        tried.tally.check("four pieces are the whole", whole.returncode == 0 and not whole.stderr)
        for order in itertools.permutations(range(4)):
            if order == (0, 1, 2, 3):
                continue
            done = tried.alike(f"pieces in the order {order}", *(files[one] for one in order))
            tried.tally.check(f"pieces in the order {order}, cut at {cuts}\n{done.stderr.decode()}",
                              done.returncode in (3, 4) and done.stderr)
        for one in range(4):
            done = tried.alike(f"piece {one} twice", *files[:one + 1], *files[one:])
            may_be_cut = one == 0 and cuts != starts[1:4]
            tried.tally.check(f"piece {one} twice\n{done.stderr.decode()}",
                              done.returncode == 4 and done.stdout == whole.stdout or may_be_cut)
            done = tried.alike(f"without piece {one}", *files[:one], *files[one + 1:])
            is_shorter = one == 3 and cuts == starts[1:4]  # what ends with a whole block may be the journal up to there
            tried.tally.check(f"without piece {one}\n{done.stderr.decode()}",
                              (done.returncode == 0) == is_shorter == (not done.stderr))
    blocks = [octets[begin:end] for begin, end in zip(starts, starts[1:])]
    done = tried.replay(tried.written(b"".join([blocks[0], blocks[2], blocks[1], *blocks[3:]])))
    tried.tally.check(f"blocks that are swapped\n{done.stderr.decode()}", done.returncode == 4 and b"pieces are swapped" in done.stderr)


def made_blocks(tried):
    """Blocks made by hand: codes of each kind, other flights and engines, overlaps, and codes that are none."""
    put = block_of(0, 3, b"\x0f" + number_of(2 * 5) + b"\x0f" + number_of(2 * 1) + b"\x00" + number_of(1))
    done = tried.script(tried.written(put))
    tried.tally.check(f"puts by their change\n{done.stderr.decode()}", done.stdout.decode() == f"put 15 5\nput 15 6\nput 0 {2**64 - 1}\n")
    steps = block_of(0, 4, b"\x80\x01\x02" + number_of(300) + b"\x40" + b"\x60" + number_of(7) + b"\x40")
    done = tried.script(tried.written(steps))
    tried.tally.check("instructions by their number", done.stdout.decode() == "step 258 300\nstep 258 300\nstep 258 7\nstep 258 7\n")
    far = block_of(0, 2, b"\x82\x00" + number_of(2 * 9) + b"\x82\xbf" + number_of(2 * 3), engine=(1, 291, 256, 10, 1000))
    tried.tally.check("words of an index above 63", tried.script(tried.written(far)).stdout.decode() == "put 64 9\nput 255 3\n")
    engine = (1, 291, 16, 10, 1000)
    word = bytes([7, 0, 0, 0, 1]) + (5).to_bytes(8, "big")
    one, two = plain_block(0, [word, word]), plain_block(2, [word])
    for name, octets, said in (
            ("another flight", one + plain_block(2, [word], flight=2) + two, "entry 2 of another flight"),
            ("another engine", one + plain_block(2, [word], engine=(1, 291, 17, 10, 1000)) + two, "entry 2 of another flight"),
            ("an overlap", one + plain_block(1, [word, word]), "entry 1 again"),
            ("twice", one + one + two, "entries 0 to 1 again"),
            ("a gap of one", one + plain_block(3, [word]), "entry 2 missing: the state after this is unknown"),
            ("a beginning that is missing", two, "entries 0 to 1 missing"),
            ("an unknown code", one + block_of(2, 1, b"\x83") + b"", "damaged"),
            ("a procedure that is not listed", one + block_of(2, 1, b"\x41"), "damaged"),
            ("a code too many", one + block_of(2, 1, b"\x00\x02\x00\x02"), "damaged"),
            ("a code too few", one + block_of(2, 2, b"\x00\x02"), "damaged"),
            ("a number without its end", one + block_of(2, 1, b"\x00" + b"\xff" * 10 + b"\x01"), "damaged"),
            ("junk between", one + b"OCPJ" * 20 + two, "80 octets damaged"),
            ("another version", one + two[:4] + b"\3" + two[5:], "damaged")):
        done = tried.replay(tried.written(octets))
        tried.tally.check(f"{name}\n{done.stderr.decode()}", done.returncode == 4 and said in done.stderr.decode())
    for name, engine in (("profile", (3, 0, 1, 1, 1)), ("identifier", (1, 2047, 1, 1, 1)), ("pool", (1, 0, 0, 1, 1))):
        done = tried.replay(tried.written(plain_block(0, [DRAIN], engine=engine)))
        tried.tally.check(f"no engine has this {name}", done.returncode == 3)
    wide = plain_block(0, [word], engine=(1, 291, 16, 1_000_000, 1_073_741_824))
    tried.tally.check("a journal of the largest store", tried.replay(tried.written(wide)).returncode == 0)


def old_journals(tried, entries):
    """Files of version 1: read as before, in pieces too; one that is cut or damaged is used up to there."""
    octets = head_of() + b"".join(map(entry_record, entries))
    whole = tried.alike("version 1", tried.written(octets))
    tried.tally.check("version 1 is read", whole.returncode == 0 and whole.stdout)
    starts = [0, len(head_of())]
    for entry in entries:
        starts.append(starts[-1] + len(entry_record(entry)))
    chance = random.Random(44)
    for _ in range(60):
        at = chance.randrange(len(octets))
        start = max(one for one in starts if one <= at)
        flip = octets[:at] + bytes([octets[at] ^ 1 << chance.randrange(8)]) + octets[at + 1:]
        for name, broken in (("cut", octets[:at]), ("flipped", flip)):
            if broken == octets[:start] and start > 0:
                continue
            file = tried.written(broken)
            done = tried.replay(file)
            used = tried.replay(tried.written(octets[:start], "used")).stdout
            tried.tally.check(f"version 1 {name} at octet {at}\n{done.stderr.decode()}", done.stderr and
                              (done.returncode, done.stdout) == ((3, b"") if start == 0 else (4, used)))
        cut = chance.randrange(len(octets))
        done = tried.replay(tried.written(octets[:cut], "one"), tried.written(octets[cut:], "two"))
        tried.tally.check(f"version 1 in parts, cut at {cut}", done.returncode == 0 and done.stdout == whole.stdout)


IMPOSSIBLE = {"unknown kind": bytes([8]) + bytes(6), "too short": bytes([6]) + bytes(5), "too long": bytes([6]) + bytes(8),
              "a drain of nothing": DRAIN, "no instructions": bytes([2]) + bytes(8), "a flag of 2": bytes([5, 0, 0, 0, 1, 0, 2])}
STATUS = record_of(bytes.fromhex("1923c00000062012090009"))  # of packets and records the error control is the same
REQUEST = bytes([1]) + bytes(6)
# Entries that no line of the console can say, or no engine makes, and a word of the reason.
NO_LINES = {"put": (b"\7" + bytes(11), "none"), "unknown": (b"\10" + bytes(12), "none"), "packet": (REQUEST + STATUS[:6], "request: Short"),
            "version": (REQUEST + b"\x39" + STATUS[1:], "request: Version"), "lengths": (REQUEST + STATUS + b"\0", "request: Length"),
            "report": (REQUEST + b"\x09" + STATUS[1:], "request: NotTelecommand"),
            "apid": (REQUEST + b"\x18" + STATUS[1:], "request: OtherApid"), "nothing": (bytes([2]) + bytes(8), "steps: no instructions"),
            "flag": (bytes([5, 0, 0, 0, 1, 0, 2]), "trace: trace 2 is"),
            "index": (bytes([7, 0, 0, 0, 16]) + bytes(8), "put word: BadPoolIndex 16")}


def impossible_entries(tried):
    """Entries that no engine does, in files of both versions; entries of which no script is made; and files that are no journal."""
    for name, broken in IMPOSSIBLE.items():
        for octets in (head_of() + entry_record(broken), plain_block(0, [broken])):
            done = tried.replay(tried.written(octets))
            tried.tally.check(f"an entry that is {name}\n{done.stderr.decode()}", done.returncode == 1 and b", octet " in done.stderr)
    for name, (entry, said) in NO_LINES.items():
        done = tried.script(tried.written(plain_block(0, [entry])))
        error = done.stderr.decode()
        tried.tally.check(f"an entry that is no line: {name}\n{error}", done.returncode == 1 and said in error)
    for name, octets in (("nothing", b""), ("junk", bytes(range(256)) * 9), ("markers", b"OCPJ" * 1000)):
        done = tried.alike(f"no journal: {name}", tried.written(octets))
        tried.tally.check(f"no journal: {name}\n{done.stderr.decode()}", done.returncode == 3 and done.stderr)
