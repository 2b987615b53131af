"""The verdict of `ocp check` on each example, and on a twin with one planted mistake, which is refused at the slot that goes wrong."""
from support import ROOT, Case, ocp

NEVER = "faults 1 2 3   never"
FOUR = "fault 4        never"
BOUND = "round          at most"

# The example, the start of a line of its verdict, the slot of the mistake, its instruction, the start of a line about the twin.
ROWS = (
    ("procedures/checksum", BOUND, 3, "jgt64 r1, r2, +7", "slot 4   ldxb r5, [r1+0]   may be AccessOutside"),
    ("procedures/checksum", BOUND, 9, "sub64 r1, 1", "slot 4   ldxb r5, [r1+0]   may be AccessOutside"),
    ("procedures/average", BOUND, 2, "jgt64 r3, r2, +6", "slot 5   ldxb r5, [r4+0]   may be AccessOutside"),
    ("procedures/average", BOUND, 7, "mov64 r3, 1", "round   not bounded: slots"),
    ("procedures/error_control", BOUND, 2, "jgt64 r1, r2, +12", "slot 3   ldxb r3, [r1+0]   may be AccessOutside"),
    ("procedures/error_control", BOUND, 11, "sub64 r4, 3", "round   not bounded: slots"),
    ("procedures/median", BOUND, 17, "jle64 r3, r2, -14", "slot 6   ldxb r5, [r4+0]   may be AccessOutside"),
    ("procedures/median", BOUND, 9, "jeq64 r6, r3, +5", "slot 10   ldxb r7, [r6-1]   may be AccessOutside"),
    ("procedures/countdown", BOUND, 3, "sub64 r6, 3", "round   not bounded: slots"),
    ("procedures/limits", BOUND, 7, "add64 r6, 1", "slot 30   ldxh r0, [r6+0]   may be AccessOutside"),
    ("procedures/limits", BOUND, 30, "ldxw r0, [r6+0]", "slot 30   ldxw r0, [r6+0]   may be AccessOutside"),
    ("procedures/limits", BOUND, 13, "mov64 r1, r6", "round   not bounded: slots"),
    ("flight/counter", FOUR, 0, "ldxb r6, [r1+256]", "slot 0   ldxb r6, [r1+256]   may be AccessOutside"),
    ("flight/counter", FOUR, 2, "mov64 r1, 16", "slot 4   call 3   may be BadPoolIndex"),
    ("flight/counter", BOUND, 0, "ldxdw r6, [r1+0]", "round   not bounded: slots"),
    ("flight/loses_counts", FOUR, 3, "call 4", "slot 6   call 2   may be BadPoolIndex"),
    ("flight/limit_new", FOUR, 3, "mov64 r1, 16", "slot 5   call 3   may be BadPoolIndex"),
    ("flight/limit_old", FOUR, 0, "mov64 r1, 16", "slot 1   call 1   may be BadPoolIndex"),
    ("flight/safe_mode", FOUR, 6, "mov64 r1, 16", "slot 14   call 2   may be BadPoolIndex"),
    ("flight/sensor", FOUR, 1, "mov64 r3, 0", "slot 2   call 2   may be BadPoolIndex"),
    ("flight/thermostat", FOUR, 0, "stxb [r1+0], r6", "slot 0   stxb [r1+0], r6   may be WriteToArguments"),
    ("second/token", FOUR, 0, "stxb [r1+0], r6", "slot 0   stxb [r1+0], r6   may be WriteToArguments"),
    ("second/token", FOUR, 8, "call 4", "slot 11   call 2   may be BadPoolIndex"),
    ("c/checksum", BOUND, 21, "jle64 r4, r2, -17", "slot 7   ldxb r0, [r0+0]   may be AccessOutside"),
    ("c/median", NEVER, 13, "stxdw [r10-16], r4", "slot 26   ldxb r0, [r7+1]   may be AccessOutside"),
    ("c/median", NEVER, 19, "add64 r3, 1", "slot 26   ldxb r0, [r7+1]   may be AccessOutside"),
    ("c/scrub", BOUND, 14, "add64 r3, 16", "slot 13   stxdw [r3+0], r4   may be AccessOutside"),
    ("c/scrub", BOUND, 16, "jne64 r2, 129, -6", "slot 13   stxdw [r3+0], r4   may be AccessOutside"),
    ("c/thermostat", BOUND, 3, "stxdw [r10+0], r2", "slot 3   stxdw [r10+0], r2   may be AccessOutside"),
    ("c/thermostat", BOUND, 16, "ldxdw r1, [r10+0]", "slot 16   ldxdw r1, [r10+0]   may be AccessOutside"),
    ("c/median", NEVER, 33, "ldxdw r4, [r10-16]", "slot 38   ldxb r1, [r7+1]   may be AccessOutside"),
    ("c/median", BOUND, 20, "mov64 r8, r2", "round   not bounded: slots"),
    ("c/median", BOUND, 17, "add64 r2, 0", "round   not bounded: slots"),
)


def twin_of(image, slot, instruction, options):
    """The image with the instruction at a slot replaced."""
    lines, at = ocp(["list"], image).stdout.splitlines(), 0
    for number, line in enumerate(lines):
        if at == slot:
            return ocp(["asm", *options], "\n".join([*lines[:number], instruction, *lines[number + 1:], ""])).stdout
        at += 2 if line.startswith("lddw") else 1
    raise ValueError(f"no instruction begins at slot {slot}")


class Twins(Case):
    seconds = 2

    def test_each_twin_is_refused_at_its_mistake(self):
        for name, shown, slot, instruction, refused in ROWS:
            with self.subTest(name, slot=slot, instruction=instruction):
                options = ["--profile", "2"] if name.startswith("second/") else []
                image = (ROOT / f"examples/{name}.hex").read_text()
                verdict = ocp(["check", *options], image).stdout
                twin = ocp(["check", *options], twin_of(image, slot, instruction, options)).stdout
                self.assertIn(f"\n{shown}", f"\n{verdict}")
                self.assertNotIn(f"\n{refused}", f"\n{verdict}")
                self.assertIn(f"\n{refused}", f"\n{twin}")
