"""Random procedures in C, made of pieces of code that flight software has.

A piece is statements for the body of `entry`. Functions and enums that it needs come first, above a line of dashes. It may use
`arguments`, `count`, `result`, and 192 octets of the work region at $work. `Writer` fills in the names with $: a name has one
value within a piece. Each piece is right: with a pool of 16 words it meets no fault, for any arguments, pool words and mailbox.
A checker or a compiler can be tried with it: `python3 tools/c_procedures.py SEED` prints a procedure.
"""
import random
import re
import sys

PIECES = """
for ($counter i = 0; i < count; i++) result $joins arguments[i];
====
for (word i = 0; i < count; i += $stride) result $joins arguments[i] * (i + 1);
====
for (word i = 0; i + 1 < count; i += 2) result $joins (half)arguments[i] << 8 | arguments[i + 1];
====
for ($counter i = 0; i < $length; i++) result $joins arguments[i];
====
for ($counter i = $length; i > 0; i--) result = result * $small + arguments[i - 1];
====
half low = $small, high = 0;
for (word i = 0; i < count; i++) {
    low = (low + arguments[i]) % 255;
    high = (high + low) % 255;
}
result $joins (word)high << 8 | low;
====
half check = 0xffff;
for (word i = 0; i < count; i++) {
    check ^= (half)arguments[i] << 8;
    for (half bit = 0; bit < 8; bit++) check = (check & 0x8000 ? check << 1 ^ 0x1021 : check << 1) & 0xffff;
}
result ^= check;
====
octet most = 0, least = 255;
for (word i = 0; i < count; i++) {
    most = arguments[i] > most ? arguments[i] : most;
    least = arguments[i] < least ? arguments[i] : least;
}
result $joins most - least;
====
word above = 0;
for (word i = 0; i < count && i < $length; i++)
    if (arguments[i] > $octet) above++;
pool_set($index, above);
====
word most = 0;
for (word i = 1; i < count; i++)
    if (arguments[i] > arguments[most]) most = i;
result += arguments[most];
====
octet *kept = $work;
for (word i = 0; i < count && i < 64; i++) kept[i] = arguments[i];
result $joins kept[$small];
====
octet *area = $work;
for ($counter i = 0; i < $length; i++) area[i] = $octet;
====
octet *area = $work;
for ($counter i = 0; i < $length; i++) area[i] = arguments[$length - 1 - i];
result += area[0];
====
half *sums = (half *)$work;
for (word i = 0; i < count; i++) sums[i % $length]++;
result $joins sums[1];
====
half *counts = (half *)$work;
for (word i = 0; i < count; i++) counts[arguments[i] >> 4]++;
result $joins counts[$small];
====
word *words = (word *)$work;
for ($counter i = 0; i < $length; i++) words[i] = pool_get(i);
for ($counter i = 1; i < $length; i++) result $joins words[i] - words[i - 1];
====
half *values = (half *)$work;
for (word i = 0; i < $length; i++) values[i] = (half)pool_get(i) & 0xffff;
for (word i = 1; i < $length; i++) {
    half value = values[i];
    word place = i;
    while (place > 0 && values[place - 1] > value) {
        values[place] = values[place - 1];
        place--;
    }
    values[place] = value;
}
result += values[$length / 2];
====
octet *values = $work;
for (word i = 0; i < $length; i++) values[i] = arguments[i];
for (word last = $length - 1; last > 0; last--)
    for (word i = 0; i < last; i++)
        if (values[i] > values[i + 1]) {
            octet value = values[i];
            values[i] = values[i + 1];
            values[i + 1] = value;
        }
result $joins values[0];
====
struct channel { half value, limit, over; } *channels = (struct channel *)$work;
for ($counter i = 0; i < $length; i++) {
    channels[i].value = (half)pool_get(i);
    channels[i].limit = $number + i;
    if (channels[i].value > channels[i].limit) channels[i].over++;
    result += channels[i].over;
}
====
struct ring { half head; half samples[8]; } *ring = (struct ring *)$work;
ring->samples[ring->head & 7] = (half)$value;
ring->head++;
for (half i = 0; i < 8; i++) result $joins ring->samples[i];
====
struct ring { word head; word samples[10]; } *ring = (struct ring *)$work;
word place = ring->head % 10;
ring->samples[place] = $value;
ring->head = place + 1;
result $joins ring->samples[$small];
====
struct ring { word head; word samples[8]; } *ring = (struct ring *)$work;
ring->samples[ring->head] = $value;
ring->head = (ring->head + 1) % 8;
result $joins ring->samples[0];
====
struct state { octet mode; octet count; half spare; word since; } *state = (struct state *)$work;
switch (state->mode) {
case 0:
    if (pool_get($index) > $number) state->mode = 1;
    break;
case 1:
    state->since += $small;
    if (state->since > $number) state->mode = 2;
    break;
default: state->count++; state->mode = 0; pool_add($index2, 1);
}
result += state->count;
====
word samples[8];
for (half i = 0; i < 8; i++) samples[i] = pool_get(i);
word sum = 0;
for (half i = 0; i < 8; i++) sum += samples[i];
result += sum >> 3;
====
octet samples[16];
for (word i = 0; i < 16; i++) samples[i] = arguments[i] ^ $octet;
result $joins samples[arguments[$argument] & 15];
====
half samples[$length];
for ($counter i = 0; i < $length; i++) samples[i] = arguments[i] * $small;
for ($counter i = 0; i + 1 < $length; i++)
    result += samples[i] > samples[i + 1] ? samples[i] - samples[i + 1] : samples[i + 1] - samples[i];
====
octet *first = $work, *second = first + 32, *third = second + 32;
for (word i = 0; i < 32; i++) {
    octet voted = (first[i] & second[i]) | (second[i] & third[i]) | (first[i] & third[i]);
    result += (first[i] != voted) + (second[i] != voted) + (third[i] != voted);
    first[i] = second[i] = third[i] = voted;
}
====
octet *first = $work, *second = first + 64;
word differences = 0;
for ($counter i = 0; i < $length; i++)
    if (first[i] != second[i]) differences++;
pool_set($index, differences);
====
volatile word *memory = (volatile word *)$work;
for (word i = 0; i < $length; i++) memory[i] = 0x5555555555555555 + i;
for (word i = 0; i < $length; i++)
    if (memory[i] != 0x5555555555555555 + i) result++;
====
half *rows = (half *)$work;
for (half row = 0; row < 4; row++)
    for (half column = 0; column < 4; column++)
        rows[4 * row + column] = row == column ? $number : row + column;
for (half row = 0; row < 4; row++) {
    half sum = 0;
    for (half column = 0; column < 4; column++) sum += rows[4 * row + column] * arguments[column];
    result $joins sum;
}
====
octet *frame = $work;
word value = $value, at = 0;
frame[at++] = $octet;
frame[at++] = count;
for (half shift = 0; shift < 64; shift += 8) frame[at++] = value >> shift;
result += at;
====
half code = (half)arguments[$argument] << 8 | arguments[$argument + 1];
word index = code & 15;
result $joins pool_get(index);
====
word index = arguments[$argument];
if (index < 16) pool_set(index, $value);
====
word index = arguments[$argument];
if (index > 15) return result;
pool_add(index, $number);
====
word index = $value % 16;
result $joins pool_get(index);
====
word value = $value;
if (value > $number) pool_add($index, 1);
else result++;
====
word value = pool_get($index);
if (value > $number + $small) pool_set($index2, 0);
else if (value < $number) pool_set($index2, 1);
====
word least = pool_get(0);
for ($counter i = 1; i < $length; i++) {
    word value = pool_get(i);
    if (value < least) least = value;
}
pool_set($index, least);
====
for ($counter i = 0; i < $length; i++)
    if (pool_get(i) > 0) pool_set(i, pool_get(i) - 1);
====
for (word i = 0; i < 16; i++) result $joins pool_get(i) << ($small & 3);
====
word value = pool_get($index);
half ones = 0;
for (half bit = 0; bit < 64; bit++) ones += value >> bit & 1;
result += ones;
====
word value = $value;
while (value != 0) {
    value &= value - 1;
    result++;
}
====
word value = $value & 0xffff, root = 0;
for (word bit = 1 << 7; bit > 0; bit >>= 1)
    if ((root | bit) * (root | bit) <= value) root |= bit;
result += root;
====
word sent;
if (next_param(&sent)) pool_set($index, sent);
====
word sent;
for ($counter i = 0; i < $length && next_param(&sent); i++) result $joins sent;
====
word sent;
while (next_param(&sent)) result $joins sent;
====
word sent;
if (next_param(&sent) && sent < 16) result += pool_get(sent);
====
word sent, *queue = (word *)$work;
for (word i = 0; i < 8; i++)
    if (next_param(&sent)) queue[i] = sent;
result $joins queue[$small];
====
word at = 0;
while (at + 2 <= count) {
    word length = arguments[at + 1];
    if (at + 2 + length > count) break;
    if (arguments[at] == $octet)
        for (word i = 0; i < length; i++) result += arguments[at + 2 + i];
    at += 2 + length;
}
====
word at = 0;
for (half item = 0; item < 8 && at + 3 <= count; item++) {
    half kind = arguments[at];
    half value = (half)arguments[at + 1] << 8 | arguments[at + 2];
    if (kind < 16) pool_set(kind, value);
    at += 3;
}
====
enum { SET$n = $small, ADD$n = $small + 8, CLEAR$n = $small + 16 };
----
switch (arguments[$argument]) {
case SET$n: pool_set($index, arguments[$argument + 1]); break;
case ADD$n: pool_add($index, arguments[$argument + 1]); break;
case CLEAR$n: pool_set($index, 0); break;
default: result++;
}
====
$static octet median_of$n(octet a, octet b, octet c)
{
    octet low = a < b ? a : b;
    octet high = a < b ? b : a;
    if (c < low) return low;
    return c < high ? c : high;
}
----
for (word i = 1; i + 1 < count; i++)
    result $joins median_of$n(arguments[i - 1], arguments[i], arguments[i + 1]);
====
$static word sum_of$n(const octet *from, word length)
{
    word sum = 0;
    for (word i = 0; i < length; i++) sum += from[i];
    return sum;
}
----
result += sum_of$n(arguments, count);
result $joins sum_of$n($work, $length);
====
$static word value_at$n(const octet *from)
{
    return (word)from[0] << 24 | (word)from[1] << 16 | (word)from[2] << 8 | from[3];
}
----
for (word i = 0; i < $length; i++) result $joins value_at$n(arguments + 4 * i);
====
$static word clamp$n(word value, word low, word high)
{
    return value < low ? low : value > high ? high : value;
}
----
pool_set($index, clamp$n($value, $number, $number + 100));
result += clamp$n($value, 0, $number);
====
$static word scale$n(word raw) { return (raw & 0xfff) * $number / 1000 + $small; }
----
for ($counter i = 0; i < $length; i++) pool_set(i, scale$n(pool_get(i)));
====
$static word limit_of$n(word channel)
{
    switch (channel) {
    case 0: return $number + pool_get($index);
    case 1: return $number * 2;
    case 2: return $octet;
    default: return $small;
    }
}
----
for (word i = 0; i < 4; i++)
    if (pool_get(i) > limit_of$n(i)) pool_add($index2, 1);
====
$static void put$n(octet *into, word value)
{
    for (half i = 0; i < 4; i++) into[i] = value >> (24 - 8 * i);
}
----
octet *table = $work;
for (word i = 0; i < $length; i++) put$n(table + 4 * i, pool_get(i));
result $joins table[$small];
====
struct filter$n { word sum, count; half last; };
$static half filtered$n(struct filter$n *filter, half sample)
{
    filter->sum += sample;
    filter->count++;
    filter->last = (half)(filter->sum / filter->count);
    return filter->last;
}
----
struct filter$n *filter = (struct filter$n *)$work;
for ($counter i = 0; i < $length; i++) result += filtered$n(filter, arguments[i]);
====
long error = (long)($value & 0xffff) - $number;
long *integral = (long *)$work;
*integral += error;
if (*integral > 10000) *integral = 10000;
if (*integral < -10000) *integral = -10000;
long drive = error * $small + (*integral >> 4);
pool_set($index, drive < 0 ? 0 : drive > 255 ? 255 : (word)drive);
====
octet *steady = $work;
if (pool_get($index) > $number) *steady = *steady < $small ? *steady + 1 : *steady;
else *steady = 0;
if (*steady == $small) pool_set($index2, 1);
====
octet *buffer = $work + 64 * (result & 1);
for (word i = 0; i < 64 && i < count; i++) buffer[i] = arguments[i];
====
half *table = (half *)$work;
for (word i = 0; i < 16; i++) table[i] = $small * i;
word low = 0, high = 16;
while (low < high) {
    word middle = (low + high) / 2;
    if (table[middle] < arguments[$argument]) low = middle + 1;
    else high = middle;
}
result += low;
"""

# What surrounds the pieces: `$pieces` is one to four of them, each `$piece` one.
SHAPES = """
$pieces
====
$pieces
====
if (count < $length) return 0;
$pieces
====
switch (arguments[$argument] & 3) {
case 0:
    $piece
    break;
case 1:
    $piece
    break;
case 2:
    $piece
    break;
default: result = $octet;
}
====
word rounds = arguments[$argument];
for (word round = 0; round < rounds; round++) {
    $pieces
    step_end($small);
}
====
for (word round = 0; round < $number; round++) {
    $pieces
    pool_set($index, round);
    step_end(1);
}
====
for (;;) {
    $pieces
    pool_add($index, 1);
    step_end($small);
}
====
for (;;) {
    word command = 0;
    if (next_param(&command)) {
        if (command == $small) {
            $piece
        } else if (command < $number) {
            $piece
        } else {
            $piece
        }
    }
    step_end(1);
}
====
if (pool_get($index) > $number) {
    $piece
} else {
    $piece
}
$piece
"""

PIECES, SHAPES = (text.strip("\n").split("\n====\n") for text in (PIECES, SHAPES))
HEAD = '#include "ocp.h"\n'
ENTRY = "word entry(const octet *arguments, word count)\n{\n    word result = 0;\n"


def indented(text, by):
    return re.sub(r"^(?=.)", " " * by, text, flags=re.M)


class Writer:
    """Writes one procedure."""

    def __init__(self, chance):
        self.chance, self.blocks, self.functions = chance, 0, []

    def value(self):
        """An operand: a word of the pool, or one or two arguments."""
        argument = self.chance.randrange(8)
        return self.chance.choice([f"pool_get({self.chance.randrange(16)})", f"arguments[{argument}]",
                                   f"((half)arguments[{argument}] << 8 | arguments[{argument + 1}])"])

    def word_of(self, name):
        """A value for a name. A digit at its end tells it from another name of its kind."""
        below, choice = self.chance.randrange, self.chance.choice
        kinds = {"index": lambda: below(16), "small": lambda: below(1, 8), "length": lambda: below(2, 17), "octet": lambda: below(256),
                 "number": lambda: below(100, 4000), "stride": lambda: below(1, 5), "argument": lambda: below(200), "value": self.value,
                 "work": lambda: f"(WORK + {256 * (self.blocks % 4) + 8 * below(9)})", "n": lambda: self.blocks,
                 "counter": lambda: choice(["word", "half", "int"]), "joins": lambda: choice(["+=", "+=", "^=", "|="]),
                 "static": lambda: choice(["static", "static __attribute__((noinline))"])}
        return str(kinds[name.rstrip("2")]())

    def filled(self, text):
        words = {}
        for name in re.findall(r"\$([a-z]+\d*)", text):
            if name not in ("piece", "pieces") and name not in words:
                words[name] = self.word_of(name)
        return re.sub(r"\$([a-z]+\d*)", lambda found: words.get(found[1], found[0]), text)

    def block(self):
        """A piece, in braces."""
        functions, _, body = self.filled(self.chance.choice(PIECES)).rpartition("\n----\n")
        self.blocks += 1
        self.functions += [functions] if functions else []
        return "{\n" + indented(body, 4) + "\n}"

    def procedure(self):
        """The text of a procedure."""
        shape = self.filled(self.chance.choice(SHAPES))
        places = len(re.findall(r"\$piece\b", shape))
        blocks = [self.block() for _ in range(places or self.chance.randint(1, 4))]
        each = iter(blocks if places else ["\n".join(blocks)])
        text = re.sub(r"^( *)\$pieces?$", lambda found: indented(next(each), len(found[1])), shape, flags=re.M)
        functions = "".join(f"\n{function}\n" for function in self.functions)
        return f"{HEAD}{functions}\n{ENTRY}{indented(text, 4)}\n    return result;\n}}\n"


if __name__ == "__main__":
    print(Writer(random.Random(" ".join(sys.argv[1:]))).procedure(), end="")
