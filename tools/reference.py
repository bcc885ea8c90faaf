"""A coder and decoder written from the rules in docs/, apart from the code of this repository.

    python3 tools/reference.py play < crates/readburst/stdin       what readburst is to print of a recording
    python3 tools/reference.py send $(cat crates/sendburst/args) < crates/sendburst/stdin       what sendburst is to write of messages
    python3 tools/reference.py vectors < crates/vectors/stdin      what vectors is to print of an outside encoder's bursts

The stored outputs of the programs are what it makes. `vectors` also says on standard error of each block whether it is refused, not the
message sent, not the only one of the least cost, or told with a cost or a heard count that are not those of what was done to the burst.
Floats are reckoned in whole numbers; the machine's own have no part in what is made.
"""

import sys

# Taps by the age of the bit, the newest 0.
HALF = [(0, 3, 4), (0, 1, 2, 4)]
FIFTH = [(0, 2, 4), (0, 1, 3, 4), (0, 1, 2, 3, 4), (0, 2, 3, 4), (0, 1, 2, 4)]
COLUMNS = [0, 5, 2, 7, 4, 1, 6, 3]
LOADED = (0, 1, 3, 6, 8, 10, 11, 14)
GENERATOR = (16, 12, 5, 0)
MOST_BURSTS = 1000000


class Channel:
    def __init__(self, rows, memory, message, parity, depth, masks, scrambled):
        """The masks are a prefix, a middle, how often the middle is applied, and a suffix, each table by rows."""
        self.rows, self.memory, self.depth = rows, memory, depth
        self.message, self.parity = message, parity
        self.protected = message + parity
        self.steps = self.protected + memory
        kept = [j for j, keep in enumerate(self.pattern(masks)) if keep]
        self.burst = len(kept)
        turns = masking(self.burst) if scrambled else [0] * self.burst
        # Coded bit to place and turn.
        self.places = {}
        for number, j in enumerate(kept):
            place = number // 8 + self.burst // 8 * COLUMNS[number % 8]
            self.places[j] = (place, turns[place])

    def pattern(self, masks):
        """Which coded bits are kept: what the masks do not cover lies before the suffix, and is kept whole."""
        prefix, middle, times, suffix = masks
        before = by_columns(prefix) + by_columns(middle) * times
        after = by_columns(suffix)
        return before + [1] * (len(self.rows) * self.steps - len(before) - len(after)) + after

    def coded(self, bits):
        run = list(bits) + [0] * self.memory
        return [sum(run[t - age] for age in row if age <= t) % 2 for t in range(self.steps) for row in self.rows]

    def laid(self, bits):
        """The bits of a block at their places, turned."""
        coded = self.coded(bits)
        burst = [None] * self.burst
        for j, (place, turn) in self.places.items():
            burst[place] = coded[j] ^ turn
        return burst


def by_columns(table):
    return [int(entry) for column in zip(*table.split()) for entry in column]


def masking(length):
    register = [int(i in LOADED) for i in range(15)]
    values = []
    for _ in range(length):
        values.append(register[0] ^ register[14])
        register = [values[-1]] + register[:14]
    return values


def parity(message):
    """The remainder of the message times D^16, its highest power first."""
    rest = list(message) + [0] * 16
    for i in range(len(message)):
        if rest[i]:
            for power in GENERATOR:
                rest[i + 16 - power] ^= 1
    return rest[-16:]


# The bench, the BCCH, data 2.4 and data 9.6.
CHANNELS = [
    Channel([(0, 1, 2), (0, 2)], 2, 6, 0, 1, ("", "", 0, ""), False),
    Channel(HALF, 4, 192, 16, 1, ("", "", 0, ""), True),
    Channel(FIFTH, 4, 144, 0, 3, ("111 101 101 010 110", "111 111 101 111 110", 41, "111 101 101 010 011"), True),
    Channel(HALF, 4, 480, 0, 3, ("11111 01011", "011 101", 158, "11111 11010"), True),
]


class Count:
    name, width, nothing, zero = "count", 1, 2, 0

    @staticmethod
    def of_bytes(given):
        return given[0]

    @staticmethod
    def bytes_of(sample):
        return bytes([sample])

    @staticmethod
    def fit(sample):
        return sample <= 2

    @staticmethod
    def silent(sample):
        return sample == 2

    @staticmethod
    def clean(bit):
        return bit

    @staticmethod
    def heard(bit, strength):
        return bit

    @staticmethod
    def grown(cost, sample, bit):
        return min(cost + (sample == 1 - bit), 65535)

    @staticmethod
    def shown(cost):
        return str(cost)


class Ranked:
    name, width, nothing, zero = "ranked", 1, 0, (0, 0)

    @staticmethod
    def of_bytes(given):
        return int.from_bytes(given, "big", signed=True)

    @staticmethod
    def bytes_of(sample):
        return sample.to_bytes(1, "big", signed=True)

    @staticmethod
    def fit(sample):
        return sample >= -127

    @staticmethod
    def silent(sample):
        return sample == 0

    @staticmethod
    def clean(bit):
        return Ranked.heard(bit, 127)

    @staticmethod
    def heard(bit, strength):
        return -strength if bit else strength

    @staticmethod
    def grown(cost, sample, bit):
        if not (sample > 0 if bit else sample < 0):
            return cost
        count, strength = cost
        return (count + 1, strength + abs(sample)) if count < 65535 else (65535, 127 * 65535)

    @staticmethod
    def shown(cost):
        return "%d/%d" % cost


# The size of a float is a whole number of 2^-149, which is the least. What is no number has a size beyond infinity.
ONE, INFINITE = 1 << 149, 1 << 277


def size_of(word):
    """The size of a float by its 31 bits without the sign."""
    power, figures = word >> 23, word & 0x7FFFFF
    return (1 << 23 | figures) << power - 1 if power else figures


def word_of(size):
    """The bits of a float of this size."""
    past = max(size.bit_length() - 24, 0)
    return (past << 23) + (size >> past)


def rounded(number, divisor=1):
    """The size nearest to a quotient: 24 figures, ties to even, and infinity where that is beyond the largest."""
    unit = divisor << max((number // divisor).bit_length() - 24, 0)
    whole, rest = divmod(number, unit)
    return min((whole + (2 * rest + whole % 2 > unit)) * (unit // divisor), INFINITE)


class Float:
    """A sample is its sign, 1 where it is negative, and its size."""

    name, width, nothing, zero = "float", 4, (0, 0), 0

    @staticmethod
    def of_bytes(given):
        sign, word = divmod(int.from_bytes(given, "big"), 1 << 31)
        return sign, size_of(word)

    @staticmethod
    def bytes_of(sample):
        sign, size = sample
        return (sign << 31 | word_of(size)).to_bytes(4, "big")

    @staticmethod
    def fit(sample):
        return sample[1] <= 1000 * ONE

    @staticmethod
    def silent(sample):
        return sample[1] == 0

    @staticmethod
    def clean(bit):
        return bit, ONE

    @staticmethod
    def heard(bit, strength):
        return bit, rounded((strength + 200) * ONE, 17)

    @staticmethod
    def grown(cost, sample, bit):
        sign, size = sample
        return cost if sign == bit else rounded(cost + size)

    @staticmethod
    def shown(cost):
        return "%08X" % word_of(cost)


KINDS = [Count, Ranked, Float]
NAMES = ["bench", "bcch", "data24", "data96"]


def decoded(channel, kind, due):
    """The path of the trellis rule without its closing zeros, its cost, and whether every other path costs more."""
    kept = {(0,) * channel.memory: [(kind.zero, ())]}
    for t in range(channel.steps):
        places = [channel.places.get(len(channel.rows) * t + i) for i in range(len(channel.rows))]
        after = {}
        # Of two registers that become one, that which drops a 0 comes first, and stays first unless the other is cheaper.
        for register in sorted(kept, key=lambda register: register[-1]):
            for bit in (0, 1) if t < channel.protected else (0,):
                window = (bit,) + register
                met = [(due[at[0]], sum(window[age] for age in row) % 2 ^ at[1]) for row, at in zip(channel.rows, places) if at]
                for cost, path in kept[register]:
                    for sample, value in met:
                        cost = kind.grown(cost, sample, value)
                    after.setdefault(window[:-1], []).append((cost, path + (bit,)))
        # The two cheapest of each register lead to the two cheapest of all, since growing two costs alike leaves their order.
        kept = {register: sorted(paths, key=lambda run: run[0])[:2] for register, paths in after.items()}
    (cost, path), (other, _) = kept[(0,) * channel.memory]
    return list(path[: channel.protected]), cost, cost < other


class Receiver:
    def __init__(self, channel, kind):
        self.channel, self.kind, self.bursts = channel, kind, []
        # Of the block told last, whether every other path costs more.
        self.only = None

    def hear(self, samples):
        if len(self.bursts) == MOST_BURSTS:
            return "X 5 0"
        if len(samples) != self.channel.burst:
            return "X 6 %d" % len(samples)
        for place, sample in enumerate(samples):
            if not self.kind.fit(sample):
                return "X 7 %d" % place
        return self.count(samples)

    def miss(self):
        if len(self.bursts) == MOST_BURSTS:
            return "X 5 0"
        return self.count([self.kind.nothing] * self.channel.burst)

    def stolen(self):
        return "X 8 0" if self.channel.depth == 1 else "S %d" % len(self.bursts)

    def restart(self):
        self.bursts = []
        return "R"

    def count(self, samples):
        self.bursts.append(samples)
        block = len(self.bursts) - self.channel.depth
        if block < 0:
            return "W %d" % (len(self.bursts) - 1)
        due = [self.bursts[block + place % self.channel.depth][place] for place in range(self.channel.burst)]
        path, cost, self.only = decoded(self.channel, self.kind, due)
        message = path[: self.channel.message]
        if self.channel.parity and path[self.channel.message :] != parity(message):
            return "X 11 0"
        heard = sum(not self.kind.silent(sample) for sample in due)
        return "B %d %s %d %s" % (block, self.kind.shown(cost), heard, "".join(map(str, message)))


def record(data, at, width):
    """The mark at an offset, what belongs to it, and the length of both, samples being so wide; nothing where no whole record begins."""
    mark, rest = data[at : at + 2], data[at + 2 :]
    if mark in (b"MI", b"ST", b"RE"):
        return mark, None, 2
    if mark == b"OP" and len(rest) >= 2 and rest[0] < len(CHANNELS) and rest[1] < len(KINDS):
        return mark, rest[:2], 4
    if mark == b"HE" and len(rest) >= 2:
        count = int.from_bytes(rest[:2], "big")
        length = count * width
        if count <= 1024 and len(rest) >= 2 + length:
            return mark, rest[2 : 2 + length], 4 + length
    return None


def play(data):
    at, receiver = 0, None
    while at < len(data):
        width = receiver.kind.width if receiver else 1
        found = record(data, at, width)
        if found is None or (receiver is None and found[0] != b"OP"):
            yield "X 12 %d" % at
            return
        mark, given, taken = found
        if mark == b"OP":
            receiver = Receiver(CHANNELS[given[0]], KINDS[given[1]])
            yield "O %d" % given[0]
        elif mark == b"HE":
            yield receiver.hear([receiver.kind.of_bytes(given[i : i + width]) for i in range(0, len(given), width)])
        else:
            yield {b"MI": receiver.miss, b"ST": receiver.stolen, b"RE": receiver.restart}[mark]()
        at += taken


def heard_under(condition, kind, n, burst):
    """Burst n as it is heard under a condition; nothing where it is lost."""
    if condition == "lost" and n == 5:
        return None
    steps = [k + 7 * n for k in range(len(burst))]
    if condition == "noise":
        return [kind.heard(bit ^ (step % 37 == 0), 1 + step % 127) for step, bit in zip(steps, burst)]
    clean = [kind.clean(bit) for bit in burst]
    if condition == "erasures":
        return [kind.nothing if step % 6 == 0 else sample for step, sample in zip(steps, clean)]
    return clean


def sent(channel, messages):
    """The bursts that carry the messages: places due to a block before the first have a 0, turned."""
    blocks = [channel.laid(message + (parity(message) if channel.parity else [])) for message in messages]
    nothing = [0] * channel.burst
    for place, turn in channel.places.values():
        nothing[place] = turn
    for n in range(len(messages)):
        due = [n - place % channel.depth for place in range(channel.burst)]
        yield [blocks[block][place] if block >= 0 else nothing[place] for place, block in enumerate(due)]


def compared(name, made, outside):
    """The lines that tell which of the bursts made are not the outside encoder's, and how many are."""
    alike = 0
    for n, (ours, theirs) in enumerate(zip(made, outside)):
        longer = range(max(len(ours), len(theirs)))
        other = [place for place in longer if ours[place : place + 1] != theirs[place : place + 1]]
        if other:
            yield "%s sent burst %d otherwise, first at place %d" % (name, n, other[0])
        alike += not other
    yield "%s sent %d of %d bursts as the outside encoder" % (name, alike, len(outside))


def bits(word):
    return [int(figure) for figure in word]


def doubts(receiver, line, messages, bursts):
    """What is not to be expected of an answer."""
    if line[0] == "X":
        yield "refused"
    if line[0] != "B":
        return
    _, block, cost, heard, message = line.split()
    depth, kind = receiver.channel.depth, receiver.kind
    expected, lost = kind.zero, 0
    # In the order of the coded bits: where sums are rounded, another order may make another cost.
    for place, _ in receiver.channel.places.values():
        n = int(block) + place % depth
        sample = receiver.bursts[n][place]
        expected = kind.grown(expected, sample, bursts[n][place])
        lost += kind.silent(sample)
    if bits(message) != messages[int(block)]:
        yield "not the message sent"
    elif cost != kind.shown(expected):
        yield "a cost that is not that of the message sent"
    if not receiver.only:
        yield "not the only block of its cost"
    if int(heard) != receiver.channel.burst - lost:
        yield "a heard count that is not that of the places heard"


def vectors(lines):
    given = [line.split() for line in lines]
    for name in ("BCCH", "DATA24", "DATA96"):
        channel = CHANNELS[NAMES.index(name.lower())]
        messages = [bits(line[1]) for line in given if line[0] == name]
        bursts = [bits(line[2]) for line in given if line[0] == name]
        yield from compared(name, list(sent(channel, messages)), bursts)
        for kind in KINDS:
            for condition in ("clean", "noise", "erasures", "lost"):
                receiver = Receiver(channel, kind)
                for n, burst in enumerate(bursts):
                    heard = heard_under(condition, kind, n, burst)
                    line = receiver.miss() if heard is None else receiver.hear(heard)
                    yield "%s %s %s %s" % (name, kind.name, condition, line)
                    for doubt in doubts(receiver, line, messages, bursts):
                        print("%s %s %s, block %d: %s" % (name, kind.name, condition, n + 1 - channel.depth, doubt), file=sys.stderr)


def send(words, lines):
    """What sendburst is to write: the bursts as figures, or a recording of them by the clean samples of a kind."""
    *options, name = words
    number = NAMES.index(name)
    bursts = sent(CHANNELS[number], [bits(line) for line in lines])
    if not options:
        return "".join("".join(map(str, burst)) + "\n" for burst in bursts).encode()
    kind = next(kind for kind in KINDS if kind.name == options[1])
    written = b"OP" + bytes([number, KINDS.index(kind)])
    for burst in bursts:
        written += b"HE" + len(burst).to_bytes(2, "big") + b"".join(kind.bytes_of(kind.clean(bit)) for bit in burst)
    return written


if __name__ == "__main__":
    if sys.argv[1:] == ["play"]:
        made = play(sys.stdin.buffer.read())
    elif sys.argv[1:] == ["vectors"]:
        made = vectors(sys.stdin.read().splitlines())
    elif len(sys.argv) > 2 and sys.argv[1] == "send":
        sys.stdout.buffer.write(send(sys.argv[2:], sys.stdin.read().splitlines()))
        made = []
    else:
        sys.exit(__doc__)
    for line in made:
        print(line)
