"""Feeds of any number of tracks, the same ones in each run.

`feed` gives traffic to be examined, in blocks of one record: a square of 200 km, on flight levels 50 to
400, one in four climbing or descending. Each fiftieth track flies towards the one before it on the same
level, 3 km away. One track in forty is tentative. Numbers stand in no order, so that the table has to be
sorted.

`en_route` gives traffic of one density, in blocks of one record: 1,000 tracks a square of 400 km, on flight
levels 240 to 400 in steps of 10, at 200 to 260 m/s in all directions, one in ten climbing or descending.

`mixed` gives records to be read, of many shapes of category 062, in blocks of many records with blocks of
other categories between them. All tracks are tentative but for a few pairs that fly head on.

`told` gives records of which few count, since each track is told often: by several trackers, of which each
has a feed. All tracks are tentative but for a few pairs that fly head on.

`cycling` gives traffic over many cycles: that of `en_route`, each track told once in each cycle, and each turning
round where it comes to the edge of its square or of its levels.

`volumes` gives the text of airspace volumes over the square of so many tracks of `cycling`: polygons of 20 points round a
middle, 2 to 15 km from it, with floors and ceilings within the levels that the tracks fly on.

`low` gives the traffic of `cycling` on 1,000 to 17,000 ft, and `terrain` the octets of a terrain file under it: low ground, and
in one cell of 1,000 a peak above all tracks.

All times of the others are from the site's start to just before the end of its first cycle.
"""

from math import isqrt

START = 4_608_000
PERIOD = 512


class Draws:
    """Whole numbers from a linear congruential generator."""

    def __init__(self):
        self.state = 1

    def below(self, limit):
        self.state = (self.state * 6364136223846793005 + 1442695040888963407) % 2**64
        return (self.state >> 33) % limit

    def between(self, low, high):
        return low + self.below(high - low + 1)


def shuffled_numbers(draws, count):
    numbers = list(range(1, count + 1))
    for i in range(count - 1, 0, -1):
        j = draws.below(i + 1)
        numbers[i], numbers[j] = numbers[j], numbers[i]
    return numbers


def placed_tracks(draws, count):
    """Position in half-metres, velocity in 0.25 m/s, level in 25 ft, rate in 6.25 ft/min."""
    tracks = []
    for i in range(count):
        if i % 50 == 49:
            before = tracks[-1] = dict(tracks[-1], vx=800, vy=0)
            tracks.append(dict(before, x=before["x"] + 6_000, vx=-800))
            continue
        tracks.append({
            "x": draws.between(-200_000, 200_000),
            "y": draws.between(-200_000, 200_000),
            "vx": draws.between(-1_000, 1_000),
            "vy": draws.between(-1_000, 1_000),
            "level": 40 * draws.between(5, 40),
            "rate": draws.between(-400, 400) if draws.below(4) == 0 else 0,
        })
    return tracks


def block(track, number, time, tentative):
    octets = bytearray.fromhex("3E 00 1C 97 0D 24 19 0A")
    octets += time.to_bytes(3, "big")
    for name, size in (("x", 3), ("y", 3), ("vx", 2), ("vy", 2)):
        octets += track[name].to_bytes(size, "big", signed=True)
    octets += number.to_bytes(2, "big")
    octets.append(2 if tentative else 0)
    octets += track["level"].to_bytes(2, "big", signed=True)
    octets += track["rate"].to_bytes(2, "big", signed=True)
    return octets


def feed(count):
    """The feed's bytes, and how many of its tracks aren't tentative."""
    draws = Draws()
    numbers = shuffled_numbers(draws, count)
    octets = bytearray()
    eligible = 0
    for i, track in enumerate(placed_tracks(draws, count)):
        tentative = draws.below(40) == 0
        octets += block(track, numbers[i], START + i * PERIOD // count, tentative)
        eligible += not tentative
    return bytes(octets), eligible


def reach_of(count):
    """How far from its middle the square of so many tracks goes, in half-metres."""
    return isqrt(400_000**2 * count // 1_000)


def cruising_tracks(draws, count):
    """In the units of `placed_tracks`."""
    reach = reach_of(count)
    tracks = []
    while len(tracks) < count:
        vx, vy = draws.between(-1_040, 1_040), draws.between(-1_040, 1_040)
        if not 800**2 <= vx * vx + vy * vy <= 1_040**2:
            continue
        tracks.append({
            "x": draws.between(-reach, reach),
            "y": draws.between(-reach, reach),
            "vx": vx,
            "vy": vy,
            "level": 40 * draws.between(24, 40),
            "rate": draws.between(160, 480) * (1 - 2 * draws.below(2)) if draws.below(10) == 0 else 0,
        })
    return tracks


def en_route(count):
    """The feed's bytes; none of its tracks is tentative."""
    draws = Draws()
    numbers = shuffled_numbers(draws, count)
    return b"".join(block(track, numbers[i], START + i * PERIOD // count, False)
                    for i, track in enumerate(cruising_tracks(draws, count)))


def folded(value, low, high):
    """Where something is that goes on from `low` by so much and turns round at `high` and `low`, and whether it is on
    its way back."""
    turns, place = divmod(value - low, high - low)
    return (high - place, True) if turns % 2 else (low + place, False)


# A level in the steps that a rate takes in a cycle, of which 60 are 25 ft.
STEPS = 30_720 // PERIOD


def turned(track, cycle, reach):
    """Where a track is in a cycle and how it moves, unless it turned round by then."""
    moved = {"vx": track["vx"], "vy": track["vy"], "rate": track["rate"]}
    places = {"x": (track["x"] + 2 * track["vx"] * cycle, -reach, reach, "vx"),
              "y": (track["y"] + 2 * track["vy"] * cycle, -reach, reach, "vy"),
              "level": (STEPS * track["level"] + track["rate"] * cycle, STEPS * 960, STEPS * 1_600, "rate")}
    for name, (value, low, high, speed) in places.items():
        moved[name], is_back = folded(value, low, high)
        if is_back:
            moved[speed] = -moved[speed]
    moved["level"] //= STEPS
    return moved


def told_each_cycle(count, cycles, lower):
    """The feed's bytes: so many tracks, each told once in each of so many cycles, up to 31 m beside its place, and so many
    times 25 ft lower. None is tentative."""
    draws = Draws()
    numbers = shuffled_numbers(draws, count)
    tracks = cruising_tracks(draws, count)
    reach = reach_of(count)
    records = []
    for cycle in range(cycles):
        for i, track in enumerate(tracks):
            seen = turned(track, cycle, reach)
            seen["x"] += draws.below(64)
            seen["level"] -= lower
            time = START + cycle * PERIOD + i * PERIOD // count
            records.append(bytes(block(seen, numbers[i], time, False)[3:]))
    return in_blocks(records)


def cycling(count, cycles):
    """En route, on flight levels 240 to 400."""
    return told_each_cycle(count, cycles, 0)


def low(count, cycles):
    """The same on 1,000 to 17,000 ft."""
    return told_each_cycle(count, cycles, 920)


# Twenty directions round a place, in thousandths.
DIRECTIONS = [(1000, 0), (951, 309), (809, 588), (588, 809), (309, 951), (0, 1000), (-309, 951), (-588, 809), (-809, 588),
              (-951, 309), (-1000, 0), (-951, -309), (-809, -588), (-588, -809), (-309, -951), (0, -1000), (309, -951),
              (588, -809), (809, -588), (951, -309)]


def volumes(count, tracks):
    """So many tables of a site file, over the square of so many tracks. Each line of a table has one value."""
    draws = Draws()
    reach = reach_of(tracks) // 2
    tables = []
    for i in range(count):
        x, y = draws.between(-reach, reach), draws.between(-reach, reach)
        floor = 25 * draws.between(960, 1_500)
        radii = [draws.between(2_000, 15_000) for _ in DIRECTIONS]
        points = ", ".join(f"[{x + radius * east // 1_000}, {y + radius * north // 1_000}]"
                           for radius, (east, north) in zip(radii, DIRECTIONS))
        tables.append(f'\n[[volume]]\nname = "V{i}"\nfloor = {floor}\nceiling = {floor + 25 * draws.between(40, 200)}\n'
                      f"points = [{points}]\n")
    return "".join(tables)


def terrain(cells, tracks):
    """A terrain file of so many columns and rows over the square of so many tracks: ground up to 900 ft, and in one cell of
    1,000 a peak of 20,000 ft."""
    draws = Draws()
    side = max(100, reach_of(tracks) // cells)
    corner = (-(side * cells) // 2).to_bytes(4, "big", signed=True)
    values = (800 if draws.below(1_000) == 0 else draws.below(37) for _ in range(cells * cells))
    counts = 2 * cells.to_bytes(2, "big")
    return b"TER1" + 2 * corner + side.to_bytes(4, "big") + counts + b"".join(value.to_bytes(2, "big") for value in values)


# What `mixed` makes its records of: the octets of the fixed items, the size of a part of the extended ones,
# the explicit ones and the subfields of the compound ones, by field reference number.
FIXED = {1: 2, 3: 1, 4: 3, 5: 8, 6: 6, 7: 4, 8: 2, 9: 2, 10: 7, 12: 2,
         15: 1, 17: 2, 18: 2, 19: 2, 20: 2, 23: 1, 25: 2}
EXTENDED = {22: 1, 26: 3}
EXPLICIT = (34, 35)
COMPOUND = {frn: sizes.split() for frn, sizes in {
    11: "3 6 2 2 2 2 2  1 R15 2 2 7 2 2  2 2 2 2 1 8 1  6 2 1 R8 2 2 2",
    14: "1 1 1 1 2 1 1  1 1 1",
    16: "1 " * 31,
    21: "2 7 4 1 4 1 4  4 3 2 2 R4 6 1  7 7 2 7",
    24: "1 4 6 2 2 1 1",
    27: "4 2 4 1 1 2 2  1",
    28: "2 4 2 2 2 1",
}.items()}
STATUS = 13

# Shapes of records: their items, how many templates each has, and how many FSPEC octets stand behind the
# last one that names an item. The last four shapes aren't usable.
TRACKER = {1, 3, 4, 5, 6, 7, 9, 10, 11, 12, 13, 14, 15, 16, 17, 19, 20}
SHAPES = [
    ({1, 4, 6, 12, 13}, 3, 0),
    ({1, 4, 6, 7, 12, 13, 17, 20}, 8, 0),
    (TRACKER, 16, 0),
    (TRACKER | {8, 18, 22, 23, 25, 26}, 4, 0),
    (TRACKER | {21, 27, 28}, 4, 0),
    ({1, 4, 6, 9, 12, 13, 19, 24, 28}, 2, 1),
    ({1, 4, 6, 7, 12, 13, 17, 34, 35}, 2, 0),
    ({1, 4, 12, 13}, 2, 0),
    (set(FIXED) | set(EXTENDED) | set(COMPOUND) | {STATUS, *EXPLICIT}, 4, 0),
    ({1, 4, 6, 12, 13}, 1, 2),
    ({1, 4, 7, 12}, 1, 0),
    (TRACKER - {1}, 1, 0),
    (TRACKER - {4}, 1, 0),
    ({1, 4, 6, 13, 17}, 1, 0),
]

# Blocks that are read over: north markers of category 34, and reports of category 48.
OTHERS = [bytes.fromhex("22 00 0B F0 19 0A 01 46 50 10 00"), bytes([0x30, 0x01, 0x03]) + bytes(256)]

HEAD_ON = 10


def presence(named, spare_octets):
    """The octets that name these numbers, from 1, and so many more."""
    count = max(1, -(-max(named, default=0) // 7)) + spare_octets
    octets = bytearray([1] * (count - 1) + [0])
    for number in named:
        octets[(number - 1) // 7] |= 0x80 >> (number - 1) % 7
    return octets


def text(draws, size):
    return bytearray(draws.below(256) for _ in range(size))


def parts(draws, size):
    """One part to three, each but the last asking for another."""
    octets = text(draws, size * draws.between(1, 3))
    for i in range(size - 1, len(octets), size):
        octets[i] = octets[i] | 1 if i + 1 < len(octets) else octets[i] & 0xFE
    return octets


def subfield(draws, size):
    if not size.startswith("R"):
        return text(draws, int(size))
    count = draws.between(0, 3)
    return bytearray([count]) + text(draws, count * int(size[1:]))


def item(draws, frn):
    if frn in FIXED:
        return text(draws, FIXED[frn])
    if frn in EXTENDED:
        return parts(draws, EXTENDED[frn])
    if frn in EXPLICIT:
        size = draws.between(1, 20)
        return bytearray([size]) + text(draws, size - 1)
    if frn == STATUS:
        octets = parts(draws, 1)
        octets[0] |= 2
        return octets
    sizes = COMPOUND[frn]
    named = [i for i in range(1, len(sizes) + 1) if draws.below(3) == 0]
    return presence(named, 0) + b"".join(subfield(draws, sizes[i - 1]) for i in named)


def template(draws, frns, spare_octets):
    """A record, and where its 010, 070 and 040 stand, if it has them."""
    octets = presence(frns, spare_octets)
    places = {}
    for frn in sorted(frns):
        places[frn] = len(octets)
        octets += item(draws, frn)
    return octets, places.get(1), places.get(4), places.get(12)


def head_on(i):
    """One of a pair of tracks that fly towards each other, 3 km apart; the pairs are 50 km apart."""
    pair, second = divmod(i, 2)
    track = {"x": 6_000 * second, "y": 100_000 * pair, "vx": -1_000 if second else 1_000, "vy": 0,
             "level": 1_320, "rate": 0}
    return block(track, 0, 0, False)[3:], 3, 5, 18


def is_head_on(i, step):
    return i % step == 0 and i // step < 2 * HEAD_ON


def framed(body):
    return bytes([62]) + (3 + len(body)).to_bytes(2, "big") + body


def mixed(count):
    """A feed of so many records, at least 40 and at most 1,000,000, each of another track."""
    draws = Draws()
    templates = [template(draws, frns, spare_octets)
                 for frns, copies, spare_octets in SHAPES for _ in range(copies)]
    step = count // (2 * HEAD_ON)
    feed = bytearray()
    body = bytearray()
    room = draws.between(1, 200)
    for i in range(count):
        chosen = head_on(i // step) if is_head_on(i, step) else templates[draws.below(len(templates))]
        octets, source, time, number = chosen
        record = bytearray(octets)
        # An odd number gives each track another key of 20 bits, in no order.
        key = i * 618_033 % 2**20
        if source:
            record[source:source + 2] = bytes([25, 10 + (key >> 16)])
        if time:
            record[time:time + 3] = (START + i * PERIOD // count).to_bytes(3, "big")
        if number:
            record[number:number + 2] = (key & 0xFFFF).to_bytes(2, "big")
        if room == 0 or 3 + len(body) + len(record) > 0xFFFF:
            feed += framed(body)
            if draws.below(10) == 0:
                feed += OTHERS[draws.below(len(OTHERS))]
            body = bytearray()
            room = draws.between(1, 200)
        body += record
        room -= 1
    return bytes(feed + framed(body))


TRACKERS = 8
RECORDS_IN_BLOCK = 50
BYSTANDER = block({"x": 0, "y": 0, "vx": 800, "vy": 0, "level": 1_320, "rate": 0}, 0, 0, True)[3:]


def told_tick(i, count, tracker, turn, turns):
    """When a tracker tells track i at one of its turns. Each tracker goes through the tracks in order, half
    a tick behind the tracker before it, so that two often tell a track at the same time."""
    half_ticks = 2 * PERIOD
    place = (i * half_ticks // count + tracker * turns) % half_ticks
    return (turn * half_ticks + place) // (2 * turns)


def teller(draws, i, count):
    """What gives the record of track i at a tick: up to 31 m beside its place, since no tracker sees exactly
    where it is."""
    step = count // (2 * HEAD_ON)
    record = head_on(i // step)[0] if is_head_on(i, step) else BYSTANDER
    # An odd number gives each track another key below the next power of two, in no order.
    key = i * 618_033 % 2**count.bit_length()
    before = bytes(record[:3]) + bytes([25, 10 + (key >> 16)])
    after = bytes(record[11:18]) + (key & 0xFFFF).to_bytes(2, "big") + bytes(record[20:])
    x, vx = (int.from_bytes(octets, "big", signed=True) for octets in (record[8:11], record[14:16]))

    def record_at(tick):
        seen = x + (vx * tick >> 8) + draws.below(64)
        return before + (START + tick).to_bytes(3, "big") + seen.to_bytes(3, "big", signed=True) + after

    return record_at


def in_blocks(records):
    return b"".join(framed(b"".join(records[i:i + RECORDS_IN_BLOCK]))
                    for i in range(0, len(records), RECORDS_IN_BLOCK))


def told(count, trackers, turns):
    """One feed, and eight of the same records: each track is told by so many of eight trackers, in so many
    turns of each. In no feed do times fall. Where they are equal, the one feed has the records of later
    feeds first, so that the same ones count in it as in the eight."""
    draws = Draws()
    ticks = [[[] for _ in range(TRACKERS)] for _ in range(PERIOD)]
    for i in range(count):
        record_at = teller(draws, i, count)
        for place in range(i, i + trackers):
            tracker = place % TRACKERS
            for turn in range(turns):
                tick = told_tick(i, count, tracker, turn, turns)
                ticks[tick][tracker].append(record_at(tick))
    one = in_blocks([record for tick in ticks for records in reversed(tick) for record in records])
    eight = [in_blocks([record for tick in ticks for record in tick[i]]) for i in range(TRACKERS)]
    return [one], eight
