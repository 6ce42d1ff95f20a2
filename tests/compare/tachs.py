"""What the tachometer's calls show of request h: the slowest and the fastest speed of a list of stamps, and how many fell under a floor.

Code, speeds and number are worked out here from the bytes of a call, sentence by sentence as document 02 has them, in whole numbers. A
result that says otherwise is wrong. So are two results of the same periods that tell different speeds, different numbers under one floor,
or fewer under a higher one.
"""
import itertools

import calls

DONE, FEW, EQUAL = 0, 12, 13
RESULT = ("code", "slowest", "fastest", "under the floor")
ROUND = 65_536  # the counter passes from 65,535 to 0
MINUTE = 5_400_000
PERIODS = range(1, ROUND)
ENDS = (0, 1, 32_767, 32_768, 65_534, 65_535)  # of the counter and of its halves
FLOORS = (0, 1, 81, 82, 83, 65_535, 65_536, 5_399_999, 5_400_000, 5_400_001, 2**31 - 1, 2**31, 2**32 - 2, 2**32 - 1)
SHORT = range(2, 9)  # numbers of speeds, one less than stamps, of which every place is looked at
LONG, LONGEST = 99_999, 999_999
LONG_PLACES = (0, 1, LONG // 2, LONG - 2, LONG - 1)
MANY = (*range(2, 41), 255, 256, 257, 65_535, 65_536, 65_537)  # the last on both sides of what one byte holds, and two
ROUNDS = range(41)
EXAMPLE = (1983, 2723)  # count and revolutions a minute that source document 000 works out
EXAMPLE_ROW = "h two stamps, 2723 for 1983, the page's example"
OFFS = {-1: "one below", 0: "at", 1: "one above"}
FLOOR_ROWS = {off: f"h two stamps, floor {words} the speed: {'under' if off > 0 else 'not under'}, each period" for off, words in OFFS.items()}
WAYS = {False: "not going round", True: "going round"}
WAY_ROWS = {goes_round: f"h two stamps, {words}, each period" for goes_round, words in WAYS.items()}
FEW_ROWS = ("h 12 for no stamp, each floor", "h 12 for one stamp, each floor")


# ---- Request h ----------------------------------------------------------------


def period(earlier, later):
    """The later stamp less the earlier, going round."""
    return (later - earlier) % ROUND


def speed(of_period):
    """5,400,000 divided by the period, rounded down."""
    return MINUTE // of_period


class Listed:
    """A list of stamps with its floor, and what they say."""

    def __init__(self, call):
        self.stamps, self.floor = calls.tach_stamps(call), calls.tach_floor(call)
        self.periods = [period(earlier, later) for earlier, later in itertools.pairwise(self.stamps)]
        self.number = len(self.periods)
        self.code = self.judged()
        self.speeds = [] if self.code else [speed(one) for one in self.periods]

    def judged(self):
        """12 for fewer than two stamps; then 13 for two equal neighbours."""
        if len(self.stamps) < 2:
            return FEW
        return EQUAL if any(earlier == later for earlier, later in itertools.pairwise(self.stamps)) else DONE

    def answer(self):
        """(code, slowest speed, fastest, how many of these speeds fell under the floor); on a refusal all but the code are 0."""
        if self.code:
            return self.code, 0, 0, 0
        return DONE, min(self.speeds), max(self.speeds), sum(one < self.floor for one in self.speeds)

    def rounds(self):
        """How often the counter passes from 65,535 to 0."""
        return (self.stamps[0] + sum(self.periods)) // ROUND


# ---- What must occur --------------------------------------------------------


def need(table):
    need_few(table)
    need_two_stamps(table)
    need_numbers(table)
    need_places(table)
    need_equal(table)
    need_rounds(table)


def every_place():
    """Each place of each short list."""
    return [(number, place) for number in SHORT for place in range(number)]


def every_set(least):
    """Each set of places of each short list, as bits, from the empty set on or without it."""
    return [(number, places) for number in SHORT for places in range(least, 2**number)]


def need_few(table):
    for row in FEW_ROWS:
        table.need_all(row, FLOORS)
    table.need_all("h 12 for one stamp, each end of the counter and of its halves", ENDS)


def need_two_stamps(table):
    for row in (*WAY_ROWS.values(), *FLOOR_ROWS.values()):
        table.need_all(row, PERIODS)
    table.need_all("h two stamps, each two ends of the counter and of its halves", itertools.permutations(ENDS, 2))
    speeds = set(map(speed, PERIODS))
    table.need_all("h two stamps, the shortest period of a speed, each speed", speeds)
    table.need_all("h two stamps, the longest period of a speed, each speed", speeds)
    table.need("h two stamps, no rest", "h two stamps, a rest of 1: down", "h two stamps, a rest less than half the period: down")
    table.need("h two stamps, a rest of half the period: down", "h two stamps, a rest more than half the period: down")
    table.need("h two stamps, the rest next to the period: down", EXAMPLE_ROW)
    table.need("h two stamps, alike in the high byte", "h two stamps, alike in the low byte")


def need_numbers(table):
    table.need_all("h number of speeds, each", (*MANY, LONG, LONGEST))
    table.need_all("h number under the floor, each", (0, 1, *MANY))
    table.need_all("h all under the floor, each number of speeds", MANY)
    table.need_all("h none under the floor, each number of speeds", MANY)
    table.need_all("h several speeds, each floor", FLOORS)
    for words in OFFS.values():
        table.need_all(f"h several speeds, floor {words} the slowest, each number of speeds", SHORT)
        table.need_all(f"h several speeds, floor {words} the fastest, each number of speeds", SHORT)


def need_places(table):
    table.need_all("h under the floor, each set of places of 2 to 8 speeds", every_set(0))
    two_places = [(number, *places) for number in SHORT for places in itertools.permutations(range(number), 2)]
    table.need_all("h slowest and fastest alone, each two places of 2 to 8 speeds", two_places)
    for order in ("that rise", "that fall", "all alike, periods too", "all alike, periods not"):
        table.need_all(f"h speeds {order}, each number of speeds", SHORT)
    for which in ("slowest alone", "fastest alone", "only one under the floor"):
        table.need_all(f"h {LONG:,} speeds, the {which}, each place", LONG_PLACES)


def need_equal(table):
    table.need_all("h 13, equal neighbours at each set of places of 3 to 9 stamps", every_set(1))
    table.need_all("h 13 for two stamps, each end of the counter and of its halves", ENDS)
    table.need_all("h 13, each floor", FLOORS)
    table.need("h 13 behind a speed under the floor", "h 13 behind a speed not under the floor", "h 13 before a speed under the floor")
    table.need_all(f"h 13 for one pair of {LONG + 1:,} stamps, each place", LONG_PLACES[::2])
    apart = [(number, *two) for number in SHORT for two in itertools.combinations(range(number + 1), 2) if two[1] - two[0] > 1]
    table.need_all("h equal stamps that are no neighbours taken, each two places of 3 to 9 stamps", apart)
    for near in (PERIODS[0], PERIODS[-1]):
        table.need_all(f"h a period of {near:,} taken, each place of 2 to 8 speeds", every_place())


def need_rounds(table):
    table.need_all("h rounds of the counter, each number", ROUNDS)
    table.need("h more than 1,000 rounds", "h more than 100,000 rounds")
    table.need_all("h going round, each set of places of 2 to 8 speeds", every_set(0))
    table.need_all("h the same periods from another stamp: the same answer, each number of speeds", (1, *SHORT))
    table.need_all("h the same periods, going round and not: the same answer, each number of speeds", (1, *SHORT))
    table.need("h the same periods, a higher floor: as many under", "h the same periods, a higher floor: more under")


# ---- What did ---------------------------------------------------------------


class Tachs:
    """Watches the tachometer's calls."""

    def __init__(self, table):
        self.table = table
        self.before = None  # list and result of the call before, if it was taken

    def when(self, holds, name):
        if holds:
            self.table.count(name)

    def when_value(self, holds, name, value):
        if holds:
            self.table.count_value(name, value)

    def see(self, call, result):
        listed, given = Listed(call), (result[1], calls.number(result[2:6]), calls.number(result[6:10]), calls.number(result[10:]))
        taken = given[0] == listed.code == DONE
        if taken and self.before and listed.periods == self.before[0].periods:
            self.see_same_periods(call, listed, given)
        self.before = (listed, given) if taken else None
        right = listed.answer()
        if given != right:
            self.table.wrong.append(f"{calls.call_words(call)}: {told(given)}, must be {told(right)}")
            return
        self.table.count(f"tachometer: code {given[0]}")
        if given[0] == FEW:
            self.see_few(listed)
        elif given[0] == EQUAL:
            self.see_equal(listed)
        else:
            self.see_taken(listed, *given[1:])

    def see_same_periods(self, call, listed, given):
        """Two lists of the same periods: none but the floor can make a difference, and a higher one has no fewer under it."""
        before, given_before = self.before
        if listed.floor == before.floor:
            right = given == given_before
            self.when_value(right and listed.stamps != before.stamps,
                            "h the same periods from another stamp: the same answer, each number of speeds", listed.number)
            self.when_value(right and (listed.rounds() == 0) != (before.rounds() == 0),
                            "h the same periods, going round and not: the same answer, each number of speeds", listed.number)
        else:
            more = given[3] - given_before[3] if listed.floor > before.floor else given_before[3] - given[3]
            right = more >= 0 and given[:3] == given_before[:3]
            self.when(right, f"h the same periods, a higher floor: {'more' if more else 'as many'} under")
        if not right:
            self.table.wrong.append(f"{calls.call_words(call)}: {told(given)}, but with floor {before.floor} the same periods gave {told(given_before)}")

    # ---- Refusals ----

    def see_few(self, listed):
        self.table.count_value(FEW_ROWS[len(listed.stamps)], listed.floor)
        for stamp in listed.stamps:
            self.table.count_value("h 12 for one stamp, each end of the counter and of its halves", stamp)

    def see_equal(self, listed):
        number, periods = listed.number, listed.periods
        self.table.count_value("h 13, each floor", listed.floor)
        self.when_value(number in SHORT, "h 13, equal neighbours at each set of places of 3 to 9 stamps", (number, places_of(not one for one in periods)))
        self.when_value(number == 1, "h 13 for two stamps, each end of the counter and of its halves", listed.stamps[0])
        first = periods.index(0)
        self.when_value(number == LONG and periods.count(0) == 1, f"h 13 for one pair of {LONG + 1:,} stamps, each place", first)
        speeds_before, speeds_behind = ([speed(one) for one in some if one] for some in (periods[:first], periods[first:]))
        self.when(any(one < listed.floor for one in speeds_before), "h 13 behind a speed under the floor")
        self.when(any(one >= listed.floor for one in speeds_before), "h 13 behind a speed not under the floor")
        self.when(any(one < listed.floor for one in speeds_behind), "h 13 before a speed under the floor")

    # ---- Speeds ----

    def see_taken(self, listed, slowest, fastest, under):
        number = listed.number
        if number == 1:
            self.see_two_stamps(*listed.stamps, *listed.periods, slowest, listed.floor)
            return
        self.table.count_value("h several speeds, each floor", listed.floor)
        self.table.count_value("h number of speeds, each", number)
        self.table.count_value("h number under the floor, each", under)
        self.when_value(under == number, "h all under the floor, each number of speeds", number)
        self.when_value(under == 0, "h none under the floor, each number of speeds", number)
        self.see_rounds(listed.rounds())
        if number in SHORT:
            self.see_places(listed)
            self.see_order(listed, slowest, fastest)
        if number == LONG:
            self.see_long(listed, slowest, fastest, under)

    def see_rounds(self, rounds):
        self.table.count_value("h rounds of the counter, each number", rounds)
        self.when(rounds > 1000, "h more than 1,000 rounds")
        self.when(rounds > 100_000, "h more than 100,000 rounds")

    def see_two_stamps(self, earlier, later, of_period, of_speed, floor):
        self.table.count_value(WAY_ROWS[later < earlier], of_period)
        if floor - of_speed in OFFS:
            self.table.count_value(FLOOR_ROWS[floor - of_speed], of_period)
        self.when_value(earlier in ENDS and later in ENDS, "h two stamps, each two ends of the counter and of its halves", (earlier, later))
        self.when_value(of_period == 1 or speed(of_period - 1) > of_speed, "h two stamps, the shortest period of a speed, each speed", of_speed)
        self.when_value(speed(of_period + 1) < of_speed or of_period == PERIODS[-1], "h two stamps, the longest period of a speed, each speed", of_speed)
        self.when((of_period, of_speed) == EXAMPLE, EXAMPLE_ROW)
        self.when(earlier // 256 == later // 256, "h two stamps, alike in the high byte")
        self.when(earlier % 256 == later % 256, "h two stamps, alike in the low byte")
        self.see_rest(of_period, MINUTE - of_speed * of_period)

    def see_rest(self, of_period, rest):
        """What is rounded away: at the most two less than the period, since no period has a rest of one less."""
        if rest == 0:
            self.table.count("h two stamps, no rest")
            return
        size = "of" if 2 * rest == of_period else "less than" if 2 * rest < of_period else "more than"
        self.table.count(f"h two stamps, a rest {size} half the period: down")
        self.when(rest == 1, "h two stamps, a rest of 1: down")
        self.when(rest == of_period - 2, "h two stamps, the rest next to the period: down")

    def see_places(self, listed):
        number, stamps = listed.number, listed.stamps
        self.table.count_value("h under the floor, each set of places of 2 to 8 speeds", (number, places_of(one < listed.floor for one in listed.speeds)))
        went_round = places_of(later < earlier for earlier, later in itertools.pairwise(stamps))
        self.table.count_value("h going round, each set of places of 2 to 8 speeds", (number, went_round))
        for place, one in enumerate(listed.periods):
            self.when_value(one in (PERIODS[0], PERIODS[-1]), f"h a period of {one:,} taken, each place of 2 to 8 speeds", (number, place))
        if len(set(stamps)) == len(stamps):
            return
        for first, last in itertools.combinations(range(number + 1), 2):
            self.when_value(stamps[first] == stamps[last], "h equal stamps that are no neighbours taken, each two places of 3 to 9 stamps",
                            (number, first, last))

    def see_order(self, listed, slowest, fastest):
        number, speeds = listed.number, listed.speeds
        if slowest == fastest:
            which = "too" if len(set(listed.periods)) == 1 else "not"
            self.table.count_value(f"h speeds all alike, periods {which}, each number of speeds", number)
            return
        for name, line in (("slowest", slowest), ("fastest", fastest)):
            off = listed.floor - line
            if off in OFFS:
                self.table.count_value(f"h several speeds, floor {OFFS[off]} the {name}, each number of speeds", number)
        alone = speeds.count(slowest) == speeds.count(fastest) == 1
        self.when_value(alone, "h slowest and fastest alone, each two places of 2 to 8 speeds", (number, speeds.index(slowest), speeds.index(fastest)))
        for order, ordered in (("rise", sorted(speeds)), ("fall", sorted(speeds, reverse=True))):
            self.when_value(speeds == ordered, f"h speeds that {order}, each number of speeds", number)

    def see_long(self, listed, slowest, fastest, under):
        for name, which in (("slowest", slowest), ("fastest", fastest)):
            self.when_value(listed.speeds.count(which) == 1, f"h {LONG:,} speeds, the {name} alone, each place", listed.speeds.index(which))
        self.when_value(under == 1 and slowest < listed.floor, f"h {LONG:,} speeds, the only one under the floor, each place",
                        listed.speeds.index(slowest))


def told(answer):
    return ", ".join(f"{name} {number}" for name, number in zip(RESULT, answer))


def places_of(each):
    """The places where something holds, as bits."""
    return sum(1 << place for place, holds in enumerate(each) if holds)
