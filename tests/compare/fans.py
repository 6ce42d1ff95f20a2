"""What the fan's calls show of request g: the step of the LM63's table after a reading, the duty of a PWM value, and the preset.

Code, step, PWM value, duty and preset are worked out here from the bytes of a call, sentence by sentence as document 02 has them, duty
and preset in exact fractions. A result that says otherwise is wrong. So is a step that changes when the same reading comes twice, one
that is lower after a hotter reading or from a higher earlier step, and a duty or preset that is not what the page prints, source document
000's table of duty cycles.
"""
import functools
import itertools
import math
from fractions import Fraction

import calls

DONE, OUT_OF_RANGE, FALLING = 0, 4, 11
ENTRIES = range(1, 9)
FIRST, LAST = ENTRIES[0], ENTRIES[-1]
BUT_LAST = ENTRIES[:-1]  # those that another is behind
STEPS = range(9)
TEMPERATURES, VALUES, HYSTERESES, FREQUENCIES, READINGS = range(128), range(64), range(32), range(32), range(-128, 128)
ALL = 10000  # hundredths of a percent
HALF = Fraction(1, 2)
NEAREST = Fraction(1, 62)  # no rest that is no tie is nearer to a half than this
OFFS = {-1: "one below", 0: "at", 1: "one above"}
TEMPERATURE, LESS_HYSTERESIS = "its temperature", "its temperature less hysteresis"
FURTHER_BELOW, RIGHT_BELOW, IT, ABOVE = "further below it", "right below it", "it", "above it"
RELATIONS = ("less than", "as", "greater than")
BY_ONE, BY_MORE = 1, 2
OTHERS = {"hysteresis": HYSTERESES, "frequency": FREQUENCIES, "earlier step": STEPS}  # the numbers beside the table
# Two neighbours, and what a table of them alone gets, behind whichever entry the second begins.
NEIGHBOURS = {
    (1, 0): FALLING, (127, 0): FALLING, (127, 126): FALLING, (128, 127): FALLING, (129, 128): FALLING, (255, 127): FALLING,
    (128, 0): FALLING, (255, 0): FALLING, (255, 254): FALLING, (127, 128): OUT_OF_RANGE, (128, 129): OUT_OF_RANGE,
    (127, 255): OUT_OF_RANGE, (0, 128): OUT_OF_RANGE, (0, 255): OUT_OF_RANGE, (254, 255): OUT_OF_RANGE, (0, 1): DONE, (0, 127): DONE,
    (126, 127): DONE,
}
# The curve that the page works out, and its table at power-on.
CURVE = bytes((25, 8, 35, 9, 45, 10, 55, 13, 65, 16, 75, 21, 85, 26, 95, 33, 4, 20))
POWER_ON = bytes((127, 63) * 8 + (4, 23))
# The page's table for the frequencies 1 to 31: step resolution, PWM values for 100, about 75 and 50 percent, actual duty of about 75.
PAGE = [row.split() for row in """
    50 2 1 1 50.0, 25 4 3 2 75.0, 16.7 6 5 3 83.3, 12.5 8 6 4 75.0, 10.0 10 8 5 80.0, 8.33 12 9 6 75.0, 7.14 14 11 7 78.6,
    6.25 16 12 8 75.0, 5.56 18 14 9 77.8, 5.00 20 15 10 75.0, 4.54 22 17 11 77.27, 4.16 24 18 12 75.00, 3.85 26 20 13 76.92,
    3.57 28 21 14 75.00, 3.33 30 23 15 76.67, 3.13 32 24 16 75.00, 2.94 34 26 17 76.47, 2.78 36 27 18 75.00, 2.63 38 29 19 76.32,
    2.50 40 30 20 75.00, 2.38 42 32 21 76.19, 2.27 44 33 22 75.00, 2.17 46 35 23 76.09, 2.08 48 36 24 75.00, 2.00 50 38 25 76.00,
    1.92 52 39 26 75.00, 1.85 54 41 27 75.93, 1.79 56 42 28 75.00, 1.72 58 44 29 75.86, 1.67 60 45 30 75.00, 1.61 62 47 31 75.81
    """.split(",")]


# ---- Request g ----------------------------------------------------------------


class Fan:
    """A fan's settings, the entries by their numbers, and what is wrong with them."""

    def __init__(self, settings):
        temperatures, values, self.hysteresis, self.frequency = calls.fan_parts(settings)
        self.settings = settings
        self.temperature = dict(zip(ENTRIES, temperatures))
        self.value = {0: 0, **dict(zip(ENTRIES, values))}  # "no such entry means PWM value 0"
        self.falls = [entry for entry in BUT_LAST if self.temperature[entry + 1] < self.temperature[entry]]
        self.hot = [entry for entry in ENTRIES if self.temperature[entry] not in TEMPERATURES]
        self.large = [entry for entry in ENTRIES if self.value[entry] not in VALUES]

    def out_of_range(self, earlier):
        """The numbers of a step that are out of their ranges, by name; of temperatures the first, since one alone can only be the last."""
        names = [f"temperature of entry {entry}" for entry in self.hot[:1]] + [f"PWM value of entry {entry}" for entry in self.large]
        return names + [name for name, number in self.others(earlier).items() if number not in OTHERS[name]]

    def others(self, earlier):
        return dict(zip(OTHERS, (self.hysteresis, self.frequency, earlier)))

    def code(self, earlier):
        """11 for temperatures that fall along the table; then 4 for any number out of its range."""
        if self.falls:
            return FALLING
        return OUT_OF_RANGE if self.out_of_range(earlier) else DONE

    def reached(self, entry, earlier, reading):
        """Whether the reading reaches an entry's temperature, or, for entries up to the earlier step, that less hysteresis."""
        temperature = self.temperature[entry]
        return reading >= temperature or (entry <= earlier and reading >= temperature - self.hysteresis)

    def step(self, earlier, reading):
        """The highest entry that is reached; 0 for none."""
        return max((entry for entry in ENTRIES if self.reached(entry, earlier, reading)), default=0)

    def answer(self, earlier, reading):
        """(code, step, PWM value, duty); on a refusal all but the code are 0."""
        code = self.code(earlier)
        if code:
            return code, 0, 0, 0
        step = self.step(earlier, reading)
        return DONE, step, self.value[step], duty(self.frequency, self.value[step])


def counted(frequency):
    """n, 0 counting as 1."""
    return max(frequency, 1)


def exact_duty(frequency, value):
    """Value over 2n, all of it when value is 2n or more, in hundredths of a percent."""
    return min(Fraction(value, 2 * counted(frequency)), Fraction(1)) * ALL


@functools.cache
def duty(frequency, value):
    """At most half a hundredth from the exact fraction, ties upward."""
    return math.floor(exact_duty(frequency, value) + HALF)


def duty_answer(frequency, value):
    in_range = frequency in FREQUENCIES and value in VALUES
    return (DONE, duty(frequency, value)) if in_range else (OUT_OF_RANGE, 0)


def preset(n):
    """One and a half n, a half going up, but 1 at n = 1."""
    return 1 if n == 1 else math.floor(Fraction(3, 2) * n + HALF)


def preset_answer(frequency):
    return (DONE, preset(counted(frequency))) if frequency in FREQUENCIES else (OUT_OF_RANGE, 0)


# ---- What must occur --------------------------------------------------------


def need(table):
    need_lines(table)
    need_earlier_steps(table)
    need_ends(table)
    need_alike(table)
    need_values(table)
    need_duties(table)
    need_presets(table)
    need_falls(table)
    need_ranges(table)
    need_sentences(table)


def past(numbers):
    """The bytes past a range."""
    return range(numbers.stop, 256)


def origin(entry, earlier):
    """Where the earlier step is to an entry."""
    if earlier >= entry:
        return IT if earlier == entry else ABOVE
    return RIGHT_BELOW if earlier == entry - 1 else FURTHER_BELOW


def line_row(entry, off, line, earlier, hysteresis, reached):
    """The row of a reading near a line of an entry, with no higher entry reached."""
    return (f"g entry {entry}, reading {OFFS[off]} {line}, earlier step {origin(entry, earlier)}, "
            f"{'some' if hysteresis else 'no'} hysteresis: {'reached' if reached else 'not reached'}")


def need_lines(table):
    for entry, earlier, off in itertools.product(ENTRIES, STEPS, OFFS):
        up_to, on_or_above = entry <= earlier, off >= 0
        table.need(line_row(entry, off, TEMPERATURE, earlier, 0, on_or_above))
        table.need(line_row(entry, off, TEMPERATURE, earlier, 1, on_or_above or up_to))
        table.need(line_row(entry, off, LESS_HYSTERESIS, earlier, 1, on_or_above and up_to))


def need_earlier_steps(table):
    table.need_all("g earlier step and step, each pair", itertools.product(STEPS, STEPS))
    table.need_all("g earlier step and step, held by hysteresis alone, each pair", [(e, s) for e in ENTRIES for s in ENTRIES if s <= e])
    table.need_all("g hysteresis that holds an entry at its line, each", HYSTERESES[1:])
    table.need_all("g hysteresis that lets an entry go one below its line, each", HYSTERESES[1:])


def need_ends(table):
    table.need_all("g reading, each", READINGS)
    table.need_all("g reading -128: no entry, from each earlier step", STEPS)
    table.need_all("g reading 127: entry 8, from each earlier step", STEPS)
    table.need_all("g temperature reached at it, each", TEMPERATURES)
    table.need_all("g temperature not reached one below it, each", TEMPERATURES)
    for end in (0, 127):
        table.need_all(f"g temperature {end} not reached one below it, each entry", ENTRIES)
    table.need_all("g temperature 0 reached at it, each entry", ENTRIES)
    below_0 = range(-31, 0)
    table.need_all("g temperature less hysteresis below 0 reached at it, each", below_0)
    table.need_all("g temperature less hysteresis below 0 not reached one below it, each", below_0)
    table.need_all("g temperature less hysteresis below 0 reached at it, each entry", ENTRIES)
    table.need_all("g temperature less hysteresis below 0 not reached one below it, each entry", ENTRIES)
    table.need("g temperature less hysteresis 0 reached at it", "g temperature less hysteresis 0 not reached one below it")
    table.need_all("g the page's curve, each step", STEPS)
    table.need_all("g the page's table at power-on, each step", STEPS)


def need_alike(table):
    table.need_all("g alike, reading at them: the later, each pair of neighbours", BUT_LAST)
    table.need_all("g alike, reading at them, earlier step the first of them: the later, each pair of neighbours", BUT_LAST)
    table.need_all("g alike, held from the first of them: that one, each pair of neighbours", BUT_LAST)
    table.need_all("g alike, held from the later of them: that one, each pair of neighbours", BUT_LAST)
    table.need_all("g alike, one below their line from the later of them: neither, each pair of neighbours", BUT_LAST)
    table.need_all("g all eight alike, reading at them: entry 8, from each earlier step", STEPS)
    table.need_all("g all eight alike, held: the earlier step, each", ENTRIES)


def need_values(table):
    table.need_all("g frequency and PWM value of a step, each pair", itertools.product(FREQUENCIES, VALUES))
    for relation in RELATIONS:
        table.need_all(f"g PWM value {relation} that of the entry before it, each entry", ENTRIES[1:])
        table.need_all(f"g PWM value {relation} that of the entry behind it, each entry", BUT_LAST)
    table.need_all("g PWM value 0 of an entry in force, each entry", ENTRIES)
    table.need_all("g no entry, though no PWM value of the table is 0, each earlier step", STEPS)


def need_duties(table):
    """Of the duty call, and of the step's duty."""
    for call in ("duty", "step"):
        for name in ("0", "n", "2n - 1", "2n", "2n + 1", "63"):
            table.need_all(f"g {call}: PWM value {name}, each frequency", FREQUENCIES)
        table.need_all(f"g {call}: a tie goes up, each PWM value", range(1, 32, 2))
        table.need_all(f"g {call}: frequency 0 counts as 1, each PWM value", VALUES)
        table.need(f"g {call}: exact", f"g {call}: less than half goes down", f"g {call}: more than half goes up")
        table.need(f"g {call}: a third goes down", f"g {call}: two thirds go up")
        table.need(f"g {call}: the rest nearest to a half goes down", f"g {call}: the rest nearest to a half goes up")
        table.need(f"g {call}: 8333 for 5 at 3, the request's example", f"g {call}: 5833 for 28 at 24, the page's example")
    table.need_all("g duty: taken, each pair", itertools.product(FREQUENCIES, VALUES))
    table.need_all("g duty: 4 for the frequency alone, each", past(FREQUENCIES))
    table.need_all("g duty: 4 for the PWM value alone, each", past(VALUES))
    table.need_all("g duty: 4 for the PWM value alone, each frequency", FREQUENCIES)
    table.need_all("g duty: 4 for the frequency alone, each PWM value", VALUES)
    table.need("g duty: 4 for both")
    for column in ("step resolution", "100 percent", "about 75 percent", "50 percent"):
        table.need_all(f"g duty: as the page prints it, {column}, each frequency", FREQUENCIES[1:])


def need_presets(table):
    table.need_all("g preset: even n, each", range(2, 32, 2))
    table.need_all("g preset: odd n, a half goes up, each", range(3, 32, 2))
    table.need("g preset: 1 at 1", "g preset: 1 at 0")
    table.need_all("g preset: 4, each frequency", past(FREQUENCIES))
    table.need_all("g preset: as the page prints it, each frequency", FREQUENCIES[1:])


def need_falls(table):
    for by in ("by 1", "by more"):
        table.need_all(f"g 11 for a fall {by} alone, behind each entry", BUT_LAST)
    every_fall = set(itertools.product(BUT_LAST, (BY_ONE, BY_MORE)))
    for entry in ENTRIES:  # the first temperature out of range is none that fell
        no_fall_before = {(fallen, by) for fallen, by in every_fall if fallen != entry - 1}
        table.need_all(f"g 11 before 4 for the temperature of entry {entry}, behind each entry by 1 and by more", no_fall_before)
    for name in (*(f"PWM value of entry {entry}" for entry in ENTRIES), *OTHERS):
        table.need_all(f"g 11 before 4 for the {name}, behind each entry by 1 and by more", every_fall)
    table.need_all("g 11, the last temperature not below the first, behind each entry", BUT_LAST)
    table.need("g 11 for two falls or more", "g 11 before 4 for several numbers", "g 11, an entry would be in force with a duty")
    for neighbours, code in NEIGHBOURS.items():
        table.need_all(f"g {code} for {neighbours[0]}, then {neighbours[1]}, behind each entry", BUT_LAST)


def need_ranges(table):
    for entry in ENTRIES:
        table.need_all(f"g temperature of entry {entry} taken, each", TEMPERATURES)
        table.need_all(f"g 4 for the temperature of entry {entry}, none before it out of range, each", past(TEMPERATURES))
        table.need_all(f"g PWM value of entry {entry} taken, each", VALUES)
        table.need_all(f"g 4 for the PWM value of entry {entry} alone, each", past(VALUES))
        table.need(*(f"g 4 for the PWM value of entry {entry} alone, {which} would be in force" for which in ("it", "another", "none")))
    table.need_all("g 4 for one temperature alone, the last, each", past(TEMPERATURES))
    for name, numbers in OTHERS.items():
        table.need_all(f"g {name} taken, each", numbers)
        table.need_all(f"g 4 for the {name} alone, each", past(numbers))
        table.need(f"g 4 for the {name} alone, an entry would be in force", f"g 4 for the {name} alone, none would be in force")
    table.need("g 4 for the hysteresis alone, earlier step 0", "g 4 for the earlier step alone, hysteresis 0")
    table.need("g 4 for several numbers", "g 4, an entry would be in force with a duty")


def need_sentences(table):
    table.need_all("g the same reading twice, each earlier step and step", [(e, s) for e in STEPS for s in STEPS if e != s])
    table.need_all("g the same reading twice, held by hysteresis alone, each step", BUT_LAST)
    for which in ("the same step", "a higher step"):
        table.need_all(f"g a hotter reading, {which}, from each earlier step", STEPS)
        table.need_all(f"g a higher earlier step, {which}, each step", ENTRIES if which == "a higher step" else STEPS)


# ---- What did ---------------------------------------------------------------


class Fans:
    """Watches the fan's calls."""

    def __init__(self, table):
        self.table = table
        self.fan = Fan(bytes(calls.FAN_BYTES))
        self.steps = {}  # of the calls in a row with one fan: the step given, by earlier step and reading

    def when(self, holds, name):
        if holds:
            self.table.count(name)

    def when_value(self, holds, name, value):
        if holds:
            self.table.count_value(name, value)

    def hold(self, call, names, given, right):
        """Whether an answer is as it is worked out."""
        if given != right:
            self.table.wrong.append(f"{calls.call_words(call)}: {told(names, given)}, must be {told(names, right)}")
        return given == right

    def see_step(self, call, result):
        settings, earlier, reading = call[1:-2], call[-2], calls.fan_reading(call)
        if settings != self.fan.settings:
            self.end()
            self.fan = Fan(settings)
        fan, given = self.fan, (*result[1:4], calls.number(result[4:]))
        if given[0] == DONE and given[1] in STEPS:
            self.steps[earlier, reading] = given[1]
        if not self.hold(call, ("code", "step", "PWM value", "duty"), given, fan.answer(earlier, reading)):
            return
        code, step, value, _ = given
        self.table.count(f"fan step: code {code}")
        if code == FALLING:
            self.see_falls(earlier, reading)
        elif code == OUT_OF_RANGE:
            self.see_out_of_range(earlier, reading)
        else:
            self.see_lines(earlier, reading, step)
            self.see_earlier_step(earlier, reading, step)
            self.see_ends(earlier, reading, step)
            self.see_alike(earlier, reading, step)
            self.see_value(earlier, step, value)
        self.see_neighbours(code)

    # ---- Lines of entries ----

    def see_lines(self, earlier, reading, step):
        """The step, and the entries above it, of which none is reached: each decides. Hysteresis 1 has one above its line the temperature."""
        fan = self.fan
        for entry in range(LAST, max(step, FIRST) - 1, -1):
            temperature, reached = fan.temperature[entry], entry == step
            off, off_less = reading - temperature, reading - temperature + fan.hysteresis
            if off in OFFS:
                self.table.count(line_row(entry, off, TEMPERATURE, earlier, fan.hysteresis, reached))
                self.see_temperature(entry, off, temperature, reached)
            if off_less in OFFS and fan.hysteresis > max(off_less, 0):
                self.table.count(line_row(entry, off_less, LESS_HYSTERESIS, earlier, 1, reached))
                if entry <= earlier:
                    self.see_less_hysteresis(entry, off_less, temperature - fan.hysteresis, reached)

    def see_temperature(self, entry, off, temperature, reached):
        if off == 0:
            self.table.count_value("g temperature reached at it, each", temperature)
            self.when_value(temperature == 0, "g temperature 0 reached at it, each entry", entry)
        elif off < 0 and not reached:
            self.table.count_value("g temperature not reached one below it, each", temperature)
            self.when_value(temperature in (0, 127), f"g temperature {temperature} not reached one below it, each entry", entry)

    def see_less_hysteresis(self, entry, off, line, reached):
        if off > 0:
            return
        where = "reached at it" if reached else "not reached one below it"
        does = "holds an entry at its line" if reached else "lets an entry go one below its line"
        self.table.count_value(f"g hysteresis that {does}, each", self.fan.hysteresis)
        self.when(line == 0, f"g temperature less hysteresis 0 {where}")
        if line < 0:
            self.table.count_value(f"g temperature less hysteresis below 0 {where}, each", line)
            self.table.count_value(f"g temperature less hysteresis below 0 {where}, each entry", entry)

    # ---- Steps ----

    def see_earlier_step(self, earlier, reading, step):
        self.table.count_value("g earlier step and step, each pair", (earlier, step))
        held = step and reading < self.fan.temperature[step]
        self.when_value(held, "g earlier step and step, held by hysteresis alone, each pair", (earlier, step))

    def see_ends(self, earlier, reading, step):
        self.table.count_value("g reading, each", reading)
        self.when_value(reading == READINGS[0], "g reading -128: no entry, from each earlier step", earlier)
        self.when_value(reading == READINGS[-1], "g reading 127: entry 8, from each earlier step", earlier)
        self.when_value(self.fan.settings == CURVE, "g the page's curve, each step", step)
        self.when_value(self.fan.settings == POWER_ON, "g the page's table at power-on, each step", step)

    def see_alike(self, earlier, reading, step):
        """Neighbours of one temperature, of which the step or the earlier one is one."""
        fan = self.fan
        for first in {step - 1, step, earlier - 1}:
            if first not in BUT_LAST or fan.temperature[first] != fan.temperature[first + 1]:
                continue
            off = reading - fan.temperature[first]
            held = -fan.hysteresis <= off < 0
            at_them = off == 0 and step == first + 1
            self.when_value(at_them, "g alike, reading at them: the later, each pair of neighbours", first)
            self.when_value(at_them and earlier == first,
                            "g alike, reading at them, earlier step the first of them: the later, each pair of neighbours", first)
            self.when_value(held and earlier == first == step, "g alike, held from the first of them: that one, each pair of neighbours", first)
            self.when_value(held and earlier == first + 1 == step, "g alike, held from the later of them: that one, each pair of neighbours", first)
            self.when_value(off == -fan.hysteresis - 1 and earlier == first + 1,
                            "g alike, one below their line from the later of them: neither, each pair of neighbours", first)
        if fan.temperature[FIRST] == fan.temperature[LAST]:
            self.when_value(reading == fan.temperature[LAST], "g all eight alike, reading at them: entry 8, from each earlier step", earlier)
            self.when_value(step and reading < fan.temperature[LAST], "g all eight alike, held: the earlier step, each", step)

    # ---- PWM values ----

    def see_value(self, earlier, step, value):
        fan = self.fan
        if not step:
            self.when_value(all(map(fan.value.get, ENTRIES)), "g no entry, though no PWM value of the table is 0, each earlier step", earlier)
            return
        self.table.count_value("g frequency and PWM value of a step, each pair", (fan.frequency, value))
        self.when_value(value == 0, "g PWM value 0 of an entry in force, each entry", step)
        for where, other in (("before", step - 1), ("behind", step + 1)):
            if other in ENTRIES:
                relation = RELATIONS[(value > fan.value[other]) - (value < fan.value[other]) + 1]
                self.table.count_value(f"g PWM value {relation} that of the entry {where} it, each entry", step)
        self.see_duty_of("step", fan.frequency, value)

    def see_duty_of(self, call, frequency, value):
        for name, key in duty_rows(frequency, value):
            if key is None:
                self.table.count(f"g {call}: {name}")
            else:
                self.table.count_value(f"g {call}: {name}", key)

    def see_duty(self, call, result):
        frequency, value = call[1:]
        code, given = result[1], calls.number(result[2:])
        if not self.hold(call, ("code", "duty"), (code, given), duty_answer(frequency, value)):
            return
        self.table.count(f"fan duty: code {code}")
        if code == DONE:
            self.table.count_value("g duty: taken, each pair", (frequency, value))
            self.see_duty_of("duty", frequency, value)
            self.see_page(frequency, value, given)
        elif frequency in FREQUENCIES:
            self.table.count_value("g duty: 4 for the PWM value alone, each", value)
            self.table.count_value("g duty: 4 for the PWM value alone, each frequency", frequency)
        elif value in VALUES:
            self.table.count_value("g duty: 4 for the frequency alone, each", frequency)
            self.table.count_value("g duty: 4 for the frequency alone, each PWM value", value)
        else:
            self.table.count("g duty: 4 for both")

    def see_page(self, frequency, value, given):
        """A duty that the page prints; it cuts two of the step resolutions off, where it rounds all others."""
        if frequency == 0:
            return
        resolution, whole, three_quarters, half, actual = PAGE[frequency - 1]
        columns = ((1, "step resolution", resolution, 1), (int(whole), "100 percent", "100", 0),
                   (int(three_quarters), "about 75 percent", actual, HALF), (int(half), "50 percent", "50", 0))
        for of_value, name, text, places in columns:
            if of_value != value:
                continue
            self.table.count_value(f"g duty: as the page prints it, {name}, each frequency", frequency)
            if abs(given - Fraction(text) * 100) > places * last_place(text):
                self.table.wrong.append(f"fan duty: {given} for {value} at {frequency}, but the page has {text} percent")

    def see_preset(self, call, result):
        frequency, (code, given) = call[1], (result[1], calls.number(result[2:]))
        if not self.hold(call, ("code", "PWM value"), (code, given), preset_answer(frequency)):
            return
        self.table.count(f"fan preset: code {code}")
        if code:
            self.table.count_value("g preset: 4, each frequency", frequency)
            return
        self.when(frequency < 2, f"g preset: 1 at {frequency}")
        if frequency > 1:
            self.table.count_value("g preset: odd n, a half goes up, each" if frequency % 2 else "g preset: even n, each", frequency)
        if frequency:
            self.table.count_value("g preset: as the page prints it, each frequency", frequency)
            if given != int(PAGE[frequency - 1][2]):
                self.table.wrong.append(f"fan preset: {given} at {frequency}, but the page has {PAGE[frequency - 1][2]}")

    # ---- Refusals ----

    def see_falls(self, earlier, reading):
        fan, wrong = self.fan, self.fan.out_of_range(earlier)
        self.when(fan.value[fan.step(earlier, reading)], "g 11, an entry would be in force with a duty")
        self.when(len(wrong) > 1, "g 11 before 4 for several numbers")
        if len(fan.falls) > 1:
            self.table.count("g 11 for two falls or more")
            return
        (entry,) = fan.falls
        by = BY_ONE if fan.temperature[entry] - fan.temperature[entry + 1] == 1 else BY_MORE
        self.when_value(fan.temperature[FIRST] <= fan.temperature[LAST], "g 11, the last temperature not below the first, behind each entry", entry)
        if not wrong:
            self.table.count_value(f"g 11 for a fall {'by 1' if by == BY_ONE else 'by more'} alone, behind each entry", entry)
        elif len(wrong) == 1:
            self.table.count_value(f"g 11 before 4 for the {wrong[0]}, behind each entry by 1 and by more", (entry, by))

    def see_out_of_range(self, earlier, reading):
        fan, wrong, step = self.fan, self.fan.out_of_range(earlier), self.fan.step(earlier, reading)
        self.when(fan.value[step], "g 4, an entry would be in force with a duty")
        if len(wrong) > 1:
            self.table.count("g 4 for several numbers")
        elif fan.hot:
            first = fan.hot[0]
            self.table.count_value(f"g 4 for the temperature of entry {first}, none before it out of range, each", fan.temperature[first])
            self.when_value(first == LAST, "g 4 for one temperature alone, the last, each", fan.temperature[first])
        elif fan.large:
            (entry,) = fan.large
            which = "it" if step == entry else "another" if step else "none"
            self.table.count_value(f"g 4 for the {wrong[0]} alone, each", fan.value[entry])
            self.table.count(f"g 4 for the {wrong[0]} alone, {which} would be in force")
        else:
            (name,) = wrong
            self.table.count_value(f"g 4 for the {name} alone, each", fan.others(earlier)[name])
            self.table.count(f"g 4 for the {name} alone, {'an entry' if step else 'none'} would be in force")
            self.when(name == "hysteresis" and earlier == 0, "g 4 for the hysteresis alone, earlier step 0")
            self.when(name == "earlier step" and fan.hysteresis == 0, "g 4 for the earlier step alone, hysteresis 0")

    def see_neighbours(self, code):
        """A table of two temperatures, all of the one before all of the other."""
        temperatures = list(self.fan.temperature.values())
        first, last = temperatures[0], temperatures[-1]
        if NEIGHBOURS.get((first, last)) != code:
            return
        entry = temperatures.count(first)
        if temperatures == [first] * entry + [last] * (LAST - entry):
            self.table.count_value(f"g {code} for {first}, then {last}, behind each entry", entry)

    # ---- Calls in a row with one fan ----

    def end(self):
        """The last call of a row."""
        if self.steps:
            self.see_taken()
            self.see_same_reading()
            by_earlier = [((earlier, reading), step) for (earlier, reading), step in self.steps.items()]
            by_reading = [((reading, earlier), step) for (earlier, reading), step in self.steps.items()]
            for ((earlier, _), low), ((_, _), high) in rising(by_earlier):
                self.see_rise("a hotter reading", f"{'the same' if low == high else 'a higher'} step, from each earlier step", earlier, low, high)
            for ((_, _), low), ((_, _), high) in rising(by_reading):
                self.see_rise("a higher earlier step", f"{'the same' if low == high else 'a higher'} step, each step", high, low, high)
        self.steps = {}

    def see_taken(self):
        fan = self.fan
        for entry in ENTRIES:
            self.table.count_value(f"g temperature of entry {entry} taken, each", fan.temperature[entry])
            self.table.count_value(f"g PWM value of entry {entry} taken, each", fan.value[entry])
        self.table.count_value("g hysteresis taken, each", fan.hysteresis)
        self.table.count_value("g frequency taken, each", fan.frequency)
        for earlier, _ in self.steps:
            self.table.count_value("g earlier step taken, each", earlier)

    def see_same_reading(self):
        """The step given is the earlier one of another call, and the reading is the same: "The step never changes"."""
        for (earlier, reading), step in self.steps.items():
            again = self.steps.get((step, reading))
            if again is None or step == earlier:
                continue
            self.table.count_value("g the same reading twice, each earlier step and step", (earlier, step))
            held = step and reading < self.fan.temperature[step]
            self.when_value(held, "g the same reading twice, held by hysteresis alone, each step", step)
            if again != step:
                self.table.wrong.append(f"fan step: {calls.fan_words(self.fan.settings)}: reading {reading} twice from earlier step {earlier}: "
                                        f"step {step}, then {again}")

    def see_rise(self, what, row, key, low, high):
        if high < low:
            self.table.wrong.append(f"fan step: {calls.fan_words(self.fan.settings)}: {what} gives step {high} after {low}")
        else:
            self.table.count_value(f"g {what}, {row}", key)


def told(names, answer):
    return ", ".join(f"{name} {number}" for name, number in zip(names, answer))


def rising(steps):
    """Each two next to each other that differ in the second number of their key alone, in order."""
    ordered = sorted(steps)
    return [(low, high) for low, high in zip(ordered, ordered[1:]) if low[0][0] == high[0][0]]


def last_place(text):
    """One in the last place of a printed percentage, in hundredths."""
    return Fraction(100, 10 ** len(text.partition(".")[2]))


@functools.cache
def duty_rows(frequency, value):
    """(row, value of it or None) of a duty, by its PWM value and by what is rounded away."""
    n, exact = counted(frequency), exact_duty(frequency, value)
    named = {"0": 0, "n": n, "2n - 1": 2 * n - 1, "2n": 2 * n, "2n + 1": 2 * n + 1, "63": 63}
    rows = [(f"PWM value {name}, each frequency", frequency) for name, that in named.items() if that == value]
    if frequency == 0:
        rows.append(("frequency 0 counts as 1, each PWM value", value))
    examples = {(3, 5): "8333 for 5 at 3, the request's example", (24, 28): "5833 for 28 at 24, the page's example"}
    if (frequency, value) in examples:
        rows.append((examples[frequency, value], None))
    rest = exact - math.floor(exact)
    if rest == HALF:
        return [*rows, ("a tie goes up, each PWM value", value)]
    rows.append(("exact" if not rest else "less than half goes down" if rest < HALF else "more than half goes up", None))
    special = {Fraction(1, 3): "a third goes down", Fraction(2, 3): "two thirds go up",
               HALF - NEAREST: "the rest nearest to a half goes down", HALF + NEAREST: "the rest nearest to a half goes up"}
    return [*rows, (special[rest], None)] if rest in special else rows
