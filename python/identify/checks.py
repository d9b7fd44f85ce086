"""Warnings: what in a log, or in the answer that came of it, should keep a fitter from using the answer as it stands."""
from __future__ import annotations

import math
from collections.abc import Callable, Sequence
from dataclasses import dataclass

from .flight import Flight
from .quality import HORIZON_S, LEAST_EXPLAINED, in_percent, median
from .records import Ending
from .window import CAPACITY, began, held_stretches
from .wire import singles

SLOWEST_TICK_S, SLOWEST_TICK_MS = 0.2, 100.0
"""A dt above the first is no tick in s; above the second it is none in ms either."""
EVEN = (0.75, 1.25)
"""The band about the usual dt in which a tick counts as even, and that about its first dt in which a steady probe takes a
call."""
STEADY_RULE = 10
"""The rule by which a steady probe turns back a call out of the band."""
WILD_RATE = 1000.0
"""No airframe turns this fast, in rad/s: a reading beyond it is a fault of the gyro or of the log."""
MOST_SWING = 10.0
"""How many times as far as the offset a rate in rad/s may swing; one in deg/s swings 57 times as far as it should."""
WIDEST = 0.9
"""The share of values that a swing covers: the rest may be wild."""
BEYOND_LIMIT = 1.01
"""A moment beyond this has not the limit 1."""
PERCENT = 150.0
"""Moments in percent stay below this."""
MANY = 0.1
"""More than this share is many."""
GAP_S = 0.1
"""The integrated fit weighs changes over this time: of what lies before a longer gap it keeps little."""
TERMS = 6
"""Unknowns of the fit on the recorded rates: with fewer rows it has no answer."""
FEW_ROWS = 20 * TERMS
"""Fewer rows than this tell the unknowns badly apart."""
SHORTEST, LONGEST_RECORDED, LONGEST_INTEGRATED = 2, 20, 21
"""The shortest delay that both fits try, and the longest that each does, in half ticks."""


@dataclass(frozen=True)
class Warned:
    """One warning."""

    code: str
    """For programs."""
    text: str
    """What is so, and what to do about it, on one line."""


def find_warnings(flight: Flight) -> list[Warned]:
    """The warnings about a flight's log, and then those about its model."""
    checks = {**LOG_CHECKS, **(MODEL_CHECKS if flight.report.model else {})}
    return [Warned(code, text) for code, check in checks.items() if (text := check(flight))]


def dt_units(flight: Flight) -> str | None:
    """A dt that is no tick in s."""
    usual = usual_dt(flight.log.dt)
    if usual <= SLOWEST_TICK_S:
        return None
    unit, parts = ("ms", 1_000) if usual <= SLOWEST_TICK_MS else ("µs", 1_000_000)
    return f"dt is {usual:g} on most lines, too long for s: it looks like {unit}. Divide it by {parts:,}."


def rate_units(flight: Flight) -> str | None:
    """A rate that swings much further than the offset that it follows. One that rings at the limit does so too."""
    asked = swing([sample.offset for sample in flight.samples])
    if flight.report.ending is Ending.SATURATED or asked == 0:
        return None
    times = swing([sample.rate for sample in flight.samples]) / asked
    if times <= MOST_SWING:
        return None
    return f"the rate swings {times:.0f} times as far as the offset: it looks like deg/s. Multiply it by 0.0174533."


def moment_units(flight: Flight) -> str | None:
    """Many moments beyond the limit."""
    beyond = moments_beyond_limit(flight)
    if len(beyond) <= MANY * flight.report.stored:
        return None
    most = max(abs(moment) for _, moment in beyond)
    found = f"{len(beyond)} of {flight.report.stored} moments are beyond the limit of 1, the largest {most:.3g}"
    if most <= PERCENT:
        return f"{found}: they look like percent. Divide them by 100."
    return f"{found}: they are no shares of it. Divide them by the limit in their unit."


def wild_rates(flight: Flight) -> str | None:
    """Readings that no airframe gives."""
    return wild_words("rate", f"{WILD_RATE:,.0f} rad/s", wild_rate_readings(flight))


def wild_moments(flight: Flight) -> str | None:
    """A few moments beyond the limit."""
    beyond = moments_beyond_limit(flight)
    return wild_words("moment", "the limit of 1", beyond) if len(beyond) <= MANY * flight.report.stored else None


def wild_words(name: str, bound: str, wild: Sequence[tuple[int, float]]) -> str | None:
    """What to do about wild readings, each with its line."""
    if not wild:
        return None
    (first, value), (last, _) = wild[0], wild[-1]
    noun = f"{name} is" if len(wild) == 1 else f"{name}s are"
    places = f"line {first}" if first == last else f"lines {first} to {last}"
    return (
        f"{len(wild)} {noun} beyond {bound} ({places}, the first {value:.3g}). Write nan for such readings, and they count "
        "as held."
    )


def steady_clock(flight: Flight) -> str | None:
    """Calls that a steady probe turns back. A log of other ticks than the first, which may be even, is told so."""
    odd = unsteady_samples(flight)
    if not odd:
        return None
    lengths = [flight.log.dt[call] for call in flight.calls]
    worst = max(odd, key=lambda sample: abs(lengths[sample] - lengths[0]))
    noun = "dt is" if len(odd) == 1 else "dt are"
    others = len(odd) >= (1 - MANY) * len(lengths)
    advice = f"Begin the log on a tick of the usual {usual_dt(lengths):g} s." if others else "Log every tick, with its true dt."
    return (
        f"{len(odd)} of {len(lengths)} {noun} more than a quarter off the first, {lengths[0]:g} s, from line "
        f"{flight.line(odd[0])} on, the worst {lengths[worst]:g} s on line {flight.line(worst)}: the fits take all ticks as "
        f"equally long, and a steady probe (--steady) turns such calls back. {advice}"
    )


def uneven_dt(flight: Flight) -> str | None:
    """Ticks that are not as long as the others. Where a steady probe turns calls back, that is told instead."""
    lengths = [flight.log.dt[call] for call in flight.calls[: flight.report.stored]]
    usual = usual_dt(lengths if flight.report.steady else flight.log.dt)
    odd = [sample for sample, dt in enumerate(lengths) if not EVEN[0] * usual <= dt <= EVEN[1] * usual]
    if not odd or unsteady_samples(flight):
        return None
    worst = max(odd, key=lambda sample: abs(lengths[sample] - usual))
    noun = "dt is" if len(odd) == 1 else "dt are"
    return (
        f"{len(odd)} of {len(lengths)} {noun} more than a quarter off the usual {usual:g} s, the worst {lengths[worst]:g} s "
        f"on line {flight.line(worst)}: the fits take all ticks as equally long. Log every tick, with its true dt."
    )


def turned_back(flight: Flight) -> str | None:
    """Calls that were turned back while the probe ran."""
    last = flight.calls[-1] if flight.report.ending is not Ending.RUNNING else len(flight.log.lines)
    lost = [refusal.call for refusal in flight.report.refusals if refusal.call < last]
    if not lost:
        return None
    noun = "call was" if len(lost) == 1 else "calls were"
    unsteady = any(refusal.rule == STEADY_RULE for refusal in flight.report.refusals)
    return (
        f"{len(lost)} {noun} turned back, the first on line {flight.log.lines[lost[0]]}: the fits take the ticks around a "
        f"missing one as neighbours. {'Log every tick, with its true dt.' if unsteady else 'Mend dt there.'}"
    )


def many_held(flight: Flight) -> str | None:
    """Many samples that were not read."""
    held, stored = flight.report.held, flight.report.stored
    if held <= MANY * stored:
        return None
    return (
        f"{held} of {stored} samples ({held / stored:.0%}) are held, more than a tenth: the fit on the recorded rates passes "
        "them over, and the integrated fit takes the value before as read. Fly again with a log that is whole."
    )


def gap(flight: Flight) -> str | None:
    """A long stretch of held samples."""
    samples = flight.samples
    gaps = ((samples[last].time_s - began(samples, first), first, last) for first, last in held_stretches(samples))
    longest, first, last = max(gaps, default=(0.0, 0, 0))
    if longest <= GAP_S:
        return None
    return (
        f"for {longest:.3g} s on end (lines {flight.line(first)} to {flight.line(last)}) no sample is whole: the integrated "
        "fit takes the value before as read. Fly again, or give a --duration that ends before the gap."
    )


def window_full(flight: Flight) -> str | None:
    """A window that was full before the probe ended."""
    if flight.full_s is None:
        return None
    before = f"the end at {flight.end_s:.4g} s"
    if flight.extended and not flight.has_extension:
        before = f"the extension began at {flight.config.duration_s:g} s"
    return (
        f"the window was full at {flight.full_s:.4g} s, before {before}: what came later is in no fit. Fly at "
        f"{max(1, int(CAPACITY / flight.end_s))} ticks a second or fewer."
    )


def few_rows(flight: Flight) -> str | None:
    """A window too short to trust."""
    if flight.report.rows >= FEW_ROWS:
        return None
    return f"only {flight.report.rows} rows to fit, fewer than {FEW_ROWS}. Fly longer, or with shorter ticks."


def delay_first(flight: Flight) -> str | None:
    """The shortest delay that the fits try."""
    if flight.report.model.half_ticks > SHORTEST:
        return None
    return (
        "1 tick is the shortest delay that the fits try: the true one may be shorter. Check that each line has the moment "
        "commanded on the tick before, and fly with shorter ticks."
    )


def delay_last(flight: Flight) -> str | None:
    """The longest delay that the fit tries."""
    model = flight.report.model
    if model.half_ticks < (LONGEST_INTEGRATED if model.integrated else LONGEST_RECORDED):
        return None
    return (
        f"{model.delay_ticks:g} ticks is the longest delay that this fit tries: the true one may be longer. Fly with longer "
        "ticks, so that ten of them cover it."
    )


def no_effect(flight: Flight) -> str | None:
    """A moment that does not push the rate up."""
    effect = sum(flight.report.model.moment_weights)
    if effect > 0:
        return None
    return (
        f"the moment weights sum to {effect + 0.0:.3g}, not above 0: a moment does not turn the axis its own way. Check the "
        "moment's sign, and that it is that of the probed axis."
    )


def no_settling(flight: Flight) -> str | None:
    """A model that runs away."""
    if flight.report.model.lag_s is not None:
        return None
    return "the pole is not below 1: the model runs away and has neither lag nor push. Fly again with more amplitude."


def no_lag(flight: Flight) -> str | None:
    """A model whose acceleration follows at once, as that of no airframe does."""
    if flight.report.model.lag_s != 0:
        return None
    return (
        "the fit sees no lag, and every airframe has one: noise in a quiet window does that, and the push is too large "
        "then. Fly again with more amplitude."
    )


def unchecked(flight: Flight) -> str | None:
    """A model that cannot be run over the window."""
    if flight.quality:
        return None
    return (
        f"no stretch of {HORIZON_S:g} s has enough good samples to try the model on: nothing shows that it holds. Check dt "
        "and the held samples, or fly longer."
    )


def explains_little(flight: Flight) -> str | None:
    """A model that leaves too much of the rate's change unexplained."""
    quality = flight.quality
    if not quality or not quality.explains_little:
        return None
    return (
        f"the model explains {in_percent(quality.explained)} of the rate's change over {HORIZON_S:g} s, and the gyro's "
        f"noise {in_percent(quality.noise)}: too much is left. Check the log's moments, dt and held samples, or fly again in "
        "calm air with more amplitude."
    )


def delay_off(flight: Flight) -> str | None:
    """A model that would hold as well or better with another delay. Where it explains little, that says nothing."""
    quality = flight.quality
    if not quality or not quality.delay_off or quality.explained < LEAST_EXPLAINED:
        return None
    wrong, side, moved = ("early", "later", quality.later) if quality.delay_off > 0 else ("late", "earlier", quality.earlier)
    better = "more than" if moved > quality.explained else "hardly less than"
    return (
        f"the model's response comes too {wrong}: two ticks {side} it explains {in_percent(moved)} of the rate's change, "
        f"{better} {in_percent(quality.explained)}. Do not tune by its delay; fly again with more amplitude."
    )


LOG_CHECKS: dict[str, Callable[[Flight], str | None]] = {
    "dt-units": dt_units,
    "rate-units": rate_units,
    "moment-units": moment_units,
    "wild-rate": wild_rates,
    "wild-moment": wild_moments,
    "steady-clock": steady_clock,
    "uneven-dt": uneven_dt,
    "turned-back": turned_back,
    "many-held": many_held,
    "gap": gap,
    "window-full": window_full,
}
"""The warnings about a log, by their codes."""
CLOCK_CODES = {"dt-units", "steady-clock", "uneven-dt", "turned-back", "window-full"}
"""Those that hang on dt and on the calls alone: both axes of a flight have them, or neither."""
MODEL_CHECKS: dict[str, Callable[[Flight], str | None]] = {
    "few-rows": few_rows,
    "delay-first": delay_first,
    "delay-last": delay_last,
    "no-effect": no_effect,
    "no-settling": no_settling,
    "no-lag": no_lag,
    "unchecked": unchecked,
    "explains-little": explains_little,
    "delay-off": delay_off,
}
"""The warnings about a model, by their codes."""


def usual_dt(lengths: Sequence[float]) -> float:
    """The median of the dt that a tick can have; 0 where there is none."""
    return median([dt for dt in lengths if 0 < dt < math.inf] or [0.0])


def unsteady_samples(flight: Flight) -> list[int]:
    """The samples whose dt is out of the band about the first one, by a steady probe's own test: in single precision, and over
    all that the probe took. None where the probe was steady itself, since it took no such call."""
    if flight.report.steady or not flight.calls:
        return []
    lengths = singles(flight.log.dt[call] for call in flight.calls)
    least, most = singles(share * lengths[0] for share in EVEN)
    return [sample for sample, dt in enumerate(lengths) if not least <= dt <= most]


def swing(values: Sequence[float]) -> float:
    """How far the values lie from their median, the widest tenth left out."""
    if not values:
        return 0.0
    middle = median(values)
    return sorted(abs(value - middle) for value in values)[int(WIDEST * len(values))]


def wild_rate_readings(flight: Flight) -> list[tuple[int, float]]:
    """Line and value of each stored rate that no airframe has."""
    return readings_beyond(flight, flight.log.rate, WILD_RATE)


def moments_beyond_limit(flight: Flight) -> list[tuple[int, float]]:
    """Line and value of each stored moment beyond the limit."""
    return readings_beyond(flight, flight.log.moment, BEYOND_LIMIT)


def readings_beyond(flight: Flight, column: Sequence[float], bound: float) -> list[tuple[int, float]]:
    """Line and value, in single precision, of each stored reading of a column that is finite and beyond a bound."""
    values = singles(column)
    stored = flight.calls[: flight.report.stored]
    return [(flight.log.lines[call], values[call]) for call in stored if bound < abs(values[call]) < math.inf]
