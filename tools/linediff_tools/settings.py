"""The settings of a line and `end`: their keys, ranges and defaults."""
from dataclasses import dataclass


@dataclass(frozen=True, slots=True)
class Setting:
    """A key, the values that it may have, and its default: None where it has to be set."""

    key: str
    values: range
    default: int | None
    unit: str = ""


def _between(key, least, most, default=None, unit=""):
    return Setting(key, range(least, most + 1), default, unit)


# In the order in which the program looks at them. `rd` may be up to `rn` only, which is looked at with the settings as a whole.
SETTINGS = {
    setting.key: setting
    for setting in (
        _between("stations", 2, 3),
        _between("channels", 1, 12),
        _between("spacing", 500, 10_000, 1000, "ticks"),
        Setting("cycle", range(4, 21, 4), 20, "samples"),
        _between("drift", 0, 200, 50, "millionths"),
        _between("slow", 1, 200_000, 60_000, "ticks"),
        _between("age", 1000, 10_000_000, 1_000_000, "ticks"),
        _between("limit", 1, 480_000, 20_000, "ticks"),
        _between("silent", 1, 1_000_000, 20_000, "ticks"),
        _between("count", 1, 32, 4, "sets"),
        _between("pickup", 1, 32_767, 500),
        _between("rn", 1, 10_000, 6),
        _between("rd", 1, 10_000, 1),
        _between("p", -10_000, 10_000, -1305),
        _between("q", 1, 10_000, 9914),
        _between("worda", 128, 255, 155),
        _between("wordb", 128, 255, 223),
        _between("misses", 1, 10, 3),
        _between("end", 1, 20_000_000, None, "ticks"),
    )
}

REQUIRED = [setting.key for setting in SETTINGS.values() if setting.default is None]

# What `judge` and `frames` take beside their word.
JUDGE = {"stations": 2, "channels": 5}

SLOT = 125
MESSAGE_BYTES = 36
# `limit` is at most so many spacings.
LONGEST_LIMIT = 48


def complete(given):
    """All settings where these are given: a key that isn't has its default, or None."""
    return {key: given.get(key, setting.default) for key, setting in SETTINGS.items()}


def message_ticks(channels):
    """The ticks for which a message of a line with so many channels is in flight."""
    return SLOT * -(-MESSAGE_BYTES // channels)
