"""Round numbers along an axis of a picture."""
import math


def ticks(low, high, about):
    """Round numbers from low to high, about so many."""
    step = round_step((high - low) / about)
    return [round(step * k, 9) for k in range(math.ceil(low / step - 1e-9), math.floor(high / step + 1e-9) + 1)]


def round_step(rough):
    """The least of 1, 2 and 5 times a power of ten that isn't below."""
    power = 10 ** math.floor(math.log10(rough))
    return next(power * factor for factor in (1, 2, 5, 10) if power * factor >= rough * 0.999)
