"""REALs that are known: their bits, worked out exactly and then rounded as the library does.

A REAL is the number of its 32 bits, the second word the higher one. A fraction is a pair of whole
numbers, the lower one above 0.
"""

BIAS, PLACES = 127, 23
GREATEST = 254  # of the exponents, as they are stored
SIGN = 1 << 31


def real_of(above, below=1):
    """The nearest REAL of a fraction, of two the one whose last bit is 0; None if it is too
    great."""
    if not above:
        return 0
    sign, above = (SIGN, -above) if above < 0 else (0, above)
    shift = above.bit_length() - below.bit_length() - PLACES - 1
    mantissa, rest = parts(above, below, shift)
    if mantissa >> PLACES + 1:
        shift += 1
        mantissa, rest = parts(above, below, shift)
    if rest > 0 or rest == 0 and mantissa & 1:
        mantissa += 1
    bits = (shift + BIAS + PLACES - 1 << PLACES) + mantissa  # its highest bit counts there
    if bits >> PLACES > GREATEST:
        return None
    return sign | bits if bits >> PLACES > 0 else 0


def parts(above, below, shift):
    """A fraction by 2 ** shift: what is whole, and whether the rest is below, at or above a
    half."""
    above, below = above << max(0, -shift), below << max(0, shift)
    whole, rest = divmod(above, below)
    return whole, (2 * rest > below) - (2 * rest < below)


def fraction_of(bits):
    """The fraction that a REAL is."""
    exponent = (bits >> PLACES & 255) - BIAS - PLACES
    if exponent == -BIAS - PLACES:
        return 0, 1
    above = bits & (1 << PLACES) - 1 | 1 << PLACES
    above = -above if bits & SIGN else above
    return above << max(0, exponent), 1 << max(0, -exponent)


def real_of_text(text):
    """The REAL that is written; None if it is too great."""
    digits, _, power = text.upper().partition("E")
    whole, _, behind = digits.partition(".")
    power = int(power or 0) - len(behind)
    if power > 400:
        return None if int(whole + behind) else 0
    power = max(power, -400)  # below that it is 0 in any case
    return real_of(int(whole + behind) * 10 ** max(0, power), 10 ** max(0, -power))


def words_of(bits):
    """Its two words, as signed numbers, in their order in memory."""
    return [word - 65536 * (word > 32767) for word in (bits & 65535, bits >> 16)]


def calculated(operator, left, right):
    """What an operation comes to: a REAL, None if it is too great."""
    (above, below), (other, under) = fraction_of(left), fraction_of(right)
    if operator == "*":
        return real_of(above * other, below * under)
    if operator == "/":
        above, below = above * under, below * other
        return real_of(-above, -below) if below < 0 else real_of(above, below)
    other = -other if operator == "-" else other
    return real_of(above * under + other * below, below * under)


def order_of(left, right):
    """Below 0, 0 or above 0, as one REAL is below, equal to or above the other."""
    (above, below), (other, under) = fraction_of(left), fraction_of(right)
    return above * under - other * below


def whole_of(bits, is_rounded):
    """TRUNC or ROUND."""
    above, below = fraction_of(bits)
    size = (2 * abs(above) + below) // (2 * below) if is_rounded else abs(above) // below
    return -size if above < 0 else size
