"""How colours look: their contrast, and how far apart they are, to people with and without red-green blindness."""

# How the parts of a colour, in linear light, mix for those who lack one kind of cones: G. Machado, M. Oliveira and L. Fernandes,
# "A Physiologically-based Model for Simulation of Color Vision Deficiency", IEEE TVCG 15 (6), 2009, at a severity of 1.
SIGHTS = {
    "all cones": ((1, 0, 0), (0, 1, 0), (0, 0, 1)),
    "protanopia": ((0.152286, 1.052583, -0.204868), (0.114503, 0.786281, 0.099216), (-0.003882, -0.048116, 1.051998)),
    "deuteranopia": ((0.367322, 0.860646, -0.227968), (0.280085, 0.672501, 0.047413), (-0.011820, 0.042940, 0.968881)),
}
# Linear light of sRGB as X, Y and Z, each in parts of that of white.
WHITE = ((0.4339, 0.3762, 0.1899), (0.2126, 0.7152, 0.0722), (0.0177, 0.1095, 0.8727))


def mixed(rows, parts):
    return [sum(one * other for one, other in zip(row, parts)) for row in rows]


def linear(colour):
    return [it / 12.92 if it <= 0.04045 else ((it + 0.055) / 1.055) ** 2.4 for it in (part / 255 for part in colour)]


def contrast(one, other):
    """Of WCAG 2: from 1 to 21."""
    low, high = sorted(mixed(WHITE, linear(it))[1] for it in (one, other))
    return (high + 0.05) / (low + 0.05)


def place(colour, sight):
    """The colour's place in CIELAB as that sight has it: its lightness, and how red and yellow it is."""
    seen = [min(max(it, 0), 1) for it in mixed(SIGHTS[sight], linear(colour))]
    x, y, z = (it ** (1 / 3) if it > 0.008856 else 7.787 * it + 16 / 116 for it in mixed(WHITE, seen))
    return 116 * y - 16, 500 * (x - y), 200 * (y - z)


def apart(one, other, sight):
    """How far apart two colours are to that sight, in CIELAB, where 2.3 can just be told."""
    return sum((a - b) ** 2 for a, b in zip(place(one, sight), place(other, sight))) ** 0.5
