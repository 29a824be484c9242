"""The contrasts of a page, computed from its own style sheet, in the light and in the dark.

By the formula of WCAG 2: of each colour of text with each ground at least 4.5, of each line, bar and mark with each ground at least 3, and
of two that touch with each other at least 3. The lines behind a plot are left out, since a number stands at each, and what is drawn in the
colour of the ground.
"""
import re

TEXT, DRAWN = 4.5, 3.0
# What touches in a picture: the curves of a plot, the two parts of an age, the stays and links of a way.
TOUCHING = [("a", "s"), ("q", "o"), ("in", "on")]
PLAIN = [".y", ".f"]


def luminance(colour):
    digits = colour.lstrip("#")
    digits = "".join(digit * 2 for digit in digits) if len(digits) == 3 else digits
    parts = (int(digits[at:at + 2], 16) / 255 for at in (0, 2, 4))
    red, green, blue = (part / 12.92 if part <= 0.04045 else ((part + 0.055) / 1.055) ** 2.4 for part in parts)
    return 0.2126 * red + 0.7152 * green + 0.0722 * blue


def contrast(one, other):
    low, high = sorted((luminance(one), luminance(other)))
    return (high + 0.05) / (low + 0.05)


def schemes(style):
    """The colours by their names, in the light and in the dark."""
    light, dark = (dict(re.findall(r"--(\w+):(#\w+)", block)) for block in re.findall(r":root\{([^}]*)\}", style))
    return {"light": light, "dark": {**light, **dark}}


def uses(style):
    """Each use of a colour by its name: the selector, the property and the name."""
    found = []
    for selectors, block in re.findall(r"([^{}]+)\{([^{}]*)\}", re.sub(r"@media \([^)]*\)\{:root\{[^}]*\}\}", "", style)):
        for key, name in re.findall(r"([a-z-]+):[^;]*?var\(--(\w+)\)", block):
            found += [(one.strip(), key, name) for one in selectors.split(",")]
    return found


def kind_of(selector, key):
    """What contrast is asked of a use with each ground; none of what is no text, line, bar or mark."""
    swatch = selector.startswith(".k")
    if key == "color" and not swatch or key == "fill" and selector.endswith("text"):
        return TEXT
    if key == "color" or key in ("border-left", "border-color") or key == "stroke" and not selector.endswith("text") and selector not in PLAIN:
        return DRAWN
    return None


def strokes(used):
    """The colour of what is drawn, by its class."""
    return {selector.removeprefix("path").removeprefix("."): name for selector, key, name in used if key == "stroke"}


def contrast_faults(page):
    """What is too faint in a page."""
    style = re.search(r"<style>(.*?)</style>", page, re.S)
    if style is None:
        return ["has no style sheet"]
    used, found = uses(style[1]), []
    drawn = strokes(used)
    asked = sorted({(name, kind) for selector, key, name in used if (kind := kind_of(selector, key))})
    grounds = sorted({name for _, key, name in used if key == "background"})
    touching = [(drawn[one], drawn[other], DRAWN) for one, other in TOUCHING if one in drawn and other in drawn]
    for scheme, colours in schemes(style[1]).items():
        pairs = [(name, ground, kind) for name, kind in asked for ground in grounds] + touching
        for one, other, least in pairs:
            ratio = contrast(colours[one], colours[other])
            if ratio < least:
                found.append(f"has {one} on {other} with a contrast of {ratio:.2f} in the {scheme}, where {least} is asked")
    return found if asked and grounds and touching else [*found, "has no colours to compare"]
