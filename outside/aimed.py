"""Hostile disks that are aimed at one rule: good ones are changed at the place that the rule
speaks of, until the model tells that this rule is the first one that is broken."""

import build
import disk
import hostile

TRIES = 300

# The names of fields as rules have them, longer ones first.
NAMES = sorted([*hostile.LIMITS, "text", "key", "digest", "prefix", "mark"], key=len, reverse=True)


def place_of(rule: str) -> tuple:
    """The refusal, the field and what is wrong with it; the field is empty where a rule speaks of
    none."""
    refusal, broken = rule.split(": ", 1)
    broken = broken.lstrip("0123456789 ")
    name = next((name for name in NAMES if broken.startswith(name + " ") or broken == name), "")
    return refusal, name, broken[len(name) :].strip()


# Rules that speak of no field, or of one that is told by another.
OTHER_NAMES = {
    "bad-half: 28 fewer tuples than bytes": "count",
    "bad-frame: bytes past the last entry": "count of entries",
}


def aim(r, rule: str, forms_of) -> disk.Image:
    """A disk that breaks this rule first, made of good ones that `forms_of` gives."""
    refusal, name, fault = place_of(rule)
    name = OTHER_NAMES.get(rule, name)
    for _ in range(TRIES):
        forms = forms_of(r)
        change(r, forms, refusal, name, fault)
        image = build.image_of(forms)
        if breaks(image, rule):
            break
    return image


def breaks(image: disk.Image, rule: str) -> bool:
    found = disk.read(image)
    return isinstance(found, disk.Refusal) and found.rule == rule


def change(r, forms: build.Forms, refusal: str, name: str, fault: str) -> None:
    """One change of the part of a disk that this refusal speaks of."""
    parts = {"bad-half": [forms.header], "bad-tuple": [forms.tuples], "bad-frame": forms.bodies}[refusal]
    part = r.choice(parts) if parts else []
    if fault == "cut short":
        hostile.cut_field(r, forms, part, name)
    elif fault == "doesn't rise" and r.random() < 0.5:
        hostile.rearrange(r, forms)
    else:
        hostile.change_field(r, forms, part, name)
