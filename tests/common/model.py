"""What RFC 7396 makes of values, and where two merge patches conflict, computed here."""


def merged(target, patch):
    """RFC 7396, section 2."""
    if not isinstance(patch, dict):
        return patch
    target = dict(target) if isinstance(target, dict) else {}
    for name, value in patch.items():
        if value is None:
            target.pop(name, None)
        else:
            target[name] = merged(target.get(name), value)
    return target


def places(one, other, place=""):
    """Where two merge patches disagree, of which the names need no escapes."""
    if isinstance(one, dict) and isinstance(other, dict):
        return [it for name in sorted({*one} & {*other}) for it in places(one[name], other[name], f"{place}/{name}")]
    return [] if one == other else [place]
