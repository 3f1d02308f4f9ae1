"""What `mergejoin merge` does, in Python."""

import json
import sys


def merge(target, patch):
    if not isinstance(patch, dict):
        return patch
    merged = dict(target) if isinstance(target, dict) else {}
    for name, value in patch.items():
        if value is None:
            merged.pop(name, None)
        else:
            merged[name] = merge(merged.get(name), value)
    return merged


document, *patches = json.load(sys.stdin)
for patch in patches:
    document = merge(document, patch)
print(json.dumps(document, ensure_ascii=False, separators=(",", ":"), sort_keys=True))
