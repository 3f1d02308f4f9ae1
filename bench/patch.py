"""What `mergejoin patch` does, in Python with jsonpatch."""

import json
import sys

import jsonpatch

document, patch = json.load(sys.stdin)
document = jsonpatch.apply_patch(document, patch, in_place=True)
print(json.dumps(document, ensure_ascii=False, separators=(",", ":"), sort_keys=True))
