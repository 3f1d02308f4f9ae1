# What `mergejoin merge` does, in jq (run with -cS). An object is put together by one
# `add`, since jq copies an object that it removes a name from.
def merge($patch):
  if ($patch | type) != "object" then $patch
  else
    (if type == "object" then . else {} end) as $target
    | [ $target + $patch | keys_unsorted[] as $name
        | if ($patch | has($name) | not) then {($name): $target[$name]}
          elif $patch[$name] == null then empty
          else {($name): ($target[$name] | merge($patch[$name]))} end ]
    | add // {}
  end;
reduce .[1:][] as $patch (.[0]; merge($patch))
