# What `mergejoin get` does, in jq (run with -cS), where the part is reached through objects.
.[0] | getpath($path | split("/")[1:])
