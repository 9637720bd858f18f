# The data while the controller is down, and what a recovery brings back of it: what was committed, no more and no less.
orc 1
yang 2
module m { namespace "urn:example:m"; prefix m; leaf limit { type uint8; }
  list group { key name; leaf name { type string; } leaf limit { type uint8; } } }
datamodel m
device r1 plain
data /m:group[a]/limit = 10
data /m:group[b]
script
call al 1
set /m:limit = 007
unset /m:group[b]
end
settle
stop
data
history
call al 2
set /m:limit = 8
end
settle
recover
data

# Stopped before the decision of a call, and after it.
stop 6 1
call al 2
set /m:limit = 8
end
settle
data
recover
reconcile
data
stop 8 1
call al 2
set /m:limit = 9
unset /m:group[a]
literal s
write r1 /if:mtu = 9
end
settle
recover
call al 2
set /m:limit = 9
unset /m:group[a]
literal s
write r1 /if:mtu = 9
end
settle
data
show r1
history
