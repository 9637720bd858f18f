# Clash: a service of the call would write another value than a living one, on this device at this path. What to do:
# agree on one value, leave that leaf out, or delete the service that is named.
orc 1
device r1 plain
script
call cy 1
literal b
write r1 /if:mtu = 9000
end
settle
call al 1
literal a
write r1 /if:mtu = 9000
end
settle
call bo 1
literal c
write r1 /if:zone = x
write r1 /if:mtu = 1400
end
settle
call bo 2
literal c
write r1 /if:zone = x
end
settle
