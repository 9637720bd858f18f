# A call that waits isn't overtaken by a later one that is on one of its devices, also where that device is free. One on
# none of its devices goes first.
orc 1
device r1 plain
device r2 plain
device r3 plain
script
call al 1
literal a
write r1 /if:mtu = 9
end
call bo 1
literal b
write r1 /if:zone = x
write r2 /if:zone = x
end
call cy 1
literal c
write r2 /if:mtu = 9
end
call di 1
literal d
write r3 /if:mtu = 9
end

# The first is admitted, and works on r1. The second waits for r1, so the third, on r2 alone, waits for the second; the
# fourth is admitted. A third time none fits.
admit
admit
admit
step r1
step r2
step r3
log r1
log r2
log r3

# Then the second has its turn before the third.
settle
history
