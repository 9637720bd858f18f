# A stop comes with the last sync of a decision: the call has no answer and is committed, as `recover` tells.
orc 1
device r1 plain
base r1 /if:mtu = 1500
script
stop 8 1
call al 1
literal uplink
write r1 /if:mtu = 9000
end
settle
call al 1
literal uplink
write r1 /if:mtu = 9000
end
settle
history
recover
call al 1
literal uplink
write r1 /if:mtu = 9000
end
settle
show r1
history
