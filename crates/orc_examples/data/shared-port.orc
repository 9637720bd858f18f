# Two services that write one leaf alike share it; the base's value is back when both are gone.
orc 1
device r1 plain
base r1 /if:mtu = 1500
script
call al 1
literal uplink
write r1 /if:port[e0]/mtu = 9000
write r1 /if:mtu = 9000
end
settle
call bo 1
literal label
write r1 /if:port[e0]/desc = core
write r1 /if:mtu = 9000
end
settle
show r1
call bo 2
literal slow
write r1 /if:port[e0]/mtu = 1400
end
settle
call al 2
delete uplink
end
settle
show r1
call bo 3
delete label
end
settle
show r1
