# Services, shared leaves, refusals and calls sent again on one device, with a stop and a recovery.
orc 1
device r1 plain
base r1 /if:mtu = 1500
base r1 /if:port[e0]
script
history
show r1
call al 1
literal a
write r1 /if:mtu = 1400
write r1 /if:mtu = 9000
write r1 /if:port[e1]/mtu = 9000
end
settle
show r1
call al 2
literal a
end
settle
call al 3
delete b
end
settle
call al 4
literal b
write r1 /if:port[e1]/desc = core
write r1 /if:mtu = 9000
end
settle
call al 4
literal b
write r1 /if:port[e1]/desc = core
write r1 /if:mtu = 9000
end
settle
call al 4
literal b
write r1 /if:port[e1]/desc = core
end
settle
call bo 1
literal c
write r1 /if:port[e1]/mtu = 1400
write r1 /if:port[e1]/desc = edge
write r1 /if:mtu = 1400
end
settle
call bo 2
literal c
write r1 /if:port[e1]/mtu = 9000
write r1 /if:port[e1]/desc = edge
end
settle
call bo 3
delete a
end
settle
show r1
call bo 4
delete a
end
settle
call bo 5
literal empty
end
settle
stop
call bo 6
delete b
end
settle
show r1
history
recover
show r1
history
