# A service is created and deleted: its device is as before, and the history has both calls.
orc 1
device r1 plain
script
call al 1
literal a
write r1 /if:port[e0]/mtu = 9000
end
settle
show r1
call al 2
delete a
end
settle
show r1
history
