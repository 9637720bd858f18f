# Reused: this caller has used this number for another call, which is the entry that is named. What to do: take a number
# that is free. The old call, sent again, gets its old answer.
orc 1
device r1 plain
script
call al 1
literal a
write r1 /if:port[e0]/mtu = 9000
end
settle
call al 1
delete a
end
settle
call al 1
literal a
write r1 /if:port[e0]/mtu = 9000
end
settle
show r1
