# Of two writes of one service to one path the later one counts.
orc 1
device r1 plain
script
call al 1
literal a
write r1 /if:mtu = 1400
write r1 /if:mtu = 9000
end
settle
show r1
