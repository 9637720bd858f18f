# Which service a clash names: on the first device, at the least path that differs, the least name by its bytes.
orc 1
device r1 plain
script
call cy 1
literal b
write r1 /if:port[e0]/mtu = 9000
end
settle
call cy 2
literal a
write r1 /if:port[e0]/mtu = 9000
end
settle
call cy 3
literal B
write r1 /if:port[e0]/mtu = 9000
write r1 /if:zone = x
end
settle
call cy 4
literal c
write r1 /if:zone = y
write r1 /if:port[e0]/mtu = 1400
end
settle
call cy 5
delete B
end
settle
call cy 4
literal c
write r1 /if:zone = y
write r1 /if:port[e0]/mtu = 1400
end
settle
call cy 6
literal c
write r1 /if:zone = y
write r1 /if:port[e0]/mtu = 9000
end
settle
