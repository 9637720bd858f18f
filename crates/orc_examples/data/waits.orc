# A call waits while another one works on its device.
orc 1
device r1 plain
script
call al 1
literal a
write r1 /if:mtu = 9
end
call bo 1
literal b
write r1 /if:mtu = 9
end
admit
admit
step r1
log r1
