# What a call does on its device.
orc 1
device r1 plain
script
call al 1
literal a
write r1 /if:mtu = 9
end
settle
log r1
