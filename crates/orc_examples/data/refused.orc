# One of three devices refuses, and the other two are as before.
orc 1
device r1 plain
device r2 plain
device r3 plain
rule r3 max /if:port 0
script
call al 1
literal a
write r1 /if:mtu = 1
write r2 /if:mtu = 1
write r3 /if:port[x]
end
settle
show r1
show r2
show r3
