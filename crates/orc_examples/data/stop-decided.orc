# The controller stops once the decision is on the disk: the call is committed, and the device is confirmed.
orc 1
device r1 plain
script
call al 1
literal a
write r1 /if:mtu = 9
end
admit
step r1
step r1
step r1
step r1
step r1
step r1
stop 4 1
decide
recover
call al 1
literal a
write r1 /if:mtu = 9
end
reconcile
show r1
log r1
