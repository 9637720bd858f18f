# As stop-decided, and the timer runs out before the reconciliation, which writes what is due anew.
orc 1
device r1 plain
script
call al 1
literal a
write r1 /if:mtu = 9
end
admit
step r1
step r1
step r1
step r1
step r1
step r1
stop 4 1
decide
recover
call al 1
literal a
write r1 /if:mtu = 9
end
tick 120
reconcile
show r1
log r1
