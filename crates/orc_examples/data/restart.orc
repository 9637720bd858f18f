# A device restarts between its confirmed commit and the confirmation: it is back at what it ran before, and the session of
# the call is gone, so its link fails. The call is committed, and a reconciliation brings the device to what is due.
orc 1
device r1 plain
base r1 /if:mtu = 1500
script
call al 1
literal a
write r1 /if:mtu = 9000
end
admit
step r1
step r1
step r1
step r1
step r1
step r1
show r1
restart r1
show r1
decide
settle
log r1
call al 2
literal b
write r1 /if:desc = x
end
settle
reconcile
show r1
log r1
