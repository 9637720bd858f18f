# What is asked of a controller that is down, and what isn't.
orc 1
device r1 plain
base r1 /if:mtu = 1500
script
stop
admit
step r1
decide
settle
begin al
reconcile
show r1
log r1
meta r1 /if:mtu
data
history
call al 1
literal a
write r1 /if:mtu = 9
end
restart r1
tick 1
stop
recover
