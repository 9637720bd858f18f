# Two operators change three routers side by side: a link fails, a timer runs out, and the controller stops inside a write of
# its journal, recovers and reconciles.
orc 1
device pe1 plain
device pe2 plain
device pe3 plain
base pe1 /if:port[ge-0]/mtu = 1500
script

# Anna's call is on pe1 and pe2, Ben's on pe3: both are admitted, and their devices are at work side by side.
call anna 1
literal acme
write pe1 /if:port[ge-0]/mtu = 9000
write pe2 /if:port[ge-1]/mtu = 9000
end
call ben 1
literal backup
write pe3 /if:port[ge-2]/mtu = 9000
end
admit
admit
step pe1
step pe3
step pe2
log pe1
log pe3

# The rest of their operations, the decisions, and the confirmations.
settle
show pe1

# The link to pe2 fails after the confirmed commit took effect there, so Anna's next call is given up. A new session cancels
# what was committed; pe2 is left alone until it is reconciled.
fault pe2 CommitConfirmed after
call anna 2
literal voice
write pe1 /if:port[ge-3]/vlan = 10
write pe2 /if:port[ge-3]/vlan = 10
end
settle
log pe2
call ben 2
literal video
write pe2 /if:port[ge-4]/vlan = 20
end
settle
reconcile
call ben 2
literal video
write pe2 /if:port[ge-4]/vlan = 20
end
settle

# The timer of a confirmed commit runs out before it is confirmed: pe3 is back at what it ran before, until it is reconciled.
call ben 3
literal night
write pe3 /if:port[ge-5]/vlan = 30
end
admit
step pe3
step pe3
step pe3
step pe3
step pe3
step pe3
decide
tick 120
settle
show pe3
reconcile
show pe3

# The controller stops three bytes into the decision of Anna's call. The journal doesn't have it, so it isn't committed; pe1
# still runs what was prepared there, and is reconciled.
call anna 3
literal uplink
write pe1 /if:port[ge-6]/vlan = 40
end
admit
step pe1
step pe1
step pe1
step pe1
step pe1
step pe1
stop 1 3
decide
show pe1
recover
call anna 3
literal uplink
write pe1 /if:port[ge-6]/vlan = 40
end
settle
reconcile
show pe1

# Sent once more, it is committed.
call anna 3
literal uplink
write pe1 /if:port[ge-6]/vlan = 40
end
settle
show pe1
history
